-- A second script over the folder that first.hql left: what was committed is there.
INSERT INTO t VALUES (3,'z');
--   OK inserted 1 deleted 0
SELECT * FROM t;
--   a  s
--   1  x
--   2  y
--   3  z
