-- A table, two rows, and a query. Below each statement stands what it prints.
CREATE TABLE t (a INT, s STRING);
--   OK
INSERT INTO t VALUES (2,'y'),(1,'x');
--   OK inserted 2 deleted 0
SELECT * FROM t;
--   a  s
--   1  x
--   2  y
