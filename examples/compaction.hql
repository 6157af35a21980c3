-- Many small changes of a table, and what a compaction makes of them, beside a reader that began before. Run it in a new folder, since the
-- numbers of transactions count on. It ends with status 0. Below each statement stands what it prints. examples/README.md
-- shows what stands in its folder before and after.
CREATE TABLE readings (id INT, value INT) PARTITIONED BY (day STRING);
--   OK
INSERT INTO readings VALUES (1, 10, '2024-03-01'), (2, 20, '2024-03-02');
--   OK inserted 2 deleted 0
INSERT INTO readings VALUES (3, 30, '2024-03-01');
--   OK inserted 1 deleted 0
UPDATE readings SET value = 11 WHERE id = 1;
--   OK inserted 1 deleted 1
DELETE FROM readings WHERE id = 3;
--   OK inserted 0 deleted 1
-- A reader begins, and is held before it prints: its transaction is the sixth.
!session reader
--   -- session reader
!hold read
SELECT * FROM readings;
!session writer
--   -- session writer
INSERT INTO readings VALUES (4, 40, '2024-03-01');
--   OK inserted 1 deleted 0
ALTER TABLE readings PARTITION (day = '2024-03-01') COMPACT 'major';
--   OK
SHOW COMPACTIONS;
--   id  table     partition       type   state      held_by
--   1   readings  day=2024-03-01  major  initiated  NULL
-- The compaction is done, and what it replaces stays as long as the reader may need it.
!compact
!clean
SHOW COMPACTIONS;
--   id  table     partition       type   state               held_by
--   1   readings  day=2024-03-01  major  ready for cleaning  6
!go reader
--   id  value  day
--   1   11     2024-03-01
--   2   20     2024-03-02
-- Now nobody needs it any more.
!clean
SHOW COMPACTIONS;
--   id  table     partition       type   state      held_by
--   1   readings  day=2024-03-01  major  succeeded  NULL
SELECT * FROM readings;
--   id  value  day
--   1   11     2024-03-01
--   2   20     2024-03-02
--   4   40     2024-03-01
