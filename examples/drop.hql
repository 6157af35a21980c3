-- Tables that are dropped and made again, and drops that meet other statements. Run it in a new folder, since the numbers of transactions
-- count from the folder's first statement. It ends with status 1. Below each statement stands what it prints.
CREATE TABLE visits (who STRING, pages INT) PARTITIONED BY (day DATE);
--   OK
INSERT INTO visits VALUES ('ada', 3, '2024-03-01'), ('bo', 1, '2024-03-02');
--   OK inserted 2 deleted 0
-- The rows are gone with their table, and its name is free at once.
DROP TABLE visits;
--   OK
SELECT * FROM visits;
--   FAILED 10 NoTable
-- A table that is made under it is another one, with columns and rows of its own.
CREATE TABLE visits (page STRING, hits BIGINT);
--   OK
INSERT INTO visits VALUES ('home', 12);
--   OK inserted 1 deleted 0
SELECT * FROM visits;
--   page  hits
--   home  12
-- Of a name that no table has a DROP TABLE is refused, and with IF EXISTS it does nothing. PURGE changes nothing.
DROP TABLE nobody;
--   FAILED 10 NoTable
DROP TABLE IF EXISTS nobody PURGE;
--   OK
-- Transaction 10: while a reader is under way its table isn't dropped.
!session ada
--   -- session ada
!hold read
SELECT * FROM visits;
!session bo
--   -- session bo
DROP TABLE visits;
--   FAILED 37 Blocked by 10
!go ada
--   page  hits
--   home  12
-- Behind it the same statement is done.
DROP TABLE visits;
--   OK
CREATE TABLE visits (who STRING);
--   OK
-- Transaction 14: while a DROP TABLE is under way, others keep away from the name, also who would make a table. Another name is free to all.
!hold start
DROP TABLE visits;
!session ada
--   -- session ada
SELECT * FROM visits;
--   FAILED 37 Blocked by 14
CREATE TABLE IF NOT EXISTS visits (page STRING);
--   FAILED 37 Blocked by 14
CREATE TABLE pages (name STRING);
--   OK
!go bo
--   OK
CREATE TABLE IF NOT EXISTS visits (page STRING);
--   OK
SELECT * FROM visits;
--   page
