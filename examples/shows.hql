-- What stands in the warehouse: its tables and their partitions, who is at work, and which tables they have locked. Run it in a new folder,
-- since the numbers of transactions count on. It ends with status 1. Below each statement stands what it prints.
CREATE TABLE visits (who STRING, page STRING) PARTITIONED BY (day DATE);
--   OK
CREATE TABLE pages (page STRING);
--   OK
INSERT INTO visits VALUES ('ada', 'home', '2024-03-02'), ('bo', 'home', '2024-03-01');
--   OK inserted 2 deleted 0
SHOW TABLES;
--   tab_name
--   pages
--   visits
SHOW PARTITIONS visits;
--   partition
--   day=2024-03-01
--   day=2024-03-02
-- A table without partition columns has no partitions to show.
SHOW PARTITIONS pages;
--   FAILED 14 BadCount
-- Ada corrects a page, and is held before her commit. Bo corrects the same day meanwhile.
!session ada
--   -- session ada
!hold commit
UPDATE visits SET page = 'start' WHERE day = '2024-03-02';
!session bo
--   -- session bo
UPDATE visits SET who = 'Ada' WHERE day = '2024-03-02';
--   OK inserted 1 deleted 1
-- Ada's transaction is the seventh of this folder, Bo's update was the eighth, and this one is the ninth: it sees itself. It has no lock yet when
-- it looks.
SHOW TRANSACTIONS;
--   txnid  state  session
--   7      open   ada
--   9      open   bo
SHOW LOCKS;
--   table   txnid  mode
--   visits  7      shared
!go ada
--   FAILED 30 Conflict with 8 on visits day=2024-03-02
-- She has a write id of visits that nobody will ever see: it is shown as long as what she wrote may stand there.
SHOW TRANSACTIONS;
--   txnid  state    session
--   7      aborted  ada
--   11     open     bo
-- One that makes a table has its name for itself, from its beginning on.
!session ada
--   -- session ada
!hold start
CREATE TABLE drafts (page STRING);
!session bo
--   -- session bo
SHOW LOCKS;
--   table   txnid  mode
--   drafts  12     exclusive
!go ada
--   OK
SHOW TABLES;
--   tab_name
--   drafts
--   pages
--   visits
