-- Statements that another session ends by their numbers. Run it in a new folder, since the numbers of transactions count on. It ends with
-- status 1. Below each statement stands what it prints.
CREATE TABLE stock (item STRING, amount INT);
--   OK
INSERT INTO stock VALUES ('pen', 10), ('ink', 4);
--   OK inserted 2 deleted 0
-- Ada's change is ready, and she doesn't let it go. Bo looks who is at work, and ends it.
!session ada
--   -- session ada
!hold commit
UPDATE stock SET amount = 0 WHERE item = 'pen';
!session bo
--   -- session bo
SHOW TRANSACTIONS;
--   txnid  state  session
--   3      open   ada
--   4      open   bo
ABORT TRANSACTIONS 3;
--   OK
-- She is told who did it, and nothing of her change stays.
!go ada
--   FAILED 31 Aborted by 5
SELECT * FROM stock;
--   item  amount
--   ink   4
--   pen   10
-- One that makes a table keeps others from its name.
!session ada
--   -- session ada
!hold start
CREATE TABLE drafts (page STRING);
!session bo
--   -- session bo
CREATE TABLE drafts (title STRING);
--   FAILED 37 Blocked by 7
ABORT TRANSACTIONS 7;
--   OK
CREATE TABLE drafts (title STRING);
--   OK
!go ada
--   FAILED 31 Aborted by 9
-- What has ended stays as it is, and a number that nobody has yet is passed over.
ABORT TRANSACTIONS 1 7 99;
--   OK
DESCRIBE drafts;
--   col_name  data_type
--   title     string
