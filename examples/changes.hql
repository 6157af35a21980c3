-- A table of accounts that is loaded, corrected and emptied. Below each statement stands what it prints.
CREATE TABLE accounts (id INT, owner STRING, balance BIGINT, opened DATE) STORED AS ORC TBLPROPERTIES ('transactional'='true');
--   OK
CREATE TABLE arrivals (id INT, owner STRING, paid STRING);
--   OK
INSERT INTO accounts VALUES (1, 'Ada', 100, '2024-01-05'), (2, 'Bo', 250, '2024-02-10'), (3, 'Cy', NULL, '2024-02-29');
--   OK inserted 3 deleted 0
INSERT INTO accounts (owner, id) VALUES ('Di', 4);
--   OK inserted 1 deleted 0
SELECT * FROM accounts;
--   id  owner  balance  opened
--   1   Ada    100      2024-01-05
--   2   Bo     250      2024-02-10
--   3   Cy     NULL     2024-02-29
--   4   Di     NULL     NULL
UPDATE accounts SET balance = 0 WHERE balance IS NULL;
--   OK inserted 2 deleted 2
UPDATE accounts SET balance = balance + 10, owner = upper(owner) WHERE id <= 2;
--   OK inserted 2 deleted 2
SELECT owner, balance FROM accounts ORDER BY balance DESC, owner;
--   owner  balance
--   BO     260
--   ADA    110
--   Cy     0
--   Di     0
UPDATE accounts SET balance = 1 WHERE id = 77;
--   OK inserted 0 deleted 0
DELETE FROM accounts WHERE opened > '2024-02-01' AND balance = 0;
--   OK inserted 0 deleted 1
-- A comparison with NULL is never true.
DELETE FROM accounts WHERE opened = NULL;
--   OK inserted 0 deleted 0
SELECT id, opened FROM accounts;
--   id  opened
--   1   2024-01-05
--   2   2024-02-10
--   4   NULL
INSERT INTO arrivals VALUES (5, 'Eve', '12'), (6, 'Fay', 'nothing'), (2, 'Bo', '40');
--   OK inserted 3 deleted 0
-- A text that is no number becomes NULL.
INSERT INTO accounts (id, owner, balance) SELECT a.id, a.owner, a.paid FROM arrivals a LEFT JOIN accounts c ON a.id = c.id WHERE c.id IS NULL;
--   OK inserted 2 deleted 0
SELECT id, owner, balance FROM accounts WHERE id > 4;
--   id  owner  balance
--   5   Eve    12
--   6   Fay    NULL
INSERT OVERWRITE TABLE arrivals SELECT id, owner, balance FROM accounts WHERE balance > 100;
--   OK inserted 2 deleted 3
SELECT * FROM arrivals;
--   id  owner  paid
--   1   ADA    110
--   2   BO     260
TRUNCATE TABLE arrivals;
--   OK inserted 0 deleted 2
SELECT COUNT(*) AS n, SUM(id) AS total FROM arrivals;
--   n  total
--   0  NULL
UPDATE accounts SET nothing = 1;
--   FAILED 11 NoColumn
UPDATE accounts SET balance = SUM(balance);
--   FAILED 15 NotGrouped
DELETE FROM nobody;
--   FAILED 10 NoTable
SELECT COUNT(*) AS n FROM accounts;
--   n
--   5
