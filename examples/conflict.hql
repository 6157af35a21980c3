-- Two clerks correct the stock of one shop at the same time: the first to commit wins, and the other is told by whom.
-- Run it in a new folder, since the numbers of transactions count from the folder's first statement. It ends with status 1.
CREATE TABLE stock (item STRING, amount INT) PARTITIONED BY (shop STRING);
--   OK
INSERT INTO stock VALUES ('pen', 10, 'north'), ('ink', 4, 'north'), ('pen', 7, 'south');
--   OK inserted 3 deleted 0
!session ada
--   -- session ada
-- Transaction 3: Ada sells a pen. Her update is worked out and its files are written, and it stops before its commit.
!hold commit
UPDATE stock SET amount = amount - 1 WHERE shop = 'north' AND item = 'pen';
!session bo
--   -- session bo
-- Bo doesn't see what isn't committed.
SELECT * FROM stock WHERE shop = 'north';
--   item  amount  shop
--   ink   4       north
--   pen   10      north
-- Transaction 5: Bo counts the ink. It is another row of the same partition, and Bo commits first.
UPDATE stock SET amount = 5 WHERE shop = 'north' AND item = 'ink';
--   OK inserted 1 deleted 1
-- Ada goes on to her commit. Since her transaction began, another one has changed rows of her partition.
!go ada
--   FAILED 30 Conflict with 5 on stock shop=north
-- Nothing of it stays. She does it again, and changes what Bo left.
!session ada
--   -- session ada
UPDATE stock SET amount = amount - 1 WHERE shop = 'north' AND item = 'pen';
--   OK inserted 1 deleted 1
SELECT item, amount FROM stock WHERE shop = 'north';
--   item  amount
--   ink   5
--   pen   9
-- Changes of two partitions don't meet, and rows that are only inserted meet nothing.
!hold commit
UPDATE stock SET amount = amount - 1 WHERE shop = 'south';
!session bo
--   -- session bo
INSERT INTO stock VALUES ('cap', 2, 'south');
--   OK inserted 1 deleted 0
DELETE FROM stock WHERE shop = 'north' AND item = 'ink';
--   OK inserted 0 deleted 1
!go ada
--   OK inserted 1 deleted 1
-- Transaction 11: a reader sees what was committed when it began, however long it takes, and nobody waits for it.
!session ada
--   -- session ada
!hold start
SELECT item, amount, shop FROM stock;
!session bo
--   -- session bo
UPDATE stock SET amount = 0;
--   OK inserted 3 deleted 3
-- But for one who would make a table of that name. In this script that is refused, and may be tried again later.
CREATE TABLE stock (item STRING);
--   FAILED 37 Blocked by 11
!go ada
--   item  amount  shop
--   cap   2       south
--   pen   6       south
--   pen   9       north
SELECT item, amount, shop FROM stock;
--   item  amount  shop
--   cap   0       south
--   pen   0       north
--   pen   0       south
