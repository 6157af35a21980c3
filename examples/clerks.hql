-- An update, and two sessions that change one partition at the same time: the first to commit wins. Below each statement stands what it prints.
CREATE TABLE stock (item STRING, amount INT) PARTITIONED BY (shop STRING);
--   OK
INSERT INTO stock VALUES ('pen', 10, 'north'), ('ink', 4, 'south');
--   OK inserted 2 deleted 0
UPDATE stock SET amount = amount - 1 WHERE item = 'pen';
--   OK inserted 1 deleted 1
!session ada
--   -- session ada
!hold commit
UPDATE stock SET amount = 20 WHERE shop = 'north';
!session bo
--   -- session bo
UPDATE stock SET amount = 30 WHERE shop = 'north';
--   OK inserted 1 deleted 1
!go ada
--   FAILED 30 Conflict with 5 on stock shop=north
