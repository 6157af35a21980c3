-- Joins, lateral views, groups, unions, order. Below each statement stands what it prints. It ends with status 1.
CREATE TABLE people (id INT, name STRING, city STRING);
--   OK
CREATE TABLE orders (person INT, item STRING, qty INT);
--   OK
CREATE TABLE lists (id INT, xs ARRAY<INT>);
--   OK
INSERT INTO people VALUES (1, 'Ada', 'London'), (2, 'Bo', 'Oslo'), (3, 'Cy', NULL);
--   OK inserted 3 deleted 0
INSERT INTO orders VALUES (1, 'pen', 3), (1, 'ink', 1), (2, 'pen', 5), (NULL, 'cap', 2);
--   OK inserted 4 deleted 0
INSERT INTO lists VALUES (1, array(10, 20)), (2, array()), (3, NULL);
--   OK inserted 3 deleted 0
SELECT name, item, qty FROM people p JOIN orders o ON p.id = o.person;
--   name  item  qty
--   Ada   ink   1
--   Ada   pen   3
--   Bo    pen   5
SELECT name, item FROM people p FULL OUTER JOIN orders o ON p.id = o.person;
--   name  item
--   NULL  cap
--   Ada   ink
--   Ada   pen
--   Bo    pen
--   Cy    NULL
SELECT name FROM people p LEFT SEMI JOIN orders o ON p.id = o.person AND o.qty > 2;
--   name
--   Ada
--   Bo
SELECT item, COUNT(*) AS orders, SUM(qty) AS pieces FROM orders GROUP BY item HAVING SUM(qty) > 1 ORDER BY pieces DESC;
--   item  orders  pieces
--   pen   2       8
--   cap   1       2
SELECT id, x FROM lists LATERAL VIEW OUTER explode(xs) v AS x;
--   id  x
--   1   10
--   1   20
--   2   NULL
--   3   NULL
SELECT q.city, q.n FROM (SELECT city, COUNT(*) AS n FROM people GROUP BY city) q WHERE q.city IS NOT NULL
UNION ALL SELECT 'all', COUNT(*) FROM people ORDER BY n DESC, city LIMIT 2;
--   city    n
--   all     3
--   London  1
-- name is no part of what is grouped.
SELECT name, COUNT(*) FROM people GROUP BY city;
--   FAILED 15 NotGrouped
