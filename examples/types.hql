-- Every type, expressions, conditions. Below each statement stands what it prints. It ends with status 1.
CREATE TABLE IF NOT EXISTS orders (id BIGINT, item STRING COMMENT 'as on the label', qty INT, paid BOOLEAN, day DATE, tags ARRAY<STRING>)
  STORED AS ORC TBLPROPERTIES ('transactional'='true');
--   OK
INSERT INTO orders VALUES
  (1, 'pen', 3, true, '2024-02-29', array('blue', 'fine')),
  (2, 'ink', NULL, false, DATE '2024-03-01', array()),
  (3, concat('note', 'book'), 2 * 5, 1 < 2, date_add('2024-02-28', 3), NULL);
--   OK inserted 3 deleted 0
SELECT * FROM orders;
--   id  item      qty   paid   day         tags
--   1   pen       3     true   2024-02-29  ["blue","fine"]
--   2   ink       NULL  false  2024-03-01  []
--   3   notebook  10    true   2024-03-02  NULL
SELECT item, qty * 2 AS doubled FROM orders WHERE paid AND qty > 2;
--   item      doubled
--   notebook  20
--   pen       6
SELECT item, CASE WHEN qty IS NULL THEN 'unknown' WHEN qty >= 5 THEN 'many' ELSE 'few' END AS how_many FROM orders WHERE day >= '2024-03-01';
--   item      how_many
--   ink       unknown
--   notebook  many
SELECT id, tags[0] AS first_tag, size(tags) FROM orders WHERE item LIKE '%n%';
--   id  first_tag  _c2
--   1   blue       2
--   2   NULL       0
--   3   NULL       -1
SELECT 2147483647 + 1, 7 DIV 2, -7 % 3, 1 DIV 0, substr('warehouse', 5), datediff('2024-03-01', '2024-02-01');
--   _c0          _c1  _c2  _c3   _c4    _c5
--   -2147483648  3    -1   NULL  house  29
-- A STRING isn't compared with a number.
SELECT item FROM orders WHERE qty > 'x';
--   FAILED 13 BadType
