-- A table of prices takes what a day brings: what is known is corrected, what is withdrawn goes, what is new comes in. Run it in a new
-- folder, since the identifier at its end counts writes. It ends with status 1. Below each statement stands what it prints.
CREATE TABLE prices (item STRING, cents INT, day DATE);
--   OK
CREATE TABLE arrivals (item STRING, cents INT);
--   OK
INSERT INTO prices VALUES ('pen', 120, '2024-03-01'), ('ink', 900, '2024-03-01'), ('pad', 340, '2024-03-01');
--   OK inserted 3 deleted 0
INSERT INTO arrivals VALUES ('pen', 130), ('ink', NULL), ('cap', 15);
--   OK inserted 3 deleted 0
-- For a row of prices that has an arrival the first clause acts whose AND is true: the ink is deleted, and the pen is updated, which counts as
-- one row out and one in. The pad has no arrival and stays. The cap is no row of prices yet, and is inserted.
MERGE INTO prices AS p USING arrivals AS a ON p.item = a.item
    WHEN MATCHED AND a.cents IS NULL THEN DELETE
    WHEN MATCHED THEN UPDATE SET cents = a.cents, day = '2024-03-02'
    WHEN NOT MATCHED THEN INSERT VALUES (a.item, a.cents, '2024-03-02');
--   OK inserted 2 deleted 2
SELECT * FROM prices;
--   item  cents  day
--   cap   15     2024-03-02
--   pad   340    2024-03-01
--   pen   130    2024-03-02
-- The source may be a query, and the target itself under another name. A row on which no clause acts stays as it is.
MERGE INTO prices USING (SELECT item, MAX(cents) AS most FROM arrivals GROUP BY item) AS a ON prices.item = a.item
    WHEN MATCHED AND a.most > 100 THEN UPDATE SET cents = a.most * 2;
--   OK inserted 1 deleted 1
MERGE INTO prices AS p USING prices AS q ON p.item = q.item
    WHEN MATCHED AND q.cents < 100 THEN DELETE;
--   OK inserted 0 deleted 1
SELECT item, cents FROM prices;
--   item  cents
--   pad   340
--   pen   260
-- Where a row matches two source rows, which of them acts would be open: the MERGE is refused, and nothing of it stays. The row is named by
-- its identifier: the third write of the table, and there statement 0, bucket 0, row 0. It is the pen.
INSERT INTO arrivals VALUES ('pen', 140);
--   OK inserted 1 deleted 0
MERGE INTO prices AS p USING arrivals AS a ON p.item = a.item
    WHEN MATCHED THEN UPDATE SET cents = a.cents;
--   FAILED 36 MergeTwice 3:0:0:0
-- A query that has one row for each key is never refused so.
MERGE INTO prices AS p USING (SELECT item, MIN(cents) AS least FROM arrivals GROUP BY item) AS a ON p.item = a.item
    WHEN MATCHED THEN UPDATE SET cents = a.least;
--   OK inserted 1 deleted 1
-- Without a clause for matched rows nothing is open. Of the ink, whose price is NULL, nothing comes.
MERGE INTO prices AS p USING arrivals AS a ON p.item = a.item
    WHEN NOT MATCHED AND a.cents IS NOT NULL THEN INSERT VALUES (a.item, a.cents, NULL);
--   OK inserted 1 deleted 0
SELECT * FROM prices;
--   item  cents  day
--   cap   15     NULL
--   pad   340    2024-03-01
--   pen   130    2024-03-02
-- A second clause that could never act is refused: the first one takes each row that is matched.
MERGE INTO prices USING arrivals ON prices.item = arrivals.item
    WHEN MATCHED THEN UPDATE SET cents = 1
    WHEN MATCHED THEN DELETE;
--   FAILED 17 MergeClauses
-- What columns a table has, those of its partitions last.
DESCRIBE prices;
--   col_name  data_type
--   item      string
--   cents     int
--   day       date
