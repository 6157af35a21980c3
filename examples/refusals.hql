-- Every refusal that a script can bring about by itself but 31 Aborted (abort.hql) and 36 MergeTwice (merge.hql), and statements that go on rightly after them. It ends with status 1.
CREATE TABLE t (a INT, s STRING);
--   OK
CREATE TABLE p (a INT) PARTITIONED BY (k STRING);
--   OK
-- Texts that are no statement, one of them a form of Hive that is left out.
SELECT ë FROM t;
--   FAILED 1 BadCharacter at 7
SELECT 9223372036854775808;
--   FAILED 3 WideNumber at 7
SELECT a FROM;
--   FAILED 4 Syntax
SELECT row_number() OVER (ORDER BY a) FROM t;
--   FAILED 4 Syntax
SELECT (((((((((((((((((((((((((((((((((((((((((((((((((((((((((((((((((1)))))))))))))))))))))))))))))))))))))))))))))))))))))))))))))))));
--   FAILED 5 Nesting at 71
-- Names, types, numbers of values and clauses.
SELECT * FROM nobody;
--   FAILED 10 NoTable
SELECT b FROM t;
--   FAILED 11 NoColumn
SELECT a FROM t, p;
--   FAILED 12 Ambiguous
SELECT a FROM t WHERE s = 1;
--   FAILED 13 BadType
INSERT INTO t VALUES (1);
--   FAILED 14 BadCount
SELECT s, count(*) FROM t GROUP BY a;
--   FAILED 15 NotGrouped
UPDATE p SET k = 'x';
--   FAILED 16 FixedColumn
MERGE INTO t USING p ON t.a = p.a WHEN NOT MATCHED THEN INSERT VALUES (p.a, p.k) WHEN MATCHED THEN DELETE;
--   FAILED 17 MergeClauses
CREATE TABLE T (b INT);
--   FAILED 18 TableExists
CREATE TABLE c (a INT) CLUSTERED BY (a) INTO 0 BUCKETS;
--   FAILED 19 Limit
-- Values are converted to their columns' types: nothing is refused for that.
INSERT INTO t VALUES ('12', 7), ('x', 'xxxxxxxxxxxxxxxx');
--   OK inserted 2 deleted 0
SELECT * FROM t;
--   a     s
--   NULL  xxxxxxxxxxxxxxxx
--   12    7
-- A row of more than 65,536 bytes, and more than 100 partitions.
INSERT OVERWRITE TABLE t SELECT 1, concat(s, s, s, s, s, s, s, s, s, s, s, s, s, s, s, s) FROM t WHERE a IS NULL;
--   OK inserted 1 deleted 2
INSERT OVERWRITE TABLE t SELECT 1, concat(s, s, s, s, s, s, s, s, s, s, s, s, s, s, s, s) FROM t;
--   OK inserted 1 deleted 1
INSERT OVERWRITE TABLE t SELECT length(s), concat(s, s, s, s, s, s, s, s, s, s, s, s, s, s, s, s, s) FROM t;
--   FAILED 41 RowLimit
INSERT OVERWRITE TABLE t VALUES (1,''), (2,''), (3,''), (4,''), (5,''), (6,''), (7,''), (8,''), (9,''), (10,''), (11,'');
--   OK inserted 11 deleted 1
INSERT INTO p SELECT 0, concat(CAST(x.a AS STRING), '-', CAST(y.a AS STRING)) FROM t x, t y;
--   FAILED 42 PartitionLimit
INSERT INTO p SELECT 0, concat(CAST(x.a AS STRING), '-', CAST(y.a AS STRING)) FROM t x, t y WHERE y.a < 10;
--   OK inserted 99 deleted 0
-- Statements that overlap.
!session ada
--   -- session ada
!hold commit
DELETE FROM p WHERE k = '1-1';
!session bo
--   -- session bo
DELETE FROM p WHERE k < '1-2';
--   OK inserted 0 deleted 1
CREATE TABLE p (b INT);
--   FAILED 37 Blocked by 21
!go ada
--   FAILED 30 Conflict with 22 on p k=1-1
-- A string that isn't closed takes the rest of the script.
SELECT 'x FROM t;
--   FAILED 2 OpenString at 7
