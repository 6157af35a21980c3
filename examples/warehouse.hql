-- A tutorial on transactional tables: students in buckets, and the views of a site's pages by day.
CREATE TABLE students (name STRING, age INT, grade INT) CLUSTERED BY (age) INTO 2 BUCKETS STORED AS ORC TBLPROPERTIES ('transactional'='true');
--   OK
INSERT INTO TABLE students VALUES ('fred flintstone', 35, 128), ('barney rubble', 32, 232);
--   OK inserted 2 deleted 0
CREATE TABLE pageviews (userid STRING, link STRING, came_from STRING) PARTITIONED BY (datestamp STRING) CLUSTERED BY (userid) INTO 256 BUCKETS STORED AS ORC;
--   OK
INSERT INTO TABLE pageviews PARTITION (datestamp = '2014-09-23') VALUES ('jsmith', 'mail.com', 'sports.com'), ('jdoe', 'mail.com', null);
--   OK inserted 2 deleted 0
INSERT INTO TABLE pageviews PARTITION (datestamp) VALUES ('tjohnson', 'sports.com', 'finance.com', '2014-09-23'), ('tlee', 'finance.com', null, '2014-09-21');
--   OK inserted 2 deleted 0
INSERT INTO TABLE pageviews VALUES ('tjohnson', 'sports.com', 'finance.com', '2014-09-23'), ('tlee', 'finance.com', null, '2014-09-21');
--   OK inserted 2 deleted 0
SELECT * FROM students;
--   name             age  grade
--   barney rubble    32   232
--   fred flintstone  35   128
SELECT datestamp, COUNT(*) AS views, COUNT(came_from) AS referred FROM pageviews GROUP BY datestamp;
--   datestamp   views  referred
--   2014-09-21  2      0
--   2014-09-23  4      3
UPDATE students SET grade = grade + 100 WHERE name LIKE 'fred%';
--   OK inserted 1 deleted 1
UPDATE students SET age = 36 WHERE name = 'fred flintstone';
--   FAILED 16 FixedColumn
UPDATE pageviews SET came_from = 'nowhere' WHERE came_from IS NULL;
--   OK inserted 3 deleted 3
UPDATE pageviews SET datestamp = '2014-09-22';
--   FAILED 16 FixedColumn
SELECT userid, came_from FROM pageviews WHERE datestamp = '2014-09-21';
--   userid  came_from
--   tlee    nowhere
--   tlee    nowhere
DELETE FROM pageviews WHERE datestamp = '2014-09-21' AND userid = 'tlee';
--   OK inserted 0 deleted 2
INSERT INTO students (age, name) VALUES (19, 'pebbles'), (20, 'bamm-bamm');
--   OK inserted 2 deleted 0
SELECT name FROM students WHERE grade IS NULL ORDER BY name DESC;
--   name
--   pebbles
--   bamm-bamm
UPDATE students SET grade = if(age < 20, 300, 310) WHERE grade IS NULL;
--   OK inserted 2 deleted 2
SELECT age DIV 10 * 10 AS decade, MAX(grade) AS best, SUM(grade) AS total FROM students GROUP BY age DIV 10 * 10;
--   decade  best  total
--   10      300   300
--   20      310   310
--   30      232   460
DELETE FROM students WHERE grade < 230;
--   OK inserted 0 deleted 1
SELECT COUNT(*) AS left_over FROM students;
--   left_over
--   3
INSERT OVERWRITE TABLE pageviews PARTITION (datestamp = '2014-09-23') SELECT DISTINCT userid, link, came_from FROM pageviews WHERE datestamp = '2014-09-23';
--   OK inserted 3 deleted 4
SELECT userid, came_from FROM pageviews;
--   userid    came_from
--   jdoe      nowhere
--   jsmith    sports.com
--   tjohnson  finance.com
INSERT INTO pageviews PARTITION (datestamp) SELECT name, 'school.org', NULL, concat('2014-10-', CAST(age AS STRING)) FROM students WHERE age < 32;
--   OK inserted 2 deleted 0
SELECT datestamp, userid FROM pageviews WHERE datestamp > '2014-10' ORDER BY datestamp;
--   datestamp   userid
--   2014-10-19  pebbles
--   2014-10-20  bamm-bamm
SELECT s.name, p.datestamp FROM students s JOIN pageviews p ON s.name = p.userid WHERE s.grade > 300;
--   name       datestamp
--   bamm-bamm  2014-10-20
TRUNCATE TABLE pageviews PARTITION (datestamp = '2014-10-19');
--   OK inserted 0 deleted 1
INSERT INTO pageviews PARTITION (day = '2014-10-21') VALUES ('x', 'y', 'z');
--   FAILED 11 NoColumn
INSERT INTO pageviews PARTITION (datestamp = '2014-10-21') VALUES ('x', 'y', 'z', 'w');
--   FAILED 14 BadCount
SELECT datestamp, COUNT(*) AS views FROM pageviews GROUP BY datestamp ORDER BY views DESC, datestamp;
--   datestamp   views
--   2014-09-23  3
--   2014-10-20  1
TRUNCATE TABLE pageviews;
--   OK inserted 0 deleted 4
SELECT COUNT(*) AS views FROM pageviews;
--   views
--   0
SELECT * FROM students ORDER BY age;
--   name           age  grade
--   pebbles        19   300
--   bamm-bamm      20   310
--   barney rubble  32   232
