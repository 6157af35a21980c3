-- What a script may hold: comments; names in any case, or between backquotes; both kinds of quotes; UTF-8. It ends with status 1.
create table DEFAULT.People (`full name` string, age INTEGER);   -- two columns, in small letters from here on
--   OK
INSERT INTO TABLE people VALUES ('Zoë; from "Köln"', (41)), ("O'Brien", 7), ('tab\there', '12');
--   OK inserted 3 deleted 0
SELECT ALL * FROM people;
--   full name         age
--   O'Brien           7
--   Zoë; from "Köln"  41
--   tab\there         12
-- Rows come in the order of what is printed.
SELECT age FROM people WHERE age > 10;
--   age
--   12
--   41
SELECT count(*) FROM people;
--   _c0
--   3
-- A form of Hive that is left out.
SELECT row_number() OVER (ORDER BY age) FROM people;
--   FAILED 4 Syntax
-- No statement.
SELECT (((( * FROM people;
--   FAILED 4 Syntax
SELECT ë FROM people;
--   FAILED 1 BadCharacter at 7
