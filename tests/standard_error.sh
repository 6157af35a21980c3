#!/bin/bash
# What is said on standard error, over real files: tests/standard_error.sh PROGRAM
#
# PROGRAM is the built program, as crates/hive/out/hive. Each case that isn't so prints a line; the last line says how many
# are, and the status is 1 where one isn't.
set -u
top=$(dirname "$(dirname "$(realpath "$0")")")
# shellcheck source=tests/cases.sh
. "$top/tests/cases.sh"
wide=$(printf 'x%.0s' $(seq 30000))

echo "== each refusal has its line, and no row has one"
fresh
cat >script <<'S'
CREATE TABLE t (a INT, s STRING);
INSERT INTO t VALUES (1, 'FAILED 4 Syntax'), (2, 'FAILED 13 BadType');

SELECT * FROM t; SELECT nothing FROM t;
-- a comment
  ALTER TABLE t ADD COLUMNS (b INT);
INSERT INTO t
  VALUES (1);
SELECT s AS `FAILED 4 Syntax` FROM t WHERE a > 2;
SELECT s AS `-- session x` FROM t WHERE a > 2;
;
SELECT a || s FROM t;
CREATE TABLE copy LIKE t;
S
cat >wanted <<'S'
hive: a new store was made in the folder wh
line 4, statement 4: 11 NoColumn: correct the name (docs/REFUSALS.md)
line 6, statement 5: 4 Syntax: docs/LANGUAGE.md has the forms, docs/FROM_HIVE.md what to write for others (docs/REFUSALS.md)
line 7, statement 6: 14 BadCount: give each column one value (docs/REFUSALS.md)
line 11, statement 9: 4 Syntax: no statement stands before that ';' (docs/REFUSALS.md)
line 12, statement 10: 1 BadCharacter at 9: correct the text at that byte of the statement (docs/REFUSALS.md)
line 13, statement 11: 4 Syntax: docs/LANGUAGE.md has the forms, docs/FROM_HIVE.md what to write for others (docs/REFUSALS.md)
6 of 11 statements were refused
S
run wh <script
so "a refusal ends with 1" is_status 1
so "each refusal has its line, and no row has one" diff err wanted
so "the rows are printed" grep -qx "1	FAILED 4 Syntax" out
cat >script <<'S'
SELECT s FROM t;
SELECT 'FAILED 4 Syntax' AS failed FROM t;
SELECT s AS `FAILED 4 Syntax` FROM t;
SELECT concat('x\nFAILED 4 ', s) FROM t;
S
run wh <script
so "rows alone: status 0" is_status 0
so "a table whose rows say FAILED gives no line" [ ! -s err ]
so "and their replies have them" [ "$(grep -c "FAILED 4 Syntax" out)" = 5 ]

echo "== every statement of a script of refusals"
cp "$top/examples/refusals.hql" script
# In that script what is printed stands below each statement, of one line each; a held one's below its release.
awk '
    /^--   FAILED / { sub(/^--   FAILED /, ""); print (last ~ /^!go/ ? held : line) ": " $0 }
    !/^--/ { if (last ~ /^!hold/) held = NR; last = $0; line = NR }
' script | sort >wanted
refused=$(wc -l <wanted)
all=$(grep -cv '^--\|^!' script)
rm -rf wh
run wh <script
so "a script of refusals ends with 1" is_status 1
so "all that is refused is in it" [ "$refused" -ge 18 ]
sed -n 's/^line \([0-9]*\), statement [0-9]*\(, session [a-z]*\)\{0,1\}: \([^:]*\): .* (docs\/REFUSALS\.md)$/\1: \3/p' err | sort >told
so "each statement that is refused has its line" diff told wanted
so "nothing else is said but how many, and that the folder is new" [ "$(wc -l <err)" = $((refused + 2)) ]
so "how many were refused is said last" [ "$(tail -n 1 err)" = "$refused of $all statements were refused" ]

echo "== statements that are held"
fresh
cat >script <<'S'
CREATE TABLE p (a INT);
INSERT INTO p VALUES (1);
!session ada
!hold commit
UPDATE p SET a = 2;
!session bo
!hold commit
UPDATE p SET b = 2;
!go ada
!go bo
!hold commit
UPDATE p SET a = 4;
!session ada
UPDATE p SET a = 3;
!hold start
DELETE FROM p WHERE c = 1;
!session bo
!go ada
!go bo
S
cat >wanted <<'S'
hive: a new store was made in the folder wh
line 8, statement 4, session bo: 11 NoColumn: correct the name (docs/REFUSALS.md)
line 16, statement 7, session ada: 11 NoColumn: correct the name (docs/REFUSALS.md)
line 12, statement 5, session bo: 30 Conflict with 16 on p: do the statement again (docs/REFUSALS.md)
3 of 7 statements were refused
S
run wh <script
sed -i 's/with [0-9]* on/with 16 on/' err
so "statements that are held are told at their own lines" diff err wanted

echo "== a script that is refused"
while IFS='|' read -r text want; do
    # shellcheck disable=SC2059
    printf "$text" >script
    run wh <script
    so "status 8: $text" is_status 8
    so "status 8 says why: $want" said "$want"
done <<'S'
SELECT 1;\n!sesion ada\n|line 2: there is no such directive: !sesion ada
SELECT 1;\n\n-- \303\n|line 3: byte 14 of the script isn't UTF-8
!go ada\n|line 1: that session isn't held: !go ada
!hold read\n!session ada\nSELECT 1;\n!go main\n|line 2: it stands between a hold and its statement: !session ada
!hold read\nSELECT 1;\nSELECT 2;\n!go main\n|line 3: the statement is of a session that is held
\n!hold read\nSELECT 1;\n|line 2: that hold has no '!go'
S
{
    echo "SELECT 1;"
    echo "SELECT '$wide$wide';"
} >script
run wh <script
so "a long statement is named" said "line 2: the statement has more than 32768 bytes"
for n in $(seq 17); do echo "!session s$n"; done >script
run wh <script
so "a session too many is named" said "line 16: the script has more than 16 sessions: !session s16"
yes 'SELECT 1;' | head -n 10001 >script
run wh <script
so "a statement too many is named" said "line 10001: the script has more than 10000 statements"
{ head -c 16777217 /dev/zero | tr '\0' '\n'; } >script
run wh <script
so "a byte too many is named" said "line 16777217: the script has more than 16 MiB"
so "nothing of them is printed but a line" [ "$(wc -l <out)" = 1 ]

echo "== words"
echo 'SELECT 1;' >script
while IFS='|' read -r words want; do
    # shellcheck disable=SC2086
    "$program" $words <script >out 2>err
    status=$?
    so "bad words: $words" is_status 2
    so "they are named: $want" said "$want"
    so "the usage is said: $words" said "usage: hive FOLDER run [--workers N] < SCRIPT"
done <<'S'
wh rum|'rum' is no command that runs
wh serve|'serve' is no command that runs
wh run more|'more' is a word too many
wh run --workers 2 more|'more' is a word too many
wh run --workers|after '--workers' a number from 1 to 8 is missing
wh run --workers 9|'9' can't stand after '--workers'
wh run --workers=x|'--workers=x' can't stand there
wh|the command is missing
-x run|'-x' is no folder
--help|usage: hive
--version|hive 0.1
S
run wh --workers 2 <script
so "workers are taken" is_status 0

echo "== statuses of a folder and a journal"
fresh
echo 'CREATE TABLE t (a INT); SELECT * FROM t;' >script
run none/wh <script
so "the path is said with status 5" said "hive: the store in the folder none/wh can't be used: the folder in which it is to stand isn't there"
run wh <script
so "a new folder is said to be new" said "hive: a new store was made in the folder wh"
run wh </dev/null
so "an old one isn't" [ ! -s err ]
printf '\7' | dd of=wh/journal bs=1 seek=5 conv=notrunc status=none
run wh <script
so "a bad journal: status 6" is_status 6
so "a bad journal may be of a later version" said "the journal in wh is damaged at that byte, or was written by a later version"
ended
