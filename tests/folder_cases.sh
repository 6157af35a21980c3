#!/bin/bash
# What happens around a folder, over real files: tests/folder_cases.sh PROGRAM [EVERY]
#
# PROGRAM is the built program, as crates/hive/out/hive. A folder that is exchanged, moved or taken away under a run, journals
# that are missing or empty, and limits of the system and of one text. Where EVERY is above 0 and strace is there, a run is
# also stopped at each EVERY-th of its calls of the system (3 if left out), and something is exchanged there before it goes
# on, or it is killed before each EVERY-th that changes something; and a folder is exchanged at moments of chance. Each case that isn't so prints a line; the last
# line says how many are, and the status is 1 where one isn't.
set -u
# shellcheck source=tests/cases.sh
. "$(dirname "$(realpath "$0")")/cases.sh"
every=${2:-3}

# Each name below a folder, and the sum of each file.
sums() {
    (cd "$1" && find . | sort && find . -type f -exec sha256sum {} + | sort)
}

# rows FOLDER: how many rows its table t has, 0 where the run was over before it made the table.
rows() {
    echo 'SELECT count(*) AS n FROM t;' | "$program" "$1" run 2>/dev/null | tail -n 1 | sed 's/^FAILED 10 NoTable$/0/'
}

# A store of seven rows.
store() {
    {
        echo 'CREATE TABLE t (a INT);'
        for n in 1 2 3 4 5 6 7; do echo "INSERT INTO t VALUES (-$n);"; done
    } | "$program" "$1" run >/dev/null 2>&1
}

# A script of so many inserts of one row.
inserts() {
    echo 'CREATE TABLE IF NOT EXISTS t (a INT);'
    for n in $(seq "$1"); do echo "INSERT INTO t VALUES ($n);"; done
}

acknowledged() {
    grep -c '^OK inserted 1 deleted 0$' out
}

# has_all FOLDER BEFORE: it has the rows that stood before, the acknowledged ones, and at most one more.
has_all() {
    local found known
    found=$(rows "$1")
    known=$(($2 + $(acknowledged)))
    [ "$found" = "$known" ] || [ "$found" = $((known + 1)) ]
}

# Ends with 5, or with 0 where nothing was left to be done.
is_stopped() {
    if is_status 5; then
        said "it isn't the one that this run has opened"
    else
        is_status 0 && [ "$(acknowledged)" = "$1" ]
    fi
}

exchange_folder() {
    mv wh old && mv other wh
}

exchange_tables() {
    mv wh/tables wh/kept && mv other/tables wh/tables
}

take_journal() {
    mkdir kept && mv wh/journal wh/lock kept/
}

# Nothing takes the place of what these move or take away.
move_folder() {
    mv wh old
}

move_tables() {
    mv wh/tables wh/kept
}

move_journal() {
    mkdir kept && mv wh/journal kept/
}

remove_folder() {
    rm -rf wh
}

# holds PROCESS PATH: the process has it open.
holds() {
    local open
    for open in "/proc/$1/fd"/*; do
        [ "$(readlink "$open")" = "$2" ] && return 0
    done
    return 1
}

# stopped_at NAME NUMBER PART ACTION: a run is stopped at this call of the system, and the action is done. 1 where the run has no
# such call, 2 where the part of the store wasn't held yet.
stopped_at() {
    local tracer pid state turns=0 found=0 still=0
    inserts 3 >script
    strace -f -qqq -o /dev/null -e trace="$1" -e inject="$1:signal=STOP:when=$2" "$program" wh run <script >out 2>err &
    tracer=$!
    while [ $turns -lt 2000 ]; do
        turns=$((turns + 1))
        pid=$(pgrep -P $tracer -x "$(basename "$program" | cut -c1-15)" | head -n 1)
        state=$([ -n "$pid" ] && sed 's/.*) //' "/proc/$pid/stat" 2>/dev/null | cut -c1)
        # The tracer stops it for a moment at each call: three looks tell the stop that was asked for.
        case $state in
        T | t) still=$((still + 1)) ;;
        *) still=0 ;;
        esac
        if [ $still -ge 3 ]; then
            if holds "$pid" "$place/$3"; then
                "$4"
                found=1
            fi
            break
        fi
        kill -0 $tracer 2>/dev/null || break
        sleep 0.005
    done
    while kill -0 $tracer 2>/dev/null; do
        pkill -CONT -P $tracer
        sleep 0.01
    done
    wait $tracer
    status=$?
    [ $found = 1 ] && return 0
    [ $still -ge 3 ] && return 2
    return 1
}

# at_each_call PART ACTION CHECK KIND: over the calls after which the part of the store is held, of a store of that kind.
at_each_call() {
    local name number tried=0
    fresh
    [ "$4" = new ] || store wh
    inserts 3 >script
    traced wh
    numbered wh | each_of "$every" >list
    while read -r -u 3 name number _; do
        fresh
        store other
        [ "$4" = new ] || store wh
        before=$([ "$4" = new ] && echo 0 || echo 7)
        sums other >wanted
        if stopped_at "$name" "$number" "$1" "$2"; then
            tried=$((tried + 1))
            so "$2 at $name $number of a run over a $4 store" "$3"
        fi
    done 3<list
    so "$2 was tried over a $4 store" [ $tried -gt 5 ]
    echo "$2, a $4 store: at $tried calls of the system"
}

folder_is_so() {
    is_stopped 3 && [ "$(sums wh)" = "$(cat wanted)" ] && { [ ! -e old/journal ] || has_all old "$before"; }
}

tables_are_so() {
    local ok=0
    is_stopped 3 || ok=1
    mkdir -p other && mv wh/tables other/tables && mv wh/kept wh/tables
    [ "$(sums other)" = "$(cat wanted)" ] && has_all wh "$before" && [ $ok = 0 ]
}

journal_is_so() {
    local ok=0
    is_stopped 3 || ok=1
    rm -f wh/journal wh/lock
    mv kept/journal kept/lock wh/
    has_all wh "$before" && [ $ok = 0 ]
}

moved_folder_is_so() {
    [ ! -e wh ] && [ "$(sums other)" = "$(cat wanted)" ] && has_all old "$before"
}

moved_tables_are_so() {
    [ ! -e wh/tables ] && mv wh/kept wh/tables && has_all wh "$before"
}

moved_journal_is_so() {
    [ ! -e wh/journal ] && mv kept/journal wh/ && has_all wh "$before"
}

removed_folder_is_so() {
    [ ! -e wh ] && [ "$(sums other)" = "$(cat wanted)" ]
}

# exchanged_at_output ACTION: a run waits within a reply of some 200 KB that nobody reads, the action is done, and the run
# goes on with a statement that changes something.
exchanged_at_output() {
    local line text
    text=$(printf 'x%.0s' $(seq 30000))
    {
        echo 'CREATE TABLE IF NOT EXISTS t (a INT);'
        for n in 1 2 3 4 5 6 7; do echo "INSERT INTO t VALUES ($n);"; done
        echo "SELECT '$text' AS wide FROM t;"
        echo 'INSERT INTO t VALUES (8);'
    } >script
    rm -f replies && mkfifo replies
    "$program" wh run <script >replies 2>err &
    exec 3<replies
    : >out
    while read -r line <&3 && [ "$line" != wide ]; do echo "$line" >>out; done
    "$1"
    cat <&3 >rest
    exec 3<&-
    wait $!
    status=$?
}

echo "== exchanged while a reply is printed"
for kind in standing new; do
    for case in exchange_folder:folder_is_so exchange_tables:tables_are_so take_journal:journal_is_so \
        move_folder:moved_folder_is_so move_tables:moved_tables_are_so move_journal:moved_journal_is_so \
        remove_folder:removed_folder_is_so; do
        fresh
        store other
        [ $kind = new ] || store wh
        before=$([ $kind = new ] && echo 0 || echo 7)
        sums other >wanted
        exchanged_at_output "${case%%:*}"
        so "${case%%:*}, a $kind store: the run ends with 5" is_status 5
        so "${case%%:*}, a $kind store: the cause is said" said "it isn't the one that this run has opened"
        so "${case%%:*}, a $kind store: the seven rows before are acknowledged" [ "$(acknowledged)" = 7 ]
        so "${case%%:*}, a $kind store: all is as it should be" "${case##*:}"
    done
done

# killed_at_each_call: the first run over a folder is killed at its calls, and the next one opens what it left.
killed_at_each_call() {
    local name number tried=0
    fresh
    inserts 3 >script
    traced wh
    numbered wh | changing | each_of "$every" >list
    while read -r -u 3 name number _; do
        fresh
        inserts 3 >script
        at_call "$name" "$number" signal=KILL wh
        so "it is killed before $name $number" [ "$status" -gt 128 ]
        cp out first
        echo 'CREATE TABLE IF NOT EXISTS t (a INT);' >script
        run wh <script
        so "the folder opens that a run left which was killed before $name $number" is_status 0
        cp first out
        so "with each row that was acknowledged before $name $number" has_all wh 0
        tried=$((tried + 1))
    done 3<list
    so "a first run was killed at some calls" [ $tried -gt 10 ]
    echo "killed before $tried calls of the system"
}

# is_gone_or_whole: of seven rows all are there, or their table is gone, which it is where that was printed.
is_gone_or_whole() {
    case $(rows wh) in
    0) true ;;
    7) [ ! -s first ] ;;
    *) false ;;
    esac
}

# killed_while_dropping: a run that drops a table is killed at its calls, and the next one opens what it left.
killed_while_dropping() {
    local name number tried=0
    fresh
    store wh
    echo 'DROP TABLE t;' >script
    traced wh
    so "one that isn't killed drops it" [ "$(rows wh)" = 0 ]
    numbered wh | changing | each_of "$every" >list
    while read -r -u 3 name number _; do
        fresh
        store wh
        sums wh/tables >wanted
        echo 'DROP TABLE t;' >script
        at_call "$name" "$number" signal=KILL wh
        so "it is killed before $name $number" [ "$status" -gt 128 ]
        cp out first
        so "the table is there with all its rows, or gone, behind a kill before $name $number" is_gone_or_whole
        so "and its files stand behind a kill before $name $number" [ "$(sums wh/tables)" = "$(cat wanted)" ]
        tried=$((tried + 1))
    done 3<list
    so "a run that drops a table was killed at some calls" [ $tried -gt 3 ]
    echo "killed before $tried calls of a run that drops a table"
}

if [ "$every" -gt 0 ] && command -v strace >/dev/null; then
    echo "== exchanged at a call of the system"
    for kind in standing new; do
        at_each_call wh exchange_folder folder_is_so $kind
        at_each_call wh/tables exchange_tables tables_are_so $kind
        at_each_call wh/journal take_journal journal_is_so $kind
    done
    echo "== killed at a call of the system"
    killed_at_each_call
    killed_while_dropping
fi

if [ "$every" -gt 0 ]; then
    echo "== exchanged in the middle of a run, at moments of chance"
    for round in $(seq 20); do
        fresh
        store other
        sums other >wanted
        inserts 400 >script
        "$program" wh run <script >out 2>err &
        while [ ! -s out ]; do sleep 0.01; done
        sleep "0.$((RANDOM % 9))$((RANDOM % 9))"
        exchange_folder
        wait $!
        status=$?
        so "round $round: the run ends with 5, or was over" is_stopped 400
        so "round $round: the other folder is as it was" [ "$(sums wh)" = "$(cat wanted)" ]
        so "round $round: each acknowledged row is there" has_all old 0
    done
fi

echo "== a journal that is missing or empty"
fresh
store wh
cp -a wh saved
for kind in missing empty closed; do
    rm -rf wh && cp -a saved wh
    case $kind in
    missing) rm wh/journal ;;
    empty) : >wh/journal ;;
    closed) printf '\0' | dd of=wh/journal conv=notrunc status=none ;;
    esac
    sums wh >wanted
    inserts 1 >script
    run wh <script
    so "$kind: the run ends with 5" is_status 5
    so "$kind: nothing is printed" silent
    so "$kind: the cause is said" said "the journal that tells of them is missing or empty"
    so "$kind: nothing is changed" [ "$(sums wh)" = "$(cat wanted)" ]
done
rm -rf wh && cp -a saved wh
so "the journal that is put back tells of all rows" [ "$(rows wh)" = 7 ]
for kind in none folder lock journal tables readme; do
    fresh
    [ $kind = none ] || mkdir wh
    case $kind in
    lock) : >wh/lock ;;
    journal) : >wh/journal ;;
    tables) mkdir wh/tables ;;
    readme) mkdir wh/tables && echo x >wh/tables/README ;;
    esac
    inserts 1 >script
    run wh <script
    so "what a first opening may have left is opened: $kind" is_status 0
    # Where a journal stands, somebody's store was begun there already.
    [ $kind = journal ] || so "it is said to be new: $kind" said "a new store was made in the folder wh"
    run wh <script
    so "the second run is over no new one: $kind" [ ! -s err ]
done

# limited WHAT NUMBER: runs the script with so many descriptors (-n), or so many KB of stack (-s) or memory (-v).
limited() {
    bash -c 'ulimit "$1" "$2" && exec "$3" wh run' - "$1" "$2" "$program" <script >out 2>err
    status=$?
}

# nested BEFORE AFTER TIMES TEXT: the text within so many of these.
nested() {
    local text=$4
    for _ in $(seq "$3"); do text=$1$text$2; done
    echo "$text"
}

echo "== limits of the system"
for limit in 4 5 6 7; do
    fresh
    inserts 1 >script
    limited -n $limit
    so "ulimit -n $limit" is_status 5
    so "ulimit -n $limit is said" said "too many files are open"
done
fresh
inserts 1 >script
limited -n 8
so "eight descriptors are enough" is_status 0
fresh
deep=$(printf 'd%.0s' $(seq 240))
long=.
while [ ${#long} -lt 3300 ]; do long=$long/$deep; done
mkdir -p "$long"
inserts 1 >script
run "$long/wh" <script
so "a path of $((${#long} + 3)) bytes is no matter" is_status 0
while [ ${#long} -lt 3700 ]; do long=$long/$deep; done
mkdir -p "$long"
run "$long/wh" <script
so "a path of $((${#long} + 3)) bytes is refused" is_status 5
so "and said to be too long" said "is too long"
so "nothing stands there" [ "$(find . -name wh | wc -l)" = 1 ]
while [ ${#long} -lt 4200 ]; do long=$long/$deep; done
run "$long/wh" <script
so "a path of $((${#long} + 3)) bytes, which the system doesn't take, is refused" is_status 5
so "and said to be too long as well" said "is too long"
fresh
long=.
while [ ${#long} -lt 3300 ]; do long=$long/$deep; done
{
    echo 'CREATE TABLE p (a INT) PARTITIONED BY (k STRING);'
    echo "INSERT INTO p VALUES (1, '$(printf 'x%.0s' $(seq 238))');"
    echo 'SELECT a FROM p;'
} >script
for bytes in 3584 3583; do
    above=$long/$(printf 'e%.0s' $(seq $((bytes - ${#long} - 4))))
    mkdir -p "$above"
    run "$above/wh" <script
    so "a path of $bytes bytes, of which 3583 are taken" is_status $((bytes > 3583 ? 5 : 0))
done
so "the longest name of a partition is made in the last one" [ "$(tail -n 1 out)" = 1 ]
while IFS='|' read -r folder want; do
    run "$folder" <script
    so "$folder is refused" is_status 5
    so "$folder has its cause" said "$want"
done <<'S'
/proc/self|where a folder is to be stands none
/proc/self/wh|a folder there is gone, or takes no files
/proc/self/fd/wh|a folder there is gone, or takes no files
S

echo "== what one text can ask for"
fresh
{
    while IFS='|' read -r front behind; do
        echo "SELECT $(nested "$front" "$behind" 63 1) AS x;"
    done <<'S'
abs(|)
(|)
CAST(| AS INT)
CASE WHEN true THEN | END
S
    echo "$(nested 'SELECT x FROM (' ') s' 62 'SELECT 1 AS x');"
} >script
limited -s 1024
so "a stack of 1 MB is enough for the deepest texts" is_status 0
so "and they are done" [ "$(grep -cx 1 out)" = 5 ]
{
    echo 'CREATE TABLE t (a INT);'
    echo "SELECT $(printf '*,%.0s' $(seq 1999))* FROM t a0$(printf ',t a%s' $(seq 1999));"
} >script
limited -v 500000
so "2,000 stars over 2,000 sources are refused" [ "$(tail -n 1 out)" = 'FAILED 19 Limit' ]
so "and the run goes on to its end" is_status 1

echo "== a folder with a dropped table"
fresh
cat >script <<'S'
CREATE TABLE a (x INT);
CREATE TABLE b (x INT);
INSERT INTO a VALUES (1);
DROP TABLE a;
S
run wh <script
so "a table is dropped" is_status 0
so "its file stands" [ -f wh/tables/0000001/delta_0000001_0000001_0000/bucket_00000 ]
sums wh/tables/0000001 >wanted
cat >script <<'S'
CREATE TABLE a (y INT);
INSERT INTO a VALUES (2);
SELECT * FROM a;
SELECT * FROM b;
DROP TABLE b;
S
printf 'OK\nOK inserted 1 deleted 0\ny\n2\nx\nOK\n' >printed
run wh <script
so "the folder opens again" is_status 0
so "the name is free" diff out printed
so "the new table has a folder of its own" [ -f wh/tables/0000003/delta_0000001_0000001_0000/bucket_00000 ]
so "the dropped one's folder is as it was" [ "$(sums wh/tables/0000001)" = "$(cat wanted)" ]
ended
