#!/bin/bash
# What a folder shows in which compactions stand, over real files: tests/compacted_folder.sh PROGRAM [EVERY]
#
# PROGRAM is the built program, as crates/hive/out/hive. Jobs that are under way, or ended long ago, stand in folders whose journals and row
# files are written here, byte by byte (docs/FORMATS.md), and what a run prints and notes over them was worked out by hand
# (docs/COMPACTION.md); others are done by a script's `!compact` and `!clean`, also beside sessions that are held. tools/hive-book reads what
# was noted. Where strace is there, the files that a query opens are counted; and where EVERY is above 0, too, an opening that ends two
# compactions, a run that compacts and cleans, and one that does so beside a reader are killed before each EVERY-th of their calls of the
# system that change something (3 if left out), and of a run that compacts and cleans each EVERY-th call fails once. Each case that isn't so
# prints a line; the last line says how many are, and the status is 1 where one isn't.
set -u
here=$(dirname "$(realpath "$0")")
# shellcheck source=tests/cases.sh
. "$here/cases.sh"
every=${2:-3}

# ---- bytes, as hexadecimal digits

eight() {
    printf '%016x' "$1"
}

four() {
    printf '%08x' "$1"
}

# An ASCII text with its length.
text() {
    four ${#1}
    printf %s "$1" | od -An -v -tx1 | tr -d ' \n'
}

# bytes DIGITS: the bytes themselves.
bytes() {
    printf %b "$(printf %s "$1" | sed 's/../\\x&/g')"
}

# ---- entries: a tag and its fields

boot() {
    echo "01$(eight "$1")"
}

# opened TRANSACTION TEXT
opened() {
    echo "02$(eight "$1")$(text main)$(eight "$1")$(text "$2")"
}

start() {
    echo "03$(eight "$1")$(four 0)"
}

# given TRANSACTION TABLE WRITE
given() {
    echo "04$(eight "$1")$(eight "$2")$(eight "$3")"
}

# commit TRANSACTION [TABLE PARTITION INSERTED DELETED]..
commit() {
    local txn=$1 touches='' count=0
    shift
    while [ $# -gt 0 ]; do
        touches+=$(eight "$1")$(text "$2")$(eight "$3")$(eight "$4")
        count=$((count + 1))
        shift 4
    done
    echo "05$(eight "$txn")$(four $count)$touches"
}

# lacked TRANSACTION: its abort for want of memory.
lacked() {
    echo "06$(eight "$1")0c"
}

# create TRANSACTION TABLE
create() {
    echo "07$(eight "$1")$(eight "$2")"
}

# drop TRANSACTION TABLE
drop() {
    echo "08$(eight "$1")$(eight "$2")"
}

# asked JOB TABLE PARTITION KIND: by nobody's statement.
asked() {
    local kind=02
    [ "$4" = major ] || kind=01
    echo "09$(eight "$1")$(eight "$2")$(text "$3")$kind$(eight 0)"
}

# picked JOB WATERMARK
picked() {
    echo "0a$(eight "$1")$(eight "$2")"
}

# published JOB LOW HIGH MARK
published() {
    echo "0b$(eight "$1")$(eight "$2")$(eight "$3")$(eight "$4")"
}

empty() {
    echo "0c$(eight "$1")"
}

cleaned() {
    echo "0d$(eight "$1")"
}

# failed JOB: for want of memory.
failed() {
    echo "0e$(eight "$1")0c"
}

# forgot TABLE WRITE
forgot() {
    echo "0f$(eight "$1")$(eight "$2")"
}

# ---- a folder

# note ENTRY..: they stand behind those that were noted before.
note() {
    local entry
    for entry in "$@"; do
        printf '01%s%s' "$(four $((${#entry} / 2)))" "$entry" >>noted
    done
}

# made TRANSACTION TABLE TEXT: a CREATE TABLE.
made() {
    note "$(opened "$1" "$3")" "$(start "$1")" "$(create "$1" "$2")"
}

# wrote TRANSACTION WRITE TEXT [PARTITION INSERTED DELETED]..: a change of table 1.
wrote() {
    local txn=$1 write=$2 said=$3 touches=()
    shift 3
    while [ $# -gt 0 ]; do
        touches+=(1 "$1" "$2" "$3")
        shift 3
    done
    note "$(opened "$txn" "$said")" "$(start "$txn")" "$(given "$txn" 1 "$write")" "$(commit "$txn" "${touches[@]}")"
}

# begun: a new folder, whose journal begins with a Boot.
begun() {
    fresh
    mkdir -p wh/tables
    : >wh/lock
    note "$(boot 0)"
}

# closed: the journal is what was noted, and a closed gate.
closed() {
    bytes "$(cat noted)00" >wh/journal
}

# row WRITE ROW NUMBER: a record of one INT; gone WRITE ROW DELETER: one of a row that is deleted.
row() {
    echo "$(eight "$1")$(four 0)$(eight "$2")00000007000102$(four "$3")"
}

gone() {
    echo "$(eight "$1")$(four 0)$(eight "$2")$(eight "$3")"
}

# put DIRECTORY KIND RECORD..: the bucket 0 of a directory of table 1, of inserts (0) or deletes (1).
put() {
    local folder=wh/tables/0000001/$1 kind=$2
    shift 2
    mkdir -p "$folder"
    bytes "485652310$kind$(four 0)$(eight $#)$(printf %s "$@")" >"$folder/bucket_00000"
}

# spoilt DIRECTORY: it has a bucket 0 that is no row file.
spoilt() {
    mkdir -p "wh/tables/0000001/$1"
    printf '?' >"wh/tables/0000001/$1/bucket_00000"
}

# ---- what is there

# The entries that the journal has, without their places.
entries() {
    "$here/../tools/hive-book" wh --entries | sed 's/^ *[0-9]* *//; s/  */ /g; s/ $//'
}

# The entries that end jobs.
ends() {
    entries | grep -E '^(Published|Empty|Failed|Cleaned) '
}

# The directories of table 1 in which files stand.
directories() {
    (cd wh/tables/0000001 && find . -name 'bucket_*' | sed 's|^\./||; s|/bucket_[0-9]*$||' | LC_ALL=C sort)
}

# is OUTPUT LINE..: the command's last output, or that of ends or directories, is these lines.
is() {
    local found=$1
    shift
    diff <($found) <(printf '%s\n' "$@")
}

printed() {
    cat out
}

# last COUNT LINE..: so many entries stand last.
last() {
    local count=$1
    shift
    diff <(entries | tail -n "$count") <(printf '%s\n' "$@")
}

# asks STATEMENT..: runs them as a script.
asks() {
    printf '%s;\n' "$@" >script
    run wh <script
}

tab=$(printf '\t')

# ---- one store with all kinds of jobs

# Of five write ids the third deletes and the fifth was aborted. In p=a a base is published and what it covers was removed; in p=b
# a minor one is published, and of what it covers the first delta stands still; in p=c one had nothing to merge, and the next one failed
# and left what it had staged; and one is asked for.
all_kinds() {
    begun
    made 1 1 'CREATE TABLE t (a INT) PARTITIONED BY (p STRING)'
    wrote 2 1 "INSERT INTO t VALUES (1,'a'),(2,'b')" p=a 1 0 p=b 1 0
    wrote 3 2 "INSERT INTO t VALUES (3,'a'),(4,'b')" p=a 1 0 p=b 1 0
    wrote 4 3 'DELETE FROM t WHERE a = 1' p=a 0 1
    wrote 5 4 "INSERT INTO t VALUES (5,'c')" p=c 1 0
    note "$(asked 1 1 p=a major)" "$(picked 1 4)" "$(published 1 1 3 6)" "$(cleaned 1)"
    note "$(asked 2 1 p=b minor)" "$(picked 2 4)" "$(published 2 1 2 6)"
    note "$(asked 3 1 p=c minor)" "$(picked 3 4)" "$(empty 3)"
    note "$(asked 4 1 p=c major)" "$(picked 4 4)" "$(failed 4)"
    note "$(opened 6 "INSERT INTO t VALUES (9,'c')")" "$(start 6)" "$(given 6 1 5)" "$(lacked 6)" "$(forgot 1 5)"
    note "$(asked 5 1 p=b minor)"
    closed
    put p=a/base_0000003 0 "$(row 2 0 3)"
    put p=b/delta_0000001_0000002 0 "$(row 1 0 2)" "$(row 2 0 4)"
    put p=b/delta_0000001_0000001_0000 0 "$(row 1 0 2)"
    put p=c/delta_0000004_0000004_0000 0 "$(row 4 0 5)"
    spoilt p=c/@.stage_0000004_base_0000004
}

kinds_ended=('Published job 1, low 1, high 3, mark 6' 'Cleaned job 1' 'Published job 2, low 1, high 2, mark 6' 'Empty job 3' 'Failed job 4, cause Memory')
kinds_stand=(p=a/base_0000003 p=b/delta_0000001_0000001_0000 p=b/delta_0000001_0000002 p=c/@.stage_0000004_base_0000004 p=c/delta_0000004_0000004_0000)

echo "== jobs that were asked for, picked up, published, cleaned, empty and failed"
all_kinds
so "the journal has the ends that were written" is ends "${kinds_ended[@]}"
run wh </dev/null
so "the folder opens" is_status 0
so "nothing is printed" silent
so "the opening notes that it was opened, and no more" last 2 'Asked job 5, table 1, partition p=b, kind minor, by 0' 'Boot run 1'
so "it takes nothing away" is directories "${kinds_stand[@]}"
asks 'SELECT p, a FROM t ORDER BY p, a' "INSERT INTO t VALUES (6,'a'),(7,'b')" 'UPDATE t SET a = 30 WHERE a = 3' \
    'DELETE FROM t WHERE a = 4' 'SELECT p, a FROM t ORDER BY p, a'
so "rows are read and changed" is_status 0
so "in the base, in the wide delta and beside them" is printed "p${tab}a" "a${tab}3" "b${tab}2" "b${tab}4" "c${tab}5" \
    'OK inserted 2 deleted 0' 'OK inserted 1 deleted 1' 'OK inserted 0 deleted 1' \
    "p${tab}a" "a${tab}6" "a${tab}30" "b${tab}2" "b${tab}7" "c${tab}5"
asks 'SELECT p, a FROM t ORDER BY p, a' 'SHOW PARTITIONS t' 'SHOW COMPACTIONS'
so "and opens again" is_status 0
so "with what stood there" is printed "p${tab}a" "a${tab}6" "a${tab}30" "b${tab}2" "b${tab}7" "c${tab}5" partition p=a p=b p=c \
    "id${tab}table${tab}partition${tab}type${tab}state${tab}held_by" "1${tab}t${tab}p=a${tab}major${tab}succeeded${tab}NULL" \
    "2${tab}t${tab}p=b${tab}minor${tab}ready for cleaning${tab}NULL" "3${tab}t${tab}p=c${tab}minor${tab}succeeded${tab}NULL" \
    "4${tab}t${tab}p=c${tab}major${tab}failed${tab}NULL" "5${tab}t${tab}p=b${tab}minor${tab}initiated${tab}NULL"
so "no job ended meanwhile" is ends "${kinds_ended[@]}"
so "ids go on behind the forgotten one" is directories p=a/base_0000003 p=a/delete_delta_0000007_0000007_0000 \
    p=a/delta_0000006_0000006_0000 p=a/delta_0000007_0000007_0000 p=b/delete_delta_0000008_0000008_0000 \
    p=b/delta_0000001_0000001_0000 p=b/delta_0000001_0000002 p=b/delta_0000006_0000006_0000 \
    p=c/@.stage_0000004_base_0000004 p=c/delta_0000004_0000004_0000

# ---- a job that was at work

# The row of an INSERT was updated in p=a, and a job was picked up: a minor one is to make a delta and a delete delta of the ids 1 and 2,
# a major one a base of 2.
at_work() {
    begun
    made 1 1 'CREATE TABLE t (a INT) PARTITIONED BY (p STRING)'
    wrote 2 1 "INSERT INTO t VALUES (1,'a')" p=a 1 0
    wrote 3 2 'UPDATE t SET a = 2 WHERE a = 1' p=a 1 1
    note "$(asked 1 1 p=a "$1")" "$(picked 1 2)"
    put p=a/delta_0000001_0000001_0000 0 "$(row 1 0 1)"
    put p=a/delta_0000002_0000002_0000 0 "$(row 2 0 2)"
    put p=a/delete_delta_0000002_0000002_0000 1 "$(gone 1 0 2)"
}

# wide PREFIX: what it makes of the inserts; wide_deletes PREFIX: and of the deletes.
wide() {
    put "p=a/$1delta_0000001_0000002" 0 "$(row 1 0 1)" "$(row 2 0 2)"
}

wide_deletes() {
    put "p=a/$1delete_delta_0000001_0000002" 1 "$(gone 1 0 2)"
}

own=(p=a/delete_delta_0000002_0000002_0000 p=a/delta_0000001_0000001_0000 p=a/delta_0000002_0000002_0000)
both=(p=a/delete_delta_0000001_0000002 p=a/delete_delta_0000002_0000002_0000 p=a/delta_0000001_0000001_0000 p=a/delta_0000001_0000002 p=a/delta_0000002_0000002_0000)

# opens_twice NAME COUNT LINE..: the first opening notes so many entries, these, and the second one that it was opened.
opens_twice() {
    local name=$1 count=$2
    shift 2
    closed
    run wh </dev/null
    so "$name: the folder opens" is_status 0
    so "$name: nothing is printed" silent
    so "$name: the opening ends the job" last "$count" "$@"
    cp wh/journal before
    directories >stood
    run wh </dev/null
    so "$name: the folder opens again" is_status 0
    so "$name: it was the end" last 1 'Boot run 2'
    so "$name: and the entries before stand" cmp -n "$(($(stat -c %s before) - 1))" before wh/journal
    so "$name: and the files" is directories "$(cat stood)"
}

# goes_on NAME: the row is read, and the table goes on.
goes_on() {
    asks 'SELECT * FROM t' "INSERT INTO t VALUES (3,'a')" 'UPDATE t SET a = 4 WHERE a = 2' 'SELECT * FROM t ORDER BY a'
    so "$1: the table goes on" is_status 0
    so "$1: by the rows that stood" is printed "a${tab}p" "2${tab}a" 'OK inserted 1 deleted 0' 'OK inserted 1 deleted 1' \
        "a${tab}p" "3${tab}a" "4${tab}a"
}

echo "== a job that was at work"
at_work minor
wide @.stage_0000001_
opens_twice "no directory stands" 2 'Boot run 1' 'Failed job 1, cause Lost'
so "no directory stands: what was staged is gone" is directories "${own[@]}"
goes_on "no directory stands"

at_work minor
wide ''
wide_deletes @.stage_0000001_
opens_twice "one of two stands" 2 'Boot run 1' 'Failed job 1, cause Lost'
so "one of two stands: both are gone" is directories "${own[@]}"
goes_on "one of two stands"

at_work minor
wide @.stage_0000001_
wide_deletes ''
opens_twice "the other one stands" 2 'Boot run 1' 'Failed job 1, cause Lost'
so "the other one stands: both are gone" is directories "${own[@]}"
goes_on "the other one stands"

at_work minor
wide ''
wide_deletes ''
opens_twice "both stand" 2 'Boot run 1' 'Published job 1, low 1, high 2, mark 4'
so "both stand: nothing is gone" is directories "${both[@]}"
rm -r "${own[@]/#/wh/tables/0000001/}"
goes_on "both stand, and what they cover is gone"

at_work minor
wide ''
wide_deletes ''
note "$(opened 4 'SELECT * FROM t')" "$(start 4)"
opens_twice "a reader was open" 3 'Boot run 1' 'Abort transaction 4, cause Lost' 'Published job 1, low 1, high 2, mark 5'
goes_on "a reader was open"

for stands in none both; do
    at_work minor
    [ $stands = none ] || wide ''
    [ $stands = none ] || wide_deletes ''
    note "$(opened 4 'DROP TABLE t')" "$(start 4)" "$(drop 4 1)"
    opens_twice "the table was dropped, $stands" 2 'Boot run 1' 'Failed job 1, cause Gone'
    so "the table was dropped, $stands: the job's are gone, and the others stand" is directories "${own[@]}"
    asks 'SELECT * FROM t' 'CREATE TABLE t (a INT)' 'INSERT INTO t VALUES (9)' 'SELECT * FROM t'
    so "the table was dropped, $stands: its name is free" is printed 'FAILED 10 NoTable' OK 'OK inserted 1 deleted 0' a 9
done

at_work major
put p=a/@.stage_0000001_base_0000002 0 "$(row 2 0 2)"
opens_twice "a base is staged" 2 'Boot run 1' 'Failed job 1, cause Lost'
so "a base is staged: it is gone" is directories "${own[@]}"
goes_on "a base is staged"

at_work major
put p=a/base_0000002 0 "$(row 2 0 2)"
opens_twice "a base stands" 2 'Boot run 1' 'Published job 1, low 1, high 2, mark 4'
so "a base stands: nothing is gone" is directories p=a/base_0000002 "${own[@]}"
rm -r "${own[@]/#/wh/tables/0000001/}"
goes_on "a base stands, and what it covers is gone"

# Behind a published minor job there is one delta and one delete delta, and so no work for another one: it makes none, and those under its range stand.
at_work minor
note "$(published 1 1 2 4)" "$(asked 2 1 p=a minor)" "$(picked 2 2)"
wide ''
wide_deletes ''
opens_twice "nothing is to be merged" 2 'Boot run 1' 'Failed job 2, cause Lost'
so "nothing is to be merged: nothing is gone" is directories "${both[@]}"
goes_on "nothing is to be merged"

# The base of a partition whose rows are all deleted has an empty bucket 0.
begun
made 1 1 'CREATE TABLE t (a INT) PARTITIONED BY (p STRING)'
wrote 2 1 "INSERT INTO t VALUES (1,'a')" p=a 1 0
wrote 3 2 'DELETE FROM t WHERE a = 1' p=a 0 1
note "$(asked 1 1 p=a major)" "$(picked 1 2)"
put p=a/delta_0000001_0000001_0000 0 "$(row 1 0 1)"
put p=a/delete_delta_0000002_0000002_0000 1 "$(gone 1 0 2)"
put p=a/base_0000002 0
opens_twice "a base of no row" 2 'Boot run 1' 'Published job 1, low 1, high 2, mark 4'
rm -r wh/tables/0000001/p=a/d*
asks 'SELECT count(*) AS n FROM t' "INSERT INTO t VALUES (2,'a')" 'SELECT * FROM t'
so "a base of no row: it shows none, and the table goes on" is printed n 0 'OK inserted 1 deleted 0' "a${tab}p" "2${tab}a"

# ---- what a query opens

# A base covers the ids 1 to 3, whose deltas stand still; above it stand the deltas of 4 to 13.
ten_deltas() {
    local n
    begun
    made 1 1 'CREATE TABLE t (a INT)'
    for n in $(seq 13); do
        wrote $((n + 1)) "$n" "INSERT INTO t VALUES ($n)" '' 1 0
        put "$(printf 'delta_%07d_%07d_0000' "$n" "$n")" 0 "$(row "$n" 0 "$n")"
        if [ "$n" = 3 ]; then
            note "$(asked 1 1 '' major)" "$(picked 1 3)" "$(published 1 1 3 5)"
            put base_0000003 0 "$(row 1 0 1)" "$(row 2 0 2)" "$(row 3 0 3)"
        fi
    done
    closed
}

# The files that the traced run opened, each as often.
opened_files() {
    grep -oE '(base|delta)_[0-9_]*/bucket_[0-9]+' calls | LC_ALL=C sort
}

ten_files() {
    echo base_0000003/bucket_00000
    seq -f 'delta_%07g' 4 13 | sed 's|_\(.*\)|&_\1_0000/bucket_00000|'
}

echo "== a query over a base and ten deltas"
ten_deltas
query='SELECT count(*) AS n, sum(a) AS s FROM t'
if strace -f -qqq -e trace=none -o /dev/null true 2>/dev/null; then
    echo "$query;" >script
    strace -f -qqq -e trace=open,openat,openat2 -o calls "$program" wh run <script >out 2>err
    status=$?
    so "it is done" is_status 0
    so "it shows the rows of all" is printed "n${tab}s" "13${tab}91"
    so "it opens the base and the ten deltas, each once, and no file that the base covers" diff <(opened_files) <(ten_files)
fi
for n in 1 2 3; do spoilt "delta_000000${n}_000000${n}_0000"; done
asks "$query"
so "what the base covers may hold anything" is printed "n${tab}s" "13${tab}91"
rm -r wh/tables/0000001/delta_000000[123]_*
asks "$query"
so "or be gone" is printed "n${tab}s" "13${tab}91"

# ---- a run that compacts and cleans

# passes DIRECTIVE..: runs them as a script.
passes() {
    printf '%s\n' "$@" >script
    run wh <script
}

# Of three write ids in p=a the third deletes, and one of them is in p=b, too; a statement asks for a base of p=a.
to_compact() {
    fresh
    asks 'CREATE TABLE t (a INT) PARTITIONED BY (p STRING)' "INSERT INTO t VALUES (1,'a')" "INSERT INTO t VALUES (2,'a'),(3,'b')" \
        'DELETE FROM t WHERE a = 1' "ALTER TABLE t PARTITION (p='a') COMPACT 'major'"
}

its_rows=("p${tab}a" "a${tab}2" "b${tab}3")
its_files=(p=a/delete_delta_0000003_0000003_0000 p=a/delta_0000001_0000001_0000 p=a/delta_0000002_0000002_0000)
of_b=p=b/delta_0000002_0000002_0000

# shows NAME: the rows are those that stood.
shows() {
    asks 'SELECT p, a FROM t ORDER BY p, a'
    so "$1: the folder opens" is_status 0
    so "$1: and its rows are shown" is printed "${its_rows[@]}"
}

echo "== a run that compacts and cleans"
to_compact
so "it is asked for" is_status 0
so "and nothing is done yet" is directories "${its_files[@]}" "$of_b"
passes '!compact'
so "it is compacted" is_status 0
so "nothing is printed" silent
so "the job has published its range" is ends 'Published job 1, low 1, high 3, mark 6'
so "its base stands beside what it covers" is directories p=a/base_0000003 "${its_files[@]}" "$of_b"
so "with the row that stands" cmp wh/tables/0000001/p=a/base_0000003/bucket_00000 <(bytes "4856523100$(four 0)$(eight 1)$(row 2 0 2)")
shows "behind it"
passes '!clean'
so "it is cleaned" is_status 0
so "and nothing is printed" silent
so "the job is cleaned" is ends 'Published job 1, low 1, high 3, mark 6' 'Cleaned job 1'
so "its base stands alone" is directories p=a/base_0000003 "$of_b"
shows "behind that"
passes '!compact' '!clean'
so "then nothing is due" is ends 'Published job 1, low 1, high 3, mark 6' 'Cleaned job 1'

# The job has one end, by which its base stands alone or what statements wrote does.
ended_once() {
    if [ "$(ends)" = 'Failed job 1, cause Lost' ]; then
        is directories "${its_files[@]}" "$of_b"
    else
        [ "$(ends | grep -c '^Published job 1, low 1, high 3, ')" = 1 ] && [ "$(ends | tail -n +2)" = 'Cleaned job 1' ] \
            && is directories p=a/base_0000003 "$of_b"
    fi
}

killed_while_compacting() {
    local name number tried=0 lost=0
    to_compact
    cp -r wh asked
    printf '%s\n' '!compact' '!clean' >passing
    cp passing script
    traced wh
    so "one that isn't killed compacts and cleans" ended_once
    numbered wh | changing | each_of "$every" >list
    while read -r -u 3 name number _; do
        rm -rf wh
        cp -r asked wh
        cp passing script
        at_call "$name" "$number" signal=KILL wh
        so "it is killed before $name $number" [ "$status" -gt 128 ]
        shows "behind a kill before $name $number"
        passes '!compact' '!clean'
        so "a later run compacts and cleans behind a kill before $name $number" is_status 0
        so "the job has ended once behind a kill before $name $number" ended_once
        shows "then, behind a kill before $name $number"
        ends | grep -q '^Failed ' && lost=$((lost + 1))
        tried=$((tried + 1))
    done 3<list
    so "at some of them the job was lost" [ $lost -gt 0 ]
    echo "killed before $tried calls of a run that compacts and cleans, of which $lost lost the job"
}

# ---- calls that fail in it

# phases: of the numbered calls of such a run, what comes of each where it fails: `stops` in the opening, in a call for the journal and where the
# base gets its name; `reads` and `writes` in what the job reads and puts; `leaves` in what a pass removes; `passes` in what it only lists, and
# where the run looks whether there is a /proc, without which it goes by names. What is looked at before a change belongs to the change.
phases() {
    awk '
        { line[NR] = $0 }
        function back(at) {
            while (at > 1 && line[at - 1] ~ /^statx /) at--
            return at
        }
        !list && /\/0000001/ { list = NR }
        list && !put && /^mkdir / { put = back(NR) }
        !named && /^rename [0-9]+ .*@\.stage_[^"]*", "[^"]*\/base_/ { named = back(NR) }
        named && !published && /^fdatasync / { synced++; if (synced == 2) published = NR }
        published && !cleaning && /^pwrite64 [0-9]+ .*\/journal>/ { cleaning = back(NR) }
        cleaning && !cleaned && /^fdatasync / { last++; if (last == 2) cleaned = NR }
        END {
            list = back(list)
            for (at = 1; at <= NR; at++) {
                if (line[at] ~ /^statx [0-9]+ .*"\/proc\/self\/fd\/[0-9]+\/\."/) what = "passes"
                else if (at < list) what = "stops"
                else if (at < put) what = "reads"
                else if (at < named) what = "writes"
                else if (at <= published) what = "stops"
                else if (at < cleaning) what = "leaves"
                else if (at <= cleaned) what = "stops"
                else what = "passes"
                if (line[at] ~ /^(statx|openat|read|getdents64|mkdir|rmdir|unlink|rename|write|pwrite64|fsync|fdatasync|flock) /) print what, line[at]
            }
        }'
}

# came_of WHAT: it came to that.
came_of() {
    case $1 in
    stops) is_status 5 || is_status 3 ;;
    reads) is_status 0 && is ends 'Failed job 1, cause ReadFault 1' ;;
    writes) is_status 0 && is ends 'Failed job 1, cause WriteFault 1' ;;
    leaves) is_status 0 && is ends 'Published job 1, low 1, high 3, mark 6' ;;
    passes) is_status 0 && is ends 'Published job 1, low 1, high 3, mark 6' 'Cleaned job 1' ;;
    esac
}

failing_while_compacting() {
    local what name number kind
    to_compact
    cp -r wh asked
    printf '%s\n' '!compact' '!clean' >passing
    cp passing script
    traced wh
    numbered wh | phases | each_of "$every" >list
    while read -r -u 3 what name number _; do
        rm -rf wh
        cp -r asked wh
        cp passing script
        at_call "$name" "$number" error=EIO wh
        so "$what where $name $number fails" came_of "$what"
        so "nothing is printed where $name $number fails" silent
        shows "behind $name $number, which failed"
        asks "ALTER TABLE t PARTITION (p='a') COMPACT 'major'"
        passes '!compact' '!clean'
        so "a later run compacts and cleans behind $name $number, which failed" is_status 0
        so "the base stands alone then, behind $name $number, which failed" is directories p=a/base_0000003 "$of_b"
        shows "then, behind $name $number, which failed"
    done 3<list
    for kind in stops reads writes leaves passes; do
        so "some call $kind" grep -q "^$kind " list
    done
    echo "calls that failed once in a run that compacts and cleans: $(cut -d ' ' -f 1 list | sort | uniq -c | tr -s ' \n' ' ')"
}

if [ "$every" -gt 0 ] && command -v strace >/dev/null; then
    echo "== one that is killed"
    killed_while_compacting
    echo "== one of which a call fails"
    failing_while_compacting
fi

# ---- sessions beside compactions and passes

# scripted LINE..: runs these lines as a script over a new folder.
scripted() {
    fresh
    printf '%s\n' "$@" >script
    run wh <script
}

title="id${tab}table${tab}partition${tab}type${tab}state${tab}held_by"

# job NUMBER KIND STATE HOLDER: its line in SHOW COMPACTIONS.
job() {
    echo "$1${tab}t${tab}${tab}$2${tab}$3${tab}$4"
}

# own_deltas FIRST LAST: the directories of what these write ids inserted.
own_deltas() {
    local n
    for n in $(seq "$1" "$2"); do printf 'delta_%07d_%07d_0000\n' "$n" "$n"; done
}

# stand DIRECTORY..: these stand, and what the write ids from the first number of `with` to the second inserted.
stand() {
    diff <(directories) <({ printf '%s\n' "$@" && own_deltas "${with[@]}"; } | LC_ALL=C sort)
}

# A reader is held when it has its files, while a third row comes, and a compaction and a pass run.
beside=('CREATE TABLE t (a INT);' 'INSERT INTO t VALUES (1);' 'INSERT INTO t VALUES (2);' '!session r' '!hold read' 'SELECT * FROM t;' '!session w'
    'INSERT INTO t VALUES (3);' "ALTER TABLE t COMPACT 'major';" '!compact' '!clean' 'SHOW COMPACTIONS;' '!go r' '!clean' 'SHOW COMPACTIONS;'
    'SELECT * FROM t;')
its_lines=(OK 'OK inserted 1 deleted 0' 'OK inserted 1 deleted 0' '-- session r' '-- session w' 'OK inserted 1 deleted 0' OK
    "$title" "$(job 1 major 'ready for cleaning' 4)" a 1 2 "$title" "$(job 1 major succeeded NULL)" a 1 2 3)

echo "== sessions beside compactions and passes"
scripted "${beside[@]}"
so "a reader that is held at its files: it is done" is_status 0
so "and what it prints stood at its beginning" is printed "${its_lines[@]}"
so "the job is published and cleaned" is ends 'Published job 1, low 1, high 3, mark 7' 'Cleaned job 1'
so "the base stands alone" is directories base_0000003
so "with the three rows" cmp wh/tables/0000001/base_0000003/bucket_00000 <(bytes "4856523100$(four 0)$(eight 3)$(row 1 0 1)$(row 2 0 2)$(row 3 0 3)")

scripted 'CREATE TABLE t (a INT);' 'INSERT INTO t VALUES (1);' '!session a' '!hold commit' 'INSERT INTO t VALUES (2);' '!session r' '!hold start' \
    'SELECT * FROM t;' '!go a' '!session w' "ALTER TABLE t COMPACT 'major';" '!compact' '!clean' '!go r'
so "a reader that is held at its start: it is done" is_status 0
so "and goes by its snapshot, though a base stands that it can't use" is printed OK 'OK inserted 1 deleted 0' '-- session a' '-- session r' \
    'OK inserted 1 deleted 0' '-- session w' OK a 1
so "the job is published, and not cleaned" is ends 'Published job 1, low 1, high 2, mark 6'
with=(1 2)
so "what it read stands beside the base" stand base_0000002

scripted 'CREATE TABLE t (a INT);' 'INSERT INTO t VALUES (1);' '!session a' '!hold commit' 'INSERT INTO t VALUES (2);' '!session b' \
    'INSERT INTO t VALUES (3);' "ALTER TABLE t COMPACT 'major';" '!compact' 'SHOW COMPACTIONS;' '!go a'
so "an open write id: it is done" is_status 0
so "and holds up the compaction" is printed OK 'OK inserted 1 deleted 0' '-- session a' '-- session b' 'OK inserted 1 deleted 0' OK \
    "$title" "$(job 1 major succeeded NULL)" 'OK inserted 1 deleted 0'
so "which has nothing to merge" is ends 'Empty job 1'
so "and no base stands" diff <(directories) <(own_deltas 1 3)

scripted 'CREATE TABLE t (a INT);' '!session a' '!hold commit' 'INSERT INTO t VALUES (1);' '!session b' 'ABORT TRANSACTIONS 2;' '!clean' \
    'SHOW TRANSACTIONS;' '!go a' 'SELECT * FROM t;'
so "an aborted write id: a statement was refused" is_status 1
so "whose transaction is shown no more" is printed OK '-- session a' '-- session b' OK "txnid${tab}state${tab}session" "4${tab}open${tab}b" \
    'FAILED 31 Aborted by 3' a
so "it is forgotten, once" [ "$(entries | grep '^Forgot')" = 'Forgot table 1, write 1' ]
so "and no file stands" [ -z "$(directories)" ]

# so many single INSERTs, of these rows.
inserting() {
    seq -f 'INSERT INTO t VALUES (%.0f);' "$1" "$2"
}

# rows_of FIRST LAST: the records of single rows of these write ids.
rows_of() {
    local n
    for n in $(seq "$1" "$2"); do row "$n" 0 "$n"; done | tr -d '\n'
}

mapfile -t first < <(inserting 1 11)
mapfile -t second < <(inserting 12 22)
mapfile -t acknowledged < <(printf 'OK inserted 1 deleted 0\n%.0s' $(seq 11))
scripted 'CREATE TABLE t (a INT);' "${first[@]}" '!compact' 'SHOW COMPACTIONS;' 'SET hive.compactor.delta.pct.threshold=2.5;' "${second[@]}" \
    '!compact' 'SHOW COMPACTIONS;'
so "eleven and eleven inserts: it is done" is_status 0
so "a major one is due, and then a minor one" is printed OK "${acknowledged[@]}" "$title" "$(job 1 major 'ready for cleaning' NULL)" OK \
    "${acknowledged[@]}" "$title" "$(job 1 major 'ready for cleaning' NULL)" "$(job 2 minor 'ready for cleaning' NULL)"
so "of these ranges" is ends 'Published job 1, low 1, high 11, mark 13' 'Published job 2, low 12, high 22, mark 26'
with=(1 22)
so "their directories stand beside what they cover" stand base_0000011 delta_0000012_0000022
so "the base has eleven rows" cmp wh/tables/0000001/base_0000011/bucket_00000 <(bytes "4856523100$(four 0)$(eight 11)$(rows_of 1 11)")
so "and the delta the others" cmp wh/tables/0000001/delta_0000012_0000022/bucket_00000 <(bytes "4856523100$(four 0)$(eight 11)$(rows_of 12 22)")
passes '!clean'
so "a pass leaves these two" is directories base_0000011 delta_0000012_0000022
asks 'SELECT count(*) AS n, sum(a) AS s FROM t'
so "with all rows" is printed "n${tab}s" "22${tab}253"

# ---- such a run that is killed

# While the reader, the fourth transaction, is open, what it may read stands.
reader_has_its_files() {
    entries >book 2>/dev/null
    grep -q '^Start transaction 4,' book || return 0
    grep -qE '^(Commit|Abort) transaction 4(,|$)' book && return 0
    [ "$(directories | grep -cE '^delta_(0000001_0000001|0000002_0000002)_0000$')" = 2 ]
}

# Each row is there whose INSERT was acknowledged (`first` is what the run had printed), and at most the next one.
rows_are_kept() {
    local known count
    known=$(grep -c '^OK inserted 1 deleted 0$' first)
    if [ "$(cat out)" = 'FAILED 10 NoTable' ]; then
        [ ! -s first ]
        return
    fi
    for count in "$known" $((known + 1)); do
        [ "$(cat out)" = "$(echo a && seq "$count")" ] && return 0
    done
    return 1
}

# With two rows and more a base stands alone, with one its delta, and with none nothing.
one_is_left() {
    case $(wc -l <shown) in
    0 | 1) [ -z "$(directories 2>/dev/null)" ] ;;
    2) is directories "$(own_deltas 1 1)" ;;
    3) is directories base_0000002 || is directories base_0000003 ;;
    *) is directories base_0000003 ;;
    esac
}

killed_beside_a_reader() {
    local name number tried=0 at
    fresh
    printf '%s\n' "${beside[@]}" >lines
    cp lines script
    traced wh
    so "one that isn't killed prints what it should" is printed "${its_lines[@]}"
    numbered wh | changing | each_of "$every" >list
    while read -r -u 3 name number _; do
        at="behind a kill before $name $number of a run beside a reader"
        rm -rf wh
        cp lines script
        at_call "$name" "$number" signal=KILL wh
        so "it is killed $at" [ "$status" -gt 128 ]
        cp out first
        so "what the reader may read stands $at" reader_has_its_files
        asks 'SELECT * FROM t'
        so "the folder opens $at" [ "$status" -lt 2 ]
        so "with all that was acknowledged $at" rows_are_kept
        grep -v '^FAILED' out >shown
        passes "ALTER TABLE t COMPACT 'major';" '!compact' '!clean' 'SHOW COMPACTIONS;'
        so "no compaction is under way $at" [ -z "$(grep -E "${tab}(initiated|working|ready for cleaning)${tab}" out)" ]
        so "one directory is left $at" one_is_left
        asks 'SELECT * FROM t'
        so "and the same rows $at" cmp -s shown <(grep -v '^FAILED' out)
        tried=$((tried + 1))
    done 3<list
    echo "killed before $tried calls of a run that compacts and cleans beside a reader"
}

if [ "$every" -gt 0 ] && command -v strace >/dev/null; then
    echo "== such a run that is killed"
    killed_beside_a_reader
fi

# ---- an opening that is killed

# One job of p=a of which one directory of two stands, and a major one of p=b whose base stands.
two_at_work() {
    at_work minor
    wrote 4 3 "INSERT INTO t VALUES (5,'b')" p=b 1 0
    wrote 5 4 "INSERT INTO t VALUES (6,'b')" p=b 1 0
    note "$(asked 2 1 p=b major)" "$(picked 2 4)"
    put p=b/delta_0000003_0000003_0000 0 "$(row 3 0 5)"
    put p=b/delta_0000004_0000004_0000 0 "$(row 4 0 6)"
    put p=b/base_0000004 0 "$(row 3 0 5)" "$(row 4 0 6)"
    wide ''
    wide_deletes @.stage_0000001_
    closed
}

killed_while_opening() {
    local name number tried=0
    two_at_work
    : >script
    traced wh
    so "one that isn't killed ends both" is ends 'Failed job 1, cause Lost' 'Published job 2, low 1, high 4, mark 6'
    numbered wh | changing | each_of "$every" >list
    while read -r -u 3 name number _; do
        two_at_work
        : >script
        at_call "$name" "$number" signal=KILL wh
        so "it is killed before $name $number" [ "$status" -gt 128 ]
        asks 'SELECT p, a FROM t ORDER BY p, a'
        so "the folder opens behind a kill before $name $number" is_status 0
        so "each job has ended once behind a kill before $name $number" is ends 'Failed job 1, cause Lost' 'Published job 2, low 1, high 4, mark 6'
        so "and its directories are gone, or stand, behind a kill before $name $number" is directories "${own[@]}" p=b/base_0000004 \
            p=b/delta_0000003_0000003_0000 p=b/delta_0000004_0000004_0000
        so "and the rows stand behind a kill before $name $number" is printed "p${tab}a" "a${tab}2" "b${tab}5" "b${tab}6"
        tried=$((tried + 1))
    done 3<list
    so "an opening was killed at some calls" [ $tried -gt 0 ]
    echo "killed before $tried calls of a run that opens a folder"
}

if [ "$every" -gt 0 ] && command -v strace >/dev/null; then
    echo "== an opening that is killed"
    killed_while_opening
fi
ended
