# What the scripts of cases have in common: each runs the built program over real files, in a place of its own, and counts
# the cases that are so. `program` is the program.
# shellcheck shell=bash
program=$(realpath "${1:?the built program, as crates/hive/out/hive}") || exit 2
place=$(mktemp -d) || exit 2
trap 'rm -rf "$place"' EXIT
cd "$place" || exit 2
right=0
wrong=0

# so NAME COMMAND..: counts whether the command succeeds.
so() {
    local name=$1
    shift
    if "$@"; then
        right=$((right + 1))
    else
        wrong=$((wrong + 1))
        echo "not so: $name"
    fi
}

# run FOLDER WORD..: runs the script of standard input; the status is in $status, what it printed in out and err.
run() {
    local folder=$1
    shift
    "$program" "$folder" run "$@" >out 2>err
    status=$?
}

fresh() {
    rm -rf "${place:?}"/*
}

is_status() {
    [ "$status" = "$1" ]
}

said() {
    grep -qF -- "$1" err
}

silent() {
    [ ! -s out ]
}

# traced FOLDER: runs the script `script` over it, and notes its calls of the system in `calls`, with the paths of what is open.
traced() {
    strace -f -qqq -y -o calls "$program" "$1" run <script >out 2>err
    status=$?
}

# numbered FOLDER: of these calls, from the first one that names the folder on, the name, how often the process called it up to there,
# which is how strace counts, and the whole line.
numbered() {
    awk -v folder="\"$1" '{ process = $1; sub(/^[0-9]+ +/, "") }
        match($0, /^[a-z0-9_]+\(/) {
            name = substr($0, 1, RLENGTH - 1)
            count[process, name]++
            if (name != "execve" && index($0, folder)) begun = 1
            if (begun) print name, count[process, name], $0
        }' calls
}

# changing: those of standard input that change something. A run that is killed before any other call leaves what one leaves that is killed
# before the next of these.
changing() {
    grep -E '^(mkdir|rmdir|unlink|rename|write|pwrite64|fsync|fdatasync) |^openat [0-9]+ .*O_CREAT'
}

# each_of COUNT: the first line of standard input, and each so manyth one.
each_of() {
    awk -v every="$1" 'NR % every == 1 || every == 1'
}

# at_call NAME NUMBER WHAT FOLDER: runs the script over the folder; at this call of the system strace does what is said (its `inject`).
at_call() {
    { strace -f -qqq -o /dev/null -e trace="$1" -e inject="$1:$3:when=$2" "$program" "$4" run <script >out 2>err; } 2>/dev/null
    status=$?
}

# Says how many cases are so, with status 1 where one isn't.
ended() {
    echo "$right cases are so, $wrong aren't"
    [ $wrong = 0 ]
}
