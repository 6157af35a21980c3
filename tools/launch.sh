# What hive-try and hive-run have in common. `name` is the script's name, `top` the top of the clone.
# Statuses of their own, beside the program's 0 to 9: 69 where there is no kit, 70 where the program can't be built.
# shellcheck shell=sh disable=SC2154

say() {
    echo "$name: $*" >&2
}

usage() {
    cat <<END
usage: ./$name FOLDER run [--workers N] < SCRIPT
Runs the statements of SCRIPT over the store in FOLDER, which is made where it isn't there yet.
N, from 1 to 8, is on how many threads a query may work.
Replies go to standard output. The status is 0, or 1 where a statement was refused; above 1 the run stopped.
FOLDER is no empty word and doesn't begin with '-'; the folder in which it is to stand must be there.
       ./$name --help, --version, or --path: builds the program where it isn't, and prints its path
example: echo 'CREATE TABLE t (a INT); INSERT INTO t VALUES (1); SELECT * FROM t' | ./$name warehouse run
END
}

# The commit of the sources.
commit() {
    found=$(git -C "$top" rev-parse --short HEAD 2>/dev/null) || found=unknown
    [ -z "$(git -C "$top" status --porcelain -- crates crates.txt 2>/dev/null)" ] || found="$found with changes"
    echo "$found"
}

# The kit that is there.
kit() {
    if command -v rt >/dev/null 2>&1; then
        rt version 2>/dev/null | cut -d' ' -f1
    else
        echo "no kit"
    fi
}

# Whether the words are a folder and a command.
are_words() {
    case $1 in
    '' | -*) return 1 ;;
    esac
    [ "$2" = run ]
}

need_rt() {
    if ! command -v rt >/dev/null 2>&1; then
        say "there is no rt on the PATH: the program is built by the Rattle kit (README.md says which)"
        exit 69
    fi
}

# Answers what needs no program. `state` says whether there is one.
look_at_words() {
    case $1 in
    --help)
        usage
        exit 0
        ;;
    --version)
        echo "$name 0.1, commit $(commit), $(kit): $(state)"
        exit 0
        ;;
    --path) [ $# -eq 1 ] && return ;;
    esac
    if ! are_words "$1" "$2"; then
        echo "hive: bad words"
        usage >&2
        exit 2
    fi
}
