#!/bin/sh
# Runs a script with no proof, in a build that stops where a promise is broken:
# tools/ship/try.sh [--counted] FILE. The answers come first, then messages and the status, with which it
# ends.
#
# The program stays in bin/try. The next call takes that program where the sources and the kit are the same. Where the
# program ends otherwise than docs/SCRIPT.md says, `rt try` builds it anew, runs the script and says what was broken.
set -u
flag=
if [ "${1:-}" = --counted ]; then
    flag=--counted
    shift
fi
if [ $# -ne 1 ]; then
    echo "make try SCRIPT=FILE, or make try SCRIPT=\"--counted FILE\", runs the script in FILE" >&2
    exit 1
fi
if [ ! -f "$1" ]; then
    echo "make try: there is no file $1" >&2
    exit 1
fi
file=$(realpath "$1")
work=$(mktemp -d)
copier=
stop() {
    [ -z "$copier" ] || kill "$copier" 2> "$work/none"
    rm -rf "$work"
}
trap stop EXIT
trap 'exit 129' HUP
trap 'exit 130' INT
trap 'exit 143' TERM
cd "$(dirname "$0")/../.." || exit 1
top=$(pwd)
kit=$(dirname "$(rt doc | head -n 1)")
mkdir -p bin/try
mkdir "$work/built" "$work/run"
ln -s "$file" "$work/run/script"

# Runs `rt try`, whose status is kept.
rt_try() { # WORD..
    (cd crates/ecow_run && TMPDIR=$work/built exec rt try "$@") > "$work/answers" 2> "$work/said"
    status=$?
}

# Prints what `rt try` said, and stops, where no program ended.
stop_unless_ended() {
    grep -q '^run=ended ' "$work/said" || {
        cat "$work/answers"
        cat "$work/said" >&2
        exit 1
    }
}

# Builds the program, and copies it while it waits for its script, a pipe that has no writer until then.
build() {
    echo "building the program without proofs, in half a minute .." >&2
    rm -f bin/try/sums
    mkfifo "$work/pipe"
    # The braces are entered when the program opens the pipe to read, and it reads on until they are left.
    { cp "$(find "$work/built" -name program)" "$work/program" || rm -f "$work/program"; } \
        2> "$work/none" > "$work/pipe" &
    copier=$!
    rt_try -- "$work/pipe"
    kill "$copier" 2> "$work/none"
    wait
    copier=
    if [ -f "$work/program" ]; then
        mv "$work/program" bin/try/program && cp "$work/sums" bin/try/sums
    else
        stop_unless_ended
    fi
}

# Runs the program as `rt try` does, and says whether it ends as docs/SCRIPT.md says.
run() {
    cmp -s "$work/sums" bin/try/sums || return
    libraries=$kit/toolchain/lib
    (
        cd "$work/run" && ulimit -t "${RT_SECONDS:-60}" &&
            exec env -i "$libraries/ld-linux-x86-64.so.2" --inhibit-cache --library-path "$libraries" \
                "$top/bin/try/program" $flag script
    ) < /dev/null > "$work/answers" 2> "$work/said"
    status=$?
    # The build tells of memory that isn't there.
    grep -v '^==[0-9]*==WARNING: AddressSanitizer failed to allocate ' "$work/said" > "$work/message"
    case $status in
        0) [ ! -s "$work/message" ] ;;
        1 | 3) [ "$(grep -c '' "$work/message")" -eq 1 ] && grep -q '^ecow-run: ' "$work/message" ;;
        *) false ;;
    esac
}

{
    echo "$kit"
    cat "$kit/KIT-ID"
    find crates.txt crates/*/src -type f -exec cksum {} + | LC_ALL=C sort -k 3
} > "$work/sums"
if cmp -s "$work/sums" bin/try/sums; then
    echo "taking the program that was built of the same sources" >&2
else
    build
fi
run 2> "$work/none" || {
    rt_try --data "script=$file" -- $flag script
    stop_unless_ended
}
cat "$work/answers"
grep -v -e '^checked: ' -e '^run=' "$work/said"
echo "(status $status, nothing was proved)"
exit "$status"
