#!/bin/sh
# Proves the libraries that a crate stands on, of this repository or of another one: tools/ship/prove.sh CRATE [FOLDER].
# It says which crates it proves and how many are left, and skips what hasn't changed since it was proved. Crates that
# don't stand on each other go side by side: as many as there are processors, with 4 GB of free memory for each.
# PROCESSORS=1 proves one at a time.
#
# `rt lib` lets no other `rt` work in the folders of its crate and of those below. So a crate that goes beside another
# is proved in a copy, outside of the repository, and `rt lib` in its own folder takes what was proved there.
set -eu
tools=$(cd "$(dirname "$0")" && pwd)
cd "${2:-$tools/../..}"
mkdir -p bin
crates=$(awk -F: -v tops="$1" -f "$tools/below.awk" crates.txt | sed '$d')
running=
work=$(mktemp -d)

# Ends what still runs.
stop() {
    trap '' HUP INT PIPE TERM
    for crate in $running; do eval "kill \$job_$crate" 2> "$work/none" || true; done
    wait
    rm -rf "$work"
}
trap stop EXIT
trap 'exit 129' HUP
trap 'exit 130' INT
trap 'exit 141' PIPE
trap 'exit 143' TERM

# Whether a list of crates has one that the crate's row names.
stands_on() { # CRATE LIST
    for library in $(sed -n "/^$1[ :]/s/^[^:]*://p" crates.txt); do
        case " $2 " in *" $library "*) return 0 ;; esac
    done
    return 1
}

# Whether a file of the crate, or the proof of a crate below it, is newer than its last proof, or there was none.
changed() { # CRATE
    [ -d "crates/$1/out/rlib" ] && [ -f "bin/$1.proved" ] || return 0
    for below in $(awk -F: -v tops="$1" -f "$tools/below.awk" crates.txt | sed '$d'); do
        [ -z "$(find "bin/$below.proved" -newer "bin/$1.proved")" ] || return 0
    done
    [ -n "$(find "crates/$1" crates.txt \( -name out -o -name must-fail -o -name edits \) -prune -o \
        -type f -newer "bin/$1.proved" -print)" ]
}

# Copies a crate and those below it, without what was proved of them.
lay_out() { # CRATE FOLDER
    mkdir -p "$2/crates" || return 1
    [ ! -f HANDLES ] || cp -p HANDLES "$2" || return 1
    for copied in $(awk -F: -v tops="$1" -f "$tools/below.awk" crates.txt); do
        grep "^$copied[ :]" crates.txt >> "$2/crates.txt" && mkdir "$2/crates/$copied" || return 1
        for part in src specs proofs; do
            [ ! -d "crates/$copied/$part" ] || cp -Rp "crates/$copied/$part" "$2/crates/$copied" || return 1
        done
    done
}

# Runs `rt lib`, which ends with the shell that runs it.
rt_lib() { # CRATE FOLDER
    (cd "$2/crates/$1" && exec rt lib) >> "bin/$1.log" 2>&1 &
    trap "kill $! 2> '$work/none'; wait $!; exit 1" TERM
    wait $!
}

# Begins to prove a crate, in a folder too where one is named. Its status is in a file of its name when it has ended.
start() { # CRATE [FOLDER]
    : > "bin/$1.log"
    {
        status=0
        if [ $# -eq 1 ]; then rt_lib "$1" .; else lay_out "$@" && rt_lib "$@" && rt_lib "$1" .; fi || status=$?
        echo "$status" > "$work/$1.new"
        mv "$work/$1.new" "$work/$1.ended"
    } &
    eval "job_$1=$!"
}

processors=${PROCESSORS:-$(getconf _NPROCESSORS_ONLN 2> "$work/none" || echo 1)}
kilobytes=$(sed -n 's/^MemAvailable: *\([0-9]*\) kB$/\1/p' /proc/meminfo 2> "$work/none" || true)
most=$((${kilobytes:-0} / 4000000))
[ "$most" -le "$processors" ] || most=$processors
[ "$most" -ge 1 ] || most=1

left=
for crate in $crates; do
    if stands_on "$crate" "$left" || changed "$crate"; then left="$left $crate"; fi
done
count=$(echo $left | wc -w)

in_place=
said=
while [ -n "$left$running" ]; do
    # Those that wait for no other, as many as may begin.
    begin=
    wait_on=
    places=$((most - $(echo $running | wc -w)))
    for crate in $left; do
        if [ "$places" -gt 0 ] && ! stands_on "$crate" "$left $running"; then
            begin="$begin $crate"
            places=$((places - 1))
        else
            wait_on="$wait_on $crate"
        fi
    done
    for crate in $begin; do
        if [ -z "$in_place" ] && [ "$begin" = " $crate" ]; then
            in_place=$crate
            start "$crate"
        else
            start "$crate" "$work/$crate"
        fi
        running="$running $crate"
    done
    left=$wait_on
    says="proving $(echo $running | sed 's/ / and /g'), $(echo $left $running | wc -w) of $count crates left"
    [ "$says" = "$said" ] || echo "$says"
    said=$says
    sleep 1
    still=
    for crate in $running; do
        if [ ! -f "$work/$crate.ended" ]; then
            still="$still $crate"
            continue
        fi
        [ "$(cat "$work/$crate.ended")" -eq 0 ] || { cat "bin/$crate.log"; exit 1; }
        touch "bin/$crate.proved"
        rm -rf "${work:?}/$crate"
        [ "$in_place" != "$crate" ] || in_place=
    done
    running=$still
done
echo "proving and linking $1"
