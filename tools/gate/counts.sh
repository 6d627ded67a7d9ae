#!/bin/sh
# Compares how much a check has compared with tools/gate/counts.txt: tools/gate/counts.sh CHECK "NUMBER WHAT" .., or
# CHECK skipped PROGRAM .. where this machine lacks what it needs; if programs are named, one of them must be missing.
# With no words, the gate's last step, it compares what all checks said since `make agree` began, so that one that said
# nothing is seen.
set -eu
cd "$(dirname "$0")/../.."
mkdir -p bin
said=bin/counts
if [ $# -gt 0 ]; then
    check=$1
    said=bin/counts.$$
    trap 'rm "$said"' EXIT
    shift
    if [ "$1" = skipped ] && [ $# -gt 1 ]; then
        shift
        lacks=
        for program; do command -v "$program" > /dev/null || lacks=$program; done
        [ -n "$lacks" ] || { echo "$check was skipped, and this machine has $*"; exit 1; }
        set -- skipped
    fi
    for count; do echo "$check $count"; done > "$said"
    cat "$said" >> bin/counts
fi
awk -v check="${check:-}" '
/^#/ { next }
{ what = $0; sub(/ [0-9]+[+]? /, " ", what) }
FILENAME == "tools/gate/counts.txt" { if (check == "" || $1 == check) wanted[what] = $2; next }
$2 == "skipped" { skipped[$1] = 1; next }
{ seen[what] = 1 }
!(what in wanted) || (wanted[what] ~ /[+]$/ ? $2 < wanted[what] + 0 : $2 != wanted[what]) {
    print $0 " were compared, and not " (what in wanted ? wanted[what] : "as tools/gate/counts.txt says")
    apart = 1
}
END {
    for (what in wanted) {
        rows++
        split(what, word, " ")
        if (what in seen || word[1] in skipped) continue
        print what " were not compared"
        apart = 1
    }
    if (check == "" && !apart) printf "%d counts are those of tools/gate/counts.txt\n", rows
    for (name in skipped) if (check == "") print name " was not counted: this machine lacks what it needs"
    exit apart || !rows
}' tools/gate/counts.txt "$said"
