#!/bin/sh
# Sees that the site can be made, without its generator: that each call has a comment and clauses, and, where there is
# python3, that each word of a clause leads to its definition and that the pictures are those of their tables.
set -eu
. "$(dirname "$0")/work.sh"

# Names each call that lacks something. A call of a trait's impl has the comment and the clauses of the trait. One that
# gives an allocator has no clause, since one allocator is as any other.
complete() { # EXTRACTION
    awk -F '\t' '
        function ends() {
            if (name == "") return
            if (!said) lacks("comment")
            if (!clauses && signature !~ /\(&self\) -> Global$/) lacks("clause")
            name = ""
        }
        function lacks(what) { print file ": " name " has no " what; apart = 1 }
        $1 == "D" { ends(); comment = 1; next }
        $1 == "C" {
            ends()
            calls++
            if ($3 != 1) { name = $2; said = comment; clauses = 0; signature = "" }
        }
        $1 == "F" { ends(); file = $2 }
        $1 == "S" { signature = signature $2 }
        $1 == "K" { clauses++ }
        { comment = 0 }
        END { ends(); if (!apart) print calls + 0; exit apart }' "$1"
}

tools/ship/extract.sh > "$work/calls"
complete "$work/calls" > "$work/said" || { cat "$work/said"; exit 1; }
calls=$(cat "$work/said")
# What this refuses: a call whose comment is gone, and one whose clauses are.
lost=0
for part in D K; do
    awk -F '\t' -v part=$part '$1 == "F" { inside = $2 ~ /ecow_list\/src\/vec\/push\.rt$/ } !inside || $1 != part' \
        "$work/calls" > "$work/less"
    if complete "$work/less" > "$work/said" || ! grep -q 'push.rt: push has no' "$work/said"; then
        echo "a call of push.rt without its lines $part isn't named"
        exit 1
    fi
    lost=$((lost + 1))
done
echo "$calls calls have a comment and clauses"
tools/gate/counts.sh agree_site.sh "$calls calls" "$lost losses seen"

command -v python3 > "$work/said" || {
    echo "words and pictures were not compared: this machine has no python3"
    tools/gate/counts.sh site_pages.py skipped python3
    tools/gate/counts.sh pictures.py skipped python3
    exit 0
}
tools/ship/site_pages.py --check > "$work/words" || { cat "$work/words"; exit 1; }
cat "$work/words"
tools/gate/counts.sh site_pages.py "$(sed 's/ .*//' "$work/words") calls"
tools/ship/pictures.py --check > "$work/pictures" || { cat "$work/pictures"; exit 1; }
cat "$work/pictures"
tools/gate/counts.sh pictures.py "$(sed 's/ .*//' "$work/pictures") pictures"
