#!/bin/sh
# Sees how the time of calls grows: goes round the loops of PROGRAM, which is ecow_bench, at a length and at sixteen
# times that, and compares what the table says of each: constant, linear or quadratic.
# usage: tools/gate/growth.sh PROGRAM
set -eu
. "$(dirname "$0")/start.sh"

# Goes round a loop, and sets `spent` to the hundredths of a second of a processor that it took.
spend() { # CALL ELEMENT LENGTH COUNT
    times > "$work/before"
    "$program" "$@" > "$work/seen" || { echo "$program fails on $*"; exit 1; }
    times > "$work/after"
    spent=$(sed -n 's/[ms]/ /g; 2p; 4p' "$work/before" "$work/after" |
        awk '{ seconds = $1 * 60 + $2 + $3 * 60 + $4 - seconds } END { printf "%d", 100 * seconds + 0.5 }')
    grep -qv '^0$' "$work/seen" || { echo "$program knows no $1 of $2"; exit 1; }
}

sed -n 's/^| `\([^`]*\)` | \([^ ]*\) | \([0-9]*\) | \([a-z]*\) |.*/\1 \2 \3 \4/p' crates/ecow_bench/growth.md > "$work/table"
rows=0
while read -r call element length growth; do
    count=1 spent=0
    while [ "$spent" -lt 6 ]; do
        count=$((count * 4))
        [ "$count" -lt 100000000000 ] || { echo "$call of $element takes no time"; exit 1; }
        spend "$call" "$element" "$length" "$count"
    done
    short=$spent
    # What grows by more than the length would take too long as often.
    spend "$call" "$element" $((16 * length)) $((count / 16 + 1))
    times=$((16 * spent / short))
    seen=quadratic
    [ "$times" -ge 100 ] || seen=linear
    [ "$times" -ge 4 ] || seen=constant
    if [ "$seen" != "$growth" ]; then
        echo "$call of $element at $length and sixteen times that: $times times, which is $seen, not $growth"
        exit 1
    fi
    rows=$((rows + 1))
done < "$work/table"
echo "growth: $rows calls take the time that their rows say at sixteen times the length"
tools/gate/counts.sh growth.sh "$rows calls"
