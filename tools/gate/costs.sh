#!/bin/sh
# Compares the tables of costs, docs/COSTS.md and those in crates/ecow_test_costs, with what PROGRAM, that crate's program
# built, prints while its requests for memory are counted. Says what differs, and whether memory isn't given back.
# usage: tools/gate/costs.sh PROGRAM
set -eu
. "$(dirname "$0")/start.sh"

{
    awk -f tools/gate/costs.awk docs/COSTS.md crates/ecow_test_costs/*.md
    echo " blocks left: 0 |"
} | sort > "$work/said"

tools/gate/shim.sh "$work/shim.so"
COUNT=1 LEFT=1 LD_PRELOAD=$work/shim.so "$program" > "$work/rows" 2> "$work/counts" || {
    cat "$work/counts"
    echo "$program ends with another status than 0"
    exit 1
}
paste -d ' ' "$work/rows" "$work/counts" | sed 's/$/ |/' | sort > "$work/counted"
diff "$work/said" "$work/counted" > "$work/apart" || {
    echo "The tables of costs (<) and what was counted (>) differ:"
    cat "$work/apart"
    exit 1
}
rows=$(grep -c '^|' "$work/counted")
tools/gate/counts.sh costs.sh "$rows rows" "$(sed 's/^|//' "$work/counted" | tr -cd '|' | wc -c) cells"
echo "$rows costs are as their tables say"
