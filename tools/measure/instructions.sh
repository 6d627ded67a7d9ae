#!/bin/sh
# Counts by valgrind the instructions of one round of each loop of BENCH, which is ecow_bench, and of RUN, which is
# ecow_run, on large scripts, at a length and at sixteen times that, and compares them with the table. A row is apart that
# has a twentieth more or less.
# usage: tools/measure/instructions.sh BENCH RUN
set -eu
bench=$(realpath "$1")
run=$(realpath "$2")
cd "$(dirname "$0")/../.."
work=$(mktemp -d)
trap 'rm -r "$work"' EXIT
export LC_ALL=C

count() { # PROGRAM WORD..
    valgrind --tool=callgrind --callgrind-out-file="$work/calls" "$@" > "$work/seen" 2> "$work/said" || {
        cat "$work/said" >&2
        exit 1
    }
    sed -n 's/.*Collected : //p' "$work/said"
}

# One round: what six take beyond two.
round() { # CALL ELEMENT LENGTH
    few=$(count "$bench" "$@" 2)
    more=$(count "$bench" "$@" 6)
    echo $(((more - few) / 4))
}

script() { # PART STORE LENGTH
    awk -v part="$1" -v counted=0 -v many="$3" -v script="$work/script" -v answers="$work/answers" \
        -f tools/gate/large.awk
    case $2 in
        counted) count "$run" --counted "$work/script" ;;
        *) count "$run" "$work/script" ;;
    esac
}

rows=0
apart=0
while IFS='|' read -r _ call element length growth said many _; do
    case $call$element in
        *'`'*store* | *'`'*counted*) counts=script many=$said said=$growth ;;
        *'`'*) counts=round ;;
        *) continue ;;
    esac
    set -- $(echo "$call $element $length" | tr -d '`')
    now=$($counts "$@")
    then=$($counts "$1" "$2" $((16 * $3)))
    rows=$((rows + 1))
    for pair in "$said $now" "$many $then"; do
        echo "$pair" | awk '$1 * 20 > $2 * 21 || $2 * 20 > $1 * 21 { exit 1 }' || {
            echo "$1 of $2 at $3: $now instructions, $then at sixteen times that; the table has$said,$many"
            apart=$((apart + 1))
            break
        }
    done
done < crates/ecow_bench/growth.md
echo "instructions: $rows rows, $apart apart"
[ "$rows" -gt 0 ] && [ "$apart" -eq 0 ]
