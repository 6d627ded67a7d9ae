#!/bin/sh
# Runs PROGRAM on the golden scripts, in cases/ and examples/, and says which answers otherwise than expected. In a script
# each expected answer stands behind `#> `, and what the program says on standard error is the last one. A script whose
# name ends in counted.eco is run with --counted. Of one whose name ends in lines.eco each line is run alone. And runs it
# on the first example cut at each byte, in either store: a front of the answers, or an unreadable line and none of them.
# usage: tools/gate/cases.sh PROGRAM
set -eu
. "$(dirname "$0")/start.sh"

# What the program says of itself comes with a status up to 3; any other is a crash.
run() { # [--counted] SCRIPT
    status=0
    "$program" "$@" 2> "$work/message" || status=$?
    cat "$work/message"
    [ "$status" -le 3 ] || echo "status $status"
}

run_lines() { # SCRIPT
    while IFS= read -r line; do
        printf %s "$line" > "$work/line"
        run "$work/line"
    done < "$1"
}

cases=0
answers=0
wrong=0
for script in cases/*.eco examples/*.eco; do
    case $script in
        *counted.eco) run --counted "$script" ;;
        *lines.eco) run_lines "$script" ;;
        *) run "$script" ;;
    esac > "$work/answers"
    tr -d '\r' < "$script" | sed -n 's/^#> //p' > "$work/expected"
    cases=$((cases + 1))
    answers=$((answers + $(wc -l < "$work/expected")))
    diff "$work/expected" "$work/answers" > "$work/apart" || {
        wrong=$((wrong + 1))
        echo "$script expects (<) and is answered (>):"
        cat "$work/apart"
    }
done

cuts=0
sed -n 's/^#> //p' examples/first.eco > "$work/expected"
for counted in '' --counted; do
    bytes=$(wc -c < examples/first.eco)
    while [ "$bytes" -gt 0 ]; do
        bytes=$((bytes - 1))
        cuts=$((cuts + 1))
        head -c "$bytes" examples/first.eco > "$work/cut"
        status=0
        "$program" $counted "$work/cut" > "$work/said" 2> "$work/message" || status=$?
        [ -z "$counted" ] || sed '$d' "$work/said" > "$work/answers"
        [ -n "$counted" ] || cp "$work/said" "$work/answers"
        head -n "$(wc -l < "$work/answers")" "$work/expected" > "$work/front"
        case $status in
            0) [ ! -s "$work/message" ] && cmp -s "$work/front" "$work/answers" ;;
            1) grep -q '^ecow-run: line [1-9]' "$work/message" && [ ! -s "$work/said" ] ;;
            *) false ;;
        esac || {
            wrong=$((wrong + 1))
            echo "the first example, cut after $bytes bytes ($counted): status $status"
        }
    done
done
echo "$cases golden scripts, $cuts cut ones, $wrong answered otherwise than expected"
[ "$wrong" -eq 0 ]
tools/gate/counts.sh cases.sh "$cases golden scripts" "$answers answers" "$cuts cut scripts"
