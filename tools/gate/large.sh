#!/bin/sh
# Runs PROGRAM on large scripts, in both stores, and compares what it answers with what tools/gate/large.awk works
# out by the rules. It must give all memory back. Then sees that a line takes no longer where there are many before it
# or behind it.
# usage: tools/gate/large.sh PROGRAM
set -eu
. "$(dirname "$0")/start.sh"

tools/gate/shim.sh "$work/shim.so"
scripts=0
lines=0
for part in names owners list sizes random memory line texts prose quoted bytes; do
    for counted in 0 1; do
        flag=
        [ "$counted" -eq 0 ] || flag=--counted
        # Only a store has texts.
        case $part$counted in texts1 | prose1 | quoted1 | bytes1) continue ;; esac
        awk -v part="$part" -v counted="$counted" -v script="$work/script" -v answers="$work/wanted" \
            -f tools/gate/large.awk
        status=0
        # In kilobytes: what memory() needs, and less than half of that beside it.
        (
            [ "$part" != memory ] || ulimit -v 48000
            export LEFT=1 LD_PRELOAD="$work/shim.so"
            exec "$program" $flag "$work/script"
        ) > "$work/answers" 2> "$work/message" || status=$?
        [ "$(cat "$work/message")" = "blocks left: 0" ] || {
            cat "$work/message"
            echo "is said on the large script of $part${flag:+, with $flag}, and not blocks left: 0"
            exit 1
        }
        if [ "$status" -ne 0 ] || ! cmp "$work/answers" "$work/wanted"; then
            echo "the large script of $part${flag:+, with $flag}: status $status, other answers than by the rules"
            diff "$work/wanted" "$work/answers" | cut -c 1-200 | head -n 10
            exit 1
        fi
        scripts=$((scripts + 1))
        lines=$((lines + $(wc -l < "$work/wanted")))
    done
done
echo "large scripts: $lines answers are as the rules say"

# Runs PROGRAM so often on a script, and sets `spent` to the hundredths of a second of a processor that it took.
spend() { # SCRIPT COUNT
    times > "$work/before"
    number=0
    while [ "$number" -lt "$2" ]; do
        "$program" $flag "$1" > "$work/answers" || { echo "$program fails on many of $part"; exit 1; }
        number=$((number + 1))
    done
    times > "$work/after"
    spent=$(sed -n 's/[ms]/ /g; 2p; 4p' "$work/before" "$work/after" |
        awk '{ seconds = $1 * 60 + $2 + $3 * 60 + $4 - seconds } END { printf "%d", 100 * seconds + 0.5 }')
}

grown=0
for part in names owners line prose quoted bytes; do
    for flag in '' --counted; do
        case $part$flag in prose--counted | quoted--counted | bytes--counted) continue ;; esac
        for many in 8000 128000; do
            awk -v part="$part" -v counted=0 -v many=$many -v script="$work/$many" -v answers="$work/wanted" \
                -f tools/gate/large.awk
        done
        # So often that the time can be read from a clock of hundredths, however fast the machine is.
        rounds=0
        short=0
        while [ "$short" -lt 10 ]; do
            [ "$rounds" -lt 500 ] || { echo "$((16 * rounds)) scripts of 8000 of $part take no time"; exit 1; }
            rounds=$((2 * rounds + 1))
            spend "$work/8000" $((16 * rounds))
            short=$spent
        done
        spend "$work/128000" "$rounds"
        # Were a line's work as long as the script, this would take sixteen times as long as so many short ones.
        if [ "$spent" -gt $((5 * short)) ]; then
            echo "$part${flag:+, with $flag}: $short hundredths for $((16 * rounds)) scripts of 8000, and" \
                "$spent for $rounds of 128000"
            exit 1
        fi
        grown=$((grown + 1))
    done
done
echo "growth: $grown scripts take no longer for a line than ones of a sixteenth of the lines"
tools/gate/counts.sh large.sh "$scripts scripts" "$lines answers" "$grown times of longer scripts"
