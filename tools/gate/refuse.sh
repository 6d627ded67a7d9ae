#!/bin/sh
# Refuses each request for memory of each part of a program in turn, from the first to the last: a copy of the process
# goes on without it. The copy must end with status 0, give all memory back, and print what is printed where none is
# refused. A program that finds a number on standard input runs the part with that number alone, counted from 1; where
# it finds none, it runs all, and prints a line for each.
# EACH=10 refuses one request in ten; PROCESSORS=1 tries one part at a time.
# usage: tools/gate/refuse.sh PROGRAM
set -eu
program=$1
work=$(mktemp -d)
trap 'rm -r "$work"' EXIT
"$(dirname "$0")/shim.sh" "$work/refuse.so"
processors=${PROCESSORS:-$(getconf _NPROCESSORS_ONLN 2> "$work/none" || echo 1)}
each=${EACH:-1}
export LEFT=1
LD_PRELOAD="$work/refuse.so" "$program" < /dev/null > "$work/lines" 2>&1 || {
    cat "$work/lines"
    echo "$program ends with another status than 0"
    exit 1
}
parts=$(grep -vc '^blocks left: ' "$work/lines" || true)
none_left="blocks left: 0"
if grep wrong "$work/lines" || [ "$(tail -n 1 "$work/lines")" != "$none_left" ]; then
    echo "$program, in which no request is refused: $(tail -n 1 "$work/lines")"
    exit 1
fi
[ "$parts" -gt 0 ] || { echo "$program has no part"; exit 1; }

# Runs the part with this number, and each that comes so many processors later.
run_from() {
    part=$1
    while [ "$part" -le "$parts" ]; do
        echo "$part" > "$work/part.$1"
        REFUSE_EACH=$each TOTAL=1 LD_PRELOAD="$work/refuse.so" "$program" < "$work/part.$1" > "$work/said.$part" 2>&1 ||
            echo "status $?" >> "$work/said.$part"
        part=$((part + processors))
    done
}

first=0
while first=$((first + 1)) && [ "$first" -le "$processors" ]; do run_from "$first" & done
wait

part=0
wrong=0
while part=$((part + 1)) && [ "$part" -le "$parts" ]; do
    total=$(tail -n 2 "$work/said.$part" | head -n 1)
    [ "$total" -gt 0 ] || { echo "part $part of $program: $total requests"; exit 1; }
    awk -v line="$(sed -n "${part}p" "$work/lines")" -v total="$total" -v each="$each" -v left="$none_left" 'BEGIN {
        for (number = 1; number <= total; number += each) print line "\n" left "\nrequest " number ": status 0"
        print line "\n" total "\n" left
    }' > "$work/wanted"
    diff "$work/wanted" "$work/said.$part" > "$work/apart" || {
        wrong=$((wrong + 1))
        echo "part $part, at the request that a line names, or before it:"
        cat "$work/apart"
    }
done
tried=$(cat "$work"/said.* | grep -c '^request [0-9]*: status 0$')
echo "$tried requests refused in turn, $wrong parts wrong"
[ "$wrong" -eq 0 ]
[ -n "${EACH:-}" ] || "$(dirname "$0")/counts.sh" refuse.sh "$parts parts" "$tried requests refused, of status 0" \
    "$(cat "$work"/said.* | grep -cx "$none_left") processes that gave all back"
