#!/bin/sh
# Times calls of the library for C beside std's containers, and prints the table of c/README.md:
# tools/measure/peers.sh [ROUNDS]. A cell has the time over the library in bin/, whose count is atomic, and over the one in bin/plain/.
set -eu
cd "$(dirname "$0")/../.."
out=$(mktemp -d)
trap 'rm -rf "$out"' EXIT
for folder in . plain; do
    mkdir -p "$out/$folder"
    ${CXX:-c++} -std=c++17 -O2 -pthread -Iinclude c/tests/peers.cpp "bin/$folder/libecow.a" -o "$out/$folder/peers"
done
"$out/peers" "${1:-50}" threads > "$out/atomic"
"$out/plain/peers" "${1:-50}" > "$out/single"
# Containers that nothing shares count no owners.
paste -d '|' "$out/atomic" "$out/single" | awk -F ' *[|] *' '
function number(cell) { gsub(",", "", cell); return cell + 0 }
{
    printf "| %s |", $2
    for (cell = 3; cell <= 6; cell++) {
        if (cell == 5) printf " %s |", number($5) < number($12) ? $5 : $12
        else printf " %s; %s |", $cell, $(cell + 7)
    }
    print ""
}'
