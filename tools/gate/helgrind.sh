#!/bin/sh
# Runs c/tests/threads.c under helgrind, over the library in bin/, in which it must see no error, and over the one in
# bin/plain/ if that is there, whose count is for one thread, in which it must see some: tools/gate/helgrind.sh ROUNDS.
set -eu
cd "$(dirname "$0")/../.."
out=$(mktemp -d)
trap 'rm -rf "$out"' EXIT
build() { # LIBRARY
    ${CC:-cc} -std=c11 -O2 -g -pthread -Iinclude c/tests/threads.c "$1/libecow.a" -o "$out/threads"
}
run() {
    valgrind -q --tool=helgrind --error-exitcode=9 "$out/threads" "$rounds" > "$out/said" 2>&1
}
rounds=$1
build bin
run || { cat "$out/said"; exit 1; }
[ -d bin/plain ] || exit 0
build bin/plain
if run || ! grep -q 'data race' "$out/said"; then
    cat "$out/said"
    echo "helgrind sees no race in the plain count that threads share: it sees none at all"
    exit 1
fi
