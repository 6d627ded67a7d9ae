#!/bin/sh
# Fuzzes the library for C, each kind of value for so many seconds: tools/measure/c_fuzz.sh SECONDS. It takes the library
# in bin/, and needs clang with libFuzzer. A fault leaves its input in bin/, as crash-.., and ends with 1.
set -eu
cd "$(dirname "$0")/../.."
out=$(mktemp -d)
trap 'rm -rf "$out"' EXIT
number=0
for kind in list array bytes text texts value; do
    clang -std=c11 -O1 -g -DKIND=$number -fsanitize=fuzzer,address,undefined -fno-sanitize-recover=all -Iinclude \
        -Wno-unused-function c/tests/fuzz.c bin/libecow.a -o "$out/$kind"
    mkdir "$out/inputs-$kind"
    "$out/$kind" -max_total_time="$1" -max_len=4096 -artifact_prefix=bin/ "$out/inputs-$kind" 2> "$out/said" || {
        cat "$out/said"
        exit 1
    }
    sed -n "s/^Done \([0-9]*\) runs in .*/$kind: \1 inputs/p" "$out/said"
    number=$((number + 1))
done
