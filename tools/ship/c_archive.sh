#!/bin/sh
# Proves the library for C, and leaves it at bin/libecow_c-COUNT.a: tools/ship/c_archive.sh COUNT. COUNT says how owners
# are counted: atomic, so that threads may share values, or plain, for one thread.
set -eu
cd "$(dirname "$0")/../.."
case $1 in
    atomic) from=$(tools/ship/for_threads.sh ecow_c) ;;
    plain) from=. ;;
    *) echo "COUNT is atomic or plain" >&2; exit 1 ;;
esac
mkdir -p bin
tools/ship/prove.sh ecow_c "$from"
(cd "$from/crates/ecow_c" && rt lib > ../../bin/lib.log 2>&1) || { cat "$from/bin/lib.log"; exit 1; }
cp "$from/crates/ecow_c/out/libecow_c.a" "bin/libecow_c-$1.a"
