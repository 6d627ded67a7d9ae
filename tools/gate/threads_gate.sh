#!/bin/sh
# The gate's part for the atomic count of owners: proves the values and the library for C over it. It leaves the archive of
# that library at bin/libecow_c-atomic.a. `make costs` and `make faults` try it with COUNT=atomic.
set -eu
cd "$(dirname "$0")/../.."
rm -rf "$(tools/ship/for_threads.sh)"
folder=$(tools/ship/for_threads.sh ecow_nested ecow)
tools/gate/ci.sh threads_gate.sh "$folder"

# A build proves a static library once more. So `rt ci`, which proves `ecow_c` over the plain count, doesn't see it here.
tools/ship/for_threads.sh ecow_c ecow > /dev/null
bin=$(pwd)/bin
kit=$(dirname "$(rt doc | head -n 1)")
mkdir -p "$bin"
cd "$folder/crates/ecow_c"
# `rt ci` leaves the libraries below as rattle reads them. `rt lib` takes those of its own runs alone.
set -- --extern "std=$kit/rlibs/std.rlib" -L "dependency=$kit/rlibs"
for name in $(sed -n 's/^ecow_c staticlib://p' ../../crates.txt); do
    built=$kit/rlibs
    [ ! -d "../$name" ] || built=../$name/out/rlib
    set -- "$@" --extern "$name=$built/$name.rlib"
done
for rlib in ../*/out/rlib; do
    set -- "$@" -L "dependency=$rlib"
done
"$kit/bin/rattle" build --crate-name ecow_c src/lib.rt "$@" --antt-project "$kit/rattle/logic/antt-project.json" \
    --logic-built "$kit/logic_built" --jobs 2 --crate-type staticlib --toolchain "$kit/toolchain" --backend llvm \
    -o "$bin/libecow_c-atomic.a" > "$bin/lib.log" 2>&1 || { cat "$bin/lib.log"; exit 1; }
echo "the values and the library for C are proved over the atomic count of owners"
