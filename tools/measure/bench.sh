#!/bin/sh
# Times the calls of vectors, bytes and texts beside those of the original crate, those of vectors also beside Rc<Vec<T>>,
# and four whole programs beside the same on the original and on std alone.
# usage: tools/measure/bench.sh FOLDER [SAMPLES [WORD]]
# FOLDER is that of the original crate. SAMPLES (9) are taken of each call and program whose name holds WORD. Without WORD it
# also shows how times grow with the length, and leaves a picture at bin/bench/curves.svg.
# CPU=x86-64-v3 in the environment has both compiled for a processor with AVX2. COUNT=atomic has owners counted
# atomically, as the original does.
# Needs cargo beside the kit's rt. What cargo makes stays below bin/.
set -eu
root=$(cd "$(dirname "$0")/../.." && pwd)
original=$(cd "${1:?the folder of the original crate is missing}" && pwd)
shift
build=$root/bin/bench
mkdir -p "$build/src"
# The processor that rt compiles for, where nothing else is said.
cpu=${CPU:-x86-64-v2}
crates=$root
[ "${COUNT:-plain}" != atomic ] || crates=$("$root/tools/ship/for_threads.sh" ecow_bench)
(cd "$crates/crates/ecow_bench" && rt run --cpu "$cpu") > "$build/rt.log" 2>&1 || { cat "$build/rt.log"; exit 1; }
cp "$root"/bench/src/*.rs "$build/src"
sed "s|ORIGINAL\"|$original\"|" "$root/bench/Cargo.toml" > "$build/Cargo.toml"
(cd "$build" && RUSTFLAGS="-C target-cpu=$cpu" cargo build --quiet --release)
picture=
[ -n "${2:-}" ] || picture=$build
exec "$build/target/release/bench" "$crates/crates/ecow_bench/out/ecow_bench" "${1:-9}" "${2:-}" $picture
