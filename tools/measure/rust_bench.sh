#!/bin/sh
# Times the crate for Rust beside the original in a folder, in one program:
# tools/measure/rust_bench.sh FOLDER [SAMPLES [WORD]].
# SAMPLES (15) are taken of each call whose name holds WORD. Needs python3 and cargo. What cargo makes stays below bin/.
set -eu
root=$(cd "$(dirname "$0")/../.." && pwd)
original=$(cd "${1:?the folder of the original crate is missing}" && pwd)
shift
build=$root/bin/rust-bench
mkdir -p "$build/src"
rm -rf "$build/proved"
"$root/tools/ship/rust_crate.sh" "$build/proved"
cp "$root/bench/rust/main.rs" "$build/src"
sed "s|ORIGINAL\"|$original\"|; s|PROVED\"|$build/proved\"|" "$root/bench/rust/Cargo.toml" > "$build/Cargo.toml"
(cd "$build" && RUSTFLAGS= cargo build --quiet --offline --release)
"$build/target/release/rust-bench" "$@"
