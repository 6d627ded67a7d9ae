#!/bin/sh
# The gate's last step: writes the crate for Rust from the proved source, compares what was changed on the way with
# rust/erased.txt, and tests it, where there are python3 and a Rust compiler. With ORIGINAL=FOLDER in the environment it
# runs the tests of the original in that folder too, or in its tests/, without those that rust/original.txt names.
set -eu
cd "$(dirname "$0")/../.."
tools=$(pwd)/tools
version=$(sed -n 's/^version = "\(.*\)"$/\1/p' rust/Cargo.toml)
[ "$version" = "$(cat VERSION)" ] || { echo "rust/Cargo.toml has version $version, and VERSION $(cat VERSION)"; exit 1; }
grep -qx "version = \"[0-9.]*+$version\"" rust/ecow-0.3/Cargo.toml || { echo "rust/ecow-0.3 stands for another version"; exit 1; }
skip() { # WHY
    echo "the crate for Rust was not tested: this machine has $1"
    for check in erase_test.sh rust_gate.sh rust-serde rust-valgrind; do tools/gate/counts.sh $check skipped; done
    exit 0
}
for program in python3 cargo rustfmt; do command -v $program > /dev/null || skip "no $program"; done
oldest=$(sed -n 's/^rust-version = "1\.\(.*\)"$/\1/p' rust/Cargo.toml)
[ "$(rustc --version | sed -n 's/^rustc 1\.\([0-9]*\).*/\1/p')" -ge "$oldest" ] ||
    skip "$(rustc --version), and it needs 1.$oldest"
tools/gate/erase_test.sh
crate=$(pwd)/bin/rust
rm -rf "$crate"
tools/ship/rust_crate.sh "$crate"
tools/gate/erased_audit.sh "$crate/src/proved" > "$crate/erased.new"
cmp rust/erased.txt "$crate/erased.new" || {
    echo "what tools/ship/erase.py changes is no longer what rust/erased.txt lists: see $crate/erased.new"
    exit 1
}
audited=$(wc -l < "$crate/erased.new")
# `unsafe` stands in what is proved and in the shim alone.
if grep -rnw unsafe "$crate/src" --include=*.rs --exclude-dir=proved --exclude=shim.rs; then
    echo "the crate for Rust has unsafe code outside of what is proved and the shim"
    exit 1
fi

skipped=
left_out=0
if [ -n "${ORIGINAL:-}" ]; then
    tests=$ORIGINAL
    [ ! -d "$ORIGINAL/tests" ] || tests=$ORIGINAL/tests
    for file in "$tests"/*.rs; do cp "$file" "$crate/tests/original_$(basename "$file")"; done
    while read -r name why; do skipped="$skipped --skip $name" left_out=$((left_out + 1)); done < rust/original.txt
fi

export CARGO_TARGET_DIR=$(pwd)/bin/rust-target RUSTFLAGS=
log=$crate/log
cd "$crate"
run() { "$@" >> "$log" 2>&1 || { cat "$log"; exit 1; }; }
: > "$log"
run env EDITS=${EDITS:-5000} cargo test --offline -- $skipped
run cargo test --offline --release -- $skipped
run cargo build --offline --no-default-features
rm -f tests/original_*.rs
cargo doc --offline --quiet > warned 2>&1
if cargo clippy --version > /dev/null 2>&1; then
    cargo clippy --offline --quiet --tests --examples >> warned 2>&1
    cargo clippy --offline --quiet -- -W clippy::pedantic >> warned 2>&1
fi
[ ! -s warned ] || { cat warned; echo "the crate for Rust has warnings"; exit 1; }
cargo run --offline --quiet --example first > first.out
cargo run --offline --quiet --example parts > parts.out
for file in examples/first.rs first.out; do
    case "$(cat README.md)" in *"$(cat "$file")"*) ;; *) echo "rust/README.md quotes another $file"; exit 1 ;; esac
done
# `ecow = "0.3"` of another crate is this one by a patch. Its feature `serde` is tested where Debian's crates are there.
mkdir -p patched/src
cat > patched/Cargo.toml << 'END'
[package]
name = "patched"
edition = "2021"
[dependencies]
ecow = "0.3"
[patch.crates-io]
ecow = { path = "../ecow-0.3" }
END
echo 'pub fn text() -> ecow::EcoString { ecow::eco_format!("{:?}", ecow::eco_vec![1, 2]) }' > patched/src/lib.rs
cd patched
run cargo build --offline
cd ../ecow-0.3
registry=/usr/share/cargo/registry
if ls -d $registry/serde-1* $registry/serde_json-1* $registry/bincode-1* > ../listed 2>&1; then
    (log=$crate/log-serde
    run cargo test --offline --features serde --test serde --config 'source.crates-io.replace-with="debian"' \
        --config "source.debian.directory=\"$registry\"")
    "$tools/gate/counts.sh" rust-serde "1 runs"
else
    "$tools/gate/counts.sh" rust-serde skipped
fi
cd ..
# Where something unwinds, nothing is read that was given up.
runs=0
if command -v valgrind > /dev/null; then
    for test in unwinding refused; do
        binary=$(ls -t "$CARGO_TARGET_DIR"/release/deps/"$test"-* | grep -v '\.d$' | head -n 1)
        run valgrind -q --error-exitcode=1 "$binary"
        runs=$((runs + 1))
    done
    "$tools/gate/counts.sh" rust-valgrind "$runs runs"
else
    "$tools/gate/counts.sh" rust-valgrind skipped
fi
said=$(awk -v original="${ORIGINAL:-}" -v left="$left_out" '
    /Running tests\/original/ { theirs = 1 }
    /Running|Doc-tests/ && !/Running tests\/original/ { theirs = 0 }
    /^test result: ok/ { if (theirs) of_original += $4; else own += $4 }
    END {
        if (original && of_original == 0) { print "no test of the original ran"; exit 1 }
        printf "the crate for Rust: %d tests ran, in two builds", own
        if (original) printf ", and %d of the original (%d left out)", of_original, left
    }' "$log") || { echo "$said"; exit 1; }
echo "$said"
said=${said#*: }
"$tools/gate/counts.sh" rust_gate.sh "${said%% *} tests" "$audited lines of rust/erased.txt"
