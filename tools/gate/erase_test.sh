#!/bin/sh
# Sees that tools/ship/erase.py stops, with file and line, at text that no rule knows. Needs python3 and rustfmt.
set -eu
cd "$(dirname "$0")/../.."
work=$(mktemp -d)
trap 'rm -rf "$work"' EXIT
mkdir -p "$work/tools/ship" "$work/crates"
cp tools/ship/erase.py "$work/tools/ship"
for crate in base block atomic list bytes string nested; do
    mkdir "$work/crates/ecow_$crate"
    cp -r "crates/ecow_$crate/src" "$work/crates/ecow_$crate/src"
done
file=crates/ecow_list/src/vec/push.rt
line=$(($(wc -l < $file) + 1))
tried=0
while read -r text; do
    { cat $file; echo "$text"; } > "$work/$file"
    if "$work/tools/ship/erase.py" "$work/rust" > "$work/said" 2>&1; then
        echo "tools/ship/erase.py lets this through: $text"
        exit 1
    fi
    grep -q "^$file:$line: no rule for " "$work/said" || { echo "of $text it says:"; cat "$work/said"; exit 1; }
    tried=$((tried + 1))
done <<END
#[must_use] fn more() {}
#[derive(Debug, Hash)] struct More;
ghost fn more() {}
fn more() ensures that it is { true } {}
fn more() { println!("more") }
fn more() { std::process::abort() }
fn more(λ: usize) {}
fn more() where usize: Drop {}
impl<T> AsRef<[T]> for EcoVec<T> { fn as_ref(&self) -> &[T] { self } }
impl<T> Model where EcoVec<T>: Sized {}
use std::collections::HashMap;
use std::fmt::Pointer;
END
cp $file "$work/$file"
"$work/tools/ship/erase.py" "$work/rust" > "$work/said"
echo "tools/ship/erase.py stops at $tried texts that no rule knows"
tools/gate/counts.sh erase_test.sh "$tried texts"
