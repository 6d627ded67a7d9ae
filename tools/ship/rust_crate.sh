#!/bin/sh
# Writes the crate for Rust, whole, into a new folder: tools/ship/rust_crate.sh TO. What is proved is written from the
# source by tools/ship/erase.py, and stands in src/proved. Needs git, python3 and rustfmt.
set -eu
cd "$(dirname "$0")/../.."
to=$1
mkdir -p "$to"
git ls-files rust | grep -v "/\.gitignore$" > "$to/files"
while read -r file; do
    mkdir -p "$to/$(dirname "${file#rust/}")"
    cp "$file" "$to/${file#rust/}"
done < "$to/files"
rm "$to/files"
cp LICENSE-APACHE LICENSE-MIT "$to"
tools/ship/erase.py "$to/src/proved"
