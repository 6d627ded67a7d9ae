#!/bin/sh
# Lays out crates over the atomic count, with those that they stand on, as a repository of its own, and prints where it
# is: tools/ship/for_threads.sh [CRATE ..]. It stands outside of this one, whose check reads each file of code below it.
# What its proofs leave, and what earlier calls laid out, stays there. With no crate it lays out nothing.
set -eu
cd "$(dirname "$0")/../.."
to=${TMPDIR:-/tmp}/ecow-for-threads-$(id -u)-$(pwd | cksum | cut -d ' ' -f 1)
echo "$to"
[ $# -gt 0 ] || exit 0
mkdir -p "$to/bin" "$to/crates"
cp -p HANDLES "$to"
for crate in $(awk -F: -v tops="$*" -f tools/ship/below.awk crates.txt); do
    tools/ship/copy_crate.sh "$crate" "$to/crates/$crate" atomic
    # What a program is run on.
    for file in stdin stdout args data; do
        rm -rf "$to/crates/$crate/$file"
        [ ! -e "crates/$crate/$file" ] || cp -Rp "crates/$crate/$file" "$to/crates/$crate/$file"
    done
done
# A row for each crate that is there, and no other crate.
for folder in "$to"/crates/*; do
    grep -q "^${folder##*/}[: ]" crates.txt || rm -rf "$folder"
done
tools/ship/rows.sh atomic | while read -r row; do
    [ ! -d "$to/crates/${row%%[: ]*}" ] || echo "$row"
done > "$to/rows"
cmp -s "$to/rows" "$to/crates.txt" || cp "$to/rows" "$to/crates.txt"
