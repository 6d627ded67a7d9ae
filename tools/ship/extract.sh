#!/bin/sh
# Prints the public calls of the crates that others call, with their comments and clauses, as tools/ship/extract.awk takes
# them apart. `P crate` begins a crate.
set -eu
cd "$(dirname "$0")/../.."
export LC_ALL=C
# The crates of the stores, of nested values and of lists in a tree, the script and the program above, and the library for C.
for crate in $(awk -F: -v tops="ecow_nested ecow_tree ecow_tool ecow_c" -f tools/ship/below.awk crates.txt); do
    files=$(find "crates/$crate/src" -name '*.rt' | sort)
    # What stands below the vector is no part of it, but for the block that it lends.
    case $crate in
        ecow_shared | ecow_atomic) continue ;;
        ecow_block) files=$(echo crates/ecow_block/src/block.rt crates/ecow_block/src/block/*.rt) ;;
    esac
    printf 'P\t%s\n' "$crate"
    awk -f tools/ship/extract.awk pass=1 $files pass=2 $files
done
