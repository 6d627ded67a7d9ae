#!/bin/sh
# Prints crates.txt for a count of owners: tools/ship/rows.sh COUNT. Where COUNT is atomic, `ecow_atomic` is there under
# the name of `ecow_shared`.
set -eu
cd "$(dirname "$0")/../.."
if [ "$1" = atomic ]; then
    sed '/^ecow_shared:/d; s/^ecow_atomic:/ecow_shared:/' crates.txt
else
    cat crates.txt
fi
