#!/bin/sh
# Copies a crate's src, specs and proofs into another folder, in place of what it has of them:
# tools/ship/copy_crate.sh CRATE FOLDER COUNT. Where COUNT is atomic, `ecow_shared` is `ecow_atomic` under its name.
set -eu
crate=$1
to=$2
cd "$(dirname "$0")/../../crates"
from=$crate
[ "$3 $crate" != "atomic ecow_shared" ] || from=ecow_atomic
mkdir -p "$to"
for part in src specs proofs; do
    rm -rf "${to:?}/$part"
    [ ! -d "$from/$part" ] || cp -Rp "$from/$part" "$to/$part"
done
[ "$from" = "$crate" ] || grep -rl "$from" "$to" | while read -r file; do
    sed "s/$from/$crate/g" "$file" > "$file.new"
    touch -r "$file" "$file.new"
    mv "$file.new" "$file"
done
