#!/bin/sh
# Lists each piece of code of the Rust in a folder that isn't the proved source's, and each piece of the source's that
# isn't in it: tools/gate/erased_audit.sh FOLDER. It shares no code with tools/ship/erase.py, so a reader of the list
# needn't read that. Of a line of the list the number says how often it is so; imports are of each file. Needs the usual
# POSIX tools.
set -eu
cd "$(dirname "$0")/../.."
folder=$1
work=$(mktemp -d)
trap 'rm -rf "$work"' EXIT
export LC_ALL=C
: > "$work/changes"
: > "$work/counts"
: > "$work/old-imports"
: > "$work/new-imports"
: > "$work/none"
: > "$work/asks"

(cd "$folder" && find . -name '*.rs' | sort) > "$work/files"
while read -r file; do
    file=${file#./}
    [ "$file" != mod.rs ] || continue
    crate=${file%%/*} path=${file#*/}
    [ "$crate" != ecow_shared ] || crate=ecow_atomic
    [ "$path" != mod.rs ] || path=lib.rs
    source=crates/$crate/src/${path%.rs}.rt
    echo "$source" >> "$work/sources"
    awk -v imports="$work/i" -v counts="$work/counts" -v asks="$work/asks" -f tools/gate/erased_audit.awk \
        "$source" > "$work/old"
    sed "s|^crate::|$crate::|" "$work/i" >> "$work/old-imports" 2> /dev/null || :
    rm -f "$work/i"
    awk -v imports="$work/i" -v counts="$work/none" -v asks="$work/none" -f tools/gate/erased_audit.awk \
        "$folder/$file" > "$work/new"
    sed "s|^crate::proved::||; s|^ecow_shared::|&|" "$work/i" >> "$work/new-imports" 2> /dev/null || :
    rm -f "$work/i"
    wc -l < "$work/old" >> "$work/sizes"
    diff "$work/old" "$work/new" > "$work/diff" || :
    awk '/^[0-9]/ { if (old new != "") print old " => " new; old = new = ""; next }
        /^</ { old = old " " substr($0, 3) }
        /^>/ { new = new " " substr($0, 3) }
        END { if (old new != "") print old " => " new }' "$work/diff" >> "$work/changes"
done < "$work/files"

[ ! -s "$work/none" ] || { echo "$folder has text that proofs read"; exit 1; }
echo "Of $(awk '{ n += $1 } END { print n }' "$work/sizes") pieces of code in $(wc -l < "$work/sources") files these are others:"
echo
sort "$work/changes" | uniq -c | sort -k1,1nr -k2
echo
echo "What proofs alone read is left out:"
echo
sort "$work/counts" | uniq -c
echo
echo "Files that are left out:"
echo
for crate in base block atomic list bytes string nested; do
    find "crates/ecow_$crate/src" -name '*.rt'
done | sort > "$work/all"
sort "$work/sources" | comm -13 - "$work/all"
echo
echo "Imports that the source has and the Rust hasn't:"
echo
sort -u "$work/old-imports" > "$work/old-names"
sort -u "$work/new-imports" > "$work/new-names"
comm -23 "$work/old-names" "$work/new-names"
echo
echo "Imports that the Rust has and the source hasn't:"
echo
comm -13 "$work/old-names" "$work/new-names"
echo
echo "Public calls of the values that ask something of their caller:"
echo
grep -E '^crates/ecow_(list|bytes|string|nested)/' "$work/asks" | sort -u
