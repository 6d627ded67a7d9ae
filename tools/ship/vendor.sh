#!/bin/sh
# Copies crates into another repository, as plain folders below its crates/, with their rows in its
# crates.txt, so that its gate proves them: tools/ship/vendor.sh FOLDER [KIND [COUNT]]. KIND says what is
# needed: vector (EcoVec), tree (vector, and a list in a tree), text (vector, bytes and text), nested
# (text and nested values), store (text and both stores, with their laws), tool (with scripts and the
# program over any reader and writer), or all of these. COUNT says how owners are counted: plain, for
# one thread, or atomic. Tests and edits stay here. A folder that isn't there is made.
#
# Where crates of an earlier call are there, it updates them, their rows too, and touches nothing
# else; a crate that has another name now is replaced, and it says so. It refuses to, and changes
# nothing, where that would mix two states, or where a change by hand could be lost.
set -eu
export LC_ALL=C
to=${1:-}
kind=${2:-vector}
count=${3:-plain}
use="make vendor TO=FOLDER [KIND=vector|tree|text|nested|store|tool|all] [COUNT=plain|atomic]"

refuse() { # WHY..
    printf '%s\n' "$@" >&2
    exit 1
}

case $kind in
    vector) tops=ecow_list ;;
    tree) tops=ecow_tree ;;
    text) tops=ecow ;;
    nested) tops="ecow ecow_nested" ;;
    store) tops="ecow ecow_store ecow_counted" ;;
    tool) tops="ecow ecow_tool" ;;
    all) tops="ecow ecow_nested ecow_tree ecow_tool" ;;
    *) refuse "$use" "KIND is vector, tree, text, nested, store, tool or all, and not $kind" ;;
esac
case $count in
    plain | atomic) ;;
    *) refuse "$use" "COUNT is plain or atomic, and not $count" ;;
esac
[ -n "$to" ] || refuse "$use" "Without TO there is no repository to copy into."
[ ! -e "$to" ] || [ -d "$to" ] || refuse "$use" "$to is no folder"
here=$(cd "$(dirname "$0")/../.." && pwd)
mkdir -p "$to"
to=$(cd "$to" && pwd)
cd "$here"
[ "$to" != "$(pwd)" ] || refuse "$use" "FOLDER is to be another repository."
if [ ! -d "$to/crates" ] && grep -q '^[^#].*:' "$to/crates.txt" 2> /dev/null; then
    refuse "$to keeps its crates beside crates.txt: move them below crates/ first"
fi
version=$(cat VERSION)
crates=$(awk -F: -v tops="$tops" -f tools/ship/below.awk crates.txt)

# The checksum of each file of a crate, but for what its checks left.
sums() { # FOLDER
    (cd "$1" && find . -path ./out -prune -o -type f ! -name SUMS -exec cksum {} + | sort -k 3)
}

# Crates that had another name, or stand in others now: the first from version 0.11 to 0.12, the next two up to 0.10,
# the others up to 0.12.
renamed="ecow_vec:ecow_list ecow_text:ecow_string ecow_keeping:ecow_model+ecow_store
    ecow_values:ecow_base ecow_laws:ecow_model+ecow_counted ecow_named:ecow_model+ecow_store"

# Of an earlier call: the crates that this one wouldn't bring up to date, the files changed since, and the crates of
# which that can't be told, since their copy has no checksums.
beyond= changed= unknown=
look_at() { # CRATE
    if [ -f "$to/crates/$1/SUMS" ]; then
        changed="$changed$(sums "$to/crates/$1" | diff "$to/crates/$1/SUMS" - \
            | sed -n "s|^[<>] [0-9]* [0-9]* \./| crates/$1/|p" | sort -u | tr -d '\n')"
    else
        unknown="$unknown crates/$1"
    fi
}
for pair in $renamed; do
    [ ! -f "$to/crates/${pair%:*}/VERSION" ] || look_at "${pair%:*}"
done
for crate in $(cut -d : -f 1 crates.txt); do
    folder=$to/crates/$crate
    [ -e "$folder" ] || continue
    wanted=$(echo "$crates" | grep -x "$crate" || true)
    if [ ! -f "$folder/VERSION" ]; then
        [ -z "$wanted" ] || refuse "$folder is there, and it didn't come from here: give it another name"
        continue
    fi
    [ -n "$wanted" ] || beyond="$beyond $crate"
    look_at "$crate"
done
[ -z "$beyond" ] || refuse "$to has crates that KIND=$kind doesn't bring up to date:$beyond" \
    "KIND=all does; or remove their folders and their rows in crates.txt first."
has=$(cat "$to/crates/ecow_shared/COUNT" 2> /dev/null || true)
if [ -n "$has" ] && [ "$has" != "$count" ]; then
    refuse "$to counts owners by COUNT=$has: name that, or remove $to/crates/ecow_shared first"
fi
[ -z "$changed" ] || refuse "These files of $to were changed since they were copied:$changed" \
    "Keep the change in a crate of your own, and remove the changed crate's folder first."
[ -z "$unknown" ] || refuse "These folders of $to were copied before version 0.10.1, without checksums:$unknown" \
    "Whether a file was changed since can't be told. Keep a change in a crate of your own, and remove them first."
before=$(cat "$to/crates/ecow_vec/VERSION" "$to/crates/ecow_list/VERSION" 2> /dev/null | head -n 1 || true)

# A crate of another name gives way: its folder and its row. A type had another name from version 0.11 to 0.12.
new_names=
! grep -rqs 'pub struct SmallString' "$to/crates/ecow_string/src" || new_names=" SmallString is SmallText;"
for pair in $renamed; do
    old=${pair%:*}
    [ -f "$to/crates/$old/VERSION" ] || continue
    rm -r "${to:?}/crates/$old"
    sed "/^$old:/d" "$to/crates.txt" > "$to/crates.txt.new"
    cat "$to/crates.txt.new" > "$to/crates.txt"
    rm "$to/crates.txt.new"
    new_names="$new_names $old is $(echo "${pair#*:}" | sed 's/+/ and /');"
done

touch "$to/crates.txt"
for crate in $crates; do
    folder=$to/crates/$crate
    tools/ship/copy_crate.sh "$crate" "$folder" "$count"
    cp -p VERSION LICENSE-APACHE LICENSE-MIT "$folder"
    [ "$crate" != ecow_shared ] || echo "$count" > "$folder/COUNT"
    sums "$folder" > "$folder/SUMS"
done

# Their rows, lowest first, stand together where the first of them stood, or at the end.
rows=$(for crate in $crates; do tools/ship/rows.sh "$count" | grep "^$crate:"; done)
printf '%s\n' "$rows" | awk -F: '
    NR == FNR { row[$1] = 1; all = all $0 "\n"; next }
    !($1 in row) { print; next }
    { printf "%s", all; all = "" }
    END { printf "%s", all }' - "$to/crates.txt" > "$to/crates.txt.new"
cmp -s "$to/crates.txt" "$to/crates.txt.new" || cat "$to/crates.txt.new" > "$to/crates.txt"
rm "$to/crates.txt.new"

case $before in
    "") echo "$to has now version $version, with the $count count of owners, of:" $crates ;;
    "$version") echo "$to has version $version, as before, with the $count count of owners, of:" $crates ;;
    *) echo "$to was brought from version $before to $version, with the $count count of owners, of:" $crates ;;
esac
echo "A crate of it whose row in crates.txt lists \"$(echo $tops)\" calls them, and \`rt ci\` there proves them from"
echo "nothing: every function of theirs meets its contract. Tests and the edits that the prover must"
echo "refuse are tried here alone, by \`make test\`."
[ -z "$new_names" ] || echo "Use the new names in your crates' rows, \`use\` lines and proofs:${new_names%;}. See CHANGELOG.md."
