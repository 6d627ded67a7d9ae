#!/bin/sh
# Tries `make vendor` on a repository that is new: a second call changes nothing, and the gate there
# proves what was copied and, above it, the code of README and of docs/CALLING.md:
# tools/ship/vendor_test.sh [KIND [COUNT]].
# Where there are texts the worked syntax tree is copied out too, and for KIND=all all worked
# programs. The gate there runs them. With COUNT=atomic the code of docs/uses/threads.md is proved
# too, for which the repository has the handle Threads.
set -eu
cd "$(dirname "$0")/../.."
kind=${1:-vector}
count=${2:-plain}
work=$(mktemp -d)
trap 'rm -rf "$work"' EXIT
new=$work/new
mkdir "$new"

tools/ship/vendor.sh "$new" "$kind" "$count"
cp -Rp "$new" "$work/once"
tools/ship/vendor.sh "$new" "$kind" "$count" > /dev/null
diff -r "$work/once" "$new"

# What would mix two states is refused, and touches nothing.
refused() { # ARGUMENTS..
    if tools/ship/vendor.sh "$@" > "$work/said" 2>&1; then
        echo "tools/ship/vendor.sh $* isn't refused"
        exit 1
    fi
}
[ "$kind" = vector ] || refused "$new" vector "$count"
[ "$count" = atomic ] && refused "$new" "$kind" plain || refused "$new" "$kind" atomic
echo '// by hand' >> "$new/crates/ecow_list/src/vec.rt"
refused "$new" "$kind" "$count"
grep -q ' crates/ecow_list/src/vec.rt$' "$work/said"
cp -p "$work/once/crates/ecow_list/src/vec.rt" "$new/crates/ecow_list/src/vec.rt"
diff -r "$work/once" "$new"
for crate in $(cut -d : -f 1 "$new/crates.txt"); do
    for part in out tests edits must-fail; do
        [ ! -e "$new/crates/$crate/$part" ] || { echo "$part of $crate was copied"; exit 1; }
    done
done

# crate NAME PAGE HEADING CRATES: a crate of the first code of the page behind the line that begins so.
crate() {
    mkdir -p "$new/crates/$1/src"
    awk -v heading="$3" '
        index($0, heading) == 1 { behind = 1 }
        behind && /^```rust$/ { inside = 1; next }
        inside && /^```$/ { exit }
        inside' "$2" > "$new/crates/$1/src/lib.rt"
    echo "$1: $4" >> "$new/crates.txt"
}
crate first README.md '### Rattle' ecow_list
crate calling docs/CALLING.md '## A caller' ecow_list
if [ -d "$new/crates/ecow_string" ]; then
    crate named docs/CALLING.md '**A struct of yours.**' 'ecow_list ecow_string'
    # The worked syntax tree, as a program of its own.
    trees=$new/crates/trees
    mkdir -p "$trees/src" "$trees/specs" "$trees/proofs"
    for part in src/tree.rt specs/Trees.antt proofs/Trees.antt proofs/tree; do
        cp -Rp "crates/ecow_uses/$part" "$trees/$part"
    done
    echo 'pub mod Trees' | tee "$trees/specs/Lib.antt" > "$trees/proofs/Lib.antt"
    {
        printf '%s\n' '#![tactic(auto)]' 'mod tree;' 'use crate::tree::Node;' 'use anyhow::Result;' \
            'use ecow_string::EcoString;' 'fn main(rt: HostRuntime) -> Result<()> {' '    replace_a_node(&rt)' '}'
        awk '/^fn set_a_value/ { exit } /^fn replace_a_node/ { inside = 1 } inside' crates/ecow_uses/src/main.rt
    } > "$trees/src/main.rt"
    grep '^(f \|^first child' crates/ecow_uses/stdout > "$trees/stdout"
    grep -rl 'Rattle.ecow_uses' "$trees" | xargs sed -i 's/Rattle\.ecow_uses\./Rattle.trees./g'
    echo 'trees: ecow_list ecow_string anyhow' >> "$new/crates.txt"
    (cd "$trees" && rt fmt > /dev/null)
fi
if [ "$count" = atomic ]; then
    crate forks docs/uses/threads.md '# ' 'ecow_list rayon'
    answers=$new/crates/forks/proofs/fork_for_each
    mkdir -p "$answers"
    sed -n '/^```antt$/,/^```$/p' docs/uses/threads.md | grep -v '^```' > "$answers/Answers.antt"
    (cd "$new/crates/forks" && rt fmt > /dev/null)
    echo 'Handles allowed: Threads.' > "$new/HANDLES"
fi
if [ "$kind" = all ]; then
    mkdir "$new/crates/ecow_uses"
    for part in src specs proofs stdout; do
        cp -Rp "crates/ecow_uses/$part" "$new/crates/ecow_uses/$part"
    done
    grep '^ecow_uses:' crates.txt >> "$new/crates.txt"
fi
cd "$new"
git init -q
time rt ci
