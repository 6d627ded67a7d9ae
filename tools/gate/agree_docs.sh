#!/bin/sh
# Compares what documents say of the code with the code: proofs by hand and `unsafe` blocks by crate (docs/PROVED.md),
# the crates of each KIND (docs/CALLING.md), the code that docs/uses quotes, and that both counts of owners are called
# alike (docs/ARCHITECTURE.md).
set -eu
. "$(dirname "$0")/work.sh"

# Compares what is said, which is something, with standard input.
compare() { # WHAT
    [ -s "$work/said" ] || { echo "$1: nothing is said"; exit 1; }
    cat "$work/said" >> "$work/compared"
    diff "$work/said" - > "$work/apart" || {
        echo "$1 differ:"
        cat "$work/apart"
        exit 1
    }
}

# How many functions of a crate are proved by hand. A `TheLaw` is that of a type.
proved_by_hand() {
    find "crates/$1" -path '*/out' -prune -o -path '*/proofs/*/Proof.antt' -print | grep -cv '/TheLaw/' || true
}

sed -n 's/^| `\(ecow[a-z_]*\)` | \([0-9]*\) | \([0-9]*\) |.*/\1 \2 \3/p' docs/PROVED.md | sort > "$work/said"
for folder in crates/*; do
    crate=${folder##*/}
    blocks=$(find "$folder/src" -name '*.rt' -exec cat {} + | grep -c 'unsafe {' || true)
    echo "$crate $(proved_by_hand "$crate") $blocks"
done | grep -v ' 0 0$' | sort | compare "docs/PROVED.md (<) and the code (>)"

for kind in vector tree text nested store tool all; do
    sed -n "s/^| \`$kind\` | [^|]* | \([0-9]*\) |.*/\1/p" docs/CALLING.md > "$work/said"
    tops=$(sed -n "s/^    $kind) tops=\"*\([a-z_ ]*\)\"* *;;/\1/p" tools/ship/vendor.sh)
    awk -F: -v tops="$tops" -f tools/ship/below.awk crates.txt | grep -c '' |
        compare "docs/CALLING.md (<) and the code (>)"
done

# The words of a file, with one blank between them.
words() {
    cat "$@" | tr -s ' \n' '  '
}

pages=0
for page in docs/uses/*.md; do
    code=$(sed -n '/^```rust$/,/^```$/p' "$page" | grep -v '^```' | words)
    [ -n "$code" ] || continue
    sources=$(sed -n 's/^`\(crates\/[^`]*\)`.*/\1/p' "$page")
    if [ -z "$sources" ]; then
        # The code of that page stands nowhere else.
        [ "$page" = docs/uses/threads.md ] || { echo "$page doesn't name the source of its code"; exit 1; }
        continue
    fi
    pages=$((pages + 1))
    source=$(words $sources)
    case $source in
        *"${code% }"*) ;;
        *) echo "$page quotes other code than its source has"; exit 1 ;;
    esac
done

# What is promised of a count stands in each of its crates, since the kit takes no linked file.
promised() { # CRATE
    awk '/^    pub fn/, /^    {$/; /^    ghost/' "crates/$1/src/shared.rt" | cat - "crates/$1/specs/OwnerLends.antt"
}

promised ecow_shared | sed 's/ecow_shared/ecow_atomic/g' > "$work/said"
promised ecow_atomic | compare "ecow_shared (<) and ecow_atomic (>)"
echo "$(wc -l < "$work/compared") lines and $pages pages say what the code has"
tools/gate/counts.sh agree_docs.sh "$(wc -l < "$work/compared") lines" "$pages pages"
