#!/bin/sh
# Writes the contracts as text into FOLDER: a page a crate that others call, of its public calls with their comments and
# clauses and of where the words of these come from, and README.md, which leads to the pages:
# tools/ship/contracts.sh FOLDER.
set -eu
to=$1
mkdir -p "$to"
to=$(cd "$to" && pwd)
cd "$(dirname "$0")/../.."
export LC_ALL=C
rm -f "$to"/*.md
{
    echo "# The contracts"
    echo
    echo "The public calls, trait methods and laws of version $(cat VERSION) with their comments and clauses, a page a"
    echo "crate. A trait method without clauses has those of its trait. Behind the calls of a file stand the \`ghost use\`"
    echo "lines that bring their words. \`docs/CALLING.md\` says what they mean for a caller, and \`docs/PROVED.md\` where"
    echo "the words stand. \`x.now\` is what stands behind a \`&\`, \`x.old\` and \`x.new\` what stands behind a \`&mut\`"
    echo "before and after the call, and \`x.entry\` a value at the call."
    echo
    echo "| Page | Calls |"
    echo "|---|---|"
} > "$to/README.md"
tools/ship/extract.sh | awk -v to="$to" -f tools/ship/contracts.awk
echo "$to has the contracts of $(cat "$to"/*.md | grep -c '^ *fn ') calls"
