#!/bin/sh
# Compares the edits that the prover must refuse with the code: what an edit takes away stands once in its file.
# `rt ci` counts one that doesn't fit for nothing, and passes. The last line says how many were compared.
set -eu
cd "$(dirname "$0")/../.."
export LC_ALL=C

edits=$(awk '
/^file: / {
    split(FILENAME, part, "/")
    file = part[1] "/" part[2] "/" substr($0, 7)
    text = ""
    while ((getline line < file) > 0) text = text line "\n"
    close(file)
}
FNR == 1 { edits++ }
/^old: / {
    old = substr($0, 6)
    at = index(text, old)
    if (!at || index(substr(text, at + 1), old)) {
        print FILENAME " does not fit: " old
        apart = 1
    }
}
/^new: / { text = substr(text, 1, at - 1) substr($0, 6) substr(text, at + length(old)) }
END {
    if (!apart) print edits + 0
    exit apart
}' crates/*/must-fail/*.edit crates/*/edits/*.edit) || { echo "$edits"; exit 1; }
echo "$edits edits fit their files"
tools/gate/counts.sh agree_edits.sh "$edits edits"
