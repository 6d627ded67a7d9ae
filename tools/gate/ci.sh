#!/bin/sh
# Runs the kit's gate, `rt ci`, in a folder, and counts what passed, by the rows of CHECK in tools/gate/counts.txt:
# tools/gate/ci.sh CHECK FOLDER.
set -eu
tools=$(realpath "$(dirname "$0")")
log=$(mktemp)
trap 'rm "$log"' EXIT
{ (cd "$2" && rt ci 2>&1) || echo "rt ci: status $?"; } | tee "$log"
passed=$(sed -n '$s/^\([0-9]*\) passed, 0 failed$/\1/p' "$log")
[ -n "$passed" ] || exit 1
"$tools/counts.sh" "$1" "$passed crates and edits" "$(grep -c '^test .* \.\.\. ok$' "$log" || true) tests" \
    "$(grep -c '^rt: .* ran.*, and wrote what its file stdout has$' "$log" || true) runs of programs"
