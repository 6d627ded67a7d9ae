#!/bin/sh
# Says where a public call of vectors, bytes or texts has no row in the tables of calls, crates/ecow_test_calls/src/tables.rt.
# usage: tools/gate/agree_calls.sh
set -eu
cd "$(dirname "$0")/../.."

# The allocator is named for code that is generic over values, and costs nothing.
calls=$(sed -n 's/^    pub fn \([a-z_0-9]*\).*/\1/p' \
    crates/ecow_list/src/vec.rt crates/ecow_list/src/vec/*.rt \
    crates/ecow_bytes/src/bytes.rt crates/ecow_bytes/src/bytes/*.rt \
    crates/ecow_string/src/string.rt crates/ecow_string/src/string/*.rt | grep -vx allocator | sort -u)
[ -n "$calls" ] || { echo "no public call was found"; exit 1; }
names=$(sed -n 's/.*"\([^"]*\)".*/\1/p' crates/ecow_test_calls/src/tables.rt | grep -oE '[a-z_0-9]+' | sort -u)
missing=$(echo "$calls" | while read -r call; do echo "$names" | grep -qx "$call" || echo "$call"; done)
[ -z "$missing" ] || { echo "no row in the tables of calls: $missing"; exit 1; }
echo "$(echo "$calls" | wc -l) calls have their rows"
tools/gate/counts.sh agree_calls.sh "$(echo "$calls" | wc -l) calls"
