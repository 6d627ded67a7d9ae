#!/bin/sh
# Compares the statuses, names and numbers, of the crate `ecow_c` and of the header with those that callers have compiled
# in. The functions of C and C++ that take any status have a case for each.
set -eu
. "$(dirname "$0")/work.sh"
printf '%s\n' 'OK 0' 'MEMORY 1' 'CAPACITY 2' 'INDEX 3' 'BOUNDARY 4' 'UTF8 5' 'NULL 6' 'KIND 7' 'DEPTH 9' > "$work/proved"
# The functions of `c/` answer this one.
echo 'INNER_NUL 8' | sort -k 2n "$work/proved" - > "$work/statuses"
sed 's/ .*//' "$work/statuses" | sort > "$work/names"

# Compares those of a file, on standard input.
compare() { # FILE, the name of what it has to have
    echo "$1" >> "$work/compared"
    diff "$work/$2" - > "$work/apart" || {
        echo "$1 has other statuses (>):"
        cat "$work/apart"
        exit 1
    }
}

cases() { # FILE
    # Those of a value's kinds are no statuses.
    sed -n '/ECOW_KIND_/!s/^ *case ECOW_\([A-Z0-9_]*\):$/\1/p' "$1" | sort | compare "$1" names
}

constants() { # FILE, the name of what it has to have, what stands before a name, what stands behind it
    sed -n "s/^$3\([A-Z0-9_]*\)$4 = \([0-9][0-9]*\).*/\1 \2/p" "$1" | compare "$1" "$2"
}

constants crates/ecow_c/src/status.rt proved 'pub const ' ': u32'
sed '/^typedef enum ecow_status/,/^}/!d' include/ecow.h > "$work/ecow.h"
constants "$work/ecow.h" statuses ' *ECOW_' ''
cases include/ecow.hpp
cases c/ecow.c
echo "$(grep -c '' "$work/compared") files have the $(grep -c '' "$work/statuses") statuses"
tools/gate/counts.sh agree_statuses.sh "$(grep -c '' "$work/compared") files" "$(grep -c '' "$work/statuses") statuses"
