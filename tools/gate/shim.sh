#!/bin/sh
# Builds tools/gate/refuse.c, the library that counts or refuses requests for memory, by the kit's clang.
# usage: tools/gate/shim.sh OUTPUT
set -eu
tools=$(dirname "$(rt doc | head -n 1)")/toolchain/bin
"$tools/clang" -O2 -shared -fPIC -nostdlib -nostdinc -fuse-ld=lld --ld-path="$tools/ld.lld" \
    -o "$1" "$(dirname "$0")/refuse.c"
