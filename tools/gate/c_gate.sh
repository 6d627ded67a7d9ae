#!/bin/sh
# Tests the library for C that tools/gate/threads_gate.sh has proved, where there is a C compiler
# ($CC, or cc).
set -eu
cd "$(dirname "$0")/../.."
if ! command -v ${CC:-cc} > /dev/null; then
    echo "the library for C was not tested: this machine has no C compiler"
    for check in c_short.sh nm pkg-config first CMake C++17 C++20 std::format python.sh valgrind; do
        tools/gate/counts.sh $check skipped ${CC:-cc}
    done
    exit 0
fi
tools/ship/lib.sh atomic
tools/gate/c_short.sh
