#!/bin/sh
# Leaves the library for C in bin/, libecow.a, libecow.so, the headers, ecow.pc and the files for CMake, or in another
# folder: tools/ship/lib.sh COUNT [FOLDER]. It takes the proved library bin/libecow_c-COUNT.a, and needs a C compiler
# ($CC, or cc) and ar.
set -eu
cd "$(dirname "$0")/../.."
to=${2:-bin}
kit=$(dirname "$(rt doc | head -n 1)")
version=$(cat VERSION)
# The first two numbers: a version with the same ones has the same calls, and values of the same sizes.
like=${version%.*}
first=$(echo "$like" | sed 's/[.]/[.]/')
rm -rf "$to/lib"
mkdir -p "$to/lib"
for archive in "$(pwd)/bin/libecow_c-$1.a" "$kit/c/liblibc_c.a"; do (cd "$to/lib" && ar x "$archive"); done
count_name=$(echo "$1" | tr a-z A-Z)
${CC:-cc} -std=c11 -Wall -Wextra -Wpedantic -O2 -fPIC -DECOW_COUNT_$count_name -Iinclude -c c/ecow.c -o "$to/lib/ecow.o"
rm -f "$to/libecow.a"
ar rcs "$to/libecow.a" "$to"/lib/*.o
${CC:-cc} -shared -o "$to/libecow.so" -Wl,-soname,libecow.so.$like -Wl,--version-script,c/exports.map "$to"/lib/*.o
cp include/ecow.h include/ecow.hpp "$to"
for description in ecow.pc ecow-config.cmake ecow-config-version.cmake; do
    sed "s|@VERSION@|$version|; s|@LIKE@|$first|; s|@COUNT@|$1|; s|@COUNT_NAME@|$count_name|; s|@PREFIX@|/usr/local|" \
        "c/$description.in" > "$to/$description"
done
