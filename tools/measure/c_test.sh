#!/bin/sh
# Tests the library for C, which `make lib` has left in bin/, from C, C++ and Python, beside what
# tools/gate/c_short.sh does, and sees that helgrind tells its atomic count from the plain one in bin/plain/. It packs
# the library twice, which has to give the same bytes, and tests the archive: tools/measure/c_test.sh [EDITS]. Needs gcc
# and clang with g++ and clang++, valgrind, Python 3.11 with its headers and pip, and cargo.
set -eu
cd "$(dirname "$0")/../.."
edits=${1:-1000000}
out=$(mktemp -d)
trap 'rm -rf "$out"' EXIT
warnings="-Wall -Wextra -Wpedantic -Werror"
# Those of C++ beside them.
more_warnings="-Wconversion -Wshadow -Wold-style-cast -Wcast-qual"
checked="valgrind -q --leak-check=full --error-exitcode=1"
sanitized="-g -fsanitize=address,undefined -fno-sanitize-recover=all"
# A request for more than the sanitizer gives is refused, as any other.
export ASAN_OPTIONS=allocator_may_return_null=1

# A test by a compiler: as it is, under valgrind, with the shared library, and under the sanitizers.
run() { # NAME EDITS SOURCE COMPILER FLAGS..
    name=$1 count=$2 source=$3
    shift 3
    "$@" $warnings -O2 -Iinclude "$source" bin/libecow.a -o "$out/$name"
    "$out/$name" "$count"
    $checked "$out/$name" "$((count / 200))" > /dev/null
    "$@" $warnings -O2 -Iinclude "$source" bin/libecow.so -Wl,-rpath,"$out" -o "$out/$name-shared"
    "$out/$name-shared" "$((count / 200))" > /dev/null
    "$@" $warnings $sanitized -Iinclude "$source" "$out/ecow.o" bin/libecow.a -o "$out/$name-sanitized"
    "$out/$name-sanitized" "$((count / 10))" > /dev/null
}

cp bin/libecow.so "$out/libecow.so.$(cut -d. -f1,2 VERSION)"
for compilers in "gcc g++" "clang clang++"; do
    set -- $compilers
    echo "$1:"
    "$1" -std=c11 $warnings $sanitized -Iinclude -c c/ecow.c -o "$out/ecow.o"
    run calls "$edits" c/tests/calls.c "$1" -std=c11
    run arrays "$edits" c/tests/arrays.c "$1" -std=c11
    run edits "$edits" c/tests/edits.c "$1" -std=c11
    run threads "$edits" c/tests/threads.c "$1" -std=c11 -pthread
    "$out/threads" "$edits" handover
    for standard in 17 20; do
        for test in test attempts nested edits threads; do
            run "$test-cpp" "$edits" "c/tests/$test.cpp" "$2" -std=c++$standard $more_warnings -pthread
        done
    done
done
tools/gate/helgrind.sh 2000

# The header reads values where they lie, over the plain count too.
cc -std=c11 $warnings $sanitized -Iinclude c/tests/layout.c bin/plain/libecow.a -o "$out/layout"
"$out/layout"

# The examples of c/README.md and c/CPP.md.
for example in first history; do
    cc -std=c11 $warnings $sanitized -Iinclude "c/examples/$example.c" bin/libecow.a -o "$out/$example"
    "$out/$example" > "$out/$example.out"
    cmp "$out/$example.out" "c/examples/$example.out"
done
c++ -std=c++17 $warnings $more_warnings $sanitized -Iinclude c/examples/interned.cpp bin/libecow.a -o "$out/interned"
"$out/interned" < include/ecow.h > /dev/null
echo to be or not to be | "$out/interned" > "$out/interned.out"
case "$(cat c/CPP.md)" in
    *"$(cat "$out/interned.out")"*) ;;
    *) echo "c/CPP.md says that c/examples/interned.cpp prints something else"; exit 1 ;;
esac
c++ -std=c++17 $warnings $more_warnings $sanitized -Iinclude c/examples/settings.cpp bin/libecow.a -o "$out/settings"
"$out/settings" > "$out/settings.out"
cmp "$out/settings.out" c/examples/settings.out
for quoted in c/examples/settings.cpp c/examples/settings.out; do
    case "$(cat c/CPP.md)" in *"$(cat $quoted)"*) ;; *) echo "c/CPP.md quotes another $quoted"; exit 1 ;; esac
done

c++ -std=c++17 $warnings $more_warnings $sanitized -Iinclude c/examples/parts.cpp bin/libecow.a -o "$out/parts"
"$out/parts"

ECOW_EDITS=$((edits / 50)) tools/gate/python.sh
# The system's own interpreter, where it is another.
[ ! -x /usr/bin/python3 ] || PYTHON=/usr/bin/python3 ECOW_EDITS=$((edits / 500)) tools/gate/python.sh
archive=$(tools/ship/dist.sh atomic)
cp "$archive" "$out/packed"
tools/ship/dist.sh atomic | xargs cmp "$out/packed"
tools/ship/dist_test.sh "$archive"
