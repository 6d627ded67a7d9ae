#!/bin/sh
# Tests the library for C, which is in bin/, in less than a minute: with a C compiler ($CC, or cc), and with each of
# nm, pkg-config, C++17, C++20, std::format, Python and valgrind that is there. The last line says which were.
set -eu
cd "$(dirname "$0")/../.."
cc=${CC:-cc}
cxx=${CXX:-c++}
out=$(mktemp -d)
trap 'wait; rm -rf "$out"' EXIT
export LC_ALL=C
# Those of Python run beside the others.
ECOW_EDITS=100 tools/gate/python.sh > "$out/python" 2>&1 &
python=$!
with= without= runs=0 requests=0 returned=0

# Whether a program is there: has NAME COMMAND.., which is tried.
has() {
    name=$1
    shift
    if "$@" > /dev/null 2>&1; then with="$with, $name"; return; fi
    without="$without, $name"
    tools/gate/counts.sh "$name" skipped
    return 1
}

# Runs a test that says on standard error what a file has.
says() { # FILE COMMAND..
    wanted=$1 status=0
    shift
    "$@" 2> "$out/said" || status=$?
    [ "$status" -eq 0 ] && cmp "$wanted" "$out/said" || { cat "$out/said"; echo "$*: status $status"; exit 1; }
    runs=$((runs + 1))
}

# The library that counts requests or refuses them, and says at the end what wasn't given back.
tools/gate/shim.sh "$out/shim.so"
watched="env LEFT=1 LD_PRELOAD=$out/shim.so"
echo "blocks left: 0" > "$out/none-left"

for test in calls arrays layout edits costs threads; do
    $cc -std=c11 -O2 -pthread -Iinclude "c/tests/$test.c" bin/libecow.a -o "$out/$test"
done
for test in calls arrays layout "edits 100000"; do says "$out/none-left" $watched "$out"/$test; done
# A thread's end leaves blocks of the C library's.
says /dev/null "$out/threads" 500000
says /dev/null "$out/threads" 200000 handover

# What calls ask for.
$watched COUNT=1 "$out/costs" > "$out/rows" 2> "$out/counts" || { cat "$out/counts"; exit 1; }
paste -d ' ' "$out/rows" "$out/counts" > "$out/counted"
echo " blocks left: 0" | cat c/tests/costs.out - | diff - "$out/counted" || {
    echo "c/tests/costs.out (<) and what was counted (>) differ"
    exit 1
}

# Each request for memory is refused in turn.
refuse_each() { # PROGRAM EDITS SETTING.., of the library that refuses
    run="$out/$1 $2"
    shift 2
    env "$@" REFUSE_EACH=1 TOTAL=1 LD_PRELOAD="$out/shim.so" $run > "$out/tried" 2> "$out/total" || {
        echo "$run ends with another status than 0"
        exit 1
    }
    total=$(grep -vxf "$out/none-left" "$out/total")
    if grep -a '^request .* status [^0]' "$out/tried"; then exit 1; fi
    [ "$total" -gt 0 ] && [ "$(grep -ac '^request .* status 0$' "$out/tried")" -eq "$total" ] || {
        echo "$run: $total requests, as it says"
        exit 1
    }
    echo "refused in turn: $total requests"
    requests=$((requests + total))
    returned=$((returned + $(grep -cxf "$out/none-left" "$out/total" || true)))
}
refuse_each edits 400 LEFT=1
tools/gate/counts.sh c_short.sh "$runs runs" "$(wc -l < "$out/counted") costs" \
    "$(wc -w < "$out/counted") words of costs" "$requests requests refused" "$returned processes that gave all back"

# The count of the library, and the other one, which comes second in the header.
needed=1 count=ATOMIC other=PLAIN
if grep -q '(plain count)' bin/ecow.pc; then needed=2 count=PLAIN other=ATOMIC; fi

# A status that nobody looks at is a warning, unless that is meant.
printf '#include "ecow.h"\nvoid push(ecow_list *l) { %s; }\n' 'ecow_ignore(ecow_list_push(l, 1))' > "$out/ignored.c"
$cc -Wall -Wextra -Wcast-align -Werror -Iinclude -c "$out/ignored.c" -o "$out/ignored.o"
printf '#include "ecow.h"\nvoid push(ecow_list *l) { %s; }\n' 'ecow_list_push(l, 1)' > "$out/ignored.c"
if $cc -Werror -Iinclude -c "$out/ignored.c" -o "$out/ignored.o" 2> "$out/said" || ! grep -q unused "$out/said"; then
    echo "no warning of a status that nobody looks at"
    exit 1
fi

# The shared library's names are those that the header declares.
if has nm nm --version; then
    {
        sed -n '/^static /d; s/^[a-zE].*[ *]\(ecow_[a-z0-9_]*\)(.*/\1/p' include/ecow.h
        sed -n "s/^    &\(ecow_library_counts_.*\);/\1/p" include/ecow.h | sed "$needed!d"
        for kind in list array bytes text texts value; do
            printf '%s\n' "ecow_proved_${kind}_clone" "ecow_proved_${kind}_drop"
        done
    } | sort -u > "$out/declared"
    nm -D --defined-only bin/libecow.so | sed 's/.* //' | sort | diff "$out/declared" - || {
        echo "include/ecow.h (<) and bin/libecow.so (>) have other names"
        exit 1
    }
    tools/gate/counts.sh nm "$(wc -l < "$out/declared") names"
fi

# What is installed compiles and runs the first program, with the shared library and with the other one.
prefix=$out/prefix
described=$prefix/lib/pkgconfig/ecow.pc
make --no-print-directory install PREFIX="$prefix" > /dev/null
for header in ecow.h ecow.hpp; do cmp "include/$header" "$prefix/include/$header"; done
grep -qx "Version: $(cat VERSION)" "$described" || { echo "ecow.pc has another version"; exit 1; }
if has pkg-config pkg-config --version; then
    flags=$(PKG_CONFIG_PATH=${described%/*} pkg-config --cflags --libs ecow)
    tools/gate/counts.sh pkg-config "$(echo $flags | wc -w) flags"
else
    eval "$(grep '^[a-z]*=' "$described")"
    eval "flags=\"$(sed -n 's/^Cflags: //p; s/^Libs: //p' "$described" | tr '\n' ' ')\""
fi
cp c/examples/first.c "$out"
# What needs the other count isn't linked or loaded.
if $cc -DECOW_COUNT_$other "$out/first.c" -I"$prefix/include" "$prefix/lib/libecow.a" -o "$out/first" 2> "$out/said"; then
    echo "a program that needs the count $other is linked with the count $count"
    exit 1
fi
grep -q "undefined.*ecow_library_counts_owners_" "$out/said" || { cat "$out/said"; exit 1; }
$cc "$out/first.c" $flags -Wl,-rpath,"$prefix/lib" -o "$out/first-shared"
$cc "$out/first.c" -I"$prefix/include" "$prefix/lib/libecow.a" -o "$out/first-static"
firsts=0
first() { # PROGRAM
    "$1" | cmp - c/examples/first.out
    firsts=$((firsts + 1))
}
for program in first-shared first-static; do first "$out/$program"; done
tools/gate/counts.sh first "$firsts programs"
if has CMake cmake --version; then
    mkdir "$out/project"
    cp c/examples/first.c "$out/project"
    cat > "$out/project/CMakeLists.txt" << 'EOF'
cmake_minimum_required(VERSION 3.13)
project(first C)
find_package(ecow 0.12 CONFIG QUIET)
if(ecow_FOUND)
    message(FATAL_ERROR "another version is taken for 0.12")
endif()
find_package(ecow ${VERSION} CONFIG REQUIRED)
foreach(kind ecow static)
    add_executable(first-${kind} first.c)
    target_link_libraries(first-${kind} ecow::${kind})
endforeach()
EOF
    cmake -S "$out/project" -B "$out/built" -DVERSION="$(cut -d. -f1,2 VERSION)" -DCMAKE_PREFIX_PATH="$prefix" -DCMAKE_C_COMPILER="${cc%% *}" > "$out/said" 2>&1 \
        && cmake --build "$out/built" >> "$out/said" 2>&1 || { cat "$out/said"; exit 1; }
    firsts=0
    for kind in ecow static; do first "$out/built/first-$kind"; done
    tools/gate/counts.sh CMake "$firsts programs"
fi
shared=$(echo "$prefix"/lib/libecow.so.*)
$cc -std=c11 -fPIC -DECOW_COUNT_$other -Iinclude -c c/ecow.c -o "$out/other.o"
$cc -shared -o "$shared" -Wl,--version-script,c/exports.map $(ls bin/lib/*.o | grep -v '/ecow.o') "$out/other.o"
if "$out/first-shared" > /dev/null 2> "$out/said" || ! grep -q ecow_library_counts_owners_ "$out/said"; then
    echo "a program that needs the count $count runs with the count $other"
    exit 1
fi
rm "$prefix"/lib/libecow.so*
if "$out/first-shared" > /dev/null 2>&1; then
    echo "the flags of ecow.pc don't link the shared library"
    exit 1
fi

# Tests the header for C++ by one standard. Its programs give all back but what the runtime took to print a line.
test_cpp() { # STANDARD
    printf '#include <cstdio>\nint main() { std::puts("a line"); }\n' > "$out/empty.cpp"
    $cxx -std=c++$1 "$out/empty.cpp" -o "$out/empty-cpp"
    $watched "$out/empty-cpp" > "$out/said" 2> "$out/runtime"
    for test in test attempts nested edits threads; do
        $cxx -std=c++$1 -O1 -pthread -Iinclude "c/tests/$test.cpp" bin/libecow.a -o "$out/$test-cpp"
    done
    runs=0
    for test in test-cpp attempts-cpp nested-cpp "edits-cpp 20000"; do says "$out/runtime" $watched "$out"/$test; done
    says /dev/null "$out/threads-cpp" 20000
}

# A line of C++ isn't compiled, for one reason, which is told in words.
told=0
refused() { # FLAGS WORDS CODE
    printf '#include "ecow.hpp"\n%s\n' "$3" > "$out/refused.cpp"
    if $cxx $1 -Iinclude -fsyntax-only "$out/refused.cpp" 2> "$out/said"; then
        echo "compiled with $1: $3"
        exit 1
    fi
    [ "$(grep -c 'error:' "$out/said")" -eq 1 ] && grep -q "error:.*$2" "$out/said" || {
        echo "not refused for the reason \"$2\": $3"
        cat "$out/said"
        exit 1
    }
    told=$((told + 1))
}

if has C++17 $cxx -std=c++17 -fsyntax-only -include string_view -x c++ /dev/null; then
    refused -std=c++14 'ecow.hpp needs C++17' ''
    refused "-std=c++17 -fno-exceptions" 'ecow.hpp needs exceptions' ''
    for function in '[](const ecow::value &part) { return part; }' '[](ecow::value part) { part = 7; }' \
        '[](auto part) { part = 7; }' '[](const ecow::value &) {}' '[](int) {}'; do
        refused -std=c++17 'update takes a function that changes a .value &' \
            "void f(ecow::value &v) { v.update({\"a\"}, $function); }"
    done
    refused -std=c++17 'update takes a function that returns nothing' \
        'void f(ecow::value &v) { v.update({"a"}, [](auto &part) { return part = 7; }); }'
    refused -std=c++17 deleted 'std::string_view f() { return ecow::text("a view of it"); }'
    refused -std=c++17 deleted 'const char *f(const ecow::value &v) { return v.text().data(); }'
    refused -std=c++17 deleted 'ecow::value f(ecow::value &v) { return v.take({"a", 0}); }'
    refused -std=c++17 deleted 'const ecow::value *f(ecow::value &v) { return v.get("a").peek(0); }'
    refused -std=c++17 'takes ecow::text, and types that are trivially copyable' \
        'ecow::vector<std::string> f() { return {}; }'
    refused -std=c++17 'aligned to 16 at most' \
        'struct alignas(32) wide { int first; }; ecow::vector<wide> f() { return {}; }'
    refused -std=c++17 'ecow::texts copies what it sees' 'ecow::vector<std::string_view> f() { return {}; }'
    refused -std=c++17 deleted 'const double *f() { return ecow::vector<double>(3).data(); }'
    refused -std=c++17 'no matching ' 'ecow::bytes f(const std::vector<int> &v) { return ecow::bytes(v); }'
    echo "c++: $told lines refused with words that say why"
    test_cpp 17
    requests=0
    refuse_each test-cpp 0
    refuse_each nested-cpp 0
    refuse_each edits-cpp 200
    tools/gate/counts.sh C++17 "$told lines refused" "$runs runs" "$requests requests refused"
fi
if has C++20 $cxx -std=c++20 -fsyntax-only -include compare -x c++ /dev/null; then
    test_cpp 20
    tools/gate/counts.sh C++20 "$runs runs"
fi
# A compiler, with its flags, whose library has std::format: $cxx, or clang with LLVM's library beside it.
formats() {
    command -v "${cxx%% *}" || return 1
    for how in "$cxx -std=c++20" "clang++ -std=c++20 -stdlib=libc++ -fexperimental-library" \
        "clang++-16 -std=c++20 -stdlib=libc++ -fexperimental-library"; do
        if $how -Iinclude -fsyntax-only c/tests/format.cpp; then return; fi
    done
    return 1
}
if has std::format formats; then
    $how -O1 -Iinclude c/tests/format.cpp bin/libecow.a -o "$out/format-cpp"
    "$out/format-cpp" > "$out/said"
    cat "$out/said"
    tools/gate/counts.sh std::format "$(sed 's/[^0-9]*\([0-9]*\).*/\1/' "$out/said") checks"
fi
wait "$python" || { cat "$out/python"; exit 1; }
cat "$out/python"
if grep -q '^python:' "$out/python"; then with="$with, Python"; else without="$without, Python"; fi
if has valgrind valgrind --version; then
    runs=0
    for run in calls arrays layout "edits 500" "threads 400" "threads 400 handover"; do
        valgrind -q --leak-check=full --error-exitcode=1 "$out"/$run > /dev/null
        runs=$((runs + 1))
    done
    tools/gate/helgrind.sh 400
    tools/gate/counts.sh valgrind "$runs runs"
fi
echo "the library for C was tested with $cc$with${without:+; not here: ${without#, }}"
