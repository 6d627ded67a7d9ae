#!/bin/sh
# Stands for programs that this machine may lack, under whose names tools/gate/agree_checks.sh copies it, and does what
# the tests of the libraries want of each, but for the fault in WRONG. As a compiler it makes a copy of itself.
set -eu
is() { [ "$WRONG" = "$1" ]; }
pick() { if is "$1"; then echo "$2"; else echo "${3:-}"; fi; } # FAULT WRONG RIGHT
left() { [ -z "${LEFT:-}" ] || echo "blocks left: $1" >&2; }
for last; do :; done

case ${0##*/}${1:+ $*} in
    nm* | pkg-config* | cmake* | valgrind*--version) exit 1 ;;
    cc*-print-file-name*) ;;
    cc*-DECOW_COUNT_*/first) echo "undefined: ecow_library_counts_owners_plain" >&2; is linked ;;
    "cc -Werror"*/ignored.c*) echo unused >&2; is unread ;;
    cc*)
        while [ "$1" != -o ]; do shift; done
        cp "$0" "$2" ;;
    make*)
        folder=${last#PREFIX=}
        mkdir -p "$folder/lib/pkgconfig" "$folder/include"
        cp include/* "$folder/include"
        echo right > "$folder/lib/libecow.so.1"
        printf 'Version: %s\nCflags: -I.\nLibs: -L.\n' "$VERSION" > "$folder/lib/pkgconfig/ecow.pc" ;;
    first-shared)
        library=$(cat "${0%/*}"/prefix/lib/libecow.so.1 2>&1) || { is removed; exit; }
        [ "$library" = right ] || { echo ecow_library_counts_owners_plain >&2; is other; exit; }
        cat c/examples/first.out ;;
    first-static) pick first 1 "$(cat c/examples/first.out)" ;;
    costs)
        sed "s/ [0-9]*$//; $(pick cost 5s/^/1/)" c/tests/costs.out
        sed "s/.* //; $(pick requests 5s/^/1/)" c/tests/costs.out >&2
        left 0 ;;
    "edits 400")
        for number in 1 2; do
            left "$(pick refused-left 1 0)"
            echo "request $number: status $(pick refused-status 1 0)"
        done
        pick total 3 2 >&2
        left 0 ;;
    calls | arrays | layout | edits* | threads*)
        left "$(pick left 1 0)"
        ! is status ;;

    python*get_path*) echo "${0%/*}" ;;
    python*venv\ *)
        mkdir -p "$last/bin"
        cp "$0" "$last/bin/python" ;;
    python*' wheel '*)
        while [ "$1" != -w ]; do shift; done
        mkdir "$2"
        pick wheel "$2" 1 > "$2/ecow.whl" ;;
    python*build_sdist*) : > "$last/ecow-1.tar.gz" ;;
    python*importlib*) pick version 0 "$VERSION" ;;
    python*zipfile*)
        printf '%s\n' names ecow/_core.abi3.so
        for file in METADATA RECORD WHEEL licenses/LICENSE-APACHE licenses/LICENSE-MIT; do
            echo "ecow-$VERSION.dist-info/$file"
        done
        git ls-files python/ecow | sed "s|^python/||; $(pick file 1s/^/1/)" ;;
    python*unittest) echo "Ran $(pick tests 4 5) tests in 1s" ;;
    python*versions.py) pick example 1 "$(cat python/examples/versions.out)" ;;

    cargo*clippy*) ! is warning || [ $# -eq 2 ] || echo warning >&2 ;;
    cargo*test*)
        if is left-out; then rm tests/b*.rs; fi
        for file in tests/*.rs; do echo "test result: ok. $(pick empty 0 3) passed; 0 failed"; done
        ! is status ;;
    cargo*example*) pick example "said by none" "$(head -n 1 README.md)" ;;
    rustc*) echo rustc 1.100 ;;
esac
