#!/bin/sh
# Times tasks of this library beside what one would take instead, in Rust, C++ and Python, and
# prints a table of each: tools/measure/peers_all.sh FOLDER [ROUNDS]. FOLDER is that of the original crate.
# ROUNDS (15) is how often each task is timed.
# A language is left out where a tool, a crate or the library in bin/ isn't there. A column is left
# out where its peer isn't. The last line names what isn't there.
# Debian has the peers: librust-im-rc-dev librust-dogged-dev librust-kstring-dev librust-bytes-dev
# qt6-base-dev libglib2.0-dev python3-pyrsistent. What is built stays in bin/peers.
set -eu
root=$(cd "$(dirname "$0")/../.." && pwd)
original=$(cd "${1:?the folder of the original crate is missing}" && pwd)
rounds=${2:-15}
cd "$root"
build=$root/bin/peers
registry=/usr/share/cargo/registry
# Debian's own has its pyrsistent.
python=${PYTHON:-/usr/bin/python3}
compiler=${CXX:-c++}
ran=
missing=

# Whether a test holds; if not, the name is one of what isn't there.
there() { # NAME COMMAND ..
    name=$1
    shift
    "$@" > /dev/null 2>&1 || { missing="${missing:+$missing, }$name"; return 1; }
}

table() { # LANGUAGE COMMAND ..
    printf '## %s\n\n' "$1"
    ran="${ran:+$ran, }$1"
    shift
    "$@" "$rounds"
    echo
}

rust=yes
for tool in cargo rustfmt python3; do there "$tool" command -v "$tool" || rust=; done
for crate in im-rc dogged kstring bytes; do
    there "$crate" ls -d "$registry/$crate"-[0-9]* || rust=
done
if [ -n "$rust" ]; then
    rm -rf "$build/rust/proved"
    mkdir -p "$build/rust/src"
    tools/ship/rust_crate.sh "$build/rust/proved" > /dev/null
    cp bench/peers/src/main.rs "$build/rust/src"
    sed "s|ORIGINAL\"|$original\"|; s|PROVED\"|$build/rust/proved\"|" bench/peers/Cargo.toml \
        > "$build/rust/Cargo.toml"
    (cd "$build/rust" && RUSTFLAGS= cargo build --quiet --offline --release \
        --config 'source.crates-io.replace-with="debian"' \
        --config "source.debian.directory=\"$registry\"")
    table Rust "$build/rust/target/release/peers"
fi

library=yes
there "bin/libecow.a (\`make lib\` builds it)" [ -f bin/libecow.a ] || library=
if there "$compiler" command -v "$compiler" && [ -n "$library" ]; then
    mkdir -p "$build"
    set --
    for peer in QT=Qt6Core GLIB=glib-2.0; do
        module=${peer#*=}
        there "$module" pkg-config --exists "$module" || continue
        set -- "$@" "-DHAS_${peer%=*}" $(pkg-config --cflags --libs "$module")
    done
    # Qt's headers ask for -fPIC.
    "$compiler" -std=c++17 -O2 -fPIC -pthread -Iinclude -Ic/tests bench/peers/peers.cpp \
        bin/libecow.a "$@" -o "$build/peers"
    table C++ "$build/peers"
fi

if there "Python 3.11 or later" "$python" -c 'import sys; sys.exit(sys.version_info < (3, 11))' &&
    there "headers of Python" "$python" -c 'import pathlib, sysconfig
(pathlib.Path(sysconfig.get_path("include")) / "Python.h").stat()' && [ -n "$library" ]; then
    there pyrsistent "$python" -c 'import pyrsistent' || true
    mkdir -p "$build/python"
    (cd python && "$python" -c 'import build_backend, sys, zipfile
to = sys.argv[1]
zipfile.ZipFile(f"{to}/{build_backend.build_wheel(to)}").extractall(to)' "$build/python")
    table Python env PYTHONPATH="$build/python" "$python" bench/peers/peers.py
fi

echo "peers: ${ran:-nothing} ran${missing:+; not there: $missing}"
