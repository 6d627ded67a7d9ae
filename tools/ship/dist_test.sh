#!/bin/sh
# Unpacks an archive of tools/ship/dist.sh in a new folder, and runs the first program of each page there, by the
# commands that the page prints: tools/ship/dist_test.sh ARCHIVE. The last line says which languages were there. Needs
# `cc`.
set -eu
archive=$(cd "$(dirname "$1")" && pwd)/$(basename "$1")
work=$(mktemp -d)
trap 'rm -rf "$work"' EXIT
export LC_ALL=C PIP_NO_INDEX=1 PIP_DISABLE_PIP_VERSION_CHECK=1
unset ECOW_HOME PKG_CONFIG_PATH LD_LIBRARY_PATH CPATH LIBRARY_PATH CARGO_TARGET_DIR PYTHONPATH PYTHONHOME RUSTFLAGS
with= without=

# Whether a program is there: has NAME COMMAND.., which is tried.
has() {
    name=$1
    shift
    if "$@" > /dev/null 2>&1; then with="$with, $name"; else without="$without, $name"; return 1; fi
}

# The commands that stand in a page's block of that number.
commands() { # PAGE NUMBER
    awk -v wanted="$2" '/^```/ { fenced = !fenced }
        /^    / && !fenced { if (!inside) block++; inside = 1; if (block == wanted) print substr($0, 5); next }
        { inside = 0 }' "$1"
}

# What the page says that its first program prints.
printed() { # PAGE
    awk '/^```text$/ { inside = 1; next } /^```$/ && inside { exit } inside' "$1"
}

# Runs the commands of a page's block of that number in a folder, and leaves what they print in $work/said.
commanded() { # PAGE NUMBER FOLDER
    commands "$1" "$2" > "$work/commands"
    [ -s "$work/commands" ] || { echo "$1 has no block $2 of commands"; exit 1; }
    (cd "$3" && sh -eu "$work/commands") > "$work/said" 2> "$work/errors" || { cat "$work/said" "$work/errors"; exit 1; }
}

# Compares $work/said with what the page says.
compared() { # PAGE
    printed "$1" > "$work/expected"
    [ -s "$work/expected" ] && cmp "$work/said" "$work/expected" || {
        echo "the first program of $1 printed:"
        cat "$work/said"
        exit 1
    }
}

run() { # PAGE NUMBER FOLDER
    commanded "$@"
    compared "$1"
}

mkdir "$work/new" "$work/page"
cp "$archive" "$work/new"
tar xzf "$archive" -C "$work/page"
top=$(ls "$work/page")
pages=$work/page/$top
tar tzf "$archive" | grep -v "^$top/" && { echo "the archive has files beside its folder"; exit 1; }

# The first block of the page for C unpacks the archive. What is unpacked is moved then.
run "$pages/c/README.md" 1 "$work/new"
mv "$work/new/$top" "$work/moved"
here=$work/moved
for example in first history; do
    cc "$here/examples/$example.c" -I"$here/include" "$here/lib/libecow.a" -o "$work/$example"
    "$work/$example" | cmp - "$here/examples/$example.out"
done
if has pkg-config pkg-config --version; then
    run "$pages/c/README.md" 2 "$here"
    if (cd "$here" && ./first-shared > /dev/null 2>&1); then
        echo "the flags of ecow.pc don't link the shared library of the archive"
        exit 1
    fi
    [ "$(PKG_CONFIG_PATH=$here/lib/pkgconfig pkg-config --modversion ecow)" = "$(cat "$here/VERSION")" ]
fi
if has C++17 c++ -std=c++17 -fsyntax-only -include string_view -x c++ /dev/null; then
    run "$pages/c/CPP.md" 1 "$here"
fi
if has Rust cargo --version; then
    run "$pages/rust/README.md" 1 "$here"
    (cd "$here/rust" && cargo package --offline --quiet)
fi

# pip and the headers of Python 3.11, in an environment of its own.
if has Python python3 -c 'import ensurepip, os, sys, sysconfig, venv
assert sys.version_info >= (3, 11) and os.path.exists(sysconfig.get_path("include") + "/Python.h")'; then
    python3 -m venv "$work/venv"
    PATH=$work/venv/bin:$PATH
    commanded "$pages/python/README.md" 1 "$here"
    awk '/^```python$/ { inside = 1; next } /^```$/ && inside { exit } inside' "$pages/python/README.md" > "$work/first.py"
    (cd "$work/new" && python3 "$work/first.py") > "$work/said"
    compared "$pages/python/README.md"
fi

# An archive that was packed where the site's generator is has the site.
[ ! -d "$here/site" ] || [ -f "$here/site/index.html" ]

# The README leads to the pages, whose links hold in the archive too.
for page in c/README.md c/CPP.md python/README.md rust/README.md; do
    [ -f "$here/$page" ]
    grep -q "($page)" "$here/README.md"
    tr '(' '\n' < "$here/$page" | sed -n 's|^\([^): ]*\.md\)).*|\1|p' > "$work/links"
    while read -r link; do
        [ -f "$here/${page%/*}/$link" ] || { echo "$page leads to $link, which isn't there"; exit 1; }
    done < "$work/links"
done

# It has their commands.
sed -n 's/^| [A-Z][^|]*|[^|]*| `\(.*\)` | \[.*/\1/p' "$here/README.md" > "$work/commands"
[ "$(wc -l < "$work/commands")" -eq 4 ]
while read -r command; do
    case $command in
        python3*) [ -d "$work/venv" ] || continue ;;
        cd\ rust*) command -v cargo > /dev/null || continue ;;
        c++*) command -v c++ > /dev/null || continue ;;
    esac
    (cd "$here" && sh -euc "$command") > "$work/said" 2>&1 || { cat "$work/said"; exit 1; }
done < "$work/commands"
echo "${archive##*/}: the first programs ran with cc$with${without:+; not here: ${without#, }}"
