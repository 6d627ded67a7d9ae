#!/bin/sh
# Compares the programs that the pages for callers quote with the files, and the version in the header and in the crate
# for Rust with VERSION. The package for Python reads VERSION itself.
set -eu
cd "$(dirname "$0")/../.."

quoted_files=0
quotes() { # PAGE FILE..
    page=$1
    shift
    for file; do
        [ -s "$file" ] || { echo "no $file"; exit 1; }
        case "$(cat "$page")" in *"$(cat "$file")"*) ;; *) echo "$page quotes another $file"; exit 1 ;; esac
        quoted_files=$((quoted_files + 1))
    done
}

quotes c/README.md c/examples/first.c c/examples/first.out c/examples/history.c
quotes c/CPP.md c/examples/interned.cpp c/examples/settings.cpp
quotes python/README.md python/examples/versions.py python/examples/versions.out
quotes rust/README.md rust/examples/first.rs
quotes README.md rust/examples/parts.rs c/examples/parts.cpp python/examples/parts.py

version=$(cat VERSION)
numbers=$(sed -n 's/^#define ECOW_VERSION_[MP][A-Z]* //p' include/ecow.h | paste -s -d . -)
quoted=$(sed -n 's/^#define ECOW_VERSION "\(.*\)"$/\1/p' include/ecow.h)
crate=$(sed -n 's/^version = "\(.*\)"$/\1/p' rust/Cargo.toml)
versions=0
for said in "include/ecow.h: $numbers" "include/ecow.h: $quoted" "rust/Cargo.toml: $crate"; do
    [ "${said#*: }" = "$version" ] || { echo "VERSION is $version, and that of $said"; exit 1; }
    versions=$((versions + 1))
done
echo "$quoted_files programs stand in their pages, of version $version"
tools/gate/counts.sh agree_c.sh "$quoted_files programs" "$versions versions"
