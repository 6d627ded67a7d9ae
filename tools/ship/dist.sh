#!/bin/sh
# Packs the library for a machine without the kit: tools/ship/dist.sh COUNT. It takes what `make lib` left in bin/, and
# leaves bin/ecow-VERSION-x86_64-linux.tar.gz (with -plain behind the version for that count). Its bytes are the same
# from run to run. It has the site if that is in bin/. Needs git, GNU tar, python3 and rustfmt.
set -eu
cd "$(dirname "$0")/../.."
version=$(cat VERSION)
like=${version%.*}
case $1 in
    atomic) name=ecow-$version ;;
    plain) name=ecow-$version-plain ;;
    *) echo "COUNT is atomic or plain" >&2; exit 1 ;;
esac
name=$name-x86_64-linux
grep -q "($1 count)" bin/ecow.pc || { echo "bin/ has a library with another count than $1"; exit 1; }
work=$(mktemp -d)
trap 'rm -rf "$work"' EXIT
to=$work/$name
mkdir -p "$to/lib/pkgconfig" "$to/lib/cmake/ecow" "$to/include" "$to/examples"
cp bin/libecow.a "$to/lib"
cp bin/libecow.so "$to/lib/libecow.so.$like"
ln -s "libecow.so.$like" "$to/lib/libecow.so"
# The archive may lie anywhere.
sed 's|^prefix=.*|prefix=${pcfiledir}/../..|' bin/ecow.pc > "$to/lib/pkgconfig/ecow.pc"
cp bin/ecow-config.cmake bin/ecow-config-version.cmake "$to/lib/cmake/ecow"
cp include/ecow.h include/ecow.hpp "$to/include"
git ls-files c/examples > "$work/examples"
while read -r file; do cp "$file" "$to/examples"; done < "$work/examples"
git ls-files c/README.md c/CPP.md python > "$work/files"
while read -r file; do
    mkdir -p "$to/${file%/*}"
    cp "$file" "$to/$file"
done < "$work/files"
tools/ship/rust_crate.sh "$to/rust" > "$work/said"
tools/ship/contracts.sh "$to/contracts" > "$work/said"
[ ! -d bin/site ] || cp -R bin/site "$to/site"
cp LICENSE-APACHE LICENSE-MIT VERSION CHANGELOG.md "$to"
# It stands above the pages there, and beside those for C here.
sed 's|](\.\./|](|g' c/INSTALL.md > "$to/README.md"
find "$to" -type d -exec chmod 755 {} +
find "$to" -type f -exec chmod 644 {} +
tar --sort=name --mtime='2000-01-01 00:00Z' --owner=0 --group=0 --numeric-owner --format=ustar \
    -C "$work" -cf - "$name" | gzip -9n > "$work/packed"
mv "$work/packed" "bin/$name.tar.gz"
echo "bin/$name.tar.gz"
