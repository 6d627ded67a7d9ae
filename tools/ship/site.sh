#!/bin/sh
# Writes the site into bin/site: tools/ship/site.sh. Its first page is bin/site/index.html, which needs no server and no
# network. Needs python3 and Sphinx with the parser MyST and the theme Furo (on Debian: python3-sphinx,
# python3-myst-parser, furo), git, and, for the reference for Rust, cargo and rustfmt.
set -eu
cd "$(dirname "$0")/../.."
command -v sphinx-build > /dev/null || {
    echo "the site needs sphinx-build: on Debian, apt-get install python3-sphinx python3-myst-parser furo" >&2
    exit 1
}
work=$(mktemp -d)
trap 'rm -rf "$work"' EXIT
rustdoc=
if command -v cargo > /dev/null && command -v rustfmt > /dev/null; then
    tools/ship/rust_crate.sh "$work/rust" > /dev/null
    (cd "$work/rust" && CARGO_TARGET_DIR=$work/target cargo doc --quiet --offline --no-deps --features std)
    rustdoc=$work/target/doc
fi
ECOW_RUSTDOC=$rustdoc tools/ship/site_pages.py "$work/pages"
rm -rf bin/site
sphinx-build -q -j auto -d "$work/read" "$work/pages" bin/site
# Debian's Furo leaves its script in two files, which no browser joins without a server.
scripts=bin/site/_static/scripts
if grep -q '^import Gumshoe ' "$scripts/furo.js"; then
    sed 1d "$scripts/furo.js" | cat "$scripts/gumshoe-patched.js" - > "$work/furo.js"
    cp "$work/furo.js" "$scripts/furo.js"
fi
# The index of the search is in the order in which pages were read, which differs from run to run.
python3 - bin/site/searchindex.js << 'END'
import json, sys
begin, end = "Search.setIndex(", ")"
with open(sys.argv[1], encoding="utf-8") as file:
    index = json.loads(file.read()[len(begin):-len(end)])
for places in index["alltitles"].values():
    places.sort(key=lambda place: (place[0], place[1] or ""))
with open(sys.argv[1], "w", encoding="utf-8") as file:
    file.write(begin + json.dumps(index, sort_keys=True, separators=(",", ":")) + end)
END
[ -z "$rustdoc" ] || { mkdir -p bin/site/rust && cp -R "$rustdoc/." bin/site/rust; }
rm -rf bin/site/.buildinfo bin/site/objects.inv
echo "bin/site/index.html${rustdoc:+, with the reference for Rust}"
