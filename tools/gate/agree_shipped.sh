#!/bin/sh
# Makes each copy that tools/ship/vendor.sh makes, and compares its crates with the table below, and its files and their
# contents with those that git has. Likewise it packs the archives of tools/ship/dist.sh, of an empty library, where there
# are GNU tar, python3 and rustfmt.
set -eu
. "$(dirname "$0")/work.sh"

cat > "$work/table" <<'END'
vector base block shared list
tree base block shared list tree
text base block shared list bytes string ecow
nested base block shared list bytes string nested ecow
store base model table block shared list bytes string ecow counted store
tool base model table block shared list bytes string ecow counted store script tool
all base model table block shared list bytes string nested tree ecow counted store script tool
END

copies=0
files=0
while read -r kind names; do
    for count in plain atomic; do
        shared=ecow_shared
        [ "$count" = plain ] || shared=ecow_atomic
        to=$work/$kind-$count
        tools/ship/vendor.sh "$to" "$kind" "$count" > "$work/said"
        for name in $names; do
            crate=ecow_${name#ecow}
            crate=${crate%_}
            from=$crate
            [ "$crate" != ecow_shared ] || from=$shared
            git ls-files "crates/$from/src" "crates/$from/specs" "crates/$from/proofs" |
                sed "s|^crates/$from/|crates/$crate/|"
            for file in VERSION LICENSE-APACHE LICENSE-MIT SUMS; do echo "crates/$crate/$file"; done
            [ "$crate" != ecow_shared ] || echo "crates/$crate/COUNT"
        done | sort > "$work/wanted"
        (cd "$to" && find crates -type f | sort) > "$work/copied"
        diff "$work/wanted" "$work/copied" || { echo "KIND=$kind COUNT=$count copies other files"; exit 1; }
        cut -d : -f 1 "$to/crates.txt" > "$work/rows"
        for name in $names; do echo "ecow_${name#ecow}" | sed 's/_$//'; done | sort > "$work/wanted"
        sort "$work/rows" | diff "$work/wanted" - || { echo "KIND=$kind COUNT=$count has other rows"; exit 1; }
        while read -r file; do
            case $file in */SUMS | */COUNT) continue ;; esac
            case $shared$file in
                */VERSION | */LICENSE-*) cmp "${file##*/}" "$to/$file" ;;
                ecow_atomiccrates/ecow_shared/*)
                    sed 's/ecow_atomic/ecow_shared/g' "crates/ecow_atomic/${file#crates/ecow_shared/}" |
                        cmp - "$to/$file" ;;
                *) cmp "$file" "$to/$file" ;;
            esac || exit 1
            files=$((files + 1))
        done < "$work/copied"
        copies=$((copies + 1))
    done
done < "$work/table"
echo "$copies copies have the $files files that they are to have"
tools/gate/counts.sh agree_shipped.sh "$copies copies" "$files files"

command -v python3 > "$work/said" && command -v rustfmt > "$work/said" && tar --version | grep -q GNU || {
    echo "the archives were not compared: this machine has no python3, rustfmt or GNU tar"
    tools/gate/counts.sh dist.sh skipped
    exit 0
}
mkdir -p "$work/here/bin"
git ls-files | tar -c -T - | tar -x -C "$work/here"
(cd "$work/here" && git init -q && git add -A && touch bin/libecow.a bin/libecow.so bin/ecow-config.cmake \
    bin/ecow-config-version.cmake)
{
    git ls-files c/README.md c/CPP.md python rust | grep -vx rust/.gitignore
    git ls-files c/examples | sed 's|^c/||'
    for file in a so so.$(sed 's/[.][^.]*$//' VERSION); do echo lib/libecow.$file; done
    for name in base block bytes c counted list model nested script store string table tool tree; do echo contracts/ecow_$name.md; done
    cat << 'END'
CHANGELOG.md
LICENSE-APACHE
LICENSE-MIT
README.md
VERSION
contracts/README.md
include/ecow.h
include/ecow.hpp
lib/cmake/ecow/ecow-config-version.cmake
lib/cmake/ecow/ecow-config.cmake
lib/pkgconfig/ecow.pc
rust/LICENSE-APACHE
rust/LICENSE-MIT
END
} | sort > "$work/wanted"
archives=0
for count in atomic plain; do
    archives=$((archives + 1))
    echo "($count count)" > "$work/here/bin/ecow.pc"
    archive=$(cd "$work/here" && tools/ship/dist.sh "$count")
    # What is proved has a gate of its own, which compiles it.
    tar tzf "$work/here/$archive" | sed 's|^[^/]*/||; /\/$/d; /^$/d; /^rust\/src\/proved\//d' | sort > "$work/packed"
    diff "$work/wanted" "$work/packed" || {
        echo "the archive of the $count count has other files (>)"
        exit 1
    }
done
echo "$archives archives have their $(grep -c '' "$work/packed") files"
tools/gate/counts.sh dist.sh "$archives archives" "$(grep -c '' "$work/packed") files"
