#!/bin/sh
# Runs each tool that compares on what it must not pass: on a copy of what git has, in which one line says something
# else, and on programs that are wrong in one answer, cost, block or status. One that is wrong in nothing must pass. The
# last line says how many checks refused theirs.
set -eu
cd "$(dirname "$0")/../.."
work=$(mktemp -d)
trap 'rm -rf "$work"' EXIT
export LC_ALL=C WRONG= EACH= PROCESSORS=
checked=0

# Says so where a tool passes.
refuses() { # TOOL ARGUMENT.., in the copy
    if (cd "$work/copy" && "tools/gate/$@") > "$work/said" 2>&1; then
        echo "tools/gate/$* passes what it must refuse${WRONG:+: $WRONG}"
        exit 1
    fi
    [ -s "$work/said" ] || { echo "tools/gate/$* refuses without a word"; exit 1; }
    checked=$((checked + 1))
}

# Says so where a tool refuses a program that is right, or doesn't count what it compares. Then sees that it refuses one
# with each of the faults.
sees() { # FAULTS TOOL ARGUMENT.., in the copy
    faults=$1
    shift
    rm -f "$work/copy/bin/counts"
    (cd "$work/copy" && "tools/gate/$@") > "$work/said" 2>&1 && grep -q "^$1 " "$work/copy/bin/counts" || {
        cat "$work/said"
        echo "tools/gate/$* refuses what is right, or counts nothing"
        exit 1
    }
    for WRONG in $faults; do refuses "$@"; done
    WRONG=
}

# What a check is to count in the copy.
counts() { # CHECK COUNT..
    grep -v "^$1 " tools/gate/counts.txt > "$work/copy/tools/gate/counts.txt"
    check=$1
    shift
    for count; do echo "$check $count" >> "$work/copy/tools/gate/counts.txt"; done
}

# Makes a program of standard input.
program() {
    cat > "$work/program"
    chmod +x "$work/program"
}

git checkout-index -a --prefix="$work/copy/"
(cd "$work/copy" && git init -q && git add -A)

# A tool, a file, and how its text is changed, by sed.
cat > "$work/table" <<'END'
agree_statuses.sh include/ecow.hpp /case ECOW_KIND:/d
agree_statuses.sh crates/ecow_c/src/status.rt s/: u32 = 7/: u32 = 9/
agree_docs.sh docs/PROVED.md s/^| `ecow_block` | /&1/
agree_docs.sh docs/uses/lines.md s/pub fn /pub fn another_/
agree_docs.sh crates/ecow_atomic/src/shared.rt s/^    pub fn get_mut/&_one/
agree_calls.sh crates/ecow_list/src/vec/edits.rt s/^    pub fn insert/&_one_more/
agree_shipped.sh tools/ship/vendor.sh s/^    vector) tops=.*/    vector) tops=ecow_block ;;/
agree_shipped.sh tools/ship/copy_crate.sh s/s.$from.$crate.g/&;1d/
agree_shipped.sh tools/ship/dist.sh s/ c.CPP.md / /
agree_edits.sh crates/ecow_list/must-fail/splice_stops_at_the_hint.edit s/^old: /&not there/
agree_c.sh c/examples/first.c s/main/other/
agree_c.sh VERSION s/^/1/
END
while read -r tool file WRONG; do
    cp -p "$work/copy/$file" "$work/kept"
    sed "$WRONG" "$work/kept" > "$work/copy/$file"
    if cmp -s "$work/kept" "$work/copy/$file"; then echo "$file has nothing that $WRONG changes"; exit 1; fi
    refuses "$tool"
    cp -p "$work/kept" "$work/copy/$file"
done < "$work/table"
WRONG=

# A program that asks for less than is to be refused.
tools/gate/shim.sh "$work/shim.so"
said=$(REFUSE=1000000 LD_PRELOAD="$work/shim.so" git --version 2>&1 > "$work/none")
[ "$said" = "fewer requests" ] || { echo "tools/gate/refuse.c says \"$said\" where no request is refused"; exit 1; }

# Counts: another number, one below the least, what the table hasn't, one that isn't said, and checks that say nothing.
counts sum.sh "3 rows" "2+ lines"
(cd "$work/copy" && tools/gate/counts.sh sum.sh "3 rows" "4 lines")
for said in "4 rows" "2 rows" "3 parts"; do refuses counts.sh sum.sh "$said" "2 lines"; done
refuses counts.sh sum.sh "3 rows" "1 lines"
refuses counts.sh sum.sh "3 rows"
refuses counts.sh

# Costs: as a table says, but for a cell of each column of a row, or the whole row.
for table in crates/ecow_test_costs/*.md; do : > "$work/copy/$table"; done
cat > "$work/copy/docs/COSTS.md" << 'END'
| Call | Before | Cloned | Dropped | After | Room | Requests |
|---|---|---|---|---|---|---|
| `push(x)` | empty, shared empty | | | sole | 8 | 1 |
END
cat > "$work/costs" << 'END'
| `push(x)` | empty | 0 | 0 | sole | same | 8 | 1 |
| `push(x)` | shared empty | 0 | 0 | sole | sole | 8 | 1 |
END
counts costs.sh "2 rows" "17 cells"
program << 'END'
#!/bin/sh
if [ -n "${LD_PRELOAD:-}" ]; then LD_PRELOAD='' exec "$0" "$@"; fi
cd "${0%/*}"
awk -F ' [|] ' -v OFS=' | ' -v at="$WRONG" 'NR == 2 && at == "row" { next }
    NR == 2 && at ~ /^[0-9]$/ { $at = 1 $at }
    { print }' costs > costs.said
sed 's/ [^ ]* |$//' costs.said
sed 's/.* \([^ ]*\) |$/\1/' costs.said >&2
blocks=0
[ "$WRONG" != left ] || blocks=1
[ -z "${LEFT:-}" ] || echo "blocks left: $blocks" >&2
[ "$WRONG" != status ]
END
sees "1 2 3 4 5 6 7 8 row left status" costs.sh "$work/program"

# Refusals: each taken well, but for one.
kit=$(dirname "$(rt doc | head -n 1)")
"$kit/toolchain/bin/clang" -O1 -fno-builtin -fPIC -nostdinc -c tools/gate/fake.c -o "$work/fake.o"
"$kit/bin/rattle-link" --target x86_64-unknown-linux-gnu --toolchain "$kit/toolchain" -o "$work/fake" "$work/fake.o" \
    2> "$work/none"
counts refuse.sh "2 parts" "6 requests refused, of status 0" "8 processes that gave all back"
sees "answer keeps status crash" refuse.sh "$work/fake"
echo 2 | WRONG=crash REFUSE_EACH=1 LD_PRELOAD="$work/shim.so" "$work/fake" | grep -q '^request 2: status 13' || {
    echo "tools/gate/refuse.c says that a copy that crashes ends well"
    exit 1
}

# Golden scripts: each of two commands is answered by its word, and no other line is read.
rm "$work"/copy/cases/*.eco "$work"/copy/examples/*.eco
for script in examples/first cases/lines; do
    printf '%s\n' one '#> did one' two '#> did two' > "$work/copy/$script.eco"
done
printf '%s\n' one '#> did one' '#> counted' > "$work/copy/cases/counted.eco"
program << 'END'
#!/bin/sh
for script; do :; done
if [ "$WRONG" != cut ] && grep '^[a-z]' "$script" | grep -qvx -e one -e two; then
    echo 'ecow-run: line 1: command' >&2
    exit 1
fi
awk -v wrong="$WRONG" '/^[a-z]/ {
    print "did " ($1 == wrong || wrong == "alone" && FILENAME ~ /line$/ ? "none" : $1)
}' "$script"
case $1$WRONG in --countedflag) ;; --counted*) echo counted ;; esac
[ "$WRONG" != message ] || echo wrong >&2
[ "$WRONG" != status ] || exit 4
END
counts cases.sh "3 golden scripts" "6 answers" "60 cut scripts"
sees "two flag alone message status cut" cases.sh "$work/program"

# Scripts of which each request is refused: three for each with a command or two, and two that are drawn, in either store.
printf '%s\n' 'draw 2 3' 'state vec vec new x' 'vec pop x' > "$work/copy/tools/gate/states.txt"
counts refuse_scripts.sh "10 scripts" "56 requests refused" "46 commands refused" "66 processes that gave all back"
sees "output later extra keeps memory status" refuse_scripts.sh "$work/fake"

# Large scripts, which aren't so large here: answered by what is wanted, in time that grows as their bytes.
sed 's/many = 70000/many = 700/; s/count = 100000/count = 1000/' tools/gate/large.awk \
    > "$work/copy/tools/gate/large.awk"
program << 'END'
#!/bin/sh
if [ -n "${LD_PRELOAD:-}" ]; then LD_PRELOAD='' exec "$0" "$@"; fi
for script; do :; done
wanted=${script%/*}/wanted
case $WRONG$(head -n 1 "$script" | cut -c 1-27) in
    'answertext from_str t "xxx'*) sed '$s/^/1/' "$wanted" ;;
    'statustext from_str t "abc'*) cat "$wanted"; exit 1 ;;
    'memoryvec from_elem a 5 4194'*)
        awk 'BEGIN { held = "x"; while (length(held) < 50000000) held = held held }' || exit 1
        cat "$wanted" ;;
    *) cat "$wanted" ;;
esac
awk -v bytes="$(wc -c < "$script")" -v wrong="$WRONG" 'BEGIN {
    rounds = wrong == "time" ? bytes * bytes / 4000000 : bytes / 4
    while (i < rounds) i++
}'
blocks=0
[ "$WRONG" != left ] || blocks=1
[ -z "${LEFT:-}" ] || echo "blocks left: $blocks" >&2
END
counts large.sh "18 scripts" "33646 answers" "9 times of longer scripts"
sees "answer status memory time left" large.sh "$work/program"

# Calls whose time grows as their names say.
for growth in constant linear quadratic; do echo "| \`$growth\` | u64 | 20 | $growth | 1 | 1 |"; done \
    > "$work/copy/crates/ecow_bench/growth.md"
program << 'END'
#!/bin/sh
case $1 in constant) power=0 ;; linear) power=1 ;; quadratic) power=2 ;; esac
[ "$WRONG" != "$1" ] || power=$(((power + 1) % 3))
awk -v len="$3" -v power=$power -v rounds="$4" 'BEGIN { rounds *= len ^ power; while (i < rounds) i++; print 1 }'
END
counts growth.sh "3 calls"
sees "constant linear quadratic" growth.sh "$work/program"

# Command lines: one by one what the table of them wants, but for the third.
mkdir "$work/ends"
sed -n "/<<'END'/,/^END/p" tools/gate/ends.sh | sed '1d; $d' | awk -F ' *[|] ?' -v folder="$work/ends" '{
    gsub(/, /, "\n", $3)
    print $2 > (folder "/status." NR)
    printf "%s", $3 ($3 == "" ? "" : "\n") > (folder "/out." NR)
    printf "%s", $4 ($4 == "" ? "" : "\n") > (folder "/message." NR)
}'
cat > "$work/ends/program" << 'END'
#!/bin/sh
# Where it is run, is new each time.
echo >> ../runs
row=$(wc -l < ../runs)
[ "$WRONG$row" != out3 ] || echo 1
[ "$WRONG$row" != message3 ] || echo 1 >&2
cd "${0%/*}"
[ ! -s out.$row ] || cat out.$row
[ ! -s message.$row ] || cat message.$row >&2
[ "$WRONG$row" != status3 ] || exit 1
exit "$(cat status.$row)"
END
chmod +x "$work/ends/program"
sees "out message status" ends.sh "$work/ends/program"

# The kit's gate.
mkdir "$work/kit" "$work/tools"
cat > "$work/kit/rt" << 'END'
#!/bin/sh
[ "$WRONG" = test ] || echo "test first ... ok"
echo "test second ... ok"
[ "$WRONG" = run ] || echo "rt: ecow_run ran, and wrote what its file stdout has"
[ "$WRONG" = edit ] || echo "3 passed, 0 failed"
[ "$WRONG" != edit ] || echo "2 passed, 0 failed"
[ "$WRONG" != status ]
END
chmod +x "$work/kit/rt"
counts ci.sh "3 crates and edits" "2 tests" "1 runs of programs"
kept=$PATH
PATH=$work/kit:$PATH
sees "test run edit status" ci.sh ci.sh .
PATH=$kept

# The libraries for C, Python and Rust: compilers and what they make are stood for by tools/gate/fake.sh.
for name in cc make nm pkg-config cmake valgrind python mypy cargo rustc rustfmt; do
    cp tools/gate/fake.sh "$work/tools/$name"
done
VERSION=$(cat VERSION) PATH=$work/tools:$PATH CC=cc CXX=none
export VERSION PATH CC CXX
mkdir -p "$work/copy/bin"
: > "$work/copy/tools/gate/refuse.c"
touch "$work/copy/bin/ecow.pc" "$work/copy/bin/libecow.a" "$work/copy/bin/ecow.h" "$work/tools/Python.h"
costs=$(wc -l < c/tests/costs.out)
words=$(wc -w < c/tests/costs.out)
counts c_short.sh "6 runs" "$((costs + 1)) costs" "$((words + 3)) words of costs" "2 requests refused" \
    "3 processes that gave all back"
export PYTHON=none
sees "cost requests left status refused-left refused-status total first linked other removed unread" c_short.sh
PYTHON=$work/tools/python
counts python.sh "5 tests" "$(($(git ls-files python/ecow | wc -l) + 6)) files"
sees "wheel version file tests example" python.sh
printf '#!/bin/sh\nmkdir -p "$1"\n' > "$work/copy/tools/ship/erase.py"
printf '#!/bin/sh\n' > "$work/copy/tools/gate/erase_test.sh"
printf '#!/bin/sh\ncat rust/erased.txt\n[ "$WRONG" != audit ] || echo 1\n' > "$work/copy/tools/gate/erased_audit.sh"
counts rust_gate.sh "$((6 * $(git ls-files ':(glob)rust/tests/*.rs' | wc -l))) tests" \
    "$(wc -l < rust/erased.txt) lines of rust/erased.txt"
sees "left-out empty status warning example audit" rust_gate.sh

# A check is skipped only where a program is missing.
refuses counts.sh dist.sh skipped sh
[ "$checked" -gt 0 ] || { echo "no check was tried"; exit 1; }
echo "$checked checks refuse what they must not pass"
tools/gate/counts.sh agree_checks.sh "$checked refused"
