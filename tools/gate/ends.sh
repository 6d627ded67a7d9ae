#!/bin/sh
# Runs PROGRAM on the command lines below, in a folder with the files that they name, and says which status,
# output or message is another one.
# usage: tools/gate/ends.sh PROGRAM
set -eu
program=$(realpath "$1")
tools=$(realpath "$(dirname "$0")")
work=$(mktemp -d)
trap 'rm -r "$work"' EXIT
export LC_ALL=C

# The words behind `ecow-run`, the status, the lines of standard output, and that of standard error.
cat > "$work/table" <<'END'
                                 | 2 |                                                        | usage: ecow-run [--counted] FILE
''                               | 3 |                                                        | ecow-run: file
shared.eco                       | 0 | ok, ok, ok, [1,2,3,4], true                            |
--counted shared.eco             | 0 | ok, ok, ok, [1,2,3,4], true, blocks 2 copied 3 moved 0 |
--counted                        | 2 |                                                        | usage: ecow-run [--counted] FILE
shared.eco --counted             | 2 |                                                        | usage: ecow-run [--counted] FILE
shared.eco shared.eco            | 2 |                                                        | usage: ecow-run [--counted] FILE
--counted shared.eco shared.eco  | 2 |                                                        | usage: ecow-run [--counted] FILE
--counted --counted              | 3 |                                                        | ecow-run: file
--count shared.eco               | 2 |                                                        | usage: ecow-run [--counted] FILE
--counted-blocks shared.eco      | 2 |                                                        | usage: ecow-run [--counted] FILE
--help                           | 3 |                                                        | ecow-run: file
'two words.eco'                  | 0 | ok, ok, ok, [1,2,3,4], true                            |
--counted ' é 😀 '               | 0 | ok, ok, ok, [1,2,3,4], true, blocks 2 copied 3 moved 0 |
missing.eco                      | 3 |                                                        | ecow-run: file
--counted missing.eco            | 3 |                                                        | ecow-run: file
.                                | 3 |                                                        | ecow-run: file
"$path_of_300"                   | 0 | ok, ok, ok, [1,2,3,4], true                            |
--counted "$path_of_4095"        | 0 | ok, ok, ok, [1,2,3,4], true, blocks 2 copied 3 moved 0 |
"$path_of_4096"                  | 3 |                                                        | ecow-run: file
"$path_of_4097"                  | 3 |                                                        | ecow-run: file
"$path_of_4097" shared.eco       | 2 |                                                        | usage: ecow-run [--counted] FILE
"$not_utf8"                      | 3 |                                                        | ecow-run: file
--counted "$not_utf8"            | 3 |                                                        | ecow-run: file
empty.eco                        | 0 |                                                        |
--counted empty.eco              | 0 | blocks 0 copied 0 moved 0                              |
text.eco                         | 0 | ok, "x"                                                |
--counted text.eco               | 1 |                                                        | ecow-run: line 1: kind
latin.eco                        | 1 |                                                        | ecow-run: not UTF-8
--counted latin.eco              | 1 |                                                        | ecow-run: not UTF-8
wrong.eco                        | 1 |                                                        | ecow-run: line 1: command
--counted wrong.eco              | 1 |                                                        | ecow-run: line 1: command
late.eco                         | 1 |                                                        | ecow-run: line 3001: arguments
--counted late.eco               | 1 |                                                        | ecow-run: line 3001: arguments
largest.eco                      | 0 |                                                        |
larger.eco                       | 3 |                                                        | ecow-run: too large
--counted larger.eco             | 3 |                                                        | ecow-run: too large
shared.eco > /dev/full           | 3 |                                                        | ecow-run: output
--counted shared.eco > /dev/full | 3 |                                                        | ecow-run: output
--counted empty.eco > /dev/full  | 3 |                                                        | ecow-run: output
empty.eco > /dev/full            | 0 |                                                        |
shared.eco >&-                   | 3 |                                                        | ecow-run: output
wrong.eco > /dev/full            | 1 |                                                        | ecow-run: line 1: command
wrong.eco 2> /dev/full           | 1 |                                                        |
missing.eco 2>&-                 | 3 |                                                        |
END

# Four lines for each row. Tabs part the lines of a cell.
awk -F ' *[|] ?' '{ gsub(/, /, "\t", $3); print $1; print $2; print $3; print $4 }' "$work/table" > "$work/rows"

mkdir "$work/files"
cd "$work/files"
printf '%s\n' 'vec from_list a [1,2,3]' 'vec clone a b' 'vec push b 4' 'vec contents b' 'vec unique a' > shared.eco
printf '%s\n' 'text from_char t "x"' 'text contents t' > text.eco
printf '%s\n' 'vec pusch a 1' 'vec new a' > wrong.eco
awk 'BEGIN { for (i = 1; i <= 3000; i++) print "vec new n" i; print "vec drop n1 n2" }' > late.eco
printf '\377' > latin.eco
head -c 16777216 /dev/zero | tr '\0' '#' > largest.eco
{ cat largest.eco; printf '#'; } > larger.eco
: > empty.eco
not_utf8=$(printf 'shared\377.eco')
for name in "$not_utf8" 'two words.eco' ' é 😀 '; do cp shared.eco "$name"; done

# A path of so many bytes that names `shared.eco`.
path_of() {
    awk -v bytes="$1" 'BEGIN {
        path = bytes % 2 ? ".//shared.eco" : "shared.eco"
        while (length(path) < bytes) path = "./" path
        print path
    }'
}
path_of_300=$(path_of 300)
path_of_4095=$(path_of 4095)
path_of_4096=$(path_of 4096)
path_of_4097=$(path_of 4097)

# The lines of a cell, each with its end.
lines_of() {
    [ -z "$1" ] || echo "$1" | tr '\t' '\n'
}

runs=0
lines=0
wrong=0
while IFS= read -r words && IFS= read -r status && IFS= read -r out && IFS= read -r message; do
    runs=$((runs + 1))
    lines_of "$out" > "$work/out.wanted"
    lines_of "$message" > "$work/message.wanted"
    lines=$((lines + $(cat "$work/out.wanted" "$work/message.wanted" | wc -l)))
    got=0
    eval "\"\$program\" > \"\$work/out\" 2> \"\$work/message\" $words" < /dev/null || got=$?
    if [ "$got" != "$status" ] || ! cmp -s "$work/out" "$work/out.wanted" ||
        ! cmp -s "$work/message" "$work/message.wanted"; then
        wrong=$((wrong + 1))
        echo "ecow-run $words: status $got, and not $status"
        diff "$work/out.wanted" "$work/out" || true
        diff "$work/message.wanted" "$work/message" || true
    fi
done < "$work/rows"
echo "$runs command lines, $wrong wrong"
[ "$wrong" -eq 0 ]
"$tools/counts.sh" ends.sh "$runs command lines" "$lines lines of output and messages"
