#!/bin/sh
# Runs PROGRAM on scripts, in either store, and refuses each of its requests for memory in turn: a copy of the process goes
# on without it. The copy ends with status 3 and no output, or it refuses a command, and answers all others as it answers
# the script without that command. So a refused command changes nothing, under every name. Where no request is refused, no
# command may lack memory. The scripts are the golden ones; one for each state of tools/gate/states.txt, with each
# command in it; and some of lines drawn from that table, with other names, half of them of lists alone.
# usage: tools/gate/refuse_scripts.sh PROGRAM
set -eu
. "$(dirname "$0")/start.sh"
tools/gate/shim.sh "$work/refuse.so"
mkdir "$work/scripts"
for script in cases/*.eco examples/*.eco; do
    case $script in *lines.eco) ;; *) cp "$script" "$work/scripts" ;; esac
done

# Each command is carried out on x in each state of its kind. Then x is looked at, y, which shares its memory in some
# states, and z, which some commands make.
awk -v folder="$work/scripts" '
# A whole number from 0 up to one that is less than this.
function below(most) {
    seed = seed * 16807 % 2147483647
    return int(seed / 2147483647 * most)
}
function a_name() { return substr("wxyz", below(4) + 1, 1) }
# A line of the table with other names.
function drawn(line,    words, count, at, made) {
    count = split(line, words, " ")
    for (at = 1; at <= count; at++) made = made (at > 1 ? " " : "") (words[at] ~ /^[w-z]$/ ? a_name() : words[at])
    return made
}
function is_list(line) { return line ~ /^vec / }
/^#/ { next }
$1 == "draw" { scripts = $2; lines_of_each = $3; next }
/^state / {
    states++
    kind[states] = $2
    sub(/^state [a-z]* /, "")
    count = split($0, makers, "; ")
    for (i = 1; i <= count; i++) lines[++drawable] = makers[i]
    gsub(/; /, "\n")
    made[states] = $0
    next
}
{
    lines[++drawable] = $0
    made_kind = $1
    changed = $2 == "from_text" ? "text" : $1
    for (state = 1; state <= states; state++) {
        if (kind[state] != changed) continue
        script = sprintf("%s/state_%02d.eco", folder, state)
        print made[state] "\n" $0 > script
        for (i = 1; i <= 3; i++) {
            name = substr("xyz", i, 1)
            of = name == "z" ? made_kind : changed
            print of " contents " name "\n" of " capacity " name > script
            print of (of == "vec" ? " unique " : " is_inline ") name > script
        }
        for (i = 1; i <= 3; i++) print (i == 3 ? made_kind : changed) " drop " substr("xyz", i, 1) > script
    }
}
END {
    seed = 7
    split("vec bytes text", kinds, " ")
    for (number = 1; number <= scripts; number++) {
        script = sprintf("%s/drawn_%02d.eco", folder, number)
        for (i = 1; i <= lines_of_each; i++) {
            do line = lines[below(drawable) + 1]; while (number % 2 && !is_list(line))
            if (below(6) == 0) line = kinds[number % 2 ? 1 : below(3) + 1] " drop x"
            print drawn(line) > script
            if (i % 10 == 0) for (of = 1; of <= (number % 2 ? 1 : 3); of++)
                for (at = 1; at <= 4; at++) print kinds[of] " contents " substr("wxyz", at, 1) > script
        }
    }
}' tools/gate/states.txt

# Reads what the copies and the process itself say. With finds=1 it prints the numbers of commands that are refused in some
# copy. Then it compares, with the answers to the script without each of them in WITHOUT.NUMBER, and prints what is wrong.
cat > "$work/compare.awk" << 'END'
# Whether the answers so far are those in a file, but for the one with this number, which the file lacks.
function are_those_of(path, number,    line, at) {
    if (!(path in size)) {
        while ((getline line < path) > 0) answer[path, ++at] = line
        close(path)
        size[path] = at + 0
    }
    if (said != size[path] + (number > 0)) return 0
    for (at = 1; at <= size[path]; at++)
        if (line_of[number && at >= number ? at + 1 : at] != answer[path, at]) return 0
    return 1
}
# The number of the command that is refused here alone, or 0.
function refused_here(    at) {
    for (at = 1; at <= said; at++)
        if (line_of[at] == "refused memory" && answer[base, at] != "refused memory") return at
    return 0
}
BEGIN { are_those_of(base, 0) }
/^request [0-9]+: status [0-9]+$/ {
    requests++
    refused = refused_here()
    if ($4 == 3) right = !said
    else if (finds && refused) print refused
    else right = $4 == wanted && (refused ? are_those_of(without "." refused, refused) : are_those_of(base, 0))
    if (!finds && !right) print "request " $2 + 0 (refused ? ", command " refused : "") ": status " $4 ", wrong answers"
    said = 0
    next
}
{ line_of[++said] = $0 }
END {
    if (finds) exit
    if (!are_those_of(base, 0)) print "wrong answers where no request is refused"
    if (requests != total) print requests + 0 " requests of " total
}
END

# Prints each command that lacks memory where no request is refused. The largest capacity is more than any machine has.
cat > "$work/lacking.awk" << 'END'
NR == FNR { line[NR] = $0; next }
$0 == "refused memory" && line[FNR] !~ / 9223372036854775807$/ { print "without memory: " line[FNR] }
END

# Writes a script without each of some commands to SHORTER.NUMBER.
cat > "$work/without.awk" << 'END'
NR == FNR { numbers[++count] = $1; next }
{
    line[++lines] = $0
    if (!/^[ \t]*(#|$)/) number_of[lines] = ++commands
}
END {
    for (i = 1; i <= count; i++) {
        file = shorter "." numbers[i]
        for (at = 1; at <= lines; at++) if (number_of[at] != numbers[i]) print line[at] > file
        close(file)
    }
}
END

scripts=0
requests=0
commands=0
whole=0
wrong=0
for script in "$work"/scripts/*.eco; do
    for counted in '' --counted; do
        status=0
        "$program" $counted "$script" > "$work/base" 2> "$work/message" || status=$?
        # A script of bytes or texts is none of the counted store.
        [ -z "$counted" ] || [ "$status" -eq 0 ] || continue
        REFUSE_EACH=1 TOTAL=1 LEFT=1 LD_PRELOAD=$work/refuse.so "$program" $counted "$script" \
            > "$work/said" 2> "$work/messages" || true
        total=$(grep -x '[0-9]*' "$work/messages" | tail -n 1)
        set -- -v base="$work/base" -v without="$work/without" -v wanted="$status" -v total="$total" -f "$work/compare.awk"
        awk -v finds=1 "$@" "$work/said" | sort -nu > "$work/numbers"
        tr -d '\r' < "$script" > "$work/lines"
        [ ! -s "$work/numbers" ] || awk -v shorter="$work/shorter" -f "$work/without.awk" "$work/numbers" "$work/lines"
        while read -r number; do
            "$program" $counted "$work/shorter.$number" > "$work/without.$number" || true
            commands=$((commands + 1))
        done < "$work/numbers"
        {
            awk "$@" "$work/said"
            grep '^blocks left: [1-9]' "$work/messages" || true
            case $script in */state_* | */drawn_*) awk -f "$work/lacking.awk" "$work/lines" "$work/base" ;; esac
        } > "$work/apart"
        rm -f "$work"/without.[0-9]* "$work"/shorter.*
        [ ! -s "$work/apart" ] || {
            wrong=$((wrong + 1))
            echo "${script##*/} $counted:"
            head -n 5 "$work/apart"
        }
        scripts=$((scripts + 1))
        requests=$((requests + total))
        whole=$((whole + $(grep -cx 'blocks left: 0' "$work/messages")))
    done
done
echo "$requests requests of $scripts scripts refused in turn, $commands commands refused, $wrong scripts wrong"
[ "$wrong" -eq 0 ]
tools/gate/counts.sh refuse_scripts.sh "$scripts scripts" "$requests requests refused" "$commands commands refused" \
    "$whole processes that gave all back"
