# The pieces of code of a file, one on a line, without comments, commas and imports. Of a file of Rattle what proofs alone
# read is left out and counted. Variables: imports, counts and asks, files to which those, and the public functions that ask
# something of their caller, are appended.

# The index behind the marks that open at the piece i.
function behind(i, open, close_, depth) {
    depth = 0
    for (;;) {
        if (piece[i] == open) depth++
        if (piece[i] == close_ && --depth == 0) return i + 1
        if (++i > n) { print FILENAME ": a mark isn't closed" > "/dev/stderr"; exit 1 }
    }
}

function list_imports(i, end, path, front) {
    path = ""
    for (; i < end; i++) {
        if (piece[i] == "{") { front = path; path = ""; continue }
        if (piece[i] == "," || piece[i] == "}") { if (path != "") print front path >> imports; path = ""; continue }
        path = path piece[i]
    }
    if (path != "") print front path >> imports
}

{
    rest = $0
    while (rest != "") {
        if (match(rest, /^[ \t]+/)) { rest = substr(rest, RLENGTH + 1); continue }
        if (match(rest, /^\/\//)) break
        if (!match(rest, /^b?"([^"\\]|\\.)*"/) && !match(rest, /^b?'([^'\\]|\\[^']+)'/) &&
            !match(rest, /^'[A-Za-z_]+/) && !match(rest, /^[A-Za-z0-9_]+/)) { RSTART = RLENGTH = 1 }
        piece[++n] = substr(rest, 1, RLENGTH)
        rest = substr(rest, RLENGTH + 1)
    }
}

END {
    for (i = 1; i <= n; ) {
        word = piece[i]
        if (word == "fn") {
            name = piece[i + 1]
            public = piece[i - 1] == "pub" || piece[i - 1] == "unsafe" && piece[i - 2] == "pub"
        }
        if (word == "use") {
            for (end = i; piece[end] != ";"; end++) { }
            list_imports(i + 1, end)
            i = end + 1
            continue
        }
        if (word == "ghost" && piece[i + 1] == "use") {
            while (piece[i] != ";") i++
            print "imports of proofs" >> counts
            i++
            continue
        }
        if (word == "ghost") {
            while (piece[i] != "{") i++
            i = behind(i, "{", "}")
            if (piece[i] == ";" || piece[i] == ",") i++
            print "ghost items" >> counts
            continue
        }
        if (word ~ /^(requires|ensures|invariant|decreases)$/) {
            at = i + 1
            if (piece[at] == "*") at++
            if (piece[at] ~ /^[a-z_]/) at++
            if (piece[at] == "{") {
                if (word == "requires" && public) print FILENAME ": " name >> asks
                i = behind(at, "{", "}")
                print "clauses" >> counts
                continue
            }
        }
        if (word == "impl") {
            for (end = i; piece[end] != "{" && piece[end] != ";" && end <= n; end++)
                if (piece[end] == "Model" && piece[end + 1] == "for") {
                    while (piece[end] != "{") end++
                    i = behind(end, "{", "}")
                    print "models" >> counts
                    word = ""
                    break
                }
            if (word == "") continue
        }
        if (word == "#") {
            at = piece[i + 1] == "!" ? i + 2 : i + 1
            if (piece[at + 1] == "tactic" || piece[at + 1] == "cycle") {
                i = behind(at, "[", "]")
                print "tactics" >> counts
                continue
            }
        }
        if (word != ",") print word
        i++
    }
}
