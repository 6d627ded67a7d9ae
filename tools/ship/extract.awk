# Takes the public calls of a crate's files apart, for all that shows them: awk -f tools/ship/extract.awk pass=1 FILE..
# pass=2 FILE.. The first pass finds the types that aren't public, whose calls are left out. A line that is printed is
# a letter, a tab, and text, whose parts tabs separate:
#   F file   M line of the file's comment   U path, words, whether the word is an alias (1) or not (0)
#   D line of the comment of what follows   A attribute of what follows
#   T kind, name, line of a public type or trait   V field or variant of it
#   I an impl's or a public trait's first line   G line of its ghost definitions
#   C name, whether it is of an impl of a trait (1), of a trait (2) or neither (0)   S line of the call's signature
#   K requires or ensures, label   L line of that clause   N comment within the contract   E blank line there
function put(letter, text) { print letter "\t" text }
function said(   i) {
    for (i = 1; i <= comments; i++) put("D", comment[i])
    comments = 0
}
function is_hidden(text) {
    while (match(text, /[A-Z][A-Za-z]*/)) {
        if (substr(text, RSTART, RLENGTH) in private) return 1
        text = substr(text, RSTART + RLENGTH)
    }
    return 0
}
# The first line of an impl stands before the first thing that is shown of it.
function opened(   i) {
    if (impl == "" || impl_shown) return
    for (i = 1; i <= impl_comments; i++) put("D", impl_comment[i])
    put("I", impl)
    impl_shown = 1
}
function begins(   name, i, kept) {
    # The comment of the call waits for that of the impl.
    kept = comments
    opened()
    comments = kept
    said()
    name = $0
    sub(/^ *(pub )?(extern "C" )?(const )?fn /, "", name)
    sub(/[^A-Za-z0-9_].*/, "", name)
    put("C", name "\t" (of_trait ? 1 : is_trait ? 2 : 0))
    inside = 1
    clauses = 0
}
pass == 1 && /^(pub\((crate|super)\) )?(struct|enum|trait) / {
    name = $0
    sub(/^(pub\((crate|super)\) )?(struct|enum|trait) /, "", name)
    sub(/[^A-Za-z].*/, "", name)
    private[name] = 1
}
pass == 1 { next }
FNR == 1 {
    put("F", FILENAME)
    impl = ""
    inside = of_trait = is_trait = defines = hidden = in_type = comments = 0
}
/^\/\/!/ { line = $0; sub(/^\/\/! ?/, "", line); put("M", line); next }
/^ *ghost use / {
    line = $0
    sub(/^ *ghost use /, "", line)
    sub(/;$/, "", line)
    if (match(line, /\.\{.*\}$/)) put("U", substr(line, 1, RSTART - 1) "\t" substr(line, RSTART + 2, RLENGTH - 3) "\t0")
    else {
        path = line
        sub(/ as .*/, "", path)
        sub(/.* as /, "", line)
        put("U", path "\t" line "\t1")
    }
    comments = 0
    next
}
/^ *\/\/\// && !inside { line = $0; sub(/^ *\/\/\/ ?/, "", line); comment[++comments] = line; next }
/^ *\/\/ rust: / && !inside { next }
/^ *#\[/ && !inside { next }
/^impl/ || /^pub trait / {
    is_trait = /^pub trait /
    impl = $0
    sub(/ \{\}?$/, "", impl)
    hidden = is_hidden(impl)
    of_trait = !is_trait && impl ~ / for / && impl !~ /Model for /
    impl_shown = 0
    impl_comments = comments
    for (i = 1; i <= comments; i++) impl_comment[i] = comment[i]
    comments = 0
    if (/\{\}$/) impl = ""
    next
}
/^pub (struct|enum|const|type) / && !hidden {
    said()
    line = $0
    sub(/^pub /, "", line)
    kind = line
    sub(/ .*/, "", kind)
    name = line
    sub(/^[a-z]+ /, "", name)
    sub(/[^A-Za-z0-9_].*/, "", name)
    shown = $0
    sub(/ \{$/, "", shown)
    put("T", kind "\t" name "\t" shown)
    in_type = / \{$/ ? (kind == "enum" ? 2 : 1) : 0
    next
}
/^}/ { impl = ""; of_trait = is_trait = hidden = in_type = comments = 0; next }
in_type && /^    [A-Za-z]/ {
    if (in_type == 2 || /^    pub /) {
        said()
        line = $0
        sub(/^    /, "", line)
        put("V", line)
    }
    comments = 0
    next
}
hidden { comments = 0; next }
(of_trait || is_trait) && /^    ghost [a-z_]+ *[:=]/ { kept = comments; opened(); comments = 0; defines = 1 }
defines { defines = !/;$/; sub(/;$/, ""); put("G", $0); next }
/^(    )?pub (extern "C" )?fn / { begins() }
(of_trait || is_trait) && /^    fn / { begins() }
inside && /^ *\{\}?$/ { inside = 0; next }
inside {
    if ($0 ~ / \{$/ || $0 ~ /;$/) { inside = 0; sub(/( \{|;)$/, "") }
    sub(/pub (extern "C" )?fn/, "fn")
    if (/^ *$/) put("E", "")
    else if (/^ *\/\//) put("N", $0)
    else if (/^ *(requires|ensures)\*? /) {
        clauses = 1
        label = $0
        sub(/^ */, "", label)
        kind = label
        sub(/[* ].*/, "", kind)
        sub(/^[a-z]*\*? /, "", label)
        sub(/ *\{.*/, "", label)
        put("K", kind "\t" label)
        put("L", $0)
    } else put(clauses ? "L" : "S", $0)
    next
}
!/^ *$/ { comments = 0 }
