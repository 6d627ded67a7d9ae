# Writes the pages of the contracts into a folder, from what tools/ship/extract.sh prints, and adds their rows to its
# README.md: tools/ship/extract.sh | awk -v to=FOLDER -f tools/ship/contracts.awk
function put(line) {
    if (!opened) print "```text" > page
    opened = 1
    print line > page
}
# An impl has a line before it, unless it is the first of its file.
function shown(line) {
    put(line)
    shown_text = shown_text "\n" line
}
function said(indent,   i) {
    for (i = 1; i <= comments; i++) put(indent "///" (comment[i] == "" ? "" : " " comment[i]))
    comments = 0
}
# Whether what is shown has the word.
function is_shown(word, mark) {
    if (word ~ /^[A-Za-z_]/) {
        gsub(/◌.*/, "", word)
        return match(shown_text, "(^|[^A-Za-z0-9_])" word "([^A-Za-z0-9_]|$)")
    }
    gsub(/◌/, "", word)
    return index(shown_text, word)
}
# The lines that bring the words of the file that was shown.
function ending(   path, i, n, words, kept, lines) {
    lines = ""
    for (path = 1; path <= uses; path++) {
        n = split(use_words[path], words, ", ")
        kept = ""
        for (i = 1; i <= n; i++) if (is_shown(words[i])) kept = kept (kept == "" ? "" : ", ") words[i]
        if (kept != "") lines = lines use_path[path] (use_alias[path] ? " as " kept : ".{" kept "}") "\n"
    }
    if (lines != "") put("\nghost use:\n" substr(lines, 1, length(lines) - 1))
    if (opened) print "```\n" > page
    shown_text = ""
    uses = opened = comments = first = 0
}
function row() {
    if (calls) print "| [`" crate "`](" crate ".md) | " calls " |" >> (to "/README.md")
    calls = 0
}
BEGIN { FS = "\t" }
{ text = substr($0, 3) }
$1 == "P" {
    ending()
    row()
    crate = text
    page = to "/" crate ".md"
    print "# The contracts of `" crate "`\n" > page
}
$1 == "F" { ending(); print "## `" text "`\n" > page }
$1 == "M" { print text > page; of_file = 1; next }
of_file { print "" > page; of_file = 0 }
$1 == "U" { uses++; use_path[uses] = $2; use_words[uses] = $3; use_alias[uses] = $4 }
$1 == "D" { comment[++comments] = text }
$1 == "T" || $1 == "I" {
    if (opened) put("")
    said("")
    shown($1 == "T" ? $4 : text)
}
$1 == "V" { said("    "); shown("    " text) }
$1 == "G" { shown(text) }
$1 == "S" && is_new { indent = text; sub(/[^ ].*/, "", indent); if (opened && comments) put(""); said(indent); is_new = 0 }
$1 == "C" { calls++; is_new = 1 }
$1 == "S" || $1 == "L" || $1 == "N" { shown(text) }
$1 == "E" { put("") }
END { ending(); row() }
