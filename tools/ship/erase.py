#!/usr/bin/env python3
"""Writes the proved source as Rust: tools/ship/erase.py TO.

Each file of the crates below becomes a module of one Rust crate. What only proofs read is dropped, and what Rust says
otherwise is mapped, by the rules below, each of which says what it does. A comment `// rust: WORDS` of the source marks
what one place needs: `MARKS` says how it is read. Text that no rule knows stops the program with its file and line.
tools/gate/erased_audit.sh compares what comes out with the source, and shares no code with this file."""
import os
import re
import subprocess
import sys

# The crates, lowest first, and the folders that they are read from.
CRATES = {"ecow_base": "ecow_base", "ecow_block": "ecow_block", "ecow_shared": "ecow_atomic", "ecow_list": "ecow_list",
          "ecow_bytes": "ecow_bytes", "ecow_string": "ecow_string", "ecow_nested": "ecow_nested",
          "ecow_tree": "ecow_tree"}

# Where an imported name is found in Rust. `None`: no import is needed.
SHIM = "crate::shim::"
IMPORTS = {
    "std::alloc": {"AllocError": SHIM + "alloc", "AllocFailed": SHIM + "alloc", "Allocator": SHIM + "alloc",
                   "Global": SHIM + "alloc"},
    "std::marker": {"Model": None, "Brand": None, "Send": None, "Sync": None, "PhantomData": "core::marker"},
    "std::convert": {"AsSlice": None, "AsStr": None},
    "std::ops": {"DerefSlice": None, "DerefStr": None, "Bound": "core::ops", "RangeBounds": "core::ops"},
    "std::mem": {"align_of": None, "size_of": None, "size_of_val": None, "replace": "core::mem", "swap": "core::mem"},
    "std::ptr": {"copy_nonoverlapping": "core::ptr"},
    "std::iter": {"FusedIterator": "core::iter"},
    "std::cmp": {"Ordering": "core::cmp"},
    "std::fmt": {"Debug": "core::fmt", "Display": "core::fmt", "Write": "core::fmt"},
    "std::hash": {"Hash": "core::hash", "Hasher": "core::hash"},
    "std::str": {"Utf8Error": "core::str"},
    "std::simd": {"Simd": SHIM + "simd"},
    "std::sync::atomic::Ordering": {"SeqCst": "core::sync::atomic::Ordering"},
    "std::sync::atomic": {"raw": SHIM + "atomic"},
    "core::slots": {"Slots": SHIM + "slots"},
    "std_alloc::room": {"may_hold": SHIM + "room"},
    "memchr::memmem": {"Finder": SHIM + "memmem"},
    "thiserror": {"Error": None},
    "std": {"fmt": "core", "io": "std", "ptr": "core", "slice": "core", "str": "core"},
}

# What Rattle has everywhere, and where code uses it.
EVERYWHERE = [
    ("TryClone", SHIM + "clone", r"\bTryClone\b"),
    ("AllocError", SHIM + "alloc", r"\bAllocError\b"),
    ("Vec", "alloc::vec", r"(?<!:)\bVec\b"),
    ("String", "alloc::string", r"(?<!:)\bString\b"),
]

# Traits that Rust has too and an impl of which stands as it is.
TRAITS = set("""Allocator Copy Copying Debug Display DoubleEndedIterator Eq ExactSizeIterator From FusedIterator Hash
    IntoIterator Iterator Joined Ord Part PartialEq PartialOrd Send Sync ToEcoString TryFrom Write""".split())

# Traits that Rust lacks: an impl goes whole.
NO_TRAITS = "AsSlice|AsStr|FromIterator"

DERIVES = {"Clone", "Copy", "Debug", "PartialEq", "Eq"}
ATTRIBUTES = {"inline", "inline(always)", "inline(never)", "cold", "repr(C)"}
MACROS = {"unreachable", "open", "write", "macro_rules", "base", "guarded", "are_one"}

# Words of Rattle's own. None is left in the end.
FOREIGN = re.compile(r"\b(ghost|requires|ensures|invariant|decreases|Model|Brand|Drop(?! for)|AsSlice|AsStr|tactic|cycle"
                     r"|DerefSlice|DerefStr|push_reserved)\b|[^\x00-\x7f]")

# A file that is marked as left out, and isn't: trees cut their leaves by a call of it.
NEEDED = {"ecow_list/vec/split.rt"}

# What a mark does to the line below it: the words of the mark, what that line must be, and what stands there then.
# `// rust: no file: WHY`, the first line of a file, leaves the file out, and any other mark is itself the line that Rust
# gets in the place of the line below it.
MARKS = {
    # Rust may run the function as it compiles.
    "const": (r"( *(?:pub(?:\(crate\))? )?)(fn .*\n)", r"\1const \2"),
    # Proofs lay the type out in the order of its fields.
    "repr(C)": (r"( *)((?:pub(?:\(crate\))? )?struct .*\n)", r"\1#[repr(C)]\n\1\2"),
    # The crate's own modules use what stands below.
    "pub(crate)": (r"( *)(\w.*\n)", r"\1pub(crate) \2"),
    # The line below goes.
    "nothing": (r".*\n", ""),
}
MARK = re.compile(r"^( *)// rust: (.*)\n", re.M)

# Comments, texts and characters, lifetimes, words, space, and single marks.
PIECE = re.compile(r'''//[^\n]*|b?"(?:[^"\\]|\\.)*"|b?'(?:[^'\\]|\\(?:x[0-9a-fA-F]{2}|u\{[^}]*\}|.))'|'\w+|\w+|\s+|.''', re.S)
GHOST = re.compile(r"ghost\s+(?:use\s[^;]*;|\w+\s*[=:]\s*(?=\{))")
CLAUSE = re.compile(r"(?:requires|ensures|invariant|decreases)\b\*?\s*(?:[a-z_]\w*\s*)?(?=\{)")
MODEL = re.compile(r"impl\b[^{;]*\bModel for\b[^{;]*(?=\{)")
TACTIC = re.compile(r"#!?\[(?:tactic|cycle)\(")
GENERICS = r"(?:<(?:[^<>]|<[^<>]*>)*>)?"


SOURCES = {}
LEFT_OUT = set()


def stop(path, text, at, word, why="no rule for %s"):
    """Ends with the line of the source that has the word, of several the one nearest to where it stands by now."""
    near = text.count("\n", 0, at) + 1
    lines = [number for number, line in enumerate(SOURCES[path].split("\n"), 1) if word in line]
    crate, file = path.split("/", 1)
    sys.exit("crates/%s/src/%s:%d: %s" % (
        CRATES[crate], file, min(lines or [near], key=lambda number: abs(number - near)), why % word))


def behind(text, at, marks="{}"):
    """The place behind the marks that open at `at`. In proof text a quote means nothing, and `//` begins a comment."""
    depth = 0
    while True:
        if text.startswith("//", at):
            at = text.index("\n", at)
        depth += (text[at] == marks[0]) - (text[at] == marks[1])
        at += 1
        if depth == 0:
            return at


def without_proofs(text):
    """Drops what proofs alone read, with the comments right before it: ghost items and fields, clauses, models, tactics."""
    out, at = [], 0
    while at < len(text):
        found = next(filter(None, (form.match(text, at) for form in (GHOST, CLAUSE, MODEL, TACTIC))), None)
        if not found:
            piece = PIECE.match(text, at).group()
            out.append(piece)
            at += len(piece)
            continue
        begin, at, gone = at, found.end(), ""
        if found.re is TACTIC:
            # Its line goes.
            at = re.compile(r"\]\s*").match(text, behind(text, at - 1, "()")).end()
            continue
        while out and (out[-1].isspace() or re.match(r"//(?!!)", out[-1])):
            gone += out.pop()
        if text.startswith("{", at):
            at = behind(text, at)
            if found.re is GHOST:
                at += re.match(r"\s*[;,]?", text[at:]).end()
        out.append("\n" * max(1, (gone + text[begin:at]).count("\n")))
    return "".join(out)


def marked(text, path):
    """Does what the marks of a file say."""
    while found := MARK.search(text):
        form, to = MARKS.get(found[2], (r".*\n", lambda _: found[1] + found[2] + "\n"))
        below = re.compile(form).match(text, found.end())
        if not below:
            stop(path, text, found.start(), found[2], "nothing below the mark %s fits it")
        text = text[: found.start()] + (to(below) if callable(to) else below.expand(to)) + text[below.end():]
    return text


def masked(text):
    """The text with a number in place of each comment, text and character, and these."""
    held = []

    def hold(m):
        piece = m.group()
        if not re.match(r"""//|b?"|b?'(?:[^'\\]|\\.[^']*)'""", piece):
            return piece
        held.append(piece)
        return "\x01%d\x02" % (len(held) - 1)

    return PIECE.sub(hold, text), held


def unmasked(text, held):
    return re.sub("\x01(\\d+)\x02", lambda m: held[int(m[1])], text)


def without_impls(text):
    """An impl of a trait that Rust lacks goes, with its documentation."""
    form = re.compile(r"(?:\x01\d+\x02\s*)*impl%s (?:%s)\b[^{;]* for [^{;]*(?=\{)" % (GENERICS, NO_TRAITS))
    while found := form.search(text):
        text = text[: found.start()] + text[behind(text, found.end()) :]
    return text


def attributes(text, path):
    """Derives of Rust's own stay, and `#[error(..)]` goes: the shim prints errors."""

    def one(m):
        if m[1].startswith("derive("):
            names = re.findall(r"\w+", m[1][6:])
            if unknown := set(names) - DERIVES - {"Drop", "Error"}:
                stop(path, text, m.start(), sorted(unknown)[0], "no rule for a derive of %s")
            kept = [name for name in names if name in DERIVES]
            return "#[derive(%s)]\n" % ", ".join(kept) if kept else ""
        if re.match(r"error\(\x01\d+\x02\)$", m[1]):
            return ""
        if m[1] not in ATTRIBUTES:
            stop(path, text, m.start(), m[1], "no rule for the attribute %s")
        return m.group()

    return re.sub(r"#!?\[([^\]]*)\]\s*", one, text)


def drops(text):
    """No type needs leave to be dropped. `fn drop(self)` of an impl becomes `dispose(self)`, which Rust's drop calls."""
    text = re.sub(r"\bwhere\s+T: Drop,\s*(?=\{)", "", text)
    text = re.sub(r"(?<=: )Drop \+ | \+ Drop(?=[>,])|: Drop(?=[>,])", "", text)
    text = re.sub(r"\b(trait \w+(?:<\w+>)?): Drop(?= \{)", r"\1", text)
    text = re.sub(
        r"impl(%s) Drop for ([^{]*?) \{" % GENERICS,
        r"impl\1 Drop for \2 {\n#[inline]\nfn drop(&mut self) {\n// SAFETY: the value is not used again.\n"
        r"unsafe { core::ptr::read(self) }.dispose()\n}\n}\n\nimpl\1 \2 {", text)
    return re.sub(r"fn drop\((mut )?self\)", r"fn dispose(\1self)", text)


def opened(text, dropped):
    """`let S { .. } = e;` of a type with a drop of its own is `open!`, since Rust moves no field out of one."""
    return re.sub(r"\blet (%s) (\{(?:[^{}]|\{[^{}]*\})*\}) = ([^;]*);" % "|".join(dropped), r"crate::shim::open!(\1 \2 = \3);",
                  text)


def clones(text):
    """A clone of Rattle's may be refused. What is `Copy` gets Rust's; of other types it becomes `try_clone`, and Rust's
    stops at a refusal."""
    copied = {m[1] for m in re.finditer(r"impl%s Copy for ([^{]*?) \{\}" % GENERICS, text)}
    out, at = [], 0
    for m in re.finditer(r"impl(%s) Clone for ([^{]*?) (?=\{)" % GENERICS, text):
        end = behind(text, m.end())
        head = "impl%s Clone for %s {\n#[inline]\nfn clone(&self) -> Self {\n" % (m[1], m[2])
        body = text[m.end():end].replace("fn clone(&self)", "pub fn try_clone(&self)")
        out += [text[at:m.start()], head]
        out += ["*self\n}\n}"] if m[2] in copied else [
            "crate::shim::granted(self.try_clone())\n}\n}\n\nimpl%s %s %s" % (m[1], m[2], body)]
        at = end
    text = "".join(out) + text[at:]
    text = text.replace(".clone()", ".try_clone()")
    return re.sub(r"(?<=[:+] )Clone\b", "TryClone", text)


# What has another form in Rust: what is found, and what stands there then.
FORMS = [
    # A formatter has no type of its target.
    (r"fn fmt<W: fmt::Write>\(&self, f: &mut fmt::Formatter<W>\)", "fn fmt(&self, f: &mut fmt::Formatter<'_>)"),
    (r"(\w+)\.write\(value\)\?", r'write!(\1, "{value}")?'),
    # `Deref` names its target.
    (r"impl(%s) DerefSlice for ([^{]*)\{\s*type Elem = (\w+);" % GENERICS,
     r"impl\1 core::ops::Deref for \2{\ntype Target = [\3];"),
    (r"impl(%s) DerefStr for ([^{]*)\{" % GENERICS, r"impl\1 core::ops::Deref for \2{\ntype Target = str;\n"),
    # Names of outcomes are for proofs.
    (r"::<Brand>", ""),
    # A pointer in a field is `*const`, so that the type is covariant, as std's are.
    (r"(?<=\bptr: )\*mut (?=[\w<>]+,)", "*const "),
    (r"(?<=\.ptr)\b(?!\w|:)", ".cast_mut()"),
    # std's vector and string, which ask the global allocator.
    (r"\bVec::(with_capacity|from_clones|from_array)\(", r"crate::shim::vec::\1("),
    (r"\bString::from_str\(", "crate::shim::string::from_str("),
    (r"\.push_reserved\(", ".push("),
    (r"\belements\.destroy_empty\(\);", "drop(elements);"),
    (r"\.try_into\(\)\.unwrap\(\)", ".try_into().unwrap_or_else(|_| unreachable!())"),
    (r"text\.to_(lower|upper)case\(alloc\)", r"crate::shim::string::to_\1case(alloc, text)"),
    # std's search takes texts.
    (r"Finder::new\(pattern\.as_bytes\(\)\)", "Finder::new(pattern)"),
    (r"finder\.find\(text\.as_bytes\(\)\)", "finder.find(text)"),
]


def paths(text, crate):
    text = re.sub(r"\bcrate::(?!shim::)", "crate::proved::%s::" % crate, text)
    return re.sub(r"(?<![\w:])(%s)::" % "|".join(CRATES), r"crate::proved::\1::", text)


def leaves(tree):
    """The paths of a `use`, each with its last name."""
    found = re.match(r"(.*?)\{(.*)\}$", tree.strip(), re.S)
    if not found:
        return [tree.strip()]
    return [found[1] + leaf.strip() for leaf in found[2].split(",") if leaf.strip()]


def imports(text, path):
    """Maps what is imported, and drops what only clauses name. What Rattle has everywhere is imported too."""
    form = re.compile(r"^( *(?:pub(?:\([^)]*\))? )?use )([^;]*);\n", re.M)
    code = re.sub("\x01\\d+\x02", "", form.sub("", text))
    named = set()

    def one(m):
        if m[2] in MACROS:
            return m[0]
        kept = {}
        for leaf in leaves(m[2]):
            place, _, name = leaf.rpartition("::")
            if place.split("::")[0] in ("std", "core", "std_alloc", "memchr", "thiserror"):
                if name not in IMPORTS.get(place, {}):
                    stop(path, text, m.start(), name, "no rule for the import %s")
                place = IMPORTS[place][name]
            if place and ("pub" in m[1] or re.search(r"\b%s\b" % name, code)):
                kept.setdefault(place, []).append(name)
                named.add(name)
        return "".join("%s%s::{%s};\n" % (m[1], place, ", ".join(names)) for place, names in kept.items())

    text = form.sub(one, text)
    more = ["use %s::%s;\n" % (place, name) for name, place, used in EVERYWHERE if name not in named and re.search(used, code)]
    top = re.match("(?:\x01\\d+\x02\n|\\s)*", text).end()
    first = re.compile(r"^use ", re.M).search(text)
    at = first.start() if first else top
    return text[:at] + "".join(more) + ("" if first or not more else "\n") + text[at:]


def checked(text, path):
    """Stops at what no rule knows."""
    for m in FOREIGN.finditer(text):
        stop(path, text, m.start(), m.group())
    for m in re.finditer(r"(?<!\.)\b(\w+)!(?=[ ({\[])", text):
        if m[1] not in MACROS:
            stop(path, text, m.start(), m[1], "no rule for the macro %s")
    for m in re.finditer(r"\bimpl%s ([\w:]+)(?:<[^{]*?>)? for " % GENERICS, text):
        if m[1].split("::")[-1] not in TRAITS | {"Drop", "Clone", "Deref"}:
            stop(path, text, m.start(), m[1], "no rule for the trait %s")
    known = re.compile(r"(?:core|alloc|std)::(?:%s)\b" % "|".join(
        {place.split("::")[1] for names in IMPORTS.values() for place in names.values() if place and "::" in place}
        | set(IMPORTS["std"]) | {"ops", "mem", "ptr", "vec", "string"}))
    for m in re.finditer(r"(?<![\w:])(?:std|core|alloc|std_alloc|memchr|thiserror)::\w+", text):
        if not known.match(m.group()):
            stop(path, text, m.start(), m.group())


def erase(source, path, dropped):
    crate = path.split("/")[0]
    text, held = masked(without_proofs(marked(source, path)))
    text = without_impls(attributes(text, path))
    text = opened(clones(drops(text)), dropped)
    for form, to in FORMS:
        text = re.sub(form, to, text, flags=re.M)
    text = paths(text, crate)
    for name in LEFT_OUT:
        folder, _, file = name[:-3].rpartition("/")
        if folder in (path[:-3], path.rpartition("/")[0] if path.endswith("lib.rt") else None):
            text = re.sub(r"^(?:pub )?mod %s;\n" % file, "", text, flags=re.M)
            text = re.sub(r"^pub use %s::[^;]*;\n" % file, "", text, flags=re.M)
    text = imports(text, path)
    text = re.sub(r"^(?=(?:pub )?mod write;)", '#[cfg(feature = \x01w\x02)]\n', text, flags=re.M)
    checked(re.sub("\x01\\w+\x02", "", text), path)
    text = unmasked(text.replace("\x01w\x02", '"std"'), held)
    # An example of the source is Rattle, and no test of Rust's documentation.
    return re.sub(r"^( *//[/!] ```)\n((?: *//[/!].*\n)*? *//[/!] ```)$", r"\1text\n\2", text, flags=re.M)


def main():
    folder, to = os.path.join(os.path.dirname(__file__), "..", "..", "crates"), sys.argv[1]
    for crate, read in CRATES.items():
        top = os.path.join(folder, read, "src")
        for at, _, files in os.walk(top):
            for file in files:
                path = "%s/%s" % (crate, os.path.relpath(os.path.join(at, file), top))
                with open(os.path.join(at, file), encoding="utf-8") as source:
                    text = source.read()
                if path in NEEDED:
                    text = text.partition("\n")[2]
                if text.startswith("// rust: no file: "):
                    LEFT_OUT.add(path)
                else:
                    SOURCES[path] = text
    dropped = sorted({m[1] for text in SOURCES.values()
                      for m in re.finditer(r"impl%s Drop for (\w+)" % GENERICS, without_proofs(text))})
    written = []
    for path, source in sorted(SOURCES.items()):
        text = erase(source, path, dropped)
        file = os.path.join(to, path[:-6] + "mod.rs" if path.endswith("/lib.rt") else path[:-3] + ".rs")
        os.makedirs(os.path.dirname(file), exist_ok=True)
        with open(file, "w", encoding="utf-8") as out:
            crate, name = path.split("/", 1)
            out.write("// Written by tools/ship/erase.py of crates/%s/src/%s.\n" % (CRATES[crate], name))
            out.write(text)
        written.append(file)
    with open(os.path.join(to, "mod.rs"), "w", encoding="utf-8") as out:
        out.write("// Written by tools/ship/erase.py.\n" + "".join("pub mod %s;\n" % crate for crate in CRATES))
    subprocess.run(["rustfmt", "--edition", "2024", "--config", "skip_children=true", *written], check=True)
    print("erase: %d files of %d crates" % (len(written), len(CRATES)))


main()
