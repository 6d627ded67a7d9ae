"""What tools/ship/extract.sh prints, and the definitions of its words, as objects. tools/ship/site_pages.py reads it."""
import os
import re
import subprocess

ROOT = os.path.dirname(os.path.dirname(os.path.dirname(os.path.abspath(__file__))))


class Fault(Exception):
    """What stands in a source and can't be shown."""


class Scope(dict):
    """The words that a file brings, each with the path of its `use` line."""

    def bring(self, path, words, alias):
        for word in words.split(", "):
            self[word] = path if alias else path + "." + word


class Type:
    def __init__(self, crate, file, kind, name, text, comment):
        self.crate, self.file, self.kind, self.name, self.text = crate, file, kind, name, text
        self.comment, self.members = comment, []

    @property
    def page(self):
        """Constants and other names of a type stand on the page of their crate."""
        page = "index" if self.kind in ("const", "type") else self.name
        return f"rattle/{self.crate}/{page}"


class Impl:
    def __init__(self, crate, file, text, comment):
        self.crate, self.file, self.text, self.comment = crate, file, text, comment
        self.ghosts, self.calls = [], []
        self.is_trait = text.startswith("pub trait ")
        bare = re.sub(r"^(impl|pub trait) ?", "", text)
        if bare.startswith("<"):
            bare = bare[closing(bare, 0) + 1:].strip()
        self.trait, self.of = "", bare
        if " for " in bare and not self.is_trait:
            self.trait, self.of = bare.split(" for ", 1)
        self.of = re.sub(r"^&('\w+ )?(mut )?", "", self.of)
        self.type_name = re.match(r"\w*", self.of.split("::")[-1]).group()
        self.trait_name = re.match(r"\w*", self.trait.split("::")[-1]).group()


class Call:
    def __init__(self, crate, file, impl, name, of, comment, scope):
        self.crate, self.file, self.impl, self.name, self.comment, self.scope = crate, file, impl, name, comment, scope
        self.of_trait = of == "1"
        self.signature, self.groups = [], [Group()]

    @property
    def clauses(self):
        return [clause for group in self.groups for clause in group.clauses]


class Group:
    """Clauses that stand together, and the comment above them."""

    def __init__(self):
        self.note, self.clauses = [], []


class Clause:
    def __init__(self, kind, label):
        self.kind, self.label, self.lines = kind, label, []

    @property
    def text(self):
        """What stands between the braces, without the indentation of the call."""
        first = self.lines[0]
        indent = len(first) - len(first.lstrip())
        lines = [re.sub(r"^(requires|ensures)\*? *\w* *\{ ?", "", first.strip())]
        lines += [line[indent:] for line in self.lines[1:]]
        lines[-1] = re.sub(r" ?\}$", "", lines[-1])
        return "\n".join(line for line in lines if line.strip())


class File:
    def __init__(self, path):
        self.path, self.comment, self.scope = path, [], Scope()

    @property
    def subject(self):
        """The first sentence of its comment, and what follows it."""
        text = "\n".join(self.comment)
        first = text.split("\n\n")[0].replace("\n", " ")
        match = re.match(r"(.*?[.])(?= |$)", first)
        head = match.group(1) if match else first
        return head.rstrip("."), (first[len(head):].strip() + text[len(first):]).strip()


class Crate:
    def __init__(self, name):
        self.name, self.files, self.types, self.impls, self.calls = name, [], [], [], []


def closing(text, start):
    """Where the bracket that opens at `start` closes."""
    pairs, depth = {"(": ")", "<": ">", "{": "}", "[": "]"}, 0
    opening = text[start]
    for place in range(start, len(text)):
        if text[place] == opening:
            depth += 1
        elif text[place] == pairs[opening] and text[place - 1] != "-":
            depth -= 1
            if depth == 0:
                return place
    raise Fault(f"no end of {text[start:]}")


def read_crates():
    printed = subprocess.run([os.path.join(ROOT, "tools/ship/extract.sh")], check=True, capture_output=True, text=True)
    crates, comment = [], []
    crate = file = impl = call = of_type = None
    for line in printed.stdout.splitlines():
        letter, text = line[0], line[2:]
        parts = text.split("\t")
        if letter == "P":
            crate = Crate(text)
            crates.append(crate)
        elif letter == "F":
            file = File(text)
            crate.files.append(file)
            impl = call = of_type = None
        elif letter == "M":
            file.comment.append(text)
        elif letter == "U":
            file.scope = Scope(file.scope)
            file.scope.bring(parts[0], parts[1], parts[2] == "1")
        elif letter == "D":
            comment.append(text)
        elif letter == "T":
            of_type = Type(crate.name, file, parts[0], parts[1], parts[2], comment)
            crate.types.append(of_type)
            comment = []
        elif letter == "V":
            of_type.members.append((text, comment))
            comment = []
        elif letter == "I":
            impl, comment = Impl(crate.name, file, text, comment), []
            crate.impls.append(impl)
            if impl.is_trait:
                crate.types.append(Type(crate.name, file, "trait", re.match(r"pub trait (\w+)", text).group(1), text,
                                        impl.comment))
        elif letter == "G":
            impl.ghosts.append((text, file.scope))
        elif letter == "C":
            call = Call(crate.name, file, impl, parts[0], parts[1], comment, file.scope)
            comment = []
            crate.calls.append(call)
            if impl:
                impl.calls.append(call)
        elif letter == "S":
            if not text.startswith("    ") and len(call.signature) == 0:
                # A call behind the impls of its file is of none of them.
                if impl and call in impl.calls:
                    impl.calls.remove(call)
                call.impl = None
            call.signature.append(text)
        elif letter == "E":
            call.groups.append(Group())
        elif letter == "N":
            if call.groups[-1].clauses:
                call.groups.append(Group())
            call.groups[-1].note.append(re.sub(r"^ *// ?", "", text))
        elif letter == "K":
            call.groups[-1].clauses.append(Clause(*parts))
        elif letter == "L":
            call.groups[-1].clauses[-1].lines.append(text)
        else:
            raise Fault(f"no rule knows the line {line}")
    return crates


class Word:
    def __init__(self, source, name, comment, lines):
        self.source, self.name, self.comment, self.lines = source, name, comment, lines


class Source:
    """A file of definitions."""

    def __init__(self, crate, module, path):
        self.crate, self.module, self.path = crate, module, path
        self.comment, self.scope, self.words, self.order = [], Scope(), {}, []
        with open(os.path.join(ROOT, path), encoding="utf-8") as file:
            self.read(file.read())
        for word in self.order:
            self.scope.setdefault(word.name, f"Rattle.{crate}.{module}.{word.name}")

    @property
    def page(self):
        return f"words/{self.crate}.{re.sub('^specs[.]', '', self.module)}"

    DEFINES = re.compile(r"^( *)(?:(?:abbrev|unfoldable|closed|pub|record|data|infix[lr]?|\d+) +)*"
                         r"(?:(?<=pub )|(?<=record )|(?<=abbrev )|(?<=data ))([^ :(){}]+)")

    def read(self, text):
        modules = []
        for number, paragraph in enumerate(re.split(r"\n(?: *\n)+", text.strip("\n"))):
            comment, lines = [], []

            def ends():
                match = lines and self.DEFINES.match(lines[0])
                if match:
                    indent = len(match.group(1))
                    while modules and modules[-1][0] >= indent:
                        modules.pop()
                    within = [line for _, module in modules for line in module]
                    shown = [line[indent:] for line in lines]
                    word = Word(self, match.group(2), list(comment), (within and [x.strip() for x in within]) + shown)
                    self.words[word.name] = word
                    self.order.append(word)
                elif lines and self.order:
                    self.order[-1].lines += lines
                comment.clear()
                lines.clear()

            opening = False
            for line in paragraph.split("\n"):
                bare = line.strip()
                indent = len(line) - len(line.lstrip())
                if bare.startswith("use ") or bare.startswith("pub use ") or bare.startswith("pub mod "):
                    match = re.match(r"(?:pub )?use (\S+?)\.\{(.*)\}$", bare)
                    if match:
                        self.scope.bring(match.group(1), match.group(2), False)
                    elif re.match(r"use \S+ as \S+$", bare):
                        self.scope.bring(bare.split()[1], bare.split()[3], True)
                    if comment and not self.order:
                        self.comment, comment = comment, []
                elif opening or bare.startswith("module "):
                    if not opening:
                        ends()
                        while modules and modules[-1][0] >= indent:
                            modules.pop()
                        modules.append((indent, []))
                    modules[-1][1].append(line)
                    opening = not bare.endswith("where")
                elif bare.endswith(" mutual"):
                    of_all = ["-- " + each for each in comment]
                    ends()
                    while modules and modules[-1][0] >= indent:
                        modules.pop()
                    modules.append((indent, of_all))
                elif bare.startswith("--") and (not lines or indent <= len(lines[0]) - len(lines[0].lstrip())):
                    if lines:
                        ends()
                    comment.append(re.sub(r"^-- ?", "", bare))
                else:
                    if lines and self.DEFINES.match(line) and indent == len(lines[0]) - len(lines[0].lstrip()):
                        ends()
                    lines.append(line)
            if lines:
                ends()
            elif comment and not self.order and not self.comment:
                self.comment = comment


class Library:
    """Everything that words are looked up in."""

    def __init__(self, crates):
        self.crates = crates
        self.types = {(kind.crate, kind.name): kind for crate in crates for kind in crate.types}
        self.constants = {kind.name: kind for crate in crates for kind in crate.types if kind.kind == "const"}
        self.sources = {}
        self.outside = {}

    def source(self, crate, module):
        path = f"crates/{crate}/{module.replace('.', '/')}.antt"
        if path not in self.sources:
            exists = os.path.exists(os.path.join(ROOT, path))
            self.sources[path] = Source(crate, module, path) if exists else None
        return self.sources[path]

    def find(self, path):
        """The definition of a path: a word, a type, or the path itself where it is of another library."""
        parts = path.split(".")
        if parts[0] != "Rattle" or not parts[1].startswith("ecow"):
            self.outside[path] = True
            return path
        crate = parts[1]
        if "declared" in parts:
            for part in parts[4:]:
                if (crate, part) in self.types:
                    return self.types[crate, part]
            return None
        if "contracts" in parts:
            # What the kit writes of a type, such as how it is stored.
            return None
        whole = self.source(crate, ".".join(parts[2:]))
        if whole:
            return whole
        source = self.source(crate, ".".join(parts[2:-1]))
        if not source or parts[-1] not in source.words:
            raise Fault(f"{path} is defined nowhere")
        return source.words[parts[-1]]


# What each word of a clause may be: a text in quotes, a comment, names with points between, or signs.
TOKEN = re.compile(r'"(?:[^"\\]|\\.)*"|--.*|[^\W\d][\w\'-]*(?:\.[^\W][\w\'-]*)*|\s+|\d+|.', re.S)


def pieces(library, text, scope, crate):
    """The text in pieces, each with its definition or `None`, and a `Fault` at a word that a scope brings from nowhere."""
    signs = {}
    for word in scope:
        for sign in filter(None, word.split("◌")):
            if not re.match(r"\w", sign):
                signs[sign] = word
    longest = sorted(signs, key=len, reverse=True)
    place, out = 0, []
    while place < len(text):
        for sign in longest:
            if text.startswith(sign, place):
                out.append((sign, library.find(scope[signs[sign]])))
                place += len(sign)
                break
        else:
            token = TOKEN.match(text, place).group()
            place += len(token)
            first = token.split(".")[0]
            # What follows a point, and what an `=` follows, is the name of a field.
            is_field = text[place - len(token) - 1:place - len(token)] == "." or re.match(r"\s*=(?!=)", text[place:])
            if not re.match(r"[^\W\d]", token) or first == "λ" or is_field:
                out.append((token, None))
                continue
            found = None
            if first in scope:
                path = scope[first]
                rest = token.split(".")[1:]
                found = library.find(path)
                if isinstance(found, Source):
                    if rest and rest[0] not in found.words:
                        raise Fault(f"{path}.{rest[0]} is defined nowhere")
                    found = found.words[rest[0]] if rest else found
                elif isinstance(found, str) and rest and path.split(".")[-1] != first:
                    found = library.find(path + "." + rest[0])
            elif any(first in word.split("◌") for word in scope if "◌" in word):
                found = library.find(next(scope[word] for word in scope if first in word.split("◌")))
            elif first in library.constants:
                found = library.constants[first]
            elif (crate, first) in library.types:
                found = library.types[crate, first]
            elif first[0].isupper() and len(first) > 1:
                found = next((kind for (_, name), kind in library.types.items() if name == first), None)
            out.append((token, found))
    return out


# The words of std that speak of a refused call, and those of one that is done.
REFUSED = {"OnErr", "IfErr", "IsErr", "IsErrOf", "IsErrAnd", "IsOk"}
DONE = {"OnOk", "IfOk"}


def split_at(text, sign):
    """The parts of a text between the signs that stand in no bracket."""
    parts, depth, start = [], 0, 0
    for place, char in enumerate(text):
        if char in "([{":
            depth += 1
        elif char in ")]}":
            depth -= 1
        elif depth == 0 and text.startswith(sign, place):
            parts.append(text[start:place].strip())
            start = place + len(sign)
    return parts + [text[start:].strip()]


def speaks_of(library, text, scope, depth=8):
    """Which of `refused`, `done` and `other` a clause speaks of."""
    text = " ".join(text.split())
    while text.startswith("(") and closing(text, 0) == len(text) - 1:
        text = text[1:-1].strip()
    text = split_at(text, "→")[-1]
    equal = split_at(text, "↔")
    if len(equal) > 1:
        return speaks_of(library, equal[0], scope, depth)
    parts = [part for part in split_at(text, "×") if not re.match(r"\(\w+( \w+)* : [^()]*\)$", part)]
    if len(parts) > 1:
        return set().union(*(speaks_of(library, part, scope, depth) for part in parts))
    text = parts[0] if parts else text
    if text.startswith("(") and closing(text, 0) == len(text) - 1:
        return speaks_of(library, text, scope, depth)
    head = re.match(r"[^\W\d][\w'-]*", text)
    status = re.match(r"\w+ ≡ ([A-Z][A-Z0-9_]+)$", text)
    if status and getattr(library.constants.get(status.group(1)), "crate", "") == "ecow_c":
        return {"refused" if status.group(1) != "OK" else "done"}
    if not head or not depth:
        return {"other"}
    head = head.group()
    if head in REFUSED:
        return {"refused"}
    if head in DONE:
        return {"done"}
    found = library.find(scope[head]) if head in scope else None
    if not isinstance(found, Word):
        return {"other"}
    body = "\n".join(line for line in found.lines if not line.strip().startswith("--"))
    if re.search(r"\brecord\b.*\bwhere\b", body, re.S):
        fields = re.split(r"\n *pub [\w']+ :", body)[1:]
        answer = set().union(*(speaks_of(library, field, found.source.scope, depth - 1) for field in fields))
    else:
        equations = re.findall(rf"^{re.escape(head)}\b[^=\n]*=(?!=)\s*(.*?)(?=^{re.escape(head)}\b|\Z)", body, re.S | re.M)
        answer = set().union(*(speaks_of(library, each, found.source.scope, depth - 1) for each in equations))
    if answer <= {"other"}:
        # What a word says of a place is said by the function that it is given.
        inner = re.search(r"\(λ [^.]*\. *(.*)\)$", text)
        if inner:
            return speaks_of(library, inner.group(1), scope, depth - 1)
    return answer or {"other"}
