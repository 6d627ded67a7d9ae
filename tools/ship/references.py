"""The pages of reference for C, C++ and Python, from the headers and from what the package for Python says of itself.
tools/ship/site_pages.py calls them."""
import ast
import os
import re

from extraction import ROOT


def read(path):
    with open(os.path.join(ROOT, path), encoding="utf-8") as file:
        return file.read()


def plain(comment):
    """The words of a comment of C, as Markdown."""
    lines = [re.sub(r"^\s*\* ?|^ ", "", line) for line in comment.strip()[2:-2].split("\n")]
    return "\n".join(lines).strip().replace("<", "&lt;")


# ---- C ----

C_PIECE = re.compile(r"(?P<comment>/\*.*?\*/)|(?P<blank>\n *\n)|(?P<line>[^\n]+)", re.S)


def c_page(proved, faults):
    """Each declaration of ecow.h with its comment, by the parts of the header, and the proved call behind it."""
    text = read("include/ecow.h")
    head, rest = text.split("*/\n", 1)
    out = ["# Reference for C\n", "Every declaration of `ecow.h` with its comment. [C](README.md) says how to begin. What the "
           "proved call behind a function promises stands one click from it.\n", "## What holds for all\n"]
    for paragraph in plain(head + "*/").split("\n\n"):
        name = re.match(r"([A-Z]\w+)\. ", paragraph)
        out.append((f"**{name.group(1)}.** {paragraph[name.end():]}" if name else paragraph) + "\n")
    rest = rest[rest.index("/* This header's version."):]
    rest = rest[:rest.index("/* ---- The library's own ---- */")]
    out.append("## Version, answers and values\n")
    functions = 0
    for block in re.split(r"\n[ \t]*\n", rest):
        block = block.strip("\n")
        section = re.match(r"/\* ---- (.*?) ---- \*/", block, re.S)
        if section:
            out.append(f"## {' '.join(section.group(1).split())}\n")
            block = block[section.end():].strip("\n")
        comment = re.match(r"/\*.*?\*/", block, re.S)
        code = block[comment.end():].strip("\n") if comment else block
        code = "\n".join(line for line in code.split("\n") if not line.startswith("#") or "define ECOW_" in line)
        if not code.strip() or re.match(r"#define \w+\(|static |(ECOW_INLINE|inline) .*\{|\}", code):
            if comment and not code.strip():
                out.append(plain(comment.group()) + "\n")
            continue
        if "{" in code and "(" in code.split("{")[0]:
            continue
        shown = re.sub(r"\b(ECOW_CHECKED|ECOW_INLINE) ", "", code)
        name = re.search(r"\b(ecow_\w+)\(", shown)
        if name:
            functions += 1
            if not comment:
                faults.append(f"include/ecow.h: {name.group(1)} has no comment")
            out.append(f"### {name.group(1)}\n".replace("_", "\\_"))
        out.append(f"```c\n{shown}\n```\n")
        if comment:
            out.append(plain(comment.group()) + "\n")
        if name:
            export = "ecow_proved_" + name.group(1)[5:]
            if export in proved:
                out.append(f'<p><a href="../rattle/ecow_c/index.html#w-{export}">What is proved of it</a></p>\n')
    if functions < 100:
        faults.append(f"include/ecow.h: {functions} functions were found")
    return "\n".join(out)


# ---- C++ ----

def cpp_page(faults):
    """The public members of each class of ecow.hpp that a caller names, without their bodies, with their comments."""
    text = read("include/ecow.hpp")
    head = text[:text.index("*/") + 2]
    out = ["# Reference for C++\n", "The public members of each class of `ecow.hpp`, without their bodies, each "
           "behind its comment. A member without a comment is called as that of std's containers. [C++](CPP.md) says how to "
           "begin, and has the calls by subject.\n", "## What holds for all\n"]
    for paragraph in re.split(r"\n\n", plain(head)):
        name = re.match(r"([A-Z]\w+)\. ", paragraph)
        paragraph = f"**{name.group(1)}.** {paragraph[name.end():]}" if name else paragraph
        # What stands in columns stays so.
        paragraph = re.sub(r"((?:\n    [^\n]*)+)", lambda match: "\n\n```text" + match.group(1).replace("\n    ", "\n")
                           + "\n```\n\n", paragraph)
        out.append(paragraph + "\n")
    wanted = [("vector", "`ecow::vector<T>`, `ecow::list` and `ecow::bytes`"), ("text", "`ecow::text`"),
              ("vector<text>", "`ecow::texts`"),
              ("value", "`ecow::value`"), ("span", "`ecow::span`"), ("contiguous", "What vectors and text have in common"),
              ("sequence", "What all containers have in common"), ("owned", "What all values have in common")]
    for name, title in wanted:
        match = re.search(rf"(?:^|\n)((?:/\*(?:(?!\*/).)*\*/\n)?)((?:template <[^\n]*>\s)?)class {name}(?![<\w])([^;{{]*)\{{", text, re.S)
        if not match:
            faults.append(f"include/ecow.hpp: no class {name}")
            continue
        body = text[match.end():end_of(text, match.end() - 1)]
        out.append(f"## {title}\n")
        if match.group(1):
            out.append(plain(match.group(1)) + "\n")
        members = public_members(body)
        if not members:
            faults.append(f"include/ecow.hpp: {name} has no member")
        for comment, code in members:
            if comment:
                out.append(plain(comment) + "\n")
            out.append(f"```cpp\n{code}\n```\n")
    return "\n".join(out)


def end_of(text, start):
    depth = 0
    for match in re.compile(r"/\*.*?\*/|//[^\n]*|\"(?:[^\"\\]|\\.)*\"|'(?:[^'\\]|\\.)'|[{}]", re.S).finditer(text, start):
        if match.group() == "{":
            depth += 1
        elif match.group() == "}":
            depth -= 1
            if depth == 0:
                return match.start()
    return len(text)


def public_members(body):
    """The declarations of a class that are public, each with the comment above it."""
    members, place, public, comment, code = [], 0, False, "", ""
    token = re.compile(r"/\*.*?\*/|\"(?:[^\"\\]|\\.)*\"|\b(?:public|private|protected):|[{};]|[^{};\"/pu\n]+|.|\n", re.S)
    while place < len(body):
        match = token.match(body, place)
        piece = match.group()
        place = match.end()
        if piece in ("public:", "private:", "protected:"):
            public, comment, code = piece == "public:", "", ""
        elif piece.startswith("/*"):
            if not code.strip():
                comment = piece
        elif piece == "{" and re.search(r"\)[^;(){}]*$|\)\s*:.*$", code, re.S):
            place = end_of(body, place - 1) + 1
            taken(members, public, comment, code)
            comment, code = "", ""
        elif piece == "{":
            stop = end_of(body, place - 1) + 1
            code += body[place - 1:stop]
            place = stop
        elif piece == ";":
            taken(members, public, comment, code)
            comment, code = "", ""
        else:
            code += piece
    return members


def taken(members, public, comment, code):
    code = "\n".join(line for line in code.split("\n") if line.strip() and not line.startswith("#"))
    lines = code.strip("\n").split("\n")
    indent = min((len(line) - len(line.lstrip()) for line in lines if line.strip()), default=0)
    code = "\n".join(line[indent:] for line in lines).strip()
    # What a constructor gives its parts is no part of how it is called.
    code = re.sub(r"\)( noexcept)?\s*:\s.*$", r")\1", code, flags=re.S)
    code = re.sub(r"\s*ECOW_LENDS", "", code)
    if not public or not code or re.match(r"(using|friend class|template <typename Part> class|class|static constexpr)\b", code):
        return
    # Members that are called as std's have no comment, and stand together.
    if members and not comment and not members[-1][0]:
        members[-1] = ("", members[-1][1] + "\n" + code + ";")
        return
    members.append((comment, code + ";"))


# ---- Python ----

def python_page(faults):
    """The classes and calls of `__init__.pyi`, with what the package says of each."""
    source = read("python/ecow/__init__.pyi")
    tree = ast.parse(source)
    documents = Documents()
    out = ["# Reference for Python\n", "The classes of the package `ecow`, as `__init__.pyi` declares them, with what "
           "`help` says of their calls. [Python](README.md) says how to begin.\n"]
    for node in tree.body:
        if isinstance(node, ast.FunctionDef):
            out.append(f"## {node.name}\n\n```python\n{signature(source, node)}\n```\n\n{documents.of('', node.name)}\n")
        if not isinstance(node, ast.ClassDef):
            continue
        bases = ", ".join(ast.unparse(base) for base in node.bases)
        out.append(f"## {node.name}\n\n```python\nclass {node.name}({bases})\n```\n\n{documents.of_class(node.name)}\n")
        special, calls = [], {}
        for part in node.body:
            if isinstance(part, ast.FunctionDef):
                if part.name.startswith("__") and part.name != "__init__":
                    special.append(signature(source, part))
                else:
                    calls.setdefault(part.name, []).append(signature(source, part))
        for name, signatures in calls.items():
            said = "How it is made." if name == "__init__" else documents.of(node.name, name)
            if not said:
                faults.append(f"python/core: {node.name}.{name} has no document")
            shown = escaped(node.name + "." + name)
            out.append(f"### {shown}\n\n```python\n" + "\n".join(signatures) + f"\n```\n\n{said}\n")
        if special:
            out.append("### Operators\n\n```python\n" + "\n".join(special) + "\n```\n")
    return "\n".join(out)


def signature(source, node):
    text = ast.get_source_segment(source, node)
    return re.sub(r":\s*\.\.\.\s*(#.*)?$", "", text.strip())


def escaped(text):
    return text.replace("_", "\\_")


class Documents:
    """What the C files of the package, and `_objects.py`, say of a class and of its calls."""

    FILES = {"List": ["list.c", "list_like.h", "sequence.h"], "Array": ["array.c", "list_like.h", "sequence.h"],
             "Bytes": ["bytes.c", "searching.h", "sequence.h"],
             "Text": ["text.c", "searching.h"], "Texts": ["texts.c", "list_like.h", "sequence.h"],
             "Value": ["value.c"], "LentText": ["text.c"], "LentValue": ["value.c"], "": ["core.c"]}
    # The class of Python whose calls a class hands on.
    PLAIN = {"Bytes": bytes, "Text": str, "LentText": str}

    def __init__(self):
        folder = os.path.join(ROOT, "python/core")
        self.texts = {name: read("python/core/" + name).replace("\\\n", "\n") for name in os.listdir(folder)}
        objects = ast.parse(read("python/ecow/_objects.py"))
        self.objects = {node.name: ast.get_docstring(node) for node in objects.body if isinstance(node, ast.FunctionDef)}

    def of_class(self, kind):
        """What stands at the type of a class; that of what a container lends is of the second type of its file."""
        texts = re.findall(r"Py_tp_doc,((?:\s*\"(?:[^\"\\]|\\.)*\")+)", self.texts[self.FILES[kind][0]])
        return joined(texts[1 if kind.startswith("Lent") else 0]).split("--\n\n")[-1]

    def of(self, kind, name):
        for file in self.FILES[kind] + ["kind.h"]:
            text = self.texts[file]
            # A string that begins with the call, one behind the name of the call in a macro, and that of a property.
            for match in re.finditer(r'PyDoc_STR\(((?:\s*"(?:[^"\\]|\\.)*")+)\)', text):
                said = joined(match.group(1))
                if said.startswith(name + "("):
                    return said.split("--\n\n")[-1]
            match = re.search(rf'\b[A-Z]+\("?{name}"?,([^()]*|[^()]*\([^()]*\)[^()]*)\)\s*\n', text)
            if match:
                searched = re.search(r'SEARCH_METHODS\(("[^"]*")\)', self.texts[self.FILES[kind][0]])
                last = re.split(r',(?=(?:[^"]*"[^"]*")*[^"]*$)', match.group(1))[-1]
                said = joined(re.sub(r'" part "', '" + ' + searched.group(1) + ' + "', last) if searched else last)
                if said:
                    return said
            match = re.search(rf'\{{"{name}", \w+, \w+,\s*("(?:[^"\\]|\\.)*")', text)
            if match:
                return joined(match.group(1))
        if self.objects.get("_" + name):
            return self.objects["_" + name]
        plain = self.PLAIN.get(kind)
        return f"As `{plain.__name__}.{name}`." if plain and hasattr(plain, name) else ""


def joined(text):
    """The text of adjacent strings of C."""
    parts = re.findall(r'"((?:[^"\\]|\\.)*)"', text)
    return "".join(parts).replace("\\n", "\n").replace('\\"', '"').replace("\\\\", "\\").strip()
