#!/usr/bin/env python3
"""Writes the pages of the site as Markdown for Sphinx into a new folder: tools/ship/site_pages.py TO. They come from the
pages of the repository, from the comments and contracts of the sources, and from the headers. A call without a comment or
without clauses, and a word that is defined nowhere, stop it. With --check it writes nothing, and stops at the same.
ECOW_RUSTDOC in the environment names what `cargo doc` wrote, if it is there. tools/ship/site.sh calls it."""
import html
import os
import re
import shutil
import subprocess
import sys

from extraction import ROOT, Fault, Library, Source, Type, Word, pieces, read_crates, speaks_of
from references import c_page, cpp_page, python_page

# What the sidebar has, by reader: a title, and its pages.
READERS = [
    ("Use it from Rattle", ["docs/CALLING", "docs/uses/README", "rattle/index", "docs/COSTS", "docs/COUNTS",
                            "docs/DIFFERENCES", "docs/SCRIPT"]),
    ("Use it from C", ["c/README", "c/reference", "The archive <c/INSTALL>"]),
    ("Use it from C++", ["c/CPP", "c/cpp-reference"]),
    ("Use it from Python", ["python/README", "python/reference"]),
    ("Use it from Rust", ["rust/README"]),
    ("Look before you take it", ["docs/PERFORMANCE", "docs/PROVED", "CHANGELOG"]),
    ("Change it", ["docs/CONTRIBUTING", "docs/ARCHITECTURE", "docs/DECISIONS", "docs/TRIED", "bench/SPEED",
                   "tools/README", "crates/ecow_bench/growth", "crates/ecow_test_costs/growth",
                   "crates/ecow_test_costs/limits"]),
]
# The types that people come for, in their order, and the names by which they know them.
FIRST = [("ecow_list", "EcoVec", "EcoVec"), ("ecow_bytes", "SmallBytes", "EcoBytes"),
         ("ecow_string", "SmallText", "EcoString"), ("ecow_nested", "Value", "Value"),
         ("ecow_store", "NamedValues", "Store"), ("ecow_counted", "Counted", "Counted")]
PAGES = [re.sub(r".*<(.*)>", r"\1", page) for _, pages in READERS for page in pages]


def written(to, page, text):
    path = os.path.join(to, page + ".md")
    os.makedirs(os.path.dirname(path), exist_ok=True)
    with open(path, "w", encoding="utf-8") as file:
        file.write(text.rstrip("\n") + "\n")


def read(path):
    with open(os.path.join(ROOT, path), encoding="utf-8") as file:
        return file.read()


def link(page, target, anchor=""):
    """The address of a page, from another."""
    return os.path.relpath(target + ".html", os.path.dirname(page) or ".") + ("#" + anchor if anchor else "")


def slug(word):
    return "w-" + "".join(char if char.isalnum() and char.isascii() or char == "_" else f"-{ord(char):x}-" for char in word)


def markdown(comment):
    """A comment of a source, whose headings become bold, and whose code is Rust."""
    lines, fenced = [], False
    for line in comment:
        if line.strip().startswith("```"):
            fenced = not fenced
            line = "```rust" if fenced and line.strip() == "```" else line
        elif not fenced and line.startswith("#"):
            line = f"**{line.lstrip('# ')}.**"
        elif not fenced:
            line = re.sub(r"(?<!`)<(?=\w)(?![^`]*`)", "&lt;", line)
        lines.append(line)
    text = "\n".join(lines)
    # The heading of a part of a comment begins its first paragraph.
    return re.sub(r"(\*\*[A-Z]\w*\.\*\*)\n\n", r"\1 ", text)


class Site:
    def __init__(self):
        self.library = Library(read_crates())
        self.crates = self.library.crates
        self.pages = {}
        self.faults = []
        self.shown = 0

    # ---- Words and their links ----

    def target(self, found):
        """The page and the anchor of a definition, and what a reader sees of it at once."""
        if isinstance(found, Word):
            return found.source.page, slug(found.name), " ".join(found.comment) or found.name
        if isinstance(found, Source):
            return found.page, "", " ".join(found.comment)
        if isinstance(found, Type):
            return found.page, slug(found.name), " ".join(found.comment)
        return "words/std", slug(found), found

    def linked(self, page, text, scope, crate):
        """Text of a contract as HTML, each of whose words leads to its definition."""
        out = []
        for piece, found in pieces(self.library, text, scope, crate):
            shown = html.escape(piece, quote=False)
            if found is None:
                out.append(shown)
                continue
            to, anchor, title = self.target(found)
            sign = "" if re.match(r"\w", piece) else ' class="sign"'
            out.append(f'<a{sign} href="{link(page, to, anchor)}" title="{html.escape(title)}">{shown}</a>')
        return "".join(out)

    # ---- Calls ----

    def clauses(self, page, call):
        """The clauses by what they speak of. Those that a comment of the source holds together stay together."""
        parts = {"Requires": [], "Gives": [], "Leaves": [], "Refuses": []}
        together = []
        for group in call.groups:
            note = " ".join(group.note)
            kinds = [self.kind(call, clause) for clause in group.clauses]
            if note:
                kind = kinds[0] if len(set(kinds)) == 1 else "Refuses" if re.search(r"[Rr]efus", note) else None
                if kind:
                    parts[kind].append((note, group.clauses))
                else:
                    together.append((note, group.clauses))
                continue
            for kind, clause in zip(kinds, group.clauses):
                parts[kind].append(("", [clause]))
        out = []
        for title, several in list(parts.items()) + [("Besides", together)]:
            if not several:
                continue
            out.append(f'<p class="group">{title}</p>')
            for note, clauses in several:
                if note:
                    out.append(f'<p class="note">{html.escape(note)}</p>')
                for clause in clauses:
                    label = f'<span class="label">{clause.label}</span>' if clause.label else ""
                    text = self.linked(page, clause.text, call.scope, call.crate)
                    out.append(f'<div class="clause">{label}<pre>{text}</pre></div>')
        return '<div class="clauses">\n' + "\n".join(out) + "\n</div>"

    def kind(self, call, clause):
        """What a clause speaks of: refusals alone, or what is there after the call, done or refused, or what it gives."""
        if clause.kind == "requires":
            return "Requires"
        if speaks_of(self.library, clause.text, call.scope) == {"refused"}:
            return "Refuses"
        return "Leaves" if re.search(r"\b\w+\.new\b", clause.text) else "Gives"

    def called(self, page, call, title=True):
        """A call as a part of its page."""
        if not call.of_trait:
            if not call.comment:
                self.faults.append(f"{call.file.path}: {call.name} has no comment")
            # One allocator is as any other, so what a call says of one that it gives is its type.
            gives_allocator = re.search(r"\(&self\) -> Global$", " ".join(call.signature))
            if not call.clauses and not gives_allocator:
                self.faults.append(f"{call.file.path}: {call.name} has no clause")
        self.shown += 1
        indent = len(call.signature[0]) - len(call.signature[0].lstrip())
        signature = "\n".join(line[indent:] for line in call.signature)
        out = [f"### {escaped(call.name)}\n"] if title else []
        out.append(f'<div class="call" id="{slug(call.name)}"></div>\n')
        out.append(f"```rust\n{signature}\n```\n")
        if call.comment:
            out.append(markdown(call.comment) + "\n")
        if call.clauses:
            out.append(self.clauses(page, call) + "\n")
        elif not call.of_trait:
            out.append("It has no clause: any allocator is as any other.\n")
        return "\n".join(out)

    def of_trait(self, page, impl):
        """An impl of a trait, with the definitions by which the trait's clauses hold, and its calls."""
        ours = next((kind for kind in self.library.types.values() if kind.kind == "trait" and kind.name == impl.trait_name),
                    None)
        if ours:
            trait = f"[`{impl.trait}`]({link(page, ours.page).replace('.html', '.md')})"
        else:
            trait = f"`{impl.trait}`"
        out = [f"### {escaped(impl.trait)}\n", f"```rust\n{impl.text}\n```\n"]
        if impl.comment:
            out.append(markdown(impl.comment) + "\n")
        if impl.ghosts:
            out.append(f"The contract is that of the trait {trait}, with these definitions:\n")
            definitions = "".join(
                re.sub(r"^    ", "", self.linked(page, text, scope, impl.crate)) + "\n" for text, scope in impl.ghosts)
            out.append(f'<div class="clauses"><div class="clause"><pre>{definitions.rstrip()}</pre></div></div>\n')
        else:
            out.append(f"The contract is that of the trait {trait}.\n")
        for call in impl.calls:
            out.append(self.called(page, call, title=False))
        return "\n".join(out)

    # ---- Pages of the crates ----

    def subjects(self, page, crate, impls, calls, own):
        """The calls of a page by the file that they stand in, which has one subject."""
        out = []
        files = [file for file in crate.files if any(each.file is file for each in impls + calls)]
        files.sort(key=lambda file: (file is not own, all(impl.trait for impl in impls if impl.file is file)
                                     and not any(call.file is file for call in calls)))
        for file in files:
            head, rest = file.subject
            if file is own:
                # The comment of this file is about the type itself, as the type's own comment is.
                head, rest = "First calls", ""
            out.append(f"## {escaped(head)}\n")
            if rest:
                out.append(markdown(rest.split("\n")) + "\n")
            for call in calls:
                if call.file is file:
                    out.append(self.called(page, call))
            for impl in impls:
                if impl.file is file and not impl.trait:
                    for call in impl.calls:
                        out.append(self.called(page, call))
            for impl in impls:
                if impl.file is file and impl.trait:
                    out.append(self.of_trait(page, impl))
        return "\n".join(out)

    def contents(self, crate, impls, calls, own):
        """The names of the calls of a page, each of which leads to the call."""
        names = [call.name for call in calls]
        for impl in impls:
            if not impl.trait:
                names += [call.name for call in impl.calls]
        if len(names) < 4:
            return ""
        links = " ".join(f'<a href="#{slug(name)}"><code>{name}</code></a>' for name in names)
        return f'<div class="calls">{links}</div>\n'

    def type_page(self, crate, kind, impls):
        page = kind.page
        known = next((known for name, of, known in FIRST if (name, of) == (crate.name, kind.name)), kind.name)
        title = kind.name if known == kind.name else f"{kind.name} ({known})"
        out = [f'# {title}\n\n<div class="word" id="{slug(kind.name)}"></div>\n', markdown(kind.comment) + "\n"]
        if not kind.comment:
            self.faults.append(f"{kind.file.path}: {kind.name} has no comment")
        use = imported(crate, kind)
        out.append(f"```rust\n{use}{kind.text}\n```\n")
        names = [other for other in crate.types if other.kind == "type" and aliased(crate, other.name) == kind.name]
        for other in names:
            out.append(f"```rust\n{other.text}\n```\n\n{markdown(other.comment)}\n")
        if kind.members:
            out.append("| | |\n|---|---|")
            for member, comment in kind.members:
                shown = member.rstrip(",").replace("|", "\\|")
                out.append(f"| `{shown}` | {' '.join(comment)} |")
            out.append("")
        out.append(self.contents(crate, impls, [], kind.file))
        out.append(self.subjects(page, crate, impls, [], kind.file))
        self.pages[page] = "\n".join(out)

    def crate_page(self, crate, types, impls, calls):
        page = f"rattle/{crate.name}/index"
        lib = next((file for file in crate.files if file.path.endswith("/lib.rt")), None)
        out = [f"# {escaped(crate.name)}\n"]
        if lib and lib.comment:
            out.append(markdown(lib.comment) + "\n")
        if types:
            out.append("| Type | |\n|---|---|")
            for kind in types:
                out.append(f"| [`{kind.name}`]({kind.name}.md) | {first_sentence(kind.comment)} |")
            out.append("\n```{toctree}\n:hidden:\n")
            out += [kind.name for kind in types]
            out.append("```\n")
        others = [kind for kind in crate.types if kind.kind in ("const", "type")]
        if others:
            out.append("## Constants and names\n")
            for kind in others:
                if not kind.comment:
                    self.faults.append(f"{kind.file.path}: {kind.name} has no comment")
                out.append(f'<div class="word" id="{slug(kind.name)}"></div>\n\n```rust\n{kind.text}\n```\n\n{markdown(kind.comment)}\n')
        out.append(self.contents(crate, impls, calls, None))
        out.append(self.subjects(page, crate, impls, calls, None))
        self.pages[page] = "\n".join(out)

    def about(self, crate, name):
        """The first paragraphs of the comments of a type and of the other names that it has."""
        of = next(each for each in self.crates if each.name == crate)
        kinds = [kind for kind in of.types if aliased(of, kind.name) == name]
        kinds.sort(key=lambda kind: kind.name != name)
        paragraphs = [" ".join("\n".join(kind.comment).split("\n\n")[0].split()) for kind in kinds]
        return " ".join(paragraphs).replace("|", "\\|")

    def make_crates(self):
        rows, toctree = [], []
        for crate in self.crates:
            types = [kind for kind in crate.types if kind.kind in ("struct", "enum", "trait")]
            of_type = {kind.name: [] for kind in types}
            others = []
            for impl in crate.impls:
                name = aliased(crate, impl.type_name)
                name = name if name in of_type else impl.trait_name
                of_type.get(name, others).append(impl)
            calls = [call for call in crate.calls if call.impl is None]
            for kind in types:
                self.type_page(crate, kind, of_type[kind.name])
            self.crate_page(crate, types, others, calls)
            # Of a crate that is shown in part its first file is.
            lib = next((file for file in crate.files if file.path.endswith("/lib.rt")), crate.files[0])
            rows.append(f"| [`{crate.name}`]({crate.name}/index.md) | {lib.subject[0]} | {len(crate.calls)} |")
            toctree.append(f"{crate.name}/index")
        total = sum(len(crate.calls) for crate in self.crates)
        if self.shown != total:
            self.faults.append(f"{self.shown} calls are on the pages, and {total} are in the contracts")
        firsts = "\n".join(f"| [`{known}`]({crate}/{name}.md) | {self.about(crate, name)} |" for crate, name, known in FIRST)
        self.pages["rattle/index"] = f"""# Reference for Rattle

Each call has its comment, its signature and its clauses, by what they speak of: what the call requires, what it gives,
what it leaves, and when it is refused. A word of a clause leads to its definition. `x.now` is what stands behind a `&`,
`x.old` and `x.new` what stands behind a `&mut` before and after the call, and `x.entry` a value at the call.
[Calling ecow](../docs/CALLING.md) says how to begin.

| Type | |
|---|---|
{firsts}

## By crate

| Crate | What it is | Calls |
|---|---|---|
{chr(10).join(rows)}

The {total} calls are those of `make contracts`, which writes the same as text. [The words of std](../words/std.md) are
listed with their paths.

```{{toctree}}
:hidden:

{chr(10).join(toctree)}
```
"""

    # ---- Pages of the words ----

    def make_words(self):
        done = set()
        while True:
            todo = [source for source in list(self.library.sources.values()) if source and source.path not in done]
            if not todo:
                break
            for source in todo:
                done.add(source.path)
                self.pages[source.page] = self.words_page(source)
        paths = sorted(self.library.outside)
        out = ["---\norphan: true\n---\n\n# The words of std\n", "Words of Rattle's standard library that the contracts use, "
               "with their paths. `rt lemma WORD` of the kit shows what each one means, and "
               "[Calling ecow](../docs/CALLING.md) explains those that occur most.\n", "| Word | Path |", "|---|---|"]
        for path in paths:
            word = path.split(".")[-1].replace("◌", " ").strip() or path
            out.append(f'| <a id="{slug(path)}"></a>`{word.replace("|", chr(92) + "|")}` '
                       f'| `{path.replace("|", chr(92) + "|")}` |')
        self.pages["words/std"] = "\n".join(out)

    def words_page(self, source):
        out = [f"---\norphan: true\n---\n\n# Words of {escaped(source.crate)}: {escaped(source.module.split('.')[-1])}\n",
               " ".join(source.comment) + "\n", f"`{source.path}`\n"]
        for word in source.order:
            text = self.linked(source.page, "\n".join(word.lines), source.scope, source.crate)
            comment = html.escape(" ".join(word.comment), quote=False)
            comment = re.sub(r"`([^`]*)`", r"<code>\1</code>", comment)
            out.append(f'## {escaped(word.name)}\n\n<div class="word" id="{slug(word.name)}"></div>\n')
            if comment:
                out.append(f'<p>{comment[0].upper() + comment[1:]}.</p>\n')
            out.append(f'<div class="clauses"><div class="clause"><pre>{text}</pre></div></div>\n')
        return "\n".join(out)

    # ---- Pages of the repository ----

    def make_pages(self):
        tracked = subprocess.run(["git", "-C", ROOT, "ls-files", "*.md"], check=True, capture_output=True, text=True)
        here = [path[:-3] for path in tracked.stdout.split() if path != "README.md"]
        uses = [page for page in here if page.startswith("docs/uses/") and page not in PAGES]
        for page in here:
            if page not in PAGES + uses:
                self.faults.append(f"{page}.md has no reader in tools/ship/site_pages.py")
            self.pages[page] = self.page(page, here)
        names = "\n".join(page.split("/")[-1] for page in uses)
        self.pages["docs/uses/README"] += f"\n\n```{{toctree}}\n:hidden:\n\n{names}\n```\n"
        self.pages["index"] = self.first_page(here)

    def page(self, page, here):
        """A page of the repository, whose pictures stand in it. A page that it names is a link, and the first page has
        another name here."""
        text = read(page + ".md" if page != "index" else "README.md")
        folder = os.path.dirname(page)

        def picture(match):
            path = os.path.normpath(os.path.join(folder, match.group(2)))
            return inlined(read(path))

        # The language of the definitions has no colours.
        text = re.sub(r"^```antt$", "```text", text, flags=re.M)
        text = re.sub(r"^!\[([^\]]*)\]\(([^)]*\.svg)\)$", picture, text, flags=re.M)
        up = os.path.relpath(".", folder or ".")
        if folder:
            text = text.replace(f"]({up}/README.md", f"]({up}/index.md")

        def named(match):
            target = "index" if match.group(1) == "README" else match.group(1)
            if target not in here + ["index"] or target == page:
                return match.group()
            return f"[{match.group()}]({os.path.relpath(target + '.md', folder or '.')})"

        parts = re.split(r"(^```.*?^```$)", text, flags=re.M | re.S)
        return "".join(part if part.startswith("```") else re.sub(r"(?<!\[)`([\w./-]+)\.md`(?!\])", named, part)
                       for part in parts)

    def first_page(self, here):
        text = self.page("index", here)
        rust = " · [Rust](rust/reference.md)" if os.environ.get("ECOW_RUSTDOC") else ""
        reference = ("**Reference.** Rattle: " + ", ".join(f"[{known}](rattle/{crate}/{name}.md)" for crate, name, known in FIRST)
                     + ", [all types](rattle/index.md) · [C](c/reference.md) · [C++](c/cpp-reference.md) · "
                     "[Python](python/reference.md)" + rust + "\n\n")
        head, rest = text.split("\n\n", 1)
        trees = []
        for title, pages in READERS:
            listed = [page for page in pages if re.sub(r".*<(.*)>", r"\1", page) in self.pages]
            if title == "Use it from Rust" and os.environ.get("ECOW_RUSTDOC"):
                listed.append("rust/reference")
            trees.append(f"```{{toctree}}\n:hidden:\n:caption: {title}\n\n" + "\n".join(listed) + "\n```\n")
        first, rest = rest.split("\n\n", 1)
        return head + "\n\n" + first + "\n\n" + reference + rest + "\n\n" + "\n".join(trees)

    def make(self):
        self.make_crates()
        self.make_words()
        proved = {call.name: call for crate in self.crates if crate.name == "ecow_c" for call in crate.calls}
        self.pages["c/reference"] = c_page(proved, self.faults)
        self.pages["c/cpp-reference"] = cpp_page(self.faults)
        self.pages["python/reference"] = python_page(self.faults)
        if os.environ.get("ECOW_RUSTDOC"):
            self.pages["rust/reference"] = RUST
        self.make_pages()


RUST = """# Reference for Rust

<p>The <a href="ecow/index.html">pages that <code>cargo doc</code> writes</a> of the crate have every type and call, with
examples, errors, panics and costs. They are a part of this site, with a search of their own.</p>
<ul>
<li><a href="ecow/vec/struct.EcoVec.html"><code>EcoVec</code></a></li>
<li><a href="ecow/string/type.EcoString.html"><code>EcoString</code></a>, <a href="ecow/bytes/type.EcoBytes.html"><code>EcoBytes</code></a></li>
<li><a href="ecow/value/struct.Value.html"><code>Value</code></a></li>
</ul>
"""


def imported(crate, kind):
    """The line that brings a type, or nothing where its crate keeps it to itself."""
    lib = read(f"crates/{crate.name}/src/lib.rt")
    module = kind.file.path.split("/src/")[1][:-3].replace("/", "::")
    if re.search(rf"\bpub use [^;]*\b{kind.name}\b", lib) or module == "lib":
        return f"use {crate.name}::{kind.name};\n\n"
    if re.search(rf"^pub mod {module.split('::')[0]}\b", lib, re.M):
        return f"use {crate.name}::{module}::{kind.name};\n\n"
    return ""


def aliased(crate, name):
    """The type that a name of the crate stands for."""
    text = next((kind.text for kind in crate.types if kind.kind == "type" and kind.name == name), None)
    return aliased(crate, re.search(r"= (\w*)", text).group(1)) if text else name


def inlined(svg):
    """A picture within a page, so that it takes the colours of the page."""
    svg = re.sub(r'<style class="colours">.*?</style>', "", svg, flags=re.S).strip()
    return re.sub(r"\n\s*\n", "\n", f'<figure class="picture">{svg}</figure>')


def escaped(text):
    return text if "`" in text else re.sub(r"([\\`*_<>\[\]])", r"\\\1", text)


def first_sentence(comment):
    text = " ".join(comment)
    match = re.match(r".*?[.](?= |$)", text)
    return (match.group() if match else text).replace("|", "\\|")


def main(arguments):
    if len(arguments) != 1:
        sys.exit("usage: tools/ship/site_pages.py TO, or --check")
    site = Site()
    try:
        site.make()
    except Fault as fault:
        site.faults.append(str(fault))
    if site.faults:
        sys.exit("\n".join(site.faults))
    words = sum(len(source.order) for source in site.library.sources.values() if source)
    if arguments[0] == "--check":
        print(f"{site.shown} calls have a comment and clauses, and {words} words their definitions")
        return
    to = arguments[0]
    for page, text in site.pages.items():
        written(to, page, text)
    shutil.copytree(os.path.join(ROOT, "tools/ship/site"), to, dirs_exist_ok=True)
    print(f"{to} has {len(site.pages)} pages, with {site.shown} calls and {words} words")


main(sys.argv[1:])
