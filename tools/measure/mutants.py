#!/usr/bin/env python3
"""Changes one token at a time, and names each change that nothing beside the proofs sees:
tools/measure/mutants.py NUMBER SEED JOBS [PART ..]. PART is rattle, glue or tools; all without one. It ends
with 1 where a mutant survives.

Rattle code is built once, with no proof: a changed function has a body for each of its mutants, and
the variable MUTANT says which one is run. Other files are changed in a copy for each job."""

import concurrent.futures
import functools
import glob
import os
import queue
import random
import re
import shutil
import subprocess
import sys
import tempfile
import time
from pathlib import Path
from typing import NamedTuple

sys.dont_write_bytecode = True
import unproved
from unproved import run

TOP = Path(__file__).resolve().parents[2]
LOWER = "base block shared list bytes string model store counted script tool run nested c"
FILES = {
    "rattle": [f"crates/ecow_{crate}/src/**/*.rt" for crate in LOWER.split()],
    "glue": ["c/*.[ch]", "include/*", "python/core/*"],
    "tools": ["tools/gate/costs.*", "tools/gate/refuse*", "tools/gate/ends.sh", "tools/gate/cases.sh",
              "tools/gate/large.*", "tools/ship/below.awk", "tools/gate/counts.sh", "tools/gate/agree_*.sh"],
}
# The first two stand on each of those crates.
PROGRAMS = [f"ecow_{name}" for name in "c run uses test_costs test_trials".split()]

ONCE = 'said=$("$0" strict < /dev/null) && ! echo "$said" | grep wrong'
LIBRARY = "tools/ship/lib.sh atomic && PYTHON=none tools/gate/c_short.sh"
PACKAGE = "tools/ship/lib.sh atomic && tools/gate/python.sh"
# What the gate tries: of which program or changed files, and how. The command gets the program.
CHECKS = {
    "rattle": [("ecow_uses", 'cd crates/ecow_uses && "$0" | cmp - stdout'),
               ("ecow_test_costs", 'tools/gate/costs.sh "$0"'),
               ("ecow_run", 'tools/gate/ends.sh "$0" && tools/gate/cases.sh "$0"'),
               ("ecow_test_trials", ONCE),
               ("ecow_run", 'tools/gate/large.sh "$0"'),
               ("ecow_run", 'tools/gate/refuse_scripts.sh "$0"'),
               ("ecow_test_trials", 'tools/gate/refuse.sh "$0"'),
               ("ecow_c", LIBRARY)],
    "glue": [("c/", LIBRARY), ("include/", LIBRARY), ("c/", PACKAGE), ("python/", PACKAGE)],
    "tools": [("", "tools/gate/costs.sh bin/ecow_test_costs"), ("", "tools/gate/ends.sh bin/ecow_run"),
              ("tools/gate/cases", "tools/gate/cases.sh bin/ecow_run"),
              ("tools/gate/large", "tools/gate/large.sh bin/ecow_run"),
              ("", "make --no-print-directory agree"),
              ("tools/gate/refuse", "tools/gate/refuse.sh bin/ecow_test_trials"),
              ("tools/gate/refuse_scripts", "tools/gate/refuse_scripts.sh bin/ecow_run")],
}
# A glue that isn't compiled so is no mutant.
SYNTAX = '-Iinclude "-I$(python3 -c "import sysconfig; print(sysconfig.get_path(\'include\'))")"'
COMPILES = f"""for file in c/ecow.c python/core/*.c; do
    cc -fsyntax-only -Werror=return-type -DPACKAGE_VERSION='"0"' {SYNTAX} $file
done
for test in test nested edits attempts; do c++ -fsyntax-only -Werror=return-type -Iinclude c/tests/$test.cpp; done"""

PAIRS = "< <=, > >=, == !=, && ||, + -, += -=, true false, min max, -eq -ne, -lt -le, -gt -ge"
OTHER = {old: new for pair in PAIRS.split(", ") for old, new in (pair.split(), pair.split()[::-1])}
OTHER |= {"*": "+", "=": "!=", "!": "", "wrapping_add": "wrapping_sub"}
OTHER |= {f"saturating_{name}": f"wrapping_{name}" for name in ("add", "sub", "mul")}
TOKEN = re.compile(r"""
    (?<=\ )(?:[<>=!]=|[<>*+=-]|&&|\|\||[+-]=|-(?:eq|ne|lt|le|gt|ge))(?=\ )
    | \b(?:true|false|(?:min|max|wrapping_add|saturating_\w+)(?=\())\b | (?<![\w!])!(?=[\w(])
    | (?<!\w)(?<![\w)\]]\.)(?<!::<)\d+(?!\w|\.\d)
    | (?:(?<=\()|(?<=,\ ))(?:[a-z_]\w*,\ [a-z_]\w*|\d+,\ \d+)(?=[,)])""", re.X)
# Lines that are a statement, of a shell or awk, and of another language.
STATEMENTS = {
    True: re.compile(r"(?<![\\|&(,])\n([ ]+(?!do\b|done|then|fi$|else|esac|[#}])\S.*[^;|{(&\\\s])$", re.M),
    False: re.compile(r"(?<=[{};])\s*?\n([ ]+(?!let |const |using |friend )\S.*;)$", re.M),
}
# What isn't run, by a file's ending: comments, texts, attributes; in Rattle also what is proved.
PASSIVE = {
    ".rt": re.compile(r"""//.*|"(?:[^"\\]|\\.)*"|'(?:[^'\\]|\\.[^']*)'|#!?\[.*\]|\bconst\b.*"""),
    ".sh": re.compile(r"^\s*\#.*", re.M),
    ".c": re.compile(r"""//.*|/\*[\s\S]*?\*/|"(?:[^"\\\n]|\\.)*"|'(?:[^'\\]|\\.[^']*)'|^\#(?!def).*""", re.M),
}
PROVED = re.compile(r"\b(?:requires|ensures|invariant|decreases|ghost|prove!)[^;{()]*([;{(])")
FUNCTION = re.compile(r"( *)(?:pub(?:\(\w+\))? )?(?:unsafe )?(?:extern +)?fn ")

# In LLVM's words: the variable is read once, before the program begins.
CHOICE = """
@chosen_mutant = internal global i64 0
@mutant_name = private constant [7 x i8] c"MUTANT\\00"
@llvm.global_ctors = appending global [1 x { i32, ptr, ptr }]
    [{ i32, ptr, ptr } { i32 65535, ptr @choose_mutant, ptr null }]
declare ptr @getenv(ptr)
declare i64 @atol(ptr)
define internal void @choose_mutant() {
  %given = call ptr @getenv(ptr @mutant_name)
  %none = icmp eq ptr %given, null
  br i1 %none, label %end, label %choose
choose:
  %number = call i64 @atol(ptr %given)
  store i64 %number, ptr @chosen_mutant
  br label %end
end:
  ret void
}
"""
CHOSEN = re.compile(r'(^define [^\n]*::chosen_mutant"\(\)[^\n]*\n).*?^}', re.M | re.S)
READS_CHOICE = r"\1  %number = load i64, ptr @chosen_mutant\n  ret i64 %number\n}"


Check = tuple[str, str]


class Mutant(NamedTuple):
    path: str
    start: int
    end: int
    old: str
    new: str

    def line(self) -> int:
        return source(self.path).count("\n", 0, self.start)

    def text(self) -> str:
        return source(self.path)[: self.start] + self.new + source(self.path)[self.end :]

    def function(self) -> str:
        return re.findall(r"\bfn (\w+)", source(self.path)[: self.start])[-1]

    def part(self) -> str:
        return {"crates": "rattle", "tools": "tools"}.get(self.path.split("/")[0], "glue")

    def __str__(self) -> str:
        return f"{self.path}:{self.line() + 1}: [{self.old}] -> [{self.new}]"


@functools.cache
def source(path: str) -> str:
    return (TOP / path).read_text(encoding="utf-8")


def blank(text: str) -> str:
    return re.sub(r"[^\n]", " ", text)


@functools.cache
def active(path: str) -> str:
    """The text with spaces for what isn't run."""
    kind = {".rt": ".rt", ".sh": ".sh", ".awk": ".sh"}.get(Path(path).suffix, ".c")
    text, at = PASSIVE[kind].sub(lambda found: blank(found[0]), source(path)), 0
    while kind == ".rt" and (found := PROVED.search(text, at)):
        at, depth = found.end(), found[1] != ";"
        while depth:
            depth += {"{": 1, "(": 1, "}": -1, ")": -1}.get(text[at], 0)
            at += 1
        text = text[: found.start()] + blank(text[found.start() : at]) + text[at:]
    return text


@functools.cache
def bodies(path: str) -> list[tuple[int, int]]:
    """The lines between the braces of each function: the first, and the one behind the last."""
    lines, found, number = [line.rstrip() for line in active(path).split("\n")], [], 0
    while number < len(lines):
        if header := FUNCTION.match(lines[number]):
            while not lines[number].endswith(("{", ";", "}")):
                number += 1
            if lines[number].endswith("{"):
                first = number + 1
                number = lines.index(header[1] + "}", first)
                found.append((first, number))
        number += 1
    return found


def mutants_of(path: str, chance: random.Random) -> list[Mutant]:
    found = []
    shell = path.endswith((".sh", ".awk"))
    for token in TOKEN.finditer(active(path)):
        old = new = token[0]
        if old == "=" and not shell:
            continue
        if old.isdigit():
            new = str(chance.choice(sorted({int(old) + 1, max(int(old) - 1, 0), 0} - {int(old)})))
        elif "," in old:
            new = ", ".join(reversed(old.split(", ")))
        found.append(Mutant(path, *token.span(), old, OTHER.get(old, new)))
    for line in STATEMENTS[shell].finditer(active(path)):
        found.append(Mutant(path, *line.span(1), line[1].strip(), ""))
    in_body = lambda mutant: any(first <= mutant.line() < last for first, last in bodies(path))
    found = [mutant for mutant in found if mutant.new != mutant.old]
    return list(filter(in_body, found)) if path.endswith(".rt") else found


def with_choice(path: str, numbers: dict[int, Mutant]) -> tuple[str, dict[int, int]]:
    """A file whose functions do what the chosen mutant does, and the mutant of each line."""
    lines, owners, out, at = source(path).split("\n"), {}, [], 0
    for first, last in bodies(path):
        out += lines[at:first]
        here = {number: mutant for number, mutant in numbers.items()
                if mutant.path == path and first <= mutant.line() < last}
        for number, mutant in here.items():
            owners.update((len(out) + 1 + line, number) for line in range(last - first + 2))
            out += [f"if crate::chosen_mutant() == {number} {{"]
            out += [*mutant.text().split("\n")[first:last], "} else {"]
        out += [*lines[first:last], "}" * len(here)]
        at = last
    out += lines[at:]
    if path.endswith(("src/lib.rt", "src/main.rt")):
        out.append("#[inline(never)]\npub fn chosen_mutant() -> u64 {\n    0\n}\n")
    return "\n".join(out), owners


def not_compiled(tree: str, numbers: dict[int, Mutant], pool: concurrent.futures.Executor) -> set[int]:
    """Writes these mutants into a copy, and says which of them don't compile."""
    owners, wrong = {}, set()
    for path in glob.glob("crates/*/src/**/*.rt", root_dir=TOP, recursive=True):
        text, owners[f"{tree}/{path}"] = with_choice(path, numbers)
        Path(tree, path).write_text(text, encoding="utf-8")
    unproved.reach(tree)
    for crate, said in zip(PROGRAMS[:2], pool.map(functools.partial(unproved.module, tree), PROGRAMS[:2])):
        found, named = set(), re.findall(r"the function `([^`<]+?)(?:::<[^`]*)?`", said)
        for path, line in re.findall(r"^(\S+\.rt):(\d+):", said, re.M):
            path = os.path.join(f"{tree}/crates/{crate}", path)
            found.add(owners.get(path, {}).get(int(line)))
            named += re.findall(r"\bfn (\w+)", Path(path).read_text(encoding="utf-8").split("\n")[int(line) - 1])
        # Some errors name a function, or its first line, in place of a line.
        found = found - {None} or {number for number, mutant in numbers.items()
                                   if mutant.function() in [name.split("::")[-1] for name in named]}
        if said and not found:
            sys.exit(f"{crate} isn't built:\n{said}")
        wrong |= found
    return wrong


def build(tree: str, wanted: int, drawn: list[Mutant],
          pool: concurrent.futures.Executor) -> tuple[dict[int, Mutant], int]:
    """Builds the programs with so many of the mutants; also says how many weren't compiled."""
    numbers, taken, refused = dict(enumerate(drawn[:wanted], 1)), wanted, 0
    while wrong := not_compiled(tree, numbers, pool):
        numbers = {number: mutant for number, mutant in numbers.items() if number not in wrong}
        numbers |= dict(enumerate(drawn[taken : taken + len(wrong)], taken + 1))
        taken, refused = taken + len(wrong), refused + len(wrong)

    def finish(crate: str) -> None:
        if said := unproved.module(tree, crate):
            sys.exit(f"{crate} isn't built:\n{said}")
        unproved.link(tree, crate, lambda code: CHOSEN.sub(READS_CHOICE, code) + CHOICE)

    list(pool.map(finish, PROGRAMS))
    return numbers, refused


def copied(tree: str) -> str:
    """A copy of what git has here, as a repository of its own."""
    names = subprocess.run(["git", "ls-files", "-z"], cwd=TOP, check=True, capture_output=True, text=True)
    for path in names.stdout.split("\0")[:-1]:
        Path(tree, path).parent.mkdir(parents=True, exist_ok=True)
        shutil.copy2(TOP / path, f"{tree}/{path}")
    os.mkdir(f"{tree}/bin")
    run(["sh", "-c", "git init -q && git add -A"], tree)
    return tree


def first_wrong(tree: str, checks: list[Check], limits: dict[Check, float], number: int) -> str:
    """The first check that a mutant doesn't pass, with its last words; or nothing."""
    for program, command in checks:
        ended, said = run(["sh", "-ec", command, f"{tree}/bin/{program}"], tree, limits.get((program, command)),
                          MUTANT=str(number), ECOW_EDITS="100", EACH="10", PROCESSORS="1")
        if not ended:
            return f"{program or command.split('/')[-1]}: {' '.join(said.split())[-70:]}"
    return ""


def outcome(tree: str, limits: dict[Check, float], number: int, mutant: Mutant) -> str:
    """The check that sees a mutant, "not compiled", or nothing where none does."""
    checks = CHECKS[mutant.part()]
    if number:
        crate, rows = mutant.path.split("/")[1], unproved.needs(tree)
        checks = [check for check in checks if crate in [check[0], *unproved.below(check[0], rows)]]
        return first_wrong(tree, checks, limits, number)
    changed = Path(tree, mutant.path)
    try:
        changed.write_text(mutant.text(), encoding="utf-8")
        run(["git", "add", mutant.path], tree)
        if mutant.part() == "glue" and not run(["sh", "-ec", COMPILES], tree)[0]:
            return "not compiled"
        checks = [("", command) for start, command in checks if mutant.path.startswith(start)]
        return first_wrong(tree, checks, limits, 0)
    finally:
        changed.write_text(source(mutant.path), encoding="utf-8")
        run(["git", "add", mutant.path], tree)


def main() -> None:
    number, seed, jobs = map(int, sys.argv[1:4])
    parts, chance = sys.argv[4:] or list(FILES), random.Random(seed)
    paths = [path for part in parts for pattern in FILES[part]
             for path in sorted(glob.glob(pattern, root_dir=TOP, recursive=True))
             if not path.endswith("threads.rt")]
    drawn = [mutant for path in paths for mutant in mutants_of(path, chance)]
    chance.shuffle(drawn)
    of_rattle = [mutant for mutant in drawn if mutant.part() == "rattle"]
    others = iter([mutant for mutant in drawn if mutant.part() != "rattle"])
    with tempfile.TemporaryDirectory() as work, concurrent.futures.ThreadPoolExecutor(jobs) as pool:
        built, *copies = [copied(f"{work}/{job}") for job in range(jobs + 1)]
        wanted = sum(mutant.part() == "rattle" for mutant in drawn[:number])
        numbers, refused = build(built, wanted, of_rattle, pool)
        print(f"{wanted} mutants of Rattle code are built; now each check with no mutant", flush=True)
        trees: queue.Queue[str] = queue.Queue()
        for tree in copies:
            for name in [*PROGRAMS[1:], "libecow_c-atomic.a"]:
                shutil.copy(f"{built}/bin/{name}", f"{tree}/bin")
            trees.put(tree)
        limits: dict[Check, float] = {}

        # How long a check takes where nothing is changed.
        def measure(check: Check) -> None:
            tree, started = trees.get(), time.time()
            if wrong := first_wrong(tree, [check], {}, 0):
                sys.exit(f"with no mutant, {wrong}")
            limits[check] = 10 + 5 * (time.time() - started)
            trees.put(tree)

        def tried(numbered: tuple[int, Mutant | None]) -> tuple[str, Mutant, int]:
            tree, skipped = trees.get(), -1
            by = "not compiled"
            while by == "not compiled":
                mutant, skipped = numbered[1] or next(others), skipped + 1
                by = outcome(tree, limits, numbered[0], mutant)
            trees.put(tree)
            print(f"{'seen by ' + by if by else 'SURVIVES'}: {mutant}", flush=True)
            return by.split(":")[0], mutant, skipped

        checks = [(start if part == "rattle" else "", command)
                  for part in parts for start, command in CHECKS[part]]
        list(pool.map(measure, dict.fromkeys(checks)))
        results = list(pool.map(tried, [*numbers.items(), *[(0, None)] * (number - len(numbers))]))
    refused += sum(skipped for _, _, skipped in results)
    survivors = sorted(mutant for by, mutant, _ in results if not by)
    print(f"{number} mutants, and {refused} more don't compile. {len(survivors)} survive:")
    print(*(f"  {mutant}" for mutant in survivors), sep="\n")
    for check in sorted({by for by, _, _ in results if by}):
        print(f"{sum(by == check for by, _, _ in results)} were seen by {check}")
    sys.exit(bool(survivors))


if __name__ == "__main__":
    main()
