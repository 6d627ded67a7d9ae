"""Times tasks of the package beside pyrsistent and Python's own types: peers.py [ROUNDS].

It prints a table. A cell is the least of ROUNDS runs, which take turns after one that is checked,
in nanoseconds where the row names no other unit; the least of a row is bold. Memory is by how much
a fresh process grows. What can't change has itself for a clone, and a pvector is edited in place
by its evolver."""

import array
import ctypes
import pathlib
import resource
import subprocess
import sys
import timeit
from typing import Callable, NamedTuple

from ecow import Array, List, Text, Texts

try:
    from pyrsistent import pvector
except ImportError:
    pvector = None

LEN, EDITS, CLONES, APPENDS = 100_000, 1_000, 1_000, 100
TEN = "ten letter"
ALPHABETS = "abcdefghijklmnopqrstuvwxyz" * 2
# Where edits go, one after another: all over a list, and never twice to a place.
PLACES = [edit * 61_803 % LEN for edit in range(LEN)]
STARTS = [number % 26 for number in range(LEN)]


def sum_after(edits):
    """The sum of the numbers from 0, of which edits have set some to the length."""
    return sum(range(LEN)) + sum(LEN - place for place in PLACES[:edits])


def resident():
    pages = int(pathlib.Path("/proc/self/statm").read_text().split()[1])
    return pages * resource.getpagesize()


def time(setup, call, times):
    return timeit.Timer(call, setup, globals=globals()).timeit(times) / times * 1e9


def memory(setup, call, times):
    command = [sys.executable, __file__, setup, call]
    return int(subprocess.run(command, check=True, capture_output=True).stdout)


class Task(NamedTuple):
    """What is done, in code with the names of a column's parts, and what holds then."""
    name: str
    measure: Callable
    setup: str
    call: str
    check: str
    steps: int
    times: int = 1


# What is kept takes new memory, not what malloc keeps of what was freed.
trim = ctypes.CDLL(None).malloc_trim
KEEP = """for at in PLACES[:EDITS]:
    {version}
    v = w
    versions.append(v)"""
KEPT = "[sum(versions[at]) for at in (0, EDITS)] == [sum_after(0), sum_after(EDITS)]"
PUT = "for start in STARTS: texts.append(letters[start:start + 10])"
ARE_PUT = "all(t == ALPHABETS[s:s + 10] for t, s in zip(texts, STARTS, strict=True))"
TASKS = (
    Task("1,000 edits of a list, each kept as a version: an edit", time,
         "v = {list}; versions = [v]; trim(0)", KEEP, KEPT, EDITS),
    Task("the same: memory of all versions, MiB", memory,
         "", "v = {list}; versions = [v]\n" + KEEP, KEPT, 2**20),
    Task("edits in place, of a list that nobody shares: an edit", time,
         "v = {own}", "for at in PLACES: v[at] = LEN", "all(v[at] == LEN for at in PLACES)", LEN),
    Task("a list cloned, the clone dropped", time,
         "v = {list}", "w = {clone}", "w == v", 1, CLONES),
    Task("a list made by pushes: a push", time,
         "v = {empty}", "for n in range(LEN): {push}", "sum(v) == sum_after(0)", LEN),
    Task("the sum of a list by iteration: a number", time,
         "v = {list}", "s = sum(v)", "s == sum_after(0)", LEN),
    Task("a list compared with its clone", time,
         "v = {list}; w = {clone}", "v == w", "v == w", 1, CLONES),
    Task("1,000 edits of a list of doubles, each kept as a version: an edit", time,
         "v = {doubles}; versions = [v]; trim(0)", KEEP, KEPT, EDITS),
    Task("edits in place, of a list of doubles that nobody shares: an edit", time,
         "v = {doubles}", "for at in PLACES: v[at] = LEN", "all(v[at] == LEN for at in PLACES)", LEN),
    Task("a list of doubles cloned, the clone dropped", time,
         "v = {doubles}", "w = {clone}", "w == v", 1, CLONES),
    Task("a list of doubles made by pushes: a push", time,
         "v = {no_doubles}; numbers = [float(n) for n in range(LEN)]", "for n in numbers: {push}",
         "sum(v) == sum_after(0)", LEN),
    Task("the sum of a list of doubles by iteration: a number", time,
         "v = {doubles}", "s = sum(v)", "s == sum_after(0)", LEN),
    Task("a list of doubles compared with its clone", time,
         "v = {doubles}; w = {clone}", "v == w", "v == w", 1, 10),
    Task("100,000 texts of ten letters made of slices: a text", time,
         "letters = {text}(ALPHABETS); texts = {texts}()", PUT, ARE_PUT, LEN),
    Task("the same: memory of a text, bytes", memory,
         "letters = {text}(ALPHABETS)", "texts = {texts}()\n" + PUT, ARE_PUT, LEN),
    Task("a text of ten letters cloned, the clone dropped", time,
         "t = {text}(TEN)", "u = {copy}", "u == TEN", 1, CLONES),
    Task("the same with a text of 1,000 letters", time,
         "t = {text}(TEN * 100)", "u = {copy}", "u == TEN * 100", 1, CLONES),
    Task("a text made by 100 appends of ten letters: an append", time,
         "", "t = {text}()\nfor _ in range(APPENDS): t += TEN", "t == {copy} == TEN * APPENDS",
         APPENDS, 100),
)
SET = "w = v.copy(); w[at] = LEN"
FLOATS = "[float(n) for n in range(LEN)]"
COLUMNS = {
    "`List`, `Text`": {
        "list": "List(range(LEN))", "own": "List(range(LEN))", "empty": "List()", "version": SET,
        "clone": "v.copy()", "push": "v.append(n)", "text": "Text", "texts": "list",
        "copy": "t.copy()"},
    "`Texts` of `str`": {"text": "str", "texts": "Texts"},
    "`Array`": {
        "doubles": "Array('d', range(LEN))", "no_doubles": "Array('d')", "version": SET,
        "clone": "v.copy()", "push": "v.append(n)"},
    "`pvector`": {
        "list": "pvector(range(LEN))", "own": "pvector(range(LEN)).evolver()",
        "empty": "pvector()", "version": "w = v.set(at, LEN)", "clone": "v",
        "push": "v = v.append(n)"},
    "`list`, `str`": {
        "list": "list(range(LEN))", "own": "list(range(LEN))", "empty": "[]", "version": SET,
        "clone": "v.copy()", "push": "v.append(n)", "text": "str", "texts": "list", "copy": "t",
        "doubles": FLOATS, "no_doubles": "[]"},
    "`array.array`": {
        "doubles": "array.array('d', range(LEN))", "no_doubles": "array.array('d')",
        "version": "w = v[:]; w[at] = LEN", "clone": "v[:]", "push": "v.append(n)"},
    "`tuple`": {
        "list": "tuple(range(LEN))", "version": "w = v[:at] + (LEN,) + v[at + 1:]", "clone": "v"},
}
if pvector is None:
    del COLUMNS["`pvector`"]


def digits(number):
    return f"{number:.1f}" if number < 9.95 else f"{number:,.0f}"


def codes(task, parts):
    """The code of a cell, or nothing where the column lacks a part of the task."""
    try:
        return [code.format_map(parts) for code in (task.setup, task.call, task.check)]
    except KeyError:
        return None


def main(rounds):
    cells = {}
    for task in TASKS:
        for column, parts in COLUMNS.items():
            if found := codes(task, parts):
                cells[task, column] = found
                setup, call, check = found
                exec(f"{setup}\n{call}\nassert {check}", dict(globals()))
    least = dict.fromkeys(cells, float("inf"))
    for _ in range(rounds):
        for (task, column), (setup, call, _) in cells.items():
            taken = task.measure(setup, call, task.times) / task.steps
            least[task, column] = min(least[task, column], taken)
    print(f"| Task (lists have 100,000 numbers) | {' | '.join(COLUMNS)} |")
    print(f"|---|{'--:|' * len(COLUMNS)}")
    for task in TASKS:
        texts = [digits(least[task, column]) if (task, column) in cells else "\u2013"
                 for column in COLUMNS]
        best = digits(min(least[cell] for cell in cells if cell[0] == task))
        print(f"| {task.name} |", *(f"**{text}** |" if text == best else f"{text} |"
                                    for text in texts))


if len(sys.argv) == 3:
    _, setup, call = sys.argv
    exec(setup)
    before = resident()
    exec(call)
    print(resident() - before)
else:
    main(int(sys.argv[1]) if len(sys.argv) > 1 else 15)
