"""Times calls beside those of Python's own types, and prints a table: speed.py [SECONDS].

Each call is timed for about SECONDS, 0.2 without the argument, in 20 parts of which the fastest
counts."""

import functools
import sys
import timeit
from array import array
from copy import copy, deepcopy

import ecow

SECONDS = float(sys.argv[1]) if len(sys.argv) > 1 else 0.2
PARTS = 20

# What is done, with `v` for the value; what Python's own type does, where it is something else;
# what `v` is made of, and the two types.
LIST, TEXT, TEXTS, BYTES = ("List", list), ("Text", str), ("Texts", list), ("Bytes", bytearray)
VALUE = ("Value", dict)
DOUBLES = ("Array", functools.partial(array, "d"))
RECORDS = {"items": [{"id": number, "tags": ["a", "b"]} for number in range(10**4)]}
SHORT, LONG, WIDE = "a short text", "letters of a text " * 56, "\u00e9" * 1000
ROWS = (
    ("`l.append(1)`", "v.append(1)", None, (), LIST),
    ("`l[i]`, of 1,000", "v[500]", None, range(1000), LIST),
    ("`l[i] = 3`, of 1,000", "v[500] = 3", None, range(1000), LIST),
    ("`len(l)`", "len(v)", None, range(1000), LIST),
    ("`for x in l`, of 1,000", "for x in v: pass", None, range(1000), LIST),
    ("`sum(l)`, of 1,000", "sum(v)", None, range(1000), LIST),
    ("`999 in l`, of 1,000", "999 in v", None, range(1000), LIST),
    ("`l.pop(); l.append(1)`", "v.pop(); v.append(1)", None, range(1000), LIST),
    ("`l[10:20]`", "v[10:20]", None, range(1000), LIST),
    ("`l + l`, of 1,000", "v + v", None, range(1000), LIST),
    ("`l == m`, of 1,000", "v == w", None, range(1000), LIST),
    ("`List(range(1000))`", "kind(range(1000))", None, (), LIST),
    ("`l.copy().sort()`, of 1,000", "v.copy().sort()", None, range(1000, 0, -1), LIST),
    ("`l.copy()`, of 1,000,000", "v.copy()", None, range(10**6), LIST),
    ("`l == c`, a copy, of 1,000,000", "v == c", None, range(10**6), LIST),
    ("`a.append(1.5)`", "v.append(1.5)", None, (), DOUBLES),
    ("`a[i]`, of 1,000", "v[500]", None, range(1000), DOUBLES),
    ("`a[i] = 1.5`, of 1,000", "v[500] = 1.5", None, range(1000), DOUBLES),
    ("`for x in a`, of 1,000", "for x in v: pass", None, range(1000), DOUBLES),
    ("`a == b`, of 1,000", "v == w", None, range(1000), DOUBLES),
    ("`Array(\"d\", range(1000))`", "kind(range(1000))", None, (), DOUBLES),
    ("`a.copy()`, of 1,000,000", "v.copy()", "v[:]", range(10**6), DOUBLES),
    ("`len(t)`", "len(v)", None, LONG, TEXT),
    ("`len(t)`, of 1,000 `\u00e9`", "len(v)", None, WIDE, TEXT),
    ("`t[i]`", "v[5]", None, SHORT, TEXT),
    ("`t[i]`, of 1,000 `\u00e9`", "v[500]", None, WIDE, TEXT),
    ("`t[2:9]`", "v[2:9]", None, LONG, TEXT),
    ("`t + t`, short", "v + v", None, SHORT, TEXT),
    ("`t + t`, of 1,008", "v + v", None, LONG, TEXT),
    ("`t += 'x'`", "v += 'x'", None, "", TEXT),
    ("`t.find('text')`, short", "v.find('text')", None, SHORT, TEXT),
    ("`t.find('texts')`, of 1,008", "v.find('texts')", None, LONG, TEXT),
    ("`'text' in t`, short", "'text' in v", None, SHORT, TEXT),
    ("`'texts' in t`, of 1,008", "'texts' in v", None, LONG, TEXT),
    ("`t.upper()`, short", "v.upper()", None, SHORT, TEXT),
    ("`t.upper()`, of 1,008", "v.upper()", None, LONG, TEXT),
    ("`t.upper()`, of 1,000 `\u00e9`", "v.upper()", None, WIDE, TEXT),
    ("`t.replace('text', 'x')`, of 1,008", "v.replace('text', 'x')", None, LONG, TEXT),
    ("`t.split()`, of 1,008", "v.split()", None, LONG, TEXT),
    ("`t.startswith('a s')`", "v.startswith('a s')", None, SHORT, TEXT),
    ("`for c in t`, of 1,008", "for c in v: pass", None, LONG, TEXT),
    ("`for c in t`, of 1,000 `\u00e9`", "for c in v: pass", None, WIDE, TEXT),
    ("`t == u`, of 1,008", "v == w", None, LONG, TEXT),
    ("`t == 'a short text'`", "v == 'a short text'", None, SHORT, TEXT),
    ("`f'{t}'`", "f'{v}'", None, SHORT, TEXT),
    ("`Text(s)`, of 1,008", "kind(s)", "kind(b, 'utf-8')", LONG, TEXT),
    ("`t.copy()`, of 1,000,000", "v.copy()", "kind(b, 'utf-8')", "x" * 10**6, TEXT),
    ("`x.append('a short text')`", "v.append('a short text')", None, (), TEXTS),
    ("`x[i]`", "v[50]", None, [SHORT] * 100, TEXTS),
    ("`x[i]`, of long texts", "v[50]", None, [LONG] * 100, TEXTS),
    ("`for t in x`, of 100", "for t in v: pass", None, [SHORT] * 100, TEXTS),
    ("`b.append(1)`", "v.append(1)", None, b"", BYTES),
    ("`b[i]`", "v[500]", None, bytes(1000), BYTES),
    ("`b.find(b'x')`, of 1,000", "v.find(b'x')", None, bytes(1000), BYTES),
    ("`b.copy()`, of 1,000,000", "v.copy()", None, bytes(10**6), BYTES),
    ("`v.copy()`, of 10,000 records (`deepcopy`)", "v.copy()", "deepcopy(v)", RECORDS, VALUE),
    ("`v.get([\"items\", 500, \"id\"])`", "v.get(['items', 500, 'id'])", "v['items'][500]['id']",
     RECORDS, VALUE),
    ("`v.set([\"items\", 500, \"id\"], 1)`", "v.set(['items', 500, 'id'], 1)",
     "v['items'][500]['id'] = 1", RECORDS, VALUE),
)


def timer(call, kind, source):
    """What times a call, and how often it makes it in a part."""
    make = "v = kind(source); w = kind(source); c = copy(v); s = source"
    if kind is str:
        # Another `str` of the same contents, and bytes of which a copy is made.
        make = "v = source; w = (source + ' ')[:-1]; b = source.encode()"
    names = {"kind": kind, "source": source, "copy": copy, "deepcopy": deepcopy}
    timed = timeit.Timer(call, make, globals=names)
    rounds = 1
    while (took := timed.timeit(rounds)) < SECONDS / 100:
        rounds *= 2
    return timed, max(1, int(rounds * SECONDS / PARTS / took))


def nanoseconds(*timers):
    """How long each call takes. The calls take turns, so that the machine's load meets all."""
    least = [float("inf")] * len(timers)
    for _ in range(PARTS):
        for at, (timed, rounds) in enumerate(timers):
            least[at] = min(least[at], timed.timeit(rounds) / rounds * 1e9)
    return least


print("| Call | Here | Python's own | Times |")
print("|---|--:|--:|--:|")
worst = ("", 0.0)
for name, call, other, source, (ours, plain) in ROWS:
    kind = functools.partial(ecow.Array, "d") if ours == "Array" else getattr(ecow, ours)
    took, beside = nanoseconds(timer(call, kind, source), timer(other or call, plain, source))
    worst = max(worst, (name, took / beside), key=lambda row: row[1])
    print(f"| {name} | {took:,.0f} | {beside:,.0f} | {took / beside:.1f} |", flush=True)
print(f"\nThe slowest beside Python's own: {worst[0]}, {worst[1]:.1f} times.")
