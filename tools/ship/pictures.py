#!/usr/bin/env python3
"""Writes the pictures of the documents, from the tables and the sources that have their numbers: tools/ship/pictures.py.
With --check it writes nothing, and stops at a picture that it would write otherwise. A picture has a title and a
description for those who don't see it, and takes the colours of the day or of the night."""
import html
import math
import os
import re
import sys

ROOT = os.path.dirname(os.path.dirname(os.path.dirname(os.path.abspath(__file__))))
FOLDER = "docs/pictures"

# The site has colours of its own for these names, and drops the first element.
STYLE = """<style class="colours">
svg { --paper: #ffffff; --ink: #1f2328; --pale: #c8ced5 }
@media (prefers-color-scheme: dark) { svg { --paper: #0d1117; --ink: #e6edf3; --pale: #4a525c } }
</style>
<style>
svg .paper { fill: var(--paper) } svg .ink { fill: var(--ink) } svg .line { stroke: var(--ink); fill: none; stroke-width: 1.3 }
svg .grid { stroke: var(--pale); fill: none } svg .box { stroke: var(--ink); fill: var(--paper) } svg .pale { fill: var(--pale) }
svg .this { fill: #3b82c4 } svg .other { fill: #c27c1a } svg .third { fill: #8a9299 } svg .on { fill: #ffffff }
svg .joint { stroke: #8a9299; fill: none; stroke-width: 1.4 } svg .small { font-size: 11px } svg .large { font-size: 15px }
svg .code { font-family: ui-monospace, Menlo, Consolas, monospace } svg .middle { text-anchor: middle } svg .end { text-anchor: end }
</style>"""


def read(path):
    with open(os.path.join(ROOT, path), encoding="utf-8") as file:
        return file.read()


def stop(why):
    sys.exit(f"pictures: {why}")


def table(page, head):
    """The rows of the table of a page whose first line of cells begins so, the head first."""
    rows = []
    for line in read(page).split("\n"):
        cells = [cell.strip().replace("**", "") for cell in line.strip().strip("|").split("|")]
        if rows or line.startswith("| " + head):
            if not line.startswith("|"):
                if rows:
                    return [row for row in rows if not re.match(r":?-+:?$", row[0])]
            else:
                rows.append(cells)
    if not rows:
        stop(f"{page} has no table that begins with {head}")
    return [row for row in rows if not re.match(r":?-+:?$", row[0])]


def number(cell):
    """What a cell has, or nothing where it has a dash."""
    match = re.match(r"[\d,]+(\.\d+)?$", cell)
    return float(cell.replace(",", "")) if match else None


def only(path, pattern):
    """The one number that a source has there."""
    found = re.findall(pattern, read(path))
    if len(found) != 1:
        stop(f"{path} has {len(found)} of {pattern}")
    return int(found[0])


class Picture:
    def __init__(self, name, width, height, title, description):
        self.name, self.width, self.height = name, width, height
        self.title, self.description, self.parts = title, description, []

    def text(self, x, y, text, classes=""):
        self.parts.append(f'<text x="{x:g}" y="{y:g}" class="{("ink " + classes).strip()}">{html.escape(text, quote=False)}'
                          "</text>")

    def box(self, x, y, width, height, classes="box", round_by=2):
        self.parts.append(f'<rect x="{x:g}" y="{y:g}" width="{width:g}" height="{height:g}" rx="{round_by}" '
                          f'class="{classes}"/>')

    def path(self, d, classes="line"):
        self.parts.append(f'<path d="{d}" class="{classes}"/>')

    def arrow(self, x, y, to_x, to_y):
        """A line that turns once, with a head."""
        middle = to_x - 12
        self.path(f"M{x:g} {y:g}H{middle:g}V{to_y:g}H{to_x:g}M{to_x - 6:g} {to_y - 4:g}L{to_x:g} {to_y:g}"
                  f"L{to_x - 6:g} {to_y + 4:g}")

    def cells(self, x, y, cells, size=28, shared=""):
        for place, cell in enumerate(cells):
            self.box(x + place * size, y, size, size, "box")
            self.text(x + place * size + size / 2, y + size / 2 + 5, cell, "middle " + shared)

    @property
    def svg(self):
        ids = f"{self.name}-title {self.name}-desc"
        return "\n".join([
            f'<svg xmlns="http://www.w3.org/2000/svg" width="{self.width}" height="{self.height}" '
            f'viewBox="0 0 {self.width} {self.height}" role="img" aria-labelledby="{ids}" '
            'font-family="system-ui, sans-serif" font-size="13">',
            f'<title id="{self.name}-title">{html.escape(self.title, quote=False)}</title>',
            f'<desc id="{self.name}-desc">{html.escape(self.description, quote=False)}</desc>',
            STYLE, f'<rect width="{self.width}" height="{self.height}" class="paper"/>', *self.parts, "</svg>\n"])


def clones():
    picture = Picture("clones", 860, 190, "How clones share a block and part",
                      "Three frames. After b = a.clone(), a and b lead to one block of 1, 2 and 3, and no element was cloned. "
                      "After b.push(4), a still leads to that block, and b to a new one of 1, 2, 3 and 4: three elements were "
                      "cloned. After a.push(4) both lead to a block of their own, and none was cloned, since a was alone in "
                      "its block.")
    frames = [("let b = a.clone()?;", None, ["no element is cloned"]),
              ("b.push(4)?;", ("123", "1234"), ["three are cloned,", "into a new block"]),
              ("a.push(4)?;", ("1234", "1234"), ["none is: a is alone", "in its block"])]
    for place, (call, blocks, said) in enumerate(frames):
        x = 20 + place * 285
        picture.text(x, 28, call, "code large")
        for name, y in (("a", 68), ("b", 114)):
            picture.text(x, y + 5, name, "code large")
        if blocks is None:
            for y in (68, 114):
                picture.arrow(x + 16, y, x + 76, 91)
            picture.cells(x + 78, 77, "123")
        else:
            for y, cells in zip((68, 114), blocks):
                picture.arrow(x + 16, y, x + 76, y)
                picture.cells(x + 78, y - 14, cells)
        for line, words in enumerate(said):
            picture.text(x, 154 + line * 18, words)
    return picture


def blocks():
    together = only("crates/ecow_block/src/parts.rt", r"const TOGETHER: usize = (\d+);")
    limit = f"{together:,}"
    picture = Picture("blocks", 860, 250, f"Blocks up to {limit} places, and past that",
                      "Three drawings. An empty vector is one word, which is null. A vector and its clone are two words that "
                      "lead to one block: a head with the count 2, the length, the capacity and the address of the elements, "
                      f"and the elements right behind it, in one request for memory. Past {limit} places the elements are in "
                      "a second request, to which the head leads, and can grow where they are.")
    picture.text(20, 28, "an empty vector", "large")
    picture.cells(20, 60, ["null"], 56)
    picture.text(20, 140, "no memory")
    picture.text(170, 28, f"up to {limit} places: one request", "large")
    for name, y in (("a", 62), ("b", 122)):
        picture.text(170, y + 19, name, "code")
        picture.box(186, y, 30, 28)
        picture.arrow(201, y + 14, 268, 104)
    for line, word in enumerate(["count 2", "length", "capacity", "elements"]):
        picture.box(270, 60 + line * 28, 92, 28)
        picture.text(316, 79 + line * 28, word, "middle")
    picture.cells(270, 172, ["1", "2", "3", "", ""], 28)
    picture.path("M362 158H436V186H412M418 182L412 186L418 190")
    picture.text(170, 228, "two owners; the elements stand behind the head")
    picture.text(520, 28, f"past {limit} places: two requests", "large")
    picture.text(520, 119, "a", "code")
    picture.box(536, 100, 30, 28)
    picture.arrow(551, 114, 598, 114)
    for line, word in enumerate(["count 1", "length", "capacity", "elements"]):
        picture.box(600, 60 + line * 28, 92, 28)
        picture.text(646, 79 + line * 28, word, "middle")
    picture.path("M692 158H724V74H742M736 70L742 74L736 78")
    picture.cells(744, 60, ["1", "2", "…"], 28)
    picture.text(520, 228, "the elements may grow in place")
    return picture


def forms():
    limit = only("crates/ecow_bytes/src/bytes.rt", r"pub const INLINE_LIMIT: usize = (\d+);")
    picture = Picture("forms", 860, 210, "The three forms of bytes",
                      f"Bytes and texts take 16 bytes. The first says which form they have. Short: fewer than {limit} bytes "
                      f"stand in the value, and the last byte says how many. Full: {limit} bytes stand in the value. Spilled: "
                      "the value has a pointer to a block, which clones share.")
    letters = "abcdefghijklmno"
    rows = [("short", f"fewer than {limit} bytes, in the value", ["0"] + list("abc") + [""] * (limit - 4) + ["3"]),
            ("full", f"{limit} bytes, in the value", ["1"] + list(letters[:limit]))]
    for line, (name, said, cells) in enumerate(rows):
        y = 24 + line * 60
        picture.text(20, y + 20, name, "large")
        picture.cells(110, y, cells, 30)
        picture.text(606, y + 20, said)
    y = 144
    picture.text(20, y + 20, "spilled", "large")
    picture.cells(110, y, ["2"] + [""] * 7, 30)
    picture.box(350, y, 240, 30)
    picture.text(470, y + 20, "pointer", "middle")
    picture.arrow(590, y + 15, 626, y + 15)
    picture.box(628, y, 92, 30)
    picture.text(674, y + 20, "a block", "middle")
    picture.text(732, y + 20, "clones share it")
    return picture


def house():
    """The crates by the longest way down. A line leads to a crate that one stands on, unless another line says so."""
    needs, kit = {}, {}
    for line in read("crates.txt").split("\n"):
        if line.startswith("#") or ":" not in line:
            continue
        name, below = line.split(":")
        name = name.split()[0]
        needs[name] = [each for each in below.split() if each.startswith("ecow")]
        kit[name] = [each for each in below.split() if not each.startswith("ecow") and each not in ("core", "std_alloc")]
    tests = [name for name in needs if re.match(r"ecow_(test|bench|examples|uses)", name)]
    shown = [name for name in needs if name not in tests]
    reached = {}
    for name in needs:
        reached[name] = set(needs[name]).union(*(reached[each] for each in needs[name]))
    level = {}
    for name in shown:
        level[name] = 1 + max((level[each] for each in needs[name]), default=-1)
    lines = [(name, each) for name in shown for each in needs[name]
             if not any(each in reached[other] for other in needs[name])]
    # A line over more than one floor has a place of its own on each floor between.
    top = max(level.values())
    rows = [[name for name in shown if level[name] == each] for each in range(top + 1)]
    steps = []
    for name, each in lines:
        way = [name] + [(name, each, floor) for floor in range(level[name] - 1, level[each], -1)] + [each]
        for floor, point in enumerate(way[1:-1], 1):
            rows[level[name] - floor].append(point)
        steps += list(zip(way, way[1:]))
    place = {point: index for row in rows for index, point in enumerate(row)}
    for turn in range(24):
        # Each stands over, or under, the middle of what it is joined to.
        for row in rows if turn % 2 else rows[::-1]:
            joined = {point: [place[low if point == high else high] for high, low in steps if point in (high, low)]
                      for point in row}
            row.sort(key=lambda point: sum(joined[point]) / len(joined[point]) if joined[point] else place[point])
            widths = [150 if isinstance(point, str) else 34 for point in row]
            left = 430 - sum(widths) / 2
            for point, width in zip(row, widths):
                place[point] = left + width / 2
                left += width
    height = 6 + (top + 1) * 74
    floors = {point: floor for floor, row in enumerate(rows) for point in row}
    over = {point: height - 60 - floors[point] * 74 for point in floors}
    said = "; ".join(f"{name} stands on {', '.join(needs[name])}" for name in shown if needs[name])
    picture = Picture("house", 860, height + 26, "The crates, and what each stands on",
                      f"The lowest is ecow_base. {said}. Tests, examples and the bench ({', '.join(tests)}) stand on these.")
    for high, low in steps:
        down = over[high] + 36
        picture.path(f"M{place[high]:g} {down:g}C{place[high]:g} {down + 24:g} {place[low]:g} {over[low] - 24:g} "
                     f"{place[low]:g} {over[low]:g}" + ("" if isinstance(low, str) else "v36"), "joint")
    for name in shown:
        picture.box(place[name] - 62, over[name], 124, 36, "box", 5)
        middle = over[name] + (16 if kit[name] else 23)
        picture.text(place[name], middle, name, "middle code small")
        if kit[name]:
            picture.text(place[name], over[name] + 30, "kit: " + ", ".join(kit[name]), "middle small")
    picture.text(20, height + 12, "A line leads down to a crate that one stands on. What that stands on has no line of its own. "
                 "Tests and examples are left out.", "small")
    return picture


def growth():
    """How many times the instructions of each loop are at sixteen times the length."""
    rows = [row for row in table("crates/ecow_bench/growth.md", "Loop | Element") if row[0] != "Loop"]
    found = [(row[0].strip("`") + (" of " + row[1] if row[1] in ("String",) else ""), row[3], number(row[5]) / number(row[4]))
             for row in rows]
    found.sort(key=lambda each: (each[1] != "constant", each[2]))
    constant = sum(each[1] == "constant" for each in found)
    most = max(each[2] for each in found)
    height = 86 + len(found) * 15
    picture = Picture("growth", 860, height, "How the instructions of a call grow with the length",
                      f"One row for each of {len(found)} loops of calls, with how many times as many instructions a round takes "
                      f"at sixteen times the length. {constant} stay as they are, at about 1. The others grow with the length, "
                      f"most of them about 16 times. The most is {most:.0f} times.")

    def at(times):
        return 200 + math.log2(max(times, 1)) * 600 / 8

    picture.text(20, 24, "Instructions of a round at sixteen times the length, as a multiple", "large")
    for times in (1, 2, 4, 8, 16, 32, 64, 128, 256):
        picture.path(f"M{at(times):g} 52V{height - 18}", "grid" if times not in (1, 16) else "line")
        picture.text(at(times), 46, f"{times}", "middle small")
    for line, (name, kind, times) in enumerate(found):
        y = 66 + line * 15
        picture.text(190, y + 4, name, "end small code")
        picture.box(at(times) - 5, y - 5, 10, 10, "this" if kind == "constant" else "other", 5)
        picture.text(at(times) + 9, y + 4, f"{times:.0f}" if times >= 9.5 else f"{times:.1f}", "small")
    picture.box(560, height - 14, 10, 10, "this", 5)
    picture.text(576, height - 5, "constant, by its row", "small")
    picture.box(700, height - 14, 10, 10, "other", 5)
    picture.text(716, height - 5, "linear, by its row", "small")
    return picture


def programs():
    """The four whole programs, beside the original and std."""
    rows = table("docs/PERFORMANCE.md", "Program | Time to the original")[1:5]
    names = [row[0].split(":")[0] for row in rows]
    picture = Picture("programs", 860, 330, "Time and memory of four whole programs", "")
    said = []
    for side, title in enumerate(("Processor time, as a part of the original's", "Memory at its peak, MiB")):
        left = 20 + side * 430
        picture.text(left, 26, title, "large")
        for index, row in enumerate(rows):
            y = 44 + index * 64
            if side == 0:
                this = number(row[1])
                # The table has this port's time to both, so std's to the original's is one by the other.
                bars = [("this", this), ("original", 1.0), ("std", this / number(row[2]))]
                said.append(f"{names[index]}: this {bars[0][1]:.2f} and std {bars[2][1]:.2f} of the original's time")
            else:
                bars = [("this", number(row[3])), ("original", number(row[4])), ("std", number(row[5]))]
                said[index] += f", and {bars[0][1]:.0f}, {bars[1][1]:.0f} and {bars[2][1]:.0f} MiB for this, the original and std"
            picture.text(left, y + 12, names[index])
            most = 2.0 if side == 0 else max(number(each[place]) for each in rows for place in (3, 4, 5))
            for line, (who, value) in enumerate(bars):
                width = 250 * value / most
                colour = {"this": "this", "original": "third", "std": "other"}[who]
                picture.box(left + 62, y + 17 + line * 13, width, 11, colour, 1)
                picture.text(left + 56, y + 27 + line * 13, who, "end small")
                shown = f"{value:.2f}" if side == 0 else f"{value:.0f}"
                picture.text(left + 66 + width, y + 27 + line * 13, shown, "small")
    picture.text(20, 318, "Blue: this library over the plain count. Grey: the original. Orange: std alone. Shorter is better.", "small")
    picture.description = "Bars. " + ". ".join(said) + "."
    return picture


TASKS = ["1,000 edits of a list, each kept as a version: an edit", "edits in place, of a list that nobody shares: an edit",
         "a list cloned, the clone dropped", "100,000 texts of ten letters made of slices: a text"]


def peers(name, page, language, own):
    """Some tasks beside the peers of a language. The first columns are this library's."""
    head, *rows = table(page, "Task (lists have 100,000 numbers)")
    columns = [re.sub("`", "", cell) for cell in head[1:]]
    chosen = [next((row for row in rows if row[0] == task), None) or stop(f"{page} has no row {task}") for task in TASKS]
    heights = [30 + 16 * sum(number(cell) is not None for cell in row[1:]) for row in chosen]
    height = 40 + max(heights[0], heights[1]) + max(heights[2], heights[3]) + 30
    picture = Picture(name, 860, height, f"{language}: some tasks beside other libraries", "")
    said = []
    for index, row in enumerate(chosen):
        left = 20 + index % 2 * 430
        top = 26 + (index // 2) * (max(heights[0], heights[1]) + 14)
        picture.text(left, top, row[0])
        values = [(column, number(cell), place < own) for place, (column, cell) in enumerate(zip(columns, row[1:]))
                  if number(cell) is not None]
        most = max(value for _, value, _ in values)
        for line, (column, value, is_own) in enumerate(values):
            y = top + 10 + line * 16
            width = max(1, 190 * value / most)
            shown = f"{value:,.0f}" if value >= 10 else f"{value:g}"
            picture.text(left + 150, y + 10, column if len(column) < 25 else column[:24] + "…", "end small")
            picture.box(left + 156, y, width, 12, "this" if is_own else "third", 1)
            picture.text(left + 161 + width, y + 10, shown, "small")
        said.append(f"{row[0]}: " + ", ".join(f"{column} {value:,g}" for column, value, _ in values))
    picture.text(20, height - 10, f"Nanoseconds; shorter is better. Blue: this library. All rows: {page}.", "small")
    picture.description = "Bars of nanoseconds. " + ". ".join(said) + "."
    return picture


def pictures():
    return [clones(), blocks(), forms(), house(), growth(), programs(),
            peers("peers-rust", "rust/README.md", "Rust", 2), peers("peers-cpp", "c/CPP.md", "C++", 1),
            peers("peers-python", "python/README.md", "Python", 3)]


def main(arguments):
    if arguments not in ([], ["--check"]):
        sys.exit("usage: tools/ship/pictures.py [--check]")
    made = pictures()
    folder = os.path.join(ROOT, FOLDER)
    for picture in made:
        path = os.path.join(FOLDER, picture.name + ".svg")
        if arguments:
            if not os.path.exists(os.path.join(ROOT, path)) or read(path) != picture.svg:
                stop(f"{path} is another than its table says: make pictures")
        else:
            os.makedirs(folder, exist_ok=True)
            with open(os.path.join(ROOT, path), "w", encoding="utf-8") as file:
                file.write(picture.svg)
    wanted = {picture.name + ".svg" for picture in made}
    for name in sorted(os.listdir(folder) if os.path.isdir(folder) else []):
        if name not in wanted:
            stop(f"{FOLDER}/{name} is made by nothing")
    print(f"{len(made)} pictures are those of their tables" if arguments else f"{FOLDER} has {len(made)} pictures")


main(sys.argv[1:])
