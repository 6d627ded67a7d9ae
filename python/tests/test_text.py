"""`Text` beside `str` and beside a list of characters."""

import csv
import io
import itertools
import json
import os
import pathlib
import re
import time
import unittest

from ecow import Bytes, List, Text, Texts, Value, is_utf8
from harness import EDITS, LENGTHS, Pool, draws, list_edits, outcome, plain

# One character of each length in UTF-8, some that change their length by case, and separators.
LETTERS = "aAz, \n\u00e9\u00df\u0130\u01c4\u03a3\u20ac\u2028\U0001f331\U00010400"


class Differential(unittest.TestCase):
    def text(self, draw, length):
        letters = draw.choice(("ab ", "a", LETTERS, "\u00e9a"))
        return "".join(draw.choice(letters) for _ in range(length))

    def test_edits(self):
        """Changes and reads beside a list of characters, and reads beside a `str`."""
        draw = draws("text")

        def made():
            text = self.text(draw, draw.choice(LENGTHS))
            return [Text(text), list(text)]

        pool = Pool(self, draw, made)
        for edit in range(EDITS):
            value, model = pool.pick()
            span = len(model) + 4
            index, other = draw.randint(-span, span), draw.randint(-span, span)
            times = draw.randrange(4)
            few, one = self.text(draw, draw.randrange(6)), draw.choice(LETTERS)
            part = slice(draw.choice((None, index)), draw.choice((None, other)),
                         draw.choice((None, None, 1, -1, 2, -3)))
            fitting = self.text(draw, len(model[part]))
            source = draw.choice((few, Text(few), list(few), tuple(few)))
            if draw.random() < 0.5:
                call = draw.choice((
                    *list_edits(index, other, part, one, few, fitting, times),
                    lambda each: each.extend(source),
                    lambda each: each.__setitem__(part, source),
                ))
                self.assertEqual(outcome(lambda: call(value)), outcome(lambda: call(model)))
            else:
                call = draw.choice((
                    lambda each: each[index],
                    lambda each: each[part],
                    lambda each: each + few,
                    lambda each: few + each,
                    lambda each: each * times,
                    lambda each: few in each,
                    lambda each: each.find(few, index, other),
                    lambda each: each.find(one, index),
                    lambda each: each.rfind(few, index, other),
                    lambda each: each.rfind(one),
                    lambda each: each.index(one),
                    lambda each: each.rindex(few, index),
                    lambda each: each.count(one),
                    lambda each: each.count(few, index, other),
                    lambda each: each.startswith(few, index, other),
                    lambda each: each.startswith((one, few)),
                    lambda each: each.endswith(one, index, other),
                    lambda each: each.endswith(("x", few)),
                    lambda each: each.replace(few, "xy"),
                    lambda each: each.replace(one, few, times),
                    lambda each: each.split(one),
                    lambda each: each.split(),
                    lambda each: each.splitlines(True),
                    lambda each: each.partition(few),
                    lambda each: each.strip(),
                    lambda each: each.upper(),
                    lambda each: each.lower(),
                    lambda each: each.encode(),
                    lambda each: list(each),
                    lambda each: list(reversed(each)),
                    lambda each: len(each),
                    lambda each: bool(each),
                    lambda each: each == few,
                    lambda each: few <= each,
                    lambda each: each < few,
                    lambda each: f"{each:>30}",
                ))
                text = "".join(model)
                self.assertEqual(outcome(lambda: call(value)), outcome(lambda: call(text)))
            text = "".join(model)
            self.assertEqual(str(value), text)
            self.assertEqual(len(value), len(text))
            # What it notes of places agrees with its bytes, from any place it was left at.
            if model:
                at = draw.randrange(len(model))
                self.assertEqual(value[at], model[at])
                start = len(text[:at].encode())
                self.assertEqual(value.byte_index(at), start)
                self.assertEqual(value.index_of_byte(start), at)
            if edit % 40 == 0:
                pool.check("".join)
                value.reserve(draw.randrange(3000))
                length = draw.randrange(len(model) + 9)
                value.truncate(length)
                del model[length:]
                self.assertEqual(value, "".join(model))
                self.assertEqual(value, Text("".join(model)))
                self.assertEqual(value.byte_len(), len("".join(model).encode()))
            if len(model) > 2500 or draw.random() < 0.002:
                value.clear()
                model.clear()
        pool.check("".join)

    def test_places(self):
        """Each place of a long text is found from each place before it and behind it."""
        text = "".join(LETTERS[number * 7 % len(LETTERS)] for number in range(60))
        value = Text(text)
        for first in range(len(text)):
            for second in range(len(text)):
                self.assertEqual(value[first] + value[second], text[first] + text[second])


    def test_places_after_changes(self):
        """No change leaves a place noted that isn't one any more."""
        for start in ("abcdefgh", "\u00e9abcdefg", "abcdefg\u20ac"):
            for index in range(8):
                for change in (
                    lambda text: text.truncate(3), lambda text: text.clear(),
                    lambda text: text.__delitem__(slice(2, 7)), lambda text: text.pop(0),
                    lambda text: text.__setitem__(slice(0, 8), "xyz"), lambda text: text.reverse(),
                    lambda text: text.insert(0, "\u00e9"), lambda text: text.__imul__(2),
                    lambda text: text.__init__("ab"), lambda text: text.__init__(Text("\u20acb")),
                    lambda text: text.__setitem__(slice(0, 8, 2), "\u00e9" * 4),
                ):
                    value = Text(start)
                    value[index] = "x"
                    value.find("x")
                    change(value)
                    value.append("\u00e9" * 10)
                    text = str(value)
                    self.assertEqual(len(value), len(text))
                    for at in (7, 3, 9, 1, len(text) - 1, 0):
                        self.assertEqual(value[at % len(text)], text[at % len(text)])
                        self.assertEqual(value.byte_index(at % len(text)),
                                         len(text[:at % len(text)].encode()))


class Methods(unittest.TestCase):
    def test_all_of_str(self):
        """Each method of `str` is there, but for a few, and gives what `str` gives."""
        missing = {name for name in dir(str) if not hasattr(Text, name)}
        self.assertEqual(missing, {"__getnewargs__", "maketrans"})
        calls = (
            lambda each: each.capitalize(), lambda each: each.casefold(),
            lambda each: each.center(30, "*"), lambda each: each.encode("utf-16"),
            lambda each: each.encode("ascii", "replace"), lambda each: each.encode("latin1"),
            lambda each: each.expandtabs(3), lambda each: each.format(1, b=2),
            lambda each: each.format_map({"b": 3}), lambda each: each.isalnum(),
            lambda each: each.isalpha(), lambda each: each.isascii(),
            lambda each: each.isdecimal(), lambda each: each.isdigit(),
            lambda each: each.isidentifier(), lambda each: each.islower(),
            lambda each: each.isnumeric(), lambda each: each.isprintable(),
            lambda each: each.isspace(), lambda each: each.istitle(),
            lambda each: each.isupper(), lambda each: each.join(["a", "b", ""]),
            lambda each: each.join("xyz"), lambda each: each.ljust(30),
            lambda each: each.lower(), lambda each: each.lstrip(" a"),
            lambda each: each.partition(","), lambda each: each.removeprefix("a"),
            lambda each: each.removesuffix("\n"), lambda each: each.replace("", "-"),
            lambda each: each.replace("a", "bb", 1), lambda each: each.rjust(30, "\u20ac"),
            lambda each: each.rpartition(","), lambda each: each.rsplit(",", maxsplit=1),
            lambda each: each.rstrip(), lambda each: each.split(sep=",", maxsplit=2),
            lambda each: each.splitlines(keepends=True), lambda each: each.strip(),
            lambda each: each.swapcase(), lambda each: each.title(),
            lambda each: each.translate({97: "xyz", 98: None}), lambda each: each.upper(),
            lambda each: each.zfill(30), lambda each: each % (1,), lambda each: each.split(""),
            lambda each: each.center("x"), lambda each: each.isalpha(1), lambda each: format(each),
            lambda each: format(each, "^40"),
        )
        for text in ("", "a", " a,b,,c\n", "{0} {b}", "%d", "Stra\u00dfe \u01c4", "\u03a3\u03a3",
                     "12", "\u0662", "x\ty\x0bz\u2028w", "A Title Here", "\U0001f331" * 20):
            for call in calls:
                self.assertEqual(outcome(lambda: call(Text(text))), outcome(lambda: call(text)))
        for name in ("upper", "split", "partition", "strip", "replace"):
            arguments = ("a", "b") if name == "replace" else (",",) if name == "partition" else ()
            got = getattr(Text("a,b "), name)(*arguments)
            for each in got if isinstance(got, (list, tuple)) else [got]:
                self.assertIs(type(each), Text)

    def test_texts_for_str(self):
        """A Text stands wherever a method takes a `str`."""
        value = Text("a,b,c")
        self.assertEqual(value.split(Text(",")), ["a", "b", "c"])
        self.assertEqual(value.split(sep=Text(","), maxsplit=1), ["a", "b,c"])
        self.assertEqual(value.replace(Text(","), Text("")), "abc")
        self.assertEqual(value.find(Text("b")), 2)
        self.assertTrue(value.startswith((Text("x"), Text("a"))))
        self.assertEqual(Text(", ").join([Text("a"), "b", Text("c")]), "a, b, c")
        self.assertEqual("x" + value, "xa,b,c")
        self.assertIs(type("x" + value), Text)
        self.assertEqual("%s!" % value, "a,b,c!")
        self.assertIn(Text(","), value)
        self.assertIn(value, ["a,b,c"])
        self.assertIn("a,b,c", [value])

    def test_equality(self):
        for left in ("", "a", "aa", "z", "\u00e9", "\u20ac", "\uffff", "\U0001f331"):
            for right in ("", "a", "aa", "z", "\u00e9", "\u20ac", "\uffff", "\U0001f331", "\ud800"):
                for call in (
                    lambda one, two: one == two, lambda one, two: one != two,
                    lambda one, two: one < two, lambda one, two: one <= two,
                    lambda one, two: one > two, lambda one, two: one >= two,
                ):
                    self.assertIs(call(Text(left), right), call(left, right))
                    self.assertIs(call(right, Text(left)), call(right, left))
                    if right != "\ud800":
                        self.assertIs(call(Text(left), Text(right)), call(left, right))
        self.assertNotEqual(Text("a"), b"a")
        self.assertNotEqual(Text("a"), ["a"])
        self.assertIs(outcome(lambda: Text("a") < b"a"), TypeError)
        self.assertIs(outcome(lambda: hash(Text("a"))), TypeError)
        self.assertEqual(Text("caf\u00e9").hash(), 11281344579646283583)
        self.assertEqual(repr(Text("caf\u00e9'\n")), "Text(" + repr("caf\u00e9'\n") + ")")

    def test_beside_str(self):
        """What takes a `Text`, and what wants a `str`, as the page says."""
        text, texts, lent = Text("abc"), Texts(["a", "b"]), Texts(["abc"])[0]
        self.assertEqual(f"{text}" + "%s" % text + "{}".format(text), "abc" * 3)
        self.assertEqual(sorted([text, "abd", "a"]), ["a", "abc", "abd"])
        out = io.StringIO()
        csv.writer(out).writerow([text])
        self.assertEqual(out.getvalue(), "abc\r\n")
        self.assertEqual(({"abc": 1}[lent], Value({"abc": 1})[text]), (1, 1))
        self.assertEqual(json.dumps([{"a": text}, lent], default=str), '[{"a": "abc"}, "abc"]')
        self.assertEqual(json.dumps([Value({"a": 1})], default=Value.to_python), '[{"a": 1}]')
        self.assertEqual(", ".join(map(str, texts)), Text(", ").join(texts))
        for call in (lambda: ", ".join(texts), lambda: text in "abc", lambda: "abc".find(text),
                     lambda: "abc".replace(text, "a"), lambda: json.dumps(text), lambda: int(Text("5")),
                     lambda: re.search("a", text), lambda: open(text), lambda: pathlib.Path(text),
                     lambda: os.path.join("a", text), lambda: out.write(text), lambda: {"abc": 1}[text]):
            self.assertIs(outcome(call), TypeError)

    def test_sought_surrogates(self):
        """No text has a lone surrogate, so it is found nowhere, as in a `str`."""
        for plain in ("", "ab", "\u00e9\u20ac" * 20):
            for part in ("\ud800", "a\udfff", "\ud800" * 20):
                for name in ("find", "rfind", "index", "rindex", "count", "startswith", "endswith",
                             "__contains__"):
                    self.assertEqual(outcome(lambda: getattr(Text(plain), name)(part)),
                                     outcome(lambda: getattr(plain, name)(part)), name)
                self.assertFalse(Text(plain).endswith(("x", part)))
                self.assertIs(outcome(lambda: Text(plain).remove(part)), ValueError)
                self.assertEqual(outcome(lambda: Texts([plain]).index(part)), ValueError)
                self.assertEqual(Texts([plain]).count(part), 0)

    def test_refusals(self):
        """What is no text is refused, and nothing changes."""
        value = Text("caf\u00e9")
        for call in (
            lambda: value.append("\ud800"), lambda: value.extend(["a", "\udfff"]),
            lambda: value.insert(0, "\ud800"), lambda: value.__setitem__(0, "\ud800"),
            lambda: value.__setitem__(slice(0, 1), "\ud800"), lambda: Text("\ud800"),
            lambda: value + "\ud800",
            lambda: value.__iadd__("\ud800"), lambda: value.__setitem__(slice(0, 4, 2), "a\ud800"),
        ):
            self.assertIs(outcome(call), UnicodeEncodeError)
        for call in (
            lambda: value.append(1), lambda: value.append(b"a"), lambda: value.append(["a"]),
            lambda: value.extend(1), lambda: value.extend(["a", 1]), lambda: value.insert(0, 1),
            lambda: value.__setitem__(0, 1), lambda: value["a"], lambda: value + 1,
            lambda: value + b"a", lambda: 1 + value, lambda: 1 in value, lambda: Text(1),
            lambda: Text(b"a"), lambda: Text(["a"]), lambda: value.find(1), lambda: value.pop("a"),
            lambda: value.startswith(["a"]), lambda: value.upper(1), lambda: value.join([1]),
            lambda: Text("a", "b"), lambda: Text(text="a"), lambda: value.__setitem__(None, "a"),
        ):
            self.assertIs(outcome(call), TypeError)
        for call in (
            lambda: value[4], lambda: value[-5], lambda: value[2**70], lambda: value.pop(4),
            lambda: value.__setitem__(4, "a"), lambda: value.__delitem__(-5), lambda: Text().pop(),
            lambda: value.byte_index(5), lambda: value.index_of_byte(6),
        ):
            self.assertIs(outcome(call), IndexError)
        for call in (
            lambda: value.__setitem__(0, "ab"), lambda: value.__setitem__(0, ""),
            lambda: value.remove("x"), lambda: value.index("x"), lambda: value.index_of_byte(4),
            lambda: value.truncate(-1), lambda: value.reserve(-1),
        ):
            self.assertIs(outcome(call), ValueError)
        self.assertIs(outcome(lambda: value * 2**60), MemoryError)
        self.assertIs(outcome(lambda: value.__imul__(2**60)), MemoryError)
        self.assertIs(outcome(lambda: value.reserve(2**63 - 1)), OverflowError)
        self.assertEqual(value, "caf\u00e9")
        value.truncate(2**70)
        self.assertEqual(value, "caf\u00e9")

    def test_long_pieces(self):
        """Calls that are like a list's take texts of any length."""
        value = Text("ad")
        value.insert(1, "bc")
        value.append(Text("ef"))
        value.extend(["g", Text("hi")])
        self.assertEqual(value, "abcdefghi")
        value.remove("def")
        value[1:3] = ["x", Text("yz")]
        self.assertEqual(value, "axyzghi")
        value.append(value)
        self.assertEqual(value, "axyzghi" * 2)
        value.insert(1, value)
        self.assertEqual(value, "a" + "axyzghi" * 2 + "xyzghi" + "axyzghi")

    def test_iteration_while_changing(self):
        """A loop passes over the characters of the moment at which it begins."""
        value, passed = Text("\u00e9bc"), []
        for character in value:
            value.insert(0, "a\u20ac")
            passed.append(character)
        self.assertEqual(passed, ["\u00e9", "b", "c"])
        self.assertEqual(len(value), 9)
        for character in reversed(value):
            value.clear()
            passed.append(character)
        self.assertEqual("".join(passed[3:]), "cb\u00e9" + "\u20aca" * 3)

    def test_bounds_that_cross(self):
        """Nothing is found where the start is past the end, an empty part neither."""
        for kind, of in ((Text, str), (Bytes, str.encode)):
            model = of("abcabc")
            for part, (start, stop), name in itertools.product(
                ("", "b", "abc", "x"),
                ((4, 2), (6, 0), (7, 7), (9, 2), (3, 3), (-1, -4)),
                ("find", "rfind", "count"),
            ):
                given = of(part), start, stop
                wanted = getattr(model, name)(*given)
                self.assertEqual(getattr(kind(model), name)(*given), wanted, (name, given))

    def test_linear(self):
        """Searches from the end, loops in both directions, and jumps take time by the length."""
        start = time.perf_counter()
        for kind, of in ((Text, str), (Bytes, str.encode)):
            size = 1_000_000
            whole, part = kind(of("a" * size)), of("a" * (size // 4) + "b")
            self.assertEqual(whole.rfind(part), -1)
            self.assertEqual(whole.count(of("a")), size)
            whole += part
            self.assertEqual(whole.rfind(part), size)
            self.assertEqual(whole.rfind(of("b" + "a" * 9)), -1)
            self.assertEqual(whole.rfind(of("a" * 5000)), size + size // 4 - 5000)
            self.assertEqual(kind(of("b" + "a" * 3000)).rfind(of("ba" * 1 + "a" * 99)), 0)
            self.assertEqual(kind(of("xab" + "a" * 3000)).rfind(of("ab")), 1)
        text, model = Text("\u00e9a" * 100_000), "\u00e9a" * 100_000
        alike = sum(one == other for one, other in zip(text, reversed(text)))
        self.assertEqual(alike, sum(map(str.__eq__, model, reversed(model))))
        for at in range(100_000):
            at = at * 7919 % len(model)
            self.assertEqual(text[at], model[at])
        text[5] = "\u20ac"
        self.assertEqual(text[:9] + text[-9:], model[:5] + "\u20ac" + model[6:9] + model[-9:])
        # Any of them took longer where it was quadratic.
        self.assertLess(time.perf_counter() - start, 5)

    def test_in_place(self):
        """Names of `list` change the text; names of `str` give a new one."""
        value = Text("Abc")
        kept = value
        value += "d"
        self.assertIs(kept, value)
        value *= 2
        self.assertEqual(kept, "AbcdAbcd")
        self.assertEqual(value.upper(), "ABCDABCD")
        self.assertEqual(value.replace("A", ""), "bcdbcd")
        self.assertEqual(kept, "AbcdAbcd")
        unchanged = value.strip()
        unchanged.append("!")
        self.assertEqual(value, "AbcdAbcd")

    def test_utf8(self):
        for data, holds in ((b"", True), (b"caf\xc3\xa9", True), (b"\xc3", False),
                            (b"\xed\xa0\x80", False), (b"\xf4\x90\x80\x80", False),
                            (b"\xc0\x80", False), (bytearray(b"ab"), True), (Bytes(b"a"), True)):
            self.assertIs(is_utf8(data), holds)
        self.assertIs(outcome(lambda: is_utf8("a")), TypeError)

    def test_sequence(self):
        """It isn't matched as a sequence, as a `str` isn't."""
        match Text("ab"):
            case [_, _]:
                self.fail("a Text is no sequence in a pattern")
            case _:
                pass


class Growth(unittest.TestCase):
    """Sequential work on a long text takes time as its length does, not as the square of it."""

    def test_sequential(self):
        length = 300_000
        text = "\u00e9" * length
        value = Text(text)
        self.assertEqual(sum(1 for _ in value), length)
        self.assertEqual(sum(1 for index in range(len(value)) if value[index] == "\u00e9"), length)
        self.assertEqual(sum(1 for index in range(1, len(value)) if value[-index]), length - 1)
        built = Text()
        for _ in range(length):
            built.append("\u00e9")
            len(built)
        self.assertEqual(built, text)
        found, times = -1, 0
        while (found := value.find("\u00e9", found + 1)) >= 0:
            times += 1
        self.assertEqual(times, length)
        for _ in range(length):
            value.pop()
        self.assertEqual(value, "")


if __name__ == "__main__":
    unittest.main()
