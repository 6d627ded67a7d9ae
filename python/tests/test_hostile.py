"""Each call with arguments whose code changes the values that the call is given.

Run under AddressSanitizer, this sees memory that is read behind such a change."""

import gc
import unittest

from ecow import Array, Bytes, List, Text, Texts, Value
from harness import EDITS, ENDS, draws, outcome

KINDS = (List, Array, Bytes, Text, Texts, Value)
OPERATORS = (
    "__add__", "__radd__", "__iadd__", "__mul__", "__imul__", "__mod__", "__getitem__",
    "__setitem__", "__delitem__", "__contains__", "__eq__", "__ne__", "__lt__", "__init__",
    "__iter__", "__reversed__", "__format__", "__reduce__", "__deepcopy__", "__str__", "__repr__",
    "__or__", "__ior__", "__len__", "__bool__",
)
# Calls whose argument says how much is made.
COUNTED = ("__mul__", "__imul__", "reserve", "center", "ljust", "rjust", "zfill", "expandtabs")


class Trouble:
    """Objects that change some values whenever their code runs."""

    def __init__(self, draw):
        self.draw, self.targets, self.held, self.views = draw, [], [], []
        trouble = self

        class Index:
            """An index that is another one each time, and equals what it likes."""

            def __index__(self):
                trouble.make()
                return draw.choice((0, 1, -1, 3, 99, 2**70))

            def __float__(self):
                trouble.make()
                return draw.choice((0.5, 1e300))

            def __eq__(self, other):
                trouble.make()
                return draw.random() < 0.3

            def __hash__(self):
                trouble.make()
                return draw.randrange(5)

            def __repr__(self):
                trouble.make()
                return "index"

        class Items:
            """An iterable and a sequence, but of other items each time."""

            def __iter__(self):
                for _ in range(draw.randrange(5)):
                    trouble.make()
                    yield trouble.item()

            def __len__(self):
                trouble.make()
                return draw.randrange(5)

            def __getitem__(self, index):
                trouble.make()
                return trouble.item()

            def __buffer__(self, flags):
                trouble.make()
                return memoryview(bytes(draw.randrange(40)))

        class Words(list):
            def __len__(self):
                trouble.make()
                return super().__len__()

            def __getitem__(self, index):
                trouble.make()
                return super().__getitem__(index) if super().__len__() else 0

            def __iter__(self):
                trouble.make()
                return super().__iter__()

        class Names(dict):
            def items(self):
                trouble.make()
                return super().items()

            def keys(self):
                trouble.make()
                return super().keys()

            def __getitem__(self, name):
                trouble.make()
                return super().get(name)

        class Word(str):
            def __eq__(self, other):
                trouble.make()
                return str.__eq__(self, other)

            def __hash__(self):
                trouble.make()
                return str.__hash__(self)

            def __repr__(self):
                trouble.make()
                return "word"

            def __str__(self):
                trouble.make()
                return str.__str__(self)

            def __len__(self):
                trouble.make()
                return str.__len__(self)

            def __format__(self, format):
                trouble.make()
                return "x"

        class Ending:
            """An object whose end makes trouble."""

            def __del__(self):
                trouble.make()

        self.kinds = Index, Items, Words, Names, Word, Ending

    def make(self):
        """Changes each target, or gives its memory to others."""
        for each in self.targets:
            way = self.draw.randrange(7)
            if isinstance(each, Array) and self.draw.random() < 0.3:
                # A view that writes stays open, or is closed.
                self.views = [] if self.views else [each.edit()]
            more = {List: [7] * 500, Bytes: b"q" * 500, Text: "\u00e9" * 500,
                    Texts: ["z" * 40] * 50, Value: {"a": [1, "w" * 50]}}.get(type(each))
            try:
                if isinstance(each, (list, dict)):
                    each.clear()
                elif way == 0:
                    each.clear()
                elif way == 1:
                    each.__init__()
                elif way == 2:
                    each.__init__(more)
                elif way == 3:
                    each.truncate(1)
                elif way == 4 and isinstance(each, Array):
                    each.extend([7] * 500)
                elif way == 4:
                    each.append(3 if isinstance(each, (List, Bytes)) else "\u20ac" * 20)
                elif way == 5:
                    each *= 3
                else:
                    each.pop()
            except (AttributeError, BufferError, IndexError, TypeError, MemoryError, ValueError):
                pass
        for view in self.views:
            # What a view writes to is memory of its array still.
            for at in range(len(view)):
                view[at] = at % 100
        if self.draw.random() < 0.3:
            self.held = [bytes(self.draw.randrange(20, 600)) for _ in range(5)]

    def item(self):
        """Something that a container may take, or not."""
        Index, Items, Words, Names, Word, Ending = self.kinds
        return self.draw.choice((
            lambda: 1, Index, lambda: "\u00e9", lambda: Word("x" * 40), lambda: Text("\u20ac" * 30),
            lambda: self.targets[0] if self.targets else "y", lambda: Words([1, Words([2])]),
            lambda: Names(a=Words([1, "w" * 30])), lambda: Value([1, ["a"]]), lambda: b"q",
        ))()

    def argument(self):
        Index, Items, Words, Names, Word, Ending = self.kinds
        return self.draw.choice((
            Index, Items, self.item, lambda: self.draw.choice(self.targets or [0]),
            lambda: slice(Index(), Index(), self.draw.choice((None, 1, 2, -1, Index()))),
            lambda: slice(None, Index()), lambda: self.draw.randrange(-5, 5), lambda: None,
            lambda: [self.item() for _ in range(3)], lambda: (Word("a"), Text("\u00e9")),
            lambda: Words([self.item(), 1]), lambda: b"q", lambda: Text("\u00e9a"),
            lambda: Array(self.draw.choice("bHqfd"), [1, 2, 3] * self.draw.choice((1, 90))),
            lambda: Bytes(b"ab"), lambda: {"k" * 40: Words([1]), "b": [Words([3])]},
            lambda: [Word("a"), Index(), "b"], lambda: memoryview(Bytes(b"a" * 40)),
            lambda: {Word("n" * 30): Ending(), "o": Words([1])}, lambda: self.key,
        ))()

    def key(self, item=None):
        self.make()
        return self.draw.random()


MAKE = {
    List: lambda draw: List(range(draw.choice((0, 3, 300)))),
    Array: lambda draw: Array(draw.choice(list(ENDS)), [5, 1, 100] * draw.choice((0, 1, 100))),
    Bytes: lambda draw: Bytes(b"ab" * draw.choice((0, 2, 7, 300))),
    Text: lambda draw: Text("a\u00e9" * draw.choice((0, 2, 5, 300))),
    Texts: lambda draw: Texts(["t" * draw.choice((3, 40))] * draw.choice((0, 3, 30))),
    Value: lambda draw: Value(draw.choice((
        {"a": [1, {"b": "c" * 30}]}, [1, [2], "x" * 40], 5, "t" * 40))),
}


class Hostile(unittest.TestCase):
    def test_calls(self):
        """No call fails but by an error of its own, and each text stays UTF-8."""
        draw = draws("hostile")
        trouble, seen = Trouble(draw), set()
        for _ in range(5 * EDITS):
            kind = draw.choice(KINDS)
            value, other = MAKE[kind](draw), MAKE[draw.choice(KINDS)](draw)
            fields = {"k" * 30: trouble.kinds[2]([1, 2]), "z": 1}
            trouble.targets = [value, other, fields]
            name = draw.choice([name for name in dir(value)
                                if name in OPERATORS or (name[0] != "_" and callable(getattr(value, name)))])
            count = draw.choice((0, 1, 1, 1, 2, 2, 3))
            arguments = [trouble.argument() for _ in range(count)]
            named = {"key": trouble.key} if name == "sort" and count else {}
            arguments = [] if name == "sort" else arguments
            if name in COUNTED:
                arguments = [draw.choice((0, 1, 3)), *arguments[1:]]
            if name == "__init__" and count == 3:
                arguments = [fields]
            try:
                getattr(value, name)(*arguments, **named)
            except SystemError as error:
                self.fail(f"{kind.__name__}.{name}: {error}")
            except (ArithmeticError, AttributeError, BufferError, LookupError, MemoryError,
                    RuntimeError, TypeError, ValueError):
                pass
            trouble.targets = []
            if trouble.views:
                # What was written through the view stands in the array, and a copy is refused.
                array, view = trouble.views[0].obj, trouble.views[0]
                self.assertEqual(array.tolist(), view.tolist(), name)
                self.assertIs(outcome(lambda: array.copy()), BufferError, name)
                trouble.views = []
                del view
                self.assertEqual(array.copy().tolist(), array.tolist(), name)
            seen.add((kind, name))
            if isinstance(value, Text):
                self.assertEqual(len(value.encode().decode()), len(value), name)
            repr(value)
            gc.collect(0)
        if EDITS >= 2000:
            every = {(kind, name) for kind in KINDS for name in dir(kind)
                     if name in OPERATORS or (name[0] != "_" and callable(getattr(kind, name)))}
            self.assertEqual(every - seen, set())

    def test_index(self):
        """What stands behind an index is read behind it: `t[i] = u`, where `i` changes `u`."""
        for source, other, wanted in (("\u20ac", "a\u00e9\u20ac", ValueError), ("x" * 100, "", ValueError),
                                      ("x", "\u20ac", "\u20acbc"), ("xy", "z", "zbc")):
            given, text = Text(source), Text("abc")

            class Index:
                def __index__(self):
                    given.__init__(other)
                    kept.extend(Text("\u00ff" * 60) for _ in range(200))
                    return 0

            kept = []
            self.assertEqual(outcome(lambda: text.__setitem__(Index(), given)),
                             None if isinstance(wanted, str) else wanted)
            self.assertEqual(text, wanted if isinstance(wanted, str) else "abc")

    def test_fields(self):
        """A value of a dictionary may drop that dictionary, its own name, or add to it."""
        for change in (lambda source: source.clear(), lambda source: source.update(more=1),
                       lambda source: source.pop("k" * 100, 0)):
            class Words(list):
                def __iter__(self):
                    change(source)
                    kept.extend("%099dz" % number for number in range(500))
                    return iter([1])

            class Other:
                def __index__(self):
                    change(source)
                    return 3

            kept = []
            source = {"k" * 100: Words([1, 2]), "b": Other(), "c": [Other()]}
            self.assertEqual(Value(source), {"k" * 100: [1, 2], "b": 3, "c": [3]})
        name = Text("n" * 40)

        class Renaming:
            def __index__(self):
                name.__init__("m" * 40)
                return 1

        class Named(dict):
            def items(self):
                return [(name, Renaming()), ("o", Renaming())]

        self.assertIn(outcome(lambda: Value(Named(a=1))), ({"m" * 40: 1, "o": 1}, TypeError))

    def test_separators(self):
        """A separator comes out as it was given, of whatever kind."""
        for make in (bytes, bytearray, Bytes, memoryview):
            for name in ("partition", "rpartition"):
                parts = getattr(Bytes(b"a=b"), name)(make(b"="))
                self.assertEqual(parts, (b"a", b"=", b"b"))
                self.assertTrue(all(type(part) is Bytes for part in parts))
                parts = getattr(Bytes(b"ab"), name)(make(b"="))
                self.assertEqual(sorted(map(bytes, parts)), [b"", b"", b"ab"])

    def test_arguments(self):
        """Each call refuses too many arguments, and too few."""
        for kind in KINDS:
            value = MAKE[kind](draws("arguments"))
            for name in dir(kind):
                if name[0] != "_" and callable(getattr(value, name)) and name not in (
                        "format", "update"):
                    self.assertIs(outcome(lambda: getattr(value, name)(*[0] * 5)), TypeError, name)
            wrong = [("insert", 1), ("insert", 3), ("set", 1), ("set", 3), ("get", 0), ("get", 3)]
            for name, count in [*wrong, ("pop", 3 if kind is Value else 2)]:
                if hasattr(value, name):
                    call = lambda: getattr(value, name)(*[0] * count)
                    self.assertIs(outcome(call), TypeError, name)


if __name__ == "__main__":
    unittest.main()
