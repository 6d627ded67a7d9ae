"""Copies, pickles and subclasses: what is shared, and that no change is seen in a copy."""

import copy
import gc
import pickle
import sys
import unittest
import weakref

from ecow import Array, Bytes, List, Text, Texts, Value
from ecow import _core
from harness import ENDS, outcome, plain

# A value of each form with a change of it.
SAMPLES = (
    (lambda: List(), lambda value: value.append(1)),
    (lambda: List(range(20)), lambda value: value.append(1)),
    (lambda: List(range(3000)), lambda value: value.__setitem__(5, -5)),
    (lambda: Array("d"), lambda value: value.append(1)),
    (lambda: Array("h", range(20)), lambda value: value.frombytes(b"ab")),
    (lambda: Array("d", range(3000)), lambda value: value.__setitem__(5, -5)),
    (lambda: Array("f", range(3000)), lambda value: value.edit().__setitem__(5, 0.5)),
    (lambda: Bytes(b"few"), lambda value: value.append(1)),
    (lambda: Bytes(b"fifteen letters"), lambda value: value.pop()),
    (lambda: Bytes(b"sixteen letters!"), lambda value: value.clear()),
    (lambda: Bytes(bytes(3000)), lambda value: value.reverse() or value.append(1)),
    (lambda: Text("short"), lambda value: value.append("!")),
    (lambda: Text("\u00e9" * 7 + "a"), lambda value: value.pop()),
    (lambda: Text("\u00e9" * 8), lambda value: value.insert(0, "x")),
    (lambda: Text("\u20ac" * 3000), lambda value: value.__delitem__(slice(0, 5))),
    (lambda: Texts(), lambda value: value.append("a")),
    (lambda: Texts(["a", "a text that spills"] * 9), lambda value: value.pop(3)),
    (lambda: Value(), lambda value: value.set([], 5)),
    (lambda: Value("a text that spills"), lambda value: value.set([], 5)),
    (lambda: Value([1, {"a": [2.5, None, "x" * 20]}]), lambda value: value.append(1)),
    (lambda: Value({"a": [1] * 30}), lambda value: value.set(["a", 3], 5)),
)


class Note(Text):
    """A subclass with an attribute that its constructor asks for."""

    def __init__(self, text, author):
        super().__init__(text)
        self.author = author


class Samples(Array):
    """A subclass whose constructor has arguments of its own."""

    def __init__(self, rate, items=()):
        super().__init__("d", items)
        self.rate = rate


class Slotted(List):
    __slots__ = ("tag", "__dict__")


class Bare(Bytes):
    __slots__ = ()


class Named(Texts):
    pass


class Document(Value):
    pass


class Copies(unittest.TestCase):
    def test_apart(self):
        """A copy keeps what its source loses, whichever is changed, in any order of their ends."""
        for make, change in SAMPLES:
            value = make()
            before = plain(value)
            ways = (
                lambda: value.copy(), lambda: copy.copy(value), lambda: copy.deepcopy(value),
                lambda: type(value)(value), lambda: pickle.loads(pickle.dumps(value)),
            )
            for way in ways:
                made = way()
                self.assertIs(type(made), type(value))
                self.assertEqual(made, value)
                change(made)
                self.assertNotEqual(plain(made), before)
                self.assertEqual(plain(value), before)
            kept = [way() for way in ways]
            change(value)
            self.assertTrue(all(plain(each) == before for each in kept))
            del value
            gc.collect()
            self.assertTrue(all(plain(each) == before for each in kept))
            while kept:
                change(kept[0])
                self.assertTrue(all(plain(each) == before for each in kept[1:]))
                del kept[0]

    def test_shared(self):
        """What is a copy stands at the same place in memory, until it is changed."""
        arrays = [Array(code, [5] * 3000) for code in ENDS]
        for value in (List(range(3000)), *arrays, Bytes(bytes(3000)), Text("a" * 3000)):
            base = type(value)
            for made in (value.copy(), copy.copy(value), copy.deepcopy(value), base(value),
                         value[:], value * 1, value[::1]):
                self.assertEqual(_core._address(made), _core._address(value))
                made.pop()
                self.assertNotEqual(_core._address(made), _core._address(value))
        for call in (
            lambda text: text.strip(), lambda text: text.replace("x", "y"),
            lambda text: text.split("x")[0], lambda text: text.partition("x")[0],
            lambda text: text.lower(), lambda text: text.ljust(3), lambda text: text.expandtabs(),
            lambda text: Texts([text])[0], lambda text: Texts([text]).pop(),
            lambda text: Text(Value(text)), lambda text: Text(Value([text]).part(0)),
        ):
            text = Text("a" * 3000)
            self.assertEqual(_core._address(call(text)), _core._address(text))
        for value in arrays:
            self.assertEqual(_core._address(Array(value.typecode, value)), _core._address(value))
        # A sole value is changed where it is.
        value = List(range(3000))
        value.copy()
        place = _core._address(value)
        value[0] = 5
        self.assertEqual(_core._address(value), place)

    def test_not_copied(self):
        """A value that nobody shares any more is edited in place, whoever made the other copies."""
        for value in (List(range(3000)), Array("d", range(3000)), Array("H", range(3000))):
            place = _core._address(value)
            for use in (lambda: pickle.dumps(value), lambda: memoryview(value).release(),
                        lambda: list(value.copy()), lambda: value == value.copy(), lambda: value[:],
                        lambda: repr(value), lambda: value < value.copy(), lambda: type(value)(value)):
                use()
                value[7] += 1
                self.assertEqual(_core._address(value), place)

    def test_room(self):
        """Room that was made is used where it is, and kept where the contents go."""
        for value, more in ((List(), [1] * 900), (Array("d"), Array("d", [1] * 900)),
                            (Array("b"), iter([1] * 900)), (Array("I"), (1,) * 900)):
            value.append(1)
            value.reserve(1000)
            place = _core._address(value)
            value.extend(more)
            for _ in range(90):
                value.append(1)
            self.assertEqual(_core._address(value), place)
            value.clear()
            value.extend([1] * 900)
            self.assertEqual(_core._address(value), place)

    def test_weak_references(self):
        for make, _ in SAMPLES:
            value = make()
            reference = weakref.ref(value)
            self.assertIs(reference(), value)
            del value
            self.assertIsNone(reference())


class Subclasses(unittest.TestCase):
    def made(self):
        """An object of each subclass, with its attributes."""
        note = Note("a text that spills", "me")
        slotted = Slotted([1, 2])
        slotted.tag, slotted.more = [3], [4]
        samples = Samples(44100, [0.5, 1])
        samples.more = [1]
        named = Named(["a"])
        named.name = "b"
        document = Document({"a": 1})
        document.path = ["x"]
        return (note, {"author": "me"}), (slotted, {"tag": [3], "more": [4]}), (
            samples, {"rate": 44100, "more": [1]}), (Bare(b"ab"), {}), (
            named, {"name": "b"}), (document, {"path": ["x"]})

    def test_attributes(self):
        for value, attributes in self.made():
            ways = [lambda: value.copy(), lambda: copy.copy(value), lambda: copy.deepcopy(value)]
            for protocol in range(pickle.HIGHEST_PROTOCOL + 1):
                ways.append(lambda: pickle.loads(pickle.dumps(value, protocol)))
                ways.append(lambda: pickle._loads(pickle._dumps(value, protocol)))
            for number, way in enumerate(ways):
                made = way()
                self.assertIs(type(made), type(value))
                self.assertEqual(made, value)
                for name, attribute in attributes.items():
                    self.assertEqual(getattr(made, name), attribute)
                    if isinstance(attribute, list):
                        self.assertIs(getattr(made, name) is getattr(value, name), number < 2)

    def test_derived_values(self):
        """What a call makes anew is of the module's own type, as with `list` and `str`."""
        note = Note("a b", "me")
        for made in (note[:], note[1:], note + "c", note * 2, note.upper(), note.strip()):
            self.assertIs(type(made), Text)
        self.assertIs(type(Slotted([1]) + [2]), List)
        self.assertIs(type(Slotted([1])[:]), List)
        samples = Samples(1, [1, 2])
        for made in (samples[:], samples[1:], samples + [3], [3] + samples, samples * 2, Array(samples)):
            self.assertIs(type(made), Array)
            self.assertEqual(made.typecode, "d")
        note += "c"
        self.assertIs(type(note), Note)

    def test_cycles(self):
        """An object that refers to itself is copied, pickled and collected."""
        note = Note("a text that spills", None)
        note.author = note
        for made in (copy.deepcopy(note), pickle.loads(pickle.dumps(note))):
            self.assertIs(made.author, made)
            self.assertEqual(made, note)
        reference = weakref.ref(note)
        del note, made
        gc.collect()
        self.assertIsNone(reference())
        samples = Samples(1, [1, 2])
        samples.view = samples.edit()
        reference = weakref.ref(samples)
        del samples
        gc.collect()
        self.assertIsNone(reference())

    def test_types_are_collected(self):
        """A type that is gone took its references along."""
        def once():
            kind = type("Kind", (List,), {})
            kind.example = kind([1])
            return weakref.ref(kind)

        reference = once()
        gc.collect()
        self.assertIsNone(reference())
        kinds = List, Array, Bytes, Text, Texts, Value
        counts = [sys.getrefcount(kind) for kind in kinds]
        for _ in range(1000):
            for make, change in SAMPLES:
                change(make().copy())
        self.assertEqual(counts, [sys.getrefcount(kind) for kind in kinds])

    def test_own_methods(self):
        class Loud(Text):
            def __str__(self):
                return "loud"

            def __reduce__(self):
                return Loud, ("reduced",)

            def __getstate__(self):
                return {"given": 5}

            def __setstate__(self, state):
                self.state = state

        self.assertEqual(copy.copy(Loud("a")).state, {"given": 5})
        self.assertEqual(Loud("a").__reduce_ex__(4), (Loud, ("reduced",)))
        self.assertEqual(Loud("a") + "b", "ab")


class Pickles(unittest.TestCase):
    def test_addresses(self):
        """Only memory that values share has an address: what is inside an object has none."""
        for value, has in (
            (List(), False), (List([1]), True), (Bytes(b"x" * 15), False),
            (Array("d"), False), (Array("b", [1]), True),
            (Bytes(b"x" * 16), True), (Text("x" * 15), False), (Text("\u00e9" * 8), True),
            (Text(), False), (Texts(["x" * 16]), True), (Value(["x" * 16]), True),
            (Texts(), False), (Value([]), False), (Value({}), False), (Value(5), False),
        ):
            self.assertEqual(_core._address(value) != 0, has)
        words = [str(number) for number in range(3000)]
        self.assertEqual(pickle.loads(pickle.dumps(Texts(words))), words)
        self.assertEqual(pickle.loads(pickle.dumps(Value(words))), words)
        self.assertEqual(pickle.loads(pickle.dumps([Text(word) for word in words])), words)

    def stored(self, things):
        data = pickle.dumps(things)
        loaded = pickle.loads(data)
        self.assertEqual(plain(loaded), plain(things))
        return len(data), loaded

    def test_once(self):
        """Values that share memory are stored once, and share memory again."""
        for make in (lambda: List(range(10**4)), lambda: Bytes(bytes(10**5)),
                     lambda: Array("d", range(10**4)), lambda: Array("H", range(10**4)),
                     lambda: Text("\u00e9" * 50000), lambda: Texts(["x" * 999] * 99),
                     lambda: Value([{"a": "x" * 10**5}, 1])):
            value = make()
            alone, _ = self.stored([value])
            many, loaded = self.stored([value.copy() for _ in range(100)])
            self.assertLess(many, alone + 100 * 40)
            both, _ = self.stored([value, make()])
            if isinstance(value, (List, Array, Bytes, Text)):
                self.assertGreater(both, 2 * (alone - 200))
                self.assertEqual(len({_core._address(each) for each in loaded}), 1)
            loaded[0].clear()
            self.assertEqual(loaded[1], value)

    def test_parts(self):
        """Parts that versions share are stored once too."""
        line = Text("x" * 10**5)
        texts = Texts([line])
        versions = []
        for number in range(50):
            texts.append(str(number))
            versions.append(texts.copy())
        size, loaded = self.stored([versions, line])
        self.assertLess(size, 2 * 10**5)
        self.assertEqual(len({_core._address(each[0]) for each in loaded[0]}), 1)
        self.assertEqual(_core._address(loaded[0][0][0]), _core._address(loaded[1]))
        value = Value({"text": line, "list": [[7] * 10**4], "version": 0})
        versions = []
        for number in range(50):
            value["version"] = number
            versions.append(value.copy())
        size, loaded = self.stored([versions, line])
        self.assertLess(size, 2 * 10**5)
        self.assertEqual(_core._address(Text(loaded[0][3].part("text"))),
                         _core._address(loaded[1]))

    def test_exact(self):
        """What is equal and yet another object stays itself."""
        value = [Value([0.0]), Value([-0.0]), Value([0]), Value([False]), Value([[1]]),
                 Value([[True]]), Value([[1.0]]), Value({"a": 1}), Value([1]), Value([None])]
        _, loaded = self.stored(value)
        self.assertEqual([repr(each) for each in loaded], [repr(each) for each in value])
        for code, ends in ENDS.items():
            for value in (Array(code), Array(code, ends)):
                for protocol in range(pickle.HIGHEST_PROTOCOL + 1):
                    loaded = pickle.loads(pickle.dumps(value, protocol))
                    self.assertEqual((loaded.typecode, loaded.tobytes()), (code, value.tobytes()))
        self.assertEqual(repr(pickle.loads(pickle.dumps(Array("d", [-0.0, float("nan")])))),
                         "Array('d', [-0.0, nan])")
        nan = float("nan")
        self.assertEqual(pickle.loads(pickle.dumps([Value([nan])] * 2)), [Value([nan])] * 2)

    def test_apart(self):
        """Two pickles have nothing in common, and no block outlives its pickle."""
        from ecow import _objects

        value = List(range(100))
        first, second = pickle.loads(pickle.dumps(value)), pickle.loads(pickle.dumps(value))
        self.assertNotEqual(_core._address(first), _core._address(second))
        gc.collect()
        self.assertEqual(len(_objects._blocks), 0)
        pickler_data = [value, value.copy()]
        value.append(1)
        self.assertEqual(pickle.loads(pickle.dumps(pickler_data))[1], list(range(100)))

    def test_order_of_bytes(self):
        """A list is stored with the lowest byte first, on every machine."""
        self.assertIn(b"\x02\x01" + bytes(6) + b"\xff" * 8, pickle.dumps(List([258, -1])))


if __name__ == "__main__":
    unittest.main()
