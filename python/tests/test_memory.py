"""Buffers, memory that is given back, memory that is refused, and threads."""

import array
import copy
import ctypes
import gc
import os
import pickle
import resource
import shlex
import struct
import subprocess
import sys
import tempfile
import threading
import unittest

from ecow import Array, Bytes, List, Text, Texts, Value, _core
from harness import EDITS, ENDS, outcome

try:
    import numpy
except ImportError:
    numpy = None

MIB = 2**20


def resident():
    """How many bytes of this process stand in memory."""
    with open("/proc/self/statm") as file:
        return int(file.read().split()[1]) * resource.getpagesize()


class Buffers(unittest.TestCase):
    def test_views(self):
        """A view has the contents of the moment at which it was made."""
        for value, change in (
            (List(range(5)), lambda value: value.append(9)),
            (List(range(3000)), lambda value: value.clear()),
            (List(), lambda value: value.append(9)),
            *((Array(code, [1, 2, 3] * count), lambda value: value.append(9))
              for code in ENDS for count in (0, 2, 1000)),
            (Array("d", range(40)), lambda value: value.clear()),
            (Bytes(b"inline"), lambda value: value.__setitem__(0, 0)),
            (Bytes(b"fifteen letters"), lambda value: value.append(1)),
            (Bytes(bytes(range(200)) * 20), lambda value: value.reverse()),
            (Bytes(), lambda value: value.append(9)),
        ):
            before = list(value)
            view = memoryview(value)
            self.assertEqual(view.tolist(), before)
            self.assertTrue(view.readonly)
            self.assertTrue(view.c_contiguous)
            code = {List: "q", Bytes: "B"}.get(type(value)) or value.typecode
            self.assertEqual((view.format, view.itemsize), (code, struct.calcsize(code)))
            self.assertEqual(view.shape, (len(before),))
            self.assertEqual(view.nbytes, len(before) * view.itemsize)
            parts = view[1:], view[::-1], view.cast("B")
            for _ in range(51):
                change(value)
            self.assertFalse(list(value) == before)
            self.assertEqual(view.tolist(), before)
            del value
            kept = [Bytes(bytes(3000)) for _ in range(50)]
            self.assertEqual(view.tolist(), before)
            self.assertEqual(parts[0].tolist(), before[1:])
            self.assertEqual(parts[1].tolist(), before[::-1])
            view.release()
            self.assertEqual(parts[0].tolist(), before[1:])
            self.assertIs(outcome(lambda: type(parts[0].obj)()), TypeError)
            del kept

    def test_readers(self):
        reals = Array("d", [1.5, -2])
        self.assertEqual(struct.unpack("2d", reals), (1.5, -2.0))
        self.assertEqual(array.array("d", reals), array.array("d", [1.5, -2]))
        self.assertEqual(bytes(reals), reals.tobytes())
        self.assertIs(outcome(lambda: struct.pack_into("d", reals, 0, 1)), TypeError)
        with open("/dev/zero", "rb") as file:
            self.assertIs(outcome(lambda: file.readinto(reals)), TypeError)
        value, numbers = Bytes(b"abcdefghijklmnop"), List([1, -2])
        with tempfile.TemporaryFile() as file:
            self.assertEqual(file.write(value), 16)
            self.assertEqual(file.write(numbers), 16)
        self.assertEqual(struct.unpack_from("4s", value, 2), (b"cdef",))
        self.assertEqual(bytes(value), b"abcdefghijklmnop")
        self.assertEqual(bytearray(value), b"abcdefghijklmnop")
        self.assertEqual(bytes(numbers), struct.pack("=2q", 1, -2))
        self.assertEqual(array.array("q", numbers), array.array("q", [1, -2]))
        self.assertEqual(int.from_bytes(Bytes(b"\x01\x02"), "big"), 258)
        self.assertEqual(List(memoryview(numbers)), numbers)
        self.assertEqual(b"".join([value, b"q"]), b"abcdefghijklmnopq")
        self.assertIs(outcome(lambda: struct.pack_into("q", numbers, 0, 1)), TypeError)
        self.assertIs(outcome(lambda: memoryview(Text("a"))), TypeError)
        with open("/dev/zero", "rb") as file:
            self.assertIs(outcome(lambda: file.readinto(numbers)), TypeError)

    def test_kept(self):
        """Readers are told to keep a view as long as they use its memory."""
        slot = ctypes.pythonapi.PyType_GetSlot
        slot.restype, slot.argtypes = ctypes.c_void_p, (ctypes.py_object, ctypes.c_int)
        for kind in (List, Array, Bytes):
            # The numbers of `bf_getbuffer` and `bf_releasebuffer`.
            self.assertTrue(slot(kind, 1) and slot(kind, 2))

    @unittest.skipUnless(numpy, "this Python has no numpy")
    def test_numpy(self):
        """What numpy reads stays, however it was given it, and whatever becomes of the value."""
        for make in (lambda: List(range(5000)), lambda: Array("d", range(5000)), lambda: Bytes(b"short"),
                     lambda: Bytes(bytes(range(250)) * 40)):
            for read in (numpy.asarray, lambda value: numpy.frombuffer(value, numpy.uint8)):
                value = make()
                array, before = read(value), bytes(value)
                for change in (lambda: value.__setitem__(0, 77), lambda: value.extend([1] * 9999),
                               lambda: value.clear()):
                    change()
                    kept = [bytes(b"x" * 40000) for _ in range(30)]
                    self.assertEqual(array.tobytes(), before)
                    del kept

    def test_inside_a_call(self):
        """A view of a value may be an argument of its own call."""
        value = Bytes(b"abcdefghijklmnop")
        value.extend(memoryview(value))
        value[2:4] = memoryview(value)[:3]
        self.assertEqual(value, b"ababcefghijklmnop" + b"abcdefghijklmnop")
        numbers = List(range(5))
        numbers[1:1] = memoryview(numbers)
        self.assertEqual(numbers, [0, 0, 1, 2, 3, 4, 1, 2, 3, 4])


class Edits(unittest.TestCase):
    """Views that write to an array in place."""

    # What would change an array otherwise, or share its memory.
    REFUSED = (
        lambda value: value.append(1), lambda value: value.insert(0, 1), lambda value: value.pop(),
        lambda value: value.extend([1]), lambda value: value.remove(value[0]), lambda value: value.clear(),
        lambda value: value.truncate(1), lambda value: value.reserve(1), lambda value: value.reverse(),
        lambda value: value.sort(), lambda value: value.frombytes(value[1:].tobytes()),
        lambda value: value.__setitem__(0, 1), lambda value: value.__delitem__(0),
        lambda value: value.__setitem__(slice(0, 1), [1]), lambda value: value.__delitem__(slice(0, 2)),
        lambda value: value.__setitem__(slice(0, 3, 2), [1, 2]),
        lambda value: value.__delitem__(slice(0, 3, 2)), lambda value: value.__delitem__(slice(None)),
        lambda value: value.__iadd__([1]), lambda value: value.__iadd__(value),
        lambda value: value.__imul__(2), lambda value: value.__imul__(0), lambda value: value.__imul__(-1),
        lambda value: value.copy(), lambda value: copy.copy(value), lambda value: copy.deepcopy(value),
        lambda value: value[:], lambda value: value + [1], lambda value: value * 2, lambda value: value * 1,
        lambda value: Array(value), lambda value: Array(value.typecode, value),
        lambda value: Array(value.typecode).extend(value), lambda value: memoryview(value),
        lambda value: bytes(value), lambda value: value.tobytes(), lambda value: pickle.dumps(value),
        lambda value: array.array(value.typecode).frombytes(value), lambda value: [1] + value,
        lambda value: Array(value.typecode, [1] * 9).__setitem__(slice(0, 2), value),
        lambda value: memoryview(value.edit().obj),
    )

    def test_in_place(self):
        """A view writes to the items where they are, once nothing else shares them."""
        for code in ENDS:
            for count in (1, 3, 1000):
                value = Array(code, [1, 2, 3] * count)
                place = _core._address(value)
                with value.edit() as view:
                    self.assertFalse(view.readonly)
                    self.assertEqual((view.format, view.itemsize), (code, struct.calcsize(code)))
                    self.assertEqual((view.shape, view.tolist()), ((3 * count,), [1, 2, 3] * count))
                    view[1] = 7
                    view[-1] = 9
                    self.assertEqual(value[1], 7)
                self.assertEqual(value, [1, 7, 3, *([1, 2, 3] * count)[3:]][:-1] + [9])
                self.assertEqual(_core._address(value), place)
                self.assertIs(outcome(lambda: view[0]), ValueError)
                value.append(5)
                self.assertEqual(value.pop(), 5)
        with Array("d").edit() as view:
            self.assertEqual((view.tolist(), view.nbytes), ([], 0))

    def test_shared(self):
        """No copy or view that was made before sees what is written, and none is made meanwhile."""
        for code in ENDS:
            value = Array(code, [1, 2, 3] * 20)
            kept = [value.copy(), value[:], memoryview(value), pickle.loads(pickle.dumps(value)),
                    Value(value), Array(value), value * 1, value[::1]]
            with value.edit() as view:
                for at in range(60):
                    view[at] = 50
            self.assertTrue(all(list(each) == [1, 2, 3] * 20 for each in kept))
            self.assertEqual(value, [50] * 60)
            # A source that was cloned is another's for good.
            other = value.copy()
            with value.edit() as view, other.edit() as second:
                view[0], second[0] = 1, 2
            self.assertEqual((value[0], other[0]), (1, 2))

    def test_refused(self):
        """As long as a view is open, what would move or share the items raises a BufferError."""
        for code in ENDS:
            value = Array(code, [5, 6, 7, 8])
            place = _core._address(value)
            view = value.edit()
            for number, call in enumerate(self.REFUSED):
                self.assertIs(outcome(lambda: call(value)), BufferError, number)
                self.assertEqual(value, [5, 6, 7, 8])
                self.assertEqual(_core._address(value), place)
                view[0] = 5
            # These read only.
            self.assertEqual((len(value), value[3], value[1:3].tolist(), value.tolist(), value.index(7)),
                             (4, 8, [6, 7], [5, 6, 7, 8], 2))
            self.assertEqual((6 in value, value == [5, 6, 7, 8], value < [6], value.count(5), sum(value)),
                             (True, True, True, 1, 26))
            self.assertEqual(value.hash(), Array(code, [5, 6, 7, 8]).hash())
            self.assertEqual(repr(value), repr(Array(code, [5, 6, 7, 8])))
            self.assertIs(value.__imul__(1), value)
            view.release()
            for number, call in enumerate(self.REFUSED[:3]):
                self.assertIsNot(outcome(lambda: call(value)), BufferError)

    def test_open(self):
        """The items stay where they are as long as anything of a view is open."""
        value = Array("d", [1, 2, 3])
        with value.edit() as view:
            part, cast, second = view[1:], view.cast("B"), value.edit()
        self.assertIs(outcome(lambda: view[0]), ValueError)
        for each in (part, second):
            each[0] = 9
            self.assertIs(outcome(lambda: value.append(1)), BufferError)
        part.release()
        self.assertIs(outcome(lambda: value.copy()), BufferError)
        cast.release()
        self.assertIs(outcome(lambda: value.copy()), BufferError)
        second.release()
        second.release()
        self.assertEqual(value.copy(), [9, 9, 3])
        value.append(4)
        # What outlives the block writes to the array still, which stays as it lies.
        with value.edit() as view:
            numbers = (ctypes.c_double * 4).from_buffer(view)
        # One that reads the view itself makes the block's end fail.
        with self.assertRaises(BufferError):
            with value.edit() as view:
                reader = pickle.PickleBuffer(view)
        numbers[0] = 0.5
        view[1] = 1.5
        for _ in range(2):
            self.assertEqual(value, [0.5, 1.5, 3, 4])
            self.assertIs(outcome(lambda: value.append(1)), BufferError)
            numbers = None
            gc.collect()
        reader.release()
        view.release()
        value.append(5)
        self.assertEqual(value, [0.5, 1.5, 3, 4, 5])
        # The view keeps the array, and an error in the block ends the view.
        view = Array("i", [1, 2]).edit()
        gc.collect()
        view[0] = 7
        self.assertEqual(view.obj, [7, 2])
        with self.assertRaises(ZeroDivisionError):
            with value.edit() as view:
                view[0] = 1 / 0
        value.append(6)
        # The array's own buffer can't be written to, whatever was asked for before.
        self.assertTrue(memoryview(value).readonly)

    @unittest.skipUnless(numpy, "this Python has no numpy")
    def test_numpy(self):
        """numpy reads an array without a copy, and writes to one through a view."""
        for code in ENDS:
            value = Array(code, [1, 2, 3] * 1000)
            read = numpy.asarray(value)
            self.assertEqual(read.dtype, numpy.dtype(code))
            self.assertEqual(read.ctypes.data, _core._address(value))
            self.assertFalse(read.flags.writeable)
            self.assertIs(outcome(lambda: read.__setitem__(0, 5)), ValueError)
            self.assertFalse(numpy.frombuffer(value, code).flags.writeable)
            value[0] = 9
            self.assertEqual((read[0], value[0]), (1, 9))
            place = _core._address(value)
            with value.edit() as view:
                written = numpy.asarray(view)
                self.assertEqual(written.ctypes.data, place)
                written[:] += 1
                del written
            self.assertEqual(value, [10, 3, 4, *[2, 3, 4] * 999])
            self.assertEqual(read.tolist(), [1, 2, 3] * 1000)
            self.assertEqual(Array(code, read), [1, 2, 3] * 1000)
            self.assertEqual(Array(code, read[::2]), ([1, 2, 3] * 1000)[::2])
            for make in (numpy.asarray, lambda view: numpy.frombuffer(view, code)):
                # An array of numpy's that outlives the block writes still.
                with value.edit() as view:
                    kept = make(view)
                kept[0] = 7
                self.assertEqual(value[0], 7)
                for call in self.REFUSED:
                    self.assertIs(outcome(lambda: call(value)), BufferError)
                self.assertEqual(value[0], 7)
                del kept
                value.append(1)
        self.assertIs(outcome(lambda: Array("d", numpy.zeros((2, 2)))), TypeError)


class Mallinfo(ctypes.Structure):
    """What the C library tells of its memory, as `mallinfo2` gives it."""

    _fields_ = [(name, ctypes.c_size_t) for name in (
        "arena", "ordblks", "smblks", "hblks", "hblkhd", "usmblks", "fsmblks", "uordblks",
        "fordblks", "keepcost")]


try:
    mallinfo = ctypes.CDLL(None).mallinfo2
    mallinfo.restype = Mallinfo
except AttributeError:
    mallinfo = None


def held():
    """How many blocks the interpreter holds, and how many bytes the C library gave out."""
    told = mallinfo()
    return sys.getallocatedblocks(), told.uordblks + told.hblkhd


class Note(Text):
    pass


class Tagged(List):
    __slots__ = ("tag", "__dict__")


class Index:
    """A number, by an object that is made at each call."""

    def __index__(self):
        return int("9" * 15)


class Given(unittest.TestCase):
    """Memory that is given back."""

    @unittest.skipUnless(mallinfo, "this C library doesn't tell what it gave out")
    def test_leaks(self):
        """No call keeps what it made, whether it succeeds or raises an error."""
        numbers, data, text = List(range(100)), Bytes(bytes(100)), Text("\u00e9" * 100)
        reals = Array("d", range(100))
        texts, value = Texts(["x" * 100] * 10), Value({"a": [{"b": "x" * 100}]})
        note, tagged = Note("x" * 99), Tagged([1] * 99)
        note.own, tagged.tag, tagged.own = ["y"], ["z"], note
        calls = (
            lambda: note.copy(), lambda: copy.copy(tagged), lambda: copy.deepcopy(tagged),
            lambda: pickle.loads(pickle.dumps(note)), lambda: pickle.loads(pickle.dumps(tagged)),
            lambda: Note(5), lambda: note[3:], lambda: note + "x", lambda: Tagged(range(99)) * 2,
            lambda: numbers.copy().append(1), lambda: numbers[3:90], lambda: numbers[::-2],
            lambda: numbers + [1], lambda: numbers * 3, lambda: List(range(100)),
            lambda: List(each for each in range(70)), lambda: numbers.copy().sort(),
            lambda: numbers == list(range(100)), lambda: numbers.copy().extend([1, "x"]),
            lambda: numbers.copy().__setitem__(slice(0, 9, 2), [1]), lambda: repr(numbers),
            lambda: numbers.copy().__delitem__(slice(0, 90, 3)), lambda: memoryview(numbers)[3:],
            lambda: numbers.index("x"), lambda: List([2**70]), lambda: list(numbers),
            lambda: List([Index()]), lambda: numbers[Index()], lambda: data.find(Index()),
            lambda: data.copy().append(1), lambda: data[3:90], lambda: data.upper(),
            lambda: data.split(b"\0"), lambda: data.find(b"xyz"), lambda: data.find("x"),
            lambda: data + b"x" * 100, lambda: data == b"y" * 100, lambda: Bytes(["x"]),
            lambda: data.copy().extend(iter(range(200))), lambda: data.join([b"a", b"b"]),
            lambda: memoryview(data), lambda: data.copy().__imul__(5),
            lambda: text.copy().append("x"), lambda: text[3:], lambda: text[::-1],
            lambda: text + "x" * 100, lambda: "x" * 100 + text, lambda: text * 4,
            lambda: text.upper(), lambda: text.split("x"), lambda: text.partition("\u00e9"),
            lambda: text.replace("\u00e9", "x"), lambda: text.join(["a" * 50, text]),
            lambda: text.copy().extend(["a", text, 1]), lambda: text.copy().extend(["a", text]),
            lambda: text.copy().__setitem__(slice(0, 9, 2), "abcde"), lambda: f"{text:>200}",
            lambda: text.copy().__setitem__(0, "\ud800"), lambda: text == "x", lambda: text % (),
            lambda: text.copy().reverse(), lambda: text.center(300, Text("x")),
            lambda: text.copy().pop(), lambda: text.encode("utf-16"), lambda: text < "\ud800",
            lambda: texts.copy().append("x" * 50), lambda: texts[0], lambda: texts[1:5],
            lambda: texts[::-1], lambda: texts + ["y" * 50], lambda: texts.copy().sort(),
            lambda: texts.copy().extend(["x" * 50, 1]), lambda: Texts("x" * 50) * 2,
            lambda: texts.copy().pop(), lambda: texts == ["x"] * 10, lambda: "z" in texts,
            lambda: repr(texts), lambda: texts.copy().__setitem__(slice(0, 4, 2), ["a", "b"]),
            lambda: value.copy(), lambda: value.to_python(), lambda: value["a"],
            lambda: value.get("z"),
            lambda: value.copy().set(["a", 0, "b"], [1, 2]), lambda: value.copy().set(["a", 5], 1),
            lambda: Value([1, {"x": {1}}]), lambda: value.copy().pop("a"), lambda: value.items(),
            lambda: value == {"a": 1}, lambda: value.copy().__setitem__("b", "y" * 50),
            lambda: value["a"][:], lambda: value.part(["a", 0, "b"]), lambda: "a" in value,
            lambda: list(value["a"]), lambda: value["a"].extend([1, {2}]), lambda: value["a"].pop(),
            lambda: value.get(["a", 0, "b", "c"]), lambda: repr(value),
            lambda: reals.copy().append(1), lambda: reals[3:90], lambda: reals[::-2],
            lambda: reals + [1], lambda: reals + [1, "x"], lambda: [1] + reals, lambda: reals * 3,
            lambda: Array("d", range(100)), lambda: Array("d", ["x"]), lambda: Array("x"), lambda: Array(5),
            lambda: Array("h", bytes(99)), lambda: Array("h", bytes(98)), lambda: Array("q", [Index()]),
            lambda: Array("Q", [Index(), -1]), lambda: Array("f", reals), lambda: Array("b", reals),
            lambda: Array("i", [1]).extend(reals), lambda: Array("d", reals), lambda: Array(reals),
            lambda: reals.edit(), lambda: reals.edit()[3:], lambda: reals.copy().edit(),
            lambda: [reals.edit(), reals.copy()], lambda: [reals.edit(), reals.append(1)],
            lambda: [reals.edit(), memoryview(reals)], lambda: memoryview(reals)[3:], lambda: reals.tolist(),
            lambda: [reals.edit(), reals.__imul__(2)],
            lambda: [reals.edit(), reals.__delitem__(slice(0, 9, 2))],
            lambda: reals == reals.copy(), lambda: reals < list(reals),
            lambda: reals == Array("i", [1] * 100),
            lambda: reals.tobytes(), lambda: repr(reals), lambda: reals.copy().frombytes(bytes(80)),
            lambda: reals.copy().frombytes(b"1"), lambda: reals.copy().__setitem__(slice(0, 9, 2), [1]),
            lambda: reals.copy().__delitem__(slice(0, 90, 3)), lambda: reals.copy().sort(),
            lambda: reals.index("x"),
            lambda: reals.typecode, lambda: pickle.loads(pickle.dumps(reals)), lambda: reals.copy().reverse(),
            lambda: Array("d", array.array("d", [1] * 99)), lambda: Array("d", array.array("i", [1] * 99)),
            lambda: Array("d", [1] * 99).__setitem__(slice(1, 2), Array("d", [1] * 99)),
            lambda: Array("d", [1] * 99).__init__("d"), lambda: Array.__new__(Array).append(1),
            # Each with a value that nobody else holds, as an argument of its own kind.
            lambda: List(range(99)).extend(List(range(99))), lambda: List(range(99)) + List([1]),
            lambda: List(range(99)) + [1, "x"], lambda: [1] + List(range(99)),
            lambda: List(range(99)).__setitem__(slice(1, 2), List(range(99))),
            lambda: List(List(range(99))), lambda: List(range(99)).__init__(List(range(9))),
            lambda: List(range(99)).__imul__(2), lambda: List(range(99)).reverse(),
            lambda: List(range(99)).__delitem__(slice(1, 50, 2)), lambda: List(range(99)).clear(),
            lambda: Bytes(bytes(99)).extend(Bytes(bytes(99))), lambda: Bytes(Bytes(bytes(99))),
            lambda: Bytes(bytes(99)) + Bytes(bytes(99)), lambda: Bytes(bytes(99)) * 2,
            lambda: Bytes(bytes(99)).__contains__(Bytes(bytes(99))), lambda: Bytes(bytes(99)).pop(),
            lambda: memoryview(Bytes(bytes(99)))[1:], lambda: memoryview(List(range(99)))[1:],
            lambda: memoryview(Bytes(b"x"))[1:], lambda: Bytes(bytes(99)).reverse(),
            lambda: Text("x" * 99).extend(Text("y" * 99)), lambda: Text("x" * 99) + Text("y" * 99),
            lambda: [str(text) for text in [Text("x" * 9) for _ in range(99)]],
            lambda: Text("x" * 99).insert(5, Text("y" * 99)), lambda: Text(Text("x" * 99)),
            lambda: Text(Value("x" * 99)), lambda: Text(Value(1)), lambda: Text("x" * 99) * 3,
            lambda: Text("x" * 99).strip(), lambda: Text("x" * 99).split("x"),
            lambda: Text("x" * 99).clear(), lambda: Text("x" * 99).truncate(20),
            lambda: Texts(["x" * 99]).extend(Texts(["y" * 99])), lambda: Texts(Texts(["x" * 99])),
            lambda: Texts(["x" * 99]) + ["y" * 99, 1], lambda: Texts(["x" * 99] * 9).pop(2),
            lambda: Texts(["x" * 99]).append(Text("y" * 99)), lambda: Texts(["x" * 99]).index("y"),
            lambda: Texts(["x" * 99]).insert(0, "y" * 99), lambda: Texts(["x" * 99]).reverse(),
            lambda: Texts(["x" * 99]).__setitem__(0, "y" * 99), lambda: Texts(["x" * 99]) * 3,
            lambda: Texts(["x" * 99] * 9).__delitem__(slice(0, 9, 2)),
            lambda: Value(["x" * 99]).append(Value(["y" * 99])), lambda: Value(["x" * 99]) == [1],
            lambda: Value(["x" * 99]).extend([Value(["y" * 99]), {1}]), lambda: Value(["x"])[0],
            lambda: Value(["x" * 99]).insert(0, {"a": {1}}), lambda: Value(["x" * 99]).pop(),
            lambda: Value({"a": ["x" * 99]}).set(["a", 0], "y" * 99),
            lambda: Value({"a": ["x" * 99]}).set(["a", 0, 0], "y" * 99),
            lambda: Value({"a": ["x" * 99]}).set(["a", 5], "y" * 99),
            lambda: Value({"a": ["x" * 99]}).part(["a", "b"]), lambda: Value({"a" * 99: 1}).keys(),
            lambda: Value({"a": ["x" * 99]}).items(), lambda: Value({"a": ["x" * 99]}).clear(),
            lambda: Value({"a": ["x" * 99]}).pop("a"), lambda: Value({"a": ["x" * 99]})["a"][:],
            lambda: pickle.loads(pickle.dumps([List(range(99)), Texts(["x" * 99])])),
            lambda: pickle.loads(pickle.dumps([Value({"a": ["x" * 99]}), Text("x" * 99)])),
        )
        rounds = max(1000, EDITS // 10)
        for number, call in enumerate(calls):
            for _ in range(50):
                outcome(call)
            gc.collect()
            blocks, size = held()
            nones = sys.getrefcount(None)
            for _ in range(rounds):
                outcome(call)
            gc.collect()
            more_blocks, more_size = held()
            self.assertLess(sys.getrefcount(None) - nones, rounds // 2, f"call {number}")
            # What leaks takes a block, or 16 bytes or more, each round.
            self.assertLess(more_blocks - blocks, rounds // 2, f"call {number}")
            self.assertLess(more_size - size, 8 * rounds, f"call {number}")

    def test_shared(self):
        """Copies and views of a large value take no memory of its size."""
        for value in (List(range(MIB // 8)), Bytes(bytes(MIB)), Text("a" * MIB), Value("a" * MIB),
                      Texts(["a" * 999] * 1000), Array("d", bytes(MIB)), Array("b", bytes(MIB))):
            before = resident()
            kept = [value.copy() for _ in range(200)]
            if isinstance(value, (List, Array, Bytes)):
                kept += [memoryview(value) for _ in range(200)]
            self.assertLess(resident() - before, 10 * MIB)
            self.assertEqual(list(kept[-1]) if isinstance(value, Array) else kept[-1],
                             list(value) if isinstance(value, Array) else value)
        # Nor does writing in place.
        value = Array("d", bytes(64 * MIB))
        before = resident()
        with value.edit() as view:
            view[5] = 1.5
        self.assertLess(resident() - before, 10 * MIB)
        self.assertEqual(value[5], 1.5)


REFUSED = """
import resource
from ecow import Array, Bytes, List, Text, Texts, Value

reals = Array("d", range(9))
numbers, data, text = List(range(9)), Bytes(b"sixteen letters!"), Text("sixteen letters!")
texts, value = Texts(["a"]), Value([1])
shared = numbers.copy(), data.copy(), text.copy(), reals.copy()
large = Array("d", bytes(2**27))
kept = large.copy()
resource.setrlimit(resource.RLIMIT_AS, (2**28, resource.RLIM_INFINITY))
refused = 0
for call in (
    lambda: numbers.reserve(2**27), lambda: data.reserve(2**30), lambda: text.reserve(2**30),
    lambda: texts.reserve(2**26), lambda: numbers * 2**26, lambda: data * 2**27,
    lambda: text * 2**27, lambda: texts * 2**26, lambda: numbers.__imul__(2**26),
    lambda: reals.reserve(2**27), lambda: reals * 2**26, lambda: reals.__imul__(2**26),
    lambda: large.edit(), lambda: large.append(1), lambda: large.frombytes(kept),
    lambda: data.__imul__(2**27), lambda: text.__imul__(2**27), lambda: texts.__imul__(2**26),
):
    try:
        call()
    except MemoryError:
        refused += 1
resource.setrlimit(resource.RLIMIT_AS, (resource.RLIM_INFINITY, resource.RLIM_INFINITY))
assert refused == 18, refused
assert reals == list(range(9)) == list(shared[3]) and len(large) == len(kept) == 2**24
with reals.edit() as view:
    view[0] = 0.0
assert numbers == list(range(9)) == list(shared[0])
assert data == b"sixteen letters!" == shared[1] and text == "sixteen letters!" == shared[2]
assert texts == ["a"] and value == [1]
for each in (numbers, data, texts, value, reals, large):
    each.append(97 if each is not texts else "b")
print("refused")
"""


class Refused(unittest.TestCase):
    def test_refused(self):
        """Where memory is refused, a MemoryError is raised and the value is as it was."""
        ran = subprocess.run([sys.executable, "-c", REFUSED], capture_output=True, text=True,
                             env={**os.environ, "PYTHONPATH": os.pathsep.join(sys.path)})
        self.assertEqual((ran.stdout, ran.stderr), ("refused\n", ""))

    @unittest.skipUnless(mallinfo, "this C library isn't glibc")
    def test_each_request(self):
        """The same of each request of each call, as `refusals.py` says."""
        here = os.path.dirname(os.path.abspath(__file__))
        with tempfile.TemporaryDirectory() as folder:
            library = os.path.join(folder, "refuse.so")
            compiler = shlex.split(os.environ.get("CC") or "cc")
            command = [*compiler, "-O2", "-shared", "-fPIC", "-fno-builtin", "refuse.c"]
            subprocess.run([*command, "-o", library], cwd=here, check=True)
            path = os.pathsep.join([here, *sys.path])
            ran = subprocess.run([sys.executable, os.path.join(here, "refusals.py")],
                                 capture_output=True, text=True,
                                 env={**os.environ, "PYTHONPATH": path, "LD_PRELOAD": library,
                                      "PYTHONMALLOC": "malloc"})
        self.assertEqual((ran.stdout, ran.stderr), ("refused\n", ""))


SMALL_STACKS = """
import copy, pickle, threading
from ecow import Value

def build(wrap):
    value = Value(1)
    for _ in range(511):
        value = Value(wrap(value))
    return value

def plain(wrap):
    thing = 1
    for _ in range(511):
        thing = wrap(thing)
    return thing

def work():
    for wrap in (lambda each: [each], lambda each: {"a": each}):
        value, other, thing = build(wrap), build(wrap), plain(wrap)
        key = 0 if value.kind == "list" else "a"
        assert value == other and not value != other and value == thing and thing == value
        assert Value([value])[0] == value and hash(value[key]) == hash(other[key])
        assert Value(thing) == value and value.to_python() == thing and len(repr(value)) > 1000
        assert 5 not in Value([value]) and value in Value([other])
        other.set([key] * 511, 2)
        assert other != value and other[tuple([key] * 511)] == 2
        other.pop([key] * 511)
        assert pickle.loads(pickle.dumps(value)) == copy.deepcopy(value) == value
        for wrong in (lambda: Value([[value]]), lambda: Value(plain(wrap) and [[thing]])):
            try:
                wrong()
            except RecursionError:
                continue
            raise AssertionError
        del value, other
    done.append(1)

done = []
threading.stack_size(128 * 1024)
thread = threading.Thread(target=work)
thread.start()
thread.join()
print("done" if done else "failed")
"""


class Threads(unittest.TestCase):
    def test_copies(self):
        """Threads change copies of the same values, and none sees what another wrote."""
        numbers, text = List(range(100)), Text("a text that spills")
        value, reals, wrong = Value({"a": [1, 2]}), Array("d", range(100)), []

        def churn(number, numbers, text, value, reals):
            for at in range(max(100, EDITS // 20)):
                other, longer, deep = numbers.copy(), text.copy(), value.copy()
                halves = reals.copy()
                with halves.edit() as view:
                    view[0] = at / 2
                other[0] = at
                other.append(number)
                longer.append("!")
                deep.set(["a", 0], number)
                if (halves != [at / 2, *range(1, 100)] or reals != list(range(100))
                        or other != [at, *range(1, 100), number] or numbers != list(range(100))
                        or longer != "a text that spills!" or text != "a text that spills"
                        or deep != {"a": [number, 2]} or value != {"a": [1, 2]}):
                    wrong.append(number)

        running = [
            threading.Thread(
                target=churn,
                args=(number, numbers.copy(), text.copy(), value.copy(), reals.copy()))
            for number in range(8)
        ]
        for each in running:
            each.start()
        del numbers, text, value, reals
        for each in running:
            each.join()
        self.assertEqual(wrong, [])

    def test_small_stacks(self):
        """The deepest values fit on the stack of a thread of 128 KiB, whatever is done with them.
        In a process of its own, so that one that doesn't ends that."""
        ran = subprocess.run([sys.executable, "-c", SMALL_STACKS], capture_output=True, text=True,
                             env={**os.environ, "PYTHONPATH": os.pathsep.join(sys.path)})
        self.assertEqual((ran.returncode, ran.stdout, ran.stderr), (0, "done\n", ""))

    def test_one_value(self):
        """Under the interpreter's lock threads may even use one value."""
        numbers = List()

        def fill():
            for at in range(2000):
                numbers.append(at)

        running = [threading.Thread(target=fill) for _ in range(8)]
        for each in running:
            each.start()
        for each in running:
            each.join()
        self.assertEqual(sorted(numbers), sorted(list(range(2000)) * 8))


class Modules(unittest.TestCase):
    def test_two_modules(self):
        """A second copy of the module has types of its own, and values of both may meet."""
        import importlib.util

        from ecow import _core

        spec = importlib.util.spec_from_file_location("ecow._core", _core.__file__)
        other = importlib.util.module_from_spec(spec)
        spec.loader.exec_module(other)
        self.assertIsNot(other.List, List)
        theirs, ours = other.List([1, 2]), List([1, 2])
        self.assertNotEqual(theirs, ours)
        self.assertEqual(List(theirs), ours)
        self.assertIs(outcome(lambda: ours + theirs), TypeError)
        reals = other.Array("d", [1.5])
        self.assertEqual(Array("d", reals), [1.5])
        self.assertNotEqual(reals, Array("d", [1.5]))
        self.assertIs(outcome(lambda: Array("d") + reals), TypeError)
        ours = Array("d", reals)
        with reals.edit() as view, ours.edit() as second:
            view[0], second[0] = 1, 2
        self.assertEqual((list(reals), list(ours)), ([1], [2]))
        self.assertEqual(other.Bytes(b"a"), Bytes(b"a"))
        self.assertIs(outcome(lambda: Text(other.Text("a"))), TypeError)


if __name__ == "__main__":
    unittest.main()
