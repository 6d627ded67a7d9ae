"""`List` beside `list`, `Array` beside `list` and `array.array`, `Bytes` beside `bytearray`, `Texts`
beside a list of `str`."""

import array
import functools
import itertools
import math
import operator
import struct
import time
import unittest

from ecow import Array, Bytes, LentText, List, Text, Texts, Value
from harness import EDITS, ENDS, LENGTHS, Pool, done, draws, list_edits, number, outcome, plain

WORDS = ("", "a", "fifteen letters", "sixteen letters!", "\u00e9", "\u20ac" * 5, "\U0001f331" * 400)


class Differential(unittest.TestCase):
    def edit(self, kind, model, item, others, name="", edits=EDITS):
        """Random edits of a kind of value and of its model. `others` are calls of one kind."""
        draw = draws(name or kind.__name__)

        def made():
            items = [item(draw) for _ in range(draw.choice(LENGTHS))]
            return [kind(items), model(items)]

        pool = Pool(self, draw, made)
        for edit in range(edits):
            pair = pool.pick()
            span = len(pair[1]) + 4
            index, other = draw.randint(-span, span), draw.randint(-span, span)
            times = draw.randrange(4)
            one, few = item(draw), [item(draw) for _ in range(draw.randrange(6))]
            source = draw.choice((few, kind(few), model(few), (each for each in few)))
            step = draw.choice((None, None, 1, -1, 2, -2, 3, -7))
            part = slice(draw.choice((None, index)), draw.choice((None, other)), step)
            fitting = [item(draw) for _ in range(*part.indices(len(pair[1])))]
            if hasattr(source, "send"):
                source = (lambda few: lambda: (each for each in few))(few)
            else:
                source = (lambda source: lambda: source)(source)
            if model is bytearray and step not in (None, 1) and not few:
                # A bytearray takes the items out then; a list raises an error.
                few = [one] * (len(fitting) + 1)
            call = draw.choice((
                *list_edits(index, other, part, one, few, fitting, times),
                lambda each: each.append(one),
                lambda each: each.extend(source()),
                lambda each: done(each.__iadd__(model(few))),
                lambda each: each[index],
                lambda each: each[part],
                lambda each: each[:] + model(few),
                lambda each: each * times,
                lambda each: times * each,
                lambda each: one in each,
                lambda each: each.index(one),
                lambda each: each.index(one, index),
                lambda each: each.index(one, index, other),
                lambda each: each.count(one),
                lambda each: list(reversed(each)),
                lambda each: list(each),
                lambda each: len(each),
                lambda each: bool(each),
                lambda each: each == model(few),
                lambda each: model(few) <= each,
                lambda each: each < model(few),
                *others(draw, index, other, one, few),
            ))
            value, twin = pair
            self.assertEqual(outcome(lambda: call(value)), outcome(lambda: call(twin)))
            self.assertEqual(plain(value), plain(twin))
            if edit % 40 == 0:
                pool.check()
                value.reserve(draw.randrange(3000))
                length = draw.randrange(len(twin) + 9)
                value.truncate(length)
                del twin[length:]
                self.assertEqual(value, twin)
                self.assertEqual(value, kind(twin))
                self.assertEqual(value.hash(), kind(twin).hash())
            if len(twin) > 2500 or draw.random() < 0.002:
                value.clear()
                twin.clear()
        pool.check()

    def test_list(self):
        self.edit(
            List, list,
            lambda draw: draw.choice((draw.randint(-3, 3), draw.randint(-(2**63), 2**63 - 1))),
            lambda draw, index, other, one, few: (
                lambda each: each.sort(),
                lambda each: each.sort(key=abs, reverse=True),
                lambda each: done(each.__iadd__(tuple(few))),
            ),
        )

    def test_array(self):
        for code in ENDS:
            self.edit(
                functools.partial(Array, code), list, lambda draw: number(draw, code),
                lambda draw, index, other, one, few: (
                    lambda each: each.sort(),
                    lambda each: each.sort(key=abs, reverse=True),
                    lambda each: done(each.__iadd__(tuple(few))),
                    lambda each: each.extend(array.array(code, few)),
                    lambda each: done(each.__iadd__(Array(code, few))),
                    lambda each: each.__setitem__(slice(index, other), memoryview(Array(code, few))),
                ),
                code, EDITS // 4,
            )

    def test_beside_array(self):
        """The same calls on an `array.array`, with arrays of each as arguments."""
        for code in ENDS:
            draw = draws(f"beside {code}")
            for _ in range(max(3, EDITS // 300)):
                items = [number(draw, code) for _ in range(draw.choice((0, 3, 16, 1025)))]
                both = Array(code, items), array.array(code, items)
                for _ in range(30):
                    span = len(both[1]) + 4
                    index, other = draw.randint(-span, span), draw.randint(-span, span)
                    # An `array.array` loses the items of a slice with a step that is given none.
                    one, few = number(draw, code), [number(draw, code) for _ in range(draw.randrange(1, 6))]
                    part = slice(index, other, draw.choice((None, 2, -1, -3)))
                    call = draw.choice((
                        *list_edits(index, other, part, one, (), (), draw.randrange(4))[:9],
                        lambda each: each.__delitem__(part),
                        lambda each: each.__setitem__(part, type(each)(code, few)),
                        lambda each: each.__setitem__(part, each[part]),
                        lambda each: done(each.__iadd__(type(each)(code, few))),
                        lambda each: each.extend(type(each)(code, few)),
                        lambda each: each + type(each)(code, few), lambda each: each * 2,
                        lambda each: each[part], lambda each: each[index], lambda each: one in each,
                        lambda each: each.index(one, index, other), lambda each: each.count(one),
                        lambda each: each.tobytes(), lambda each: each.tolist(), lambda each: len(each),
                        lambda each: each.frombytes(type(each)(code, few).tobytes()),
                        lambda each: each == type(each)(code, few), lambda each: bytes(each),
                        lambda each: each < type(each)("b", [1]), lambda each: each.typecode,
                        lambda each: each >= type(each)("d", [0.5]), lambda each: each.itemsize,
                        lambda each: each.frombytes(b"123"), lambda each: each + type(each)("b"),
                        lambda each: each.extend(type(each)("bB"[code == "b"], [1])),
                        lambda each: type(each)(code, each), lambda each: memoryview(each).tolist(),
                        lambda each: memoryview(each).format, lambda each: sum(each),
                    ))
                    self.assertEqual(outcome(lambda: call(both[0])), outcome(lambda: call(both[1])), code)
                    self.assertEqual(both[0].tobytes(), both[1].tobytes())

    def test_bytes(self):
        self.edit(
            Bytes, bytearray,
            lambda draw: draw.choice((0, 1, 97, 255, draw.randrange(256))),
            lambda draw, index, other, one, few: (
                lambda each: each.find(bytes(few), index, other),
                lambda each: each.rfind(bytes(few[:2]), index),
                lambda each: each.rindex(bytes(few[:1])),
                lambda each: each.count(bytes(few[:1]), index, other),
                lambda each: each.startswith(bytes(few), index),
                lambda each: each.endswith((b"\x01", bytes(few)), None, other),
                lambda each: each.replace(bytes(few[:1]), b"ab"),
                lambda each: each.split(bytes(few[:2]) or None),
                lambda each: bytes(few) in each,
                lambda each: each.hex(),
                lambda each: each.decode("latin1"),
                lambda each: bytes(each),
            ),
        )

    def test_texts(self):
        self.edit(
            Texts, list,
            lambda draw: draw.choice(WORDS),
            lambda draw, index, other, one, few: (
                lambda each: each.sort(),
                lambda each: each.sort(key=len, reverse=True),
                lambda each: Text(one) in each,
                lambda each: each.append(Text(one)),
            ),
        )


class Lists(unittest.TestCase):
    def test_limits(self):
        """Indices and lengths past what the library takes mean what they do in Python."""
        far = 2**70
        value = List([1, 2])
        value.insert(far, 3)
        value.insert(-far, 0)
        value.truncate(far)
        self.assertEqual(value, [0, 1, 2, 3])
        self.assertEqual(value[-far:far], [0, 1, 2, 3])
        for index in (far, -far, 4, -5):
            self.assertIs(outcome(lambda: value[index]), IndexError)
            self.assertIs(outcome(lambda: value.pop(index)), IndexError)
            self.assertIs(outcome(lambda: value.__setitem__(index, 1)), IndexError)
            self.assertIs(outcome(lambda: value.__delitem__(index)), IndexError)
        self.assertIs(outcome(lambda: value.reserve(2**63 - 1)), OverflowError)
        self.assertIs(outcome(lambda: value.reserve(2**60)), MemoryError)
        self.assertIs(outcome(lambda: value.reserve(-1)), ValueError)
        self.assertIs(outcome(lambda: value.truncate(-1)), ValueError)
        self.assertIs(outcome(lambda: value * 2**61), MemoryError)
        self.assertIs(outcome(lambda: value * 2**63), OverflowError)
        self.assertIs(outcome(lambda: value.__imul__(2**61)), MemoryError)
        self.assertIs(outcome(lambda: List().pop()), IndexError)
        self.assertEqual(value, [0, 1, 2, 3])
        self.assertEqual(value * 0, [])
        self.assertEqual(value * -3, [])

    def test_numbers(self):
        """A number past 64 bits is refused, wherever it stands, and nothing changes."""
        ends = [-(2**63), -1, 0, 2**63 - 1]
        value = List(ends)
        self.assertEqual(list(value), ends)
        for number in (2**63, -(2**63) - 1, 2**64, 10**30):
            for call in (
                lambda: value.append(number),
                lambda: value.insert(0, number),
                lambda: value.extend([1, number]),
                lambda: value.extend(each for each in (1, number)),
                lambda: value.__setitem__(0, number),
                lambda: value.__setitem__(slice(1, 2), [number]),
                lambda: value.__iadd__([number]),
                lambda: List([number]),
            ):
                self.assertIs(outcome(call), OverflowError)
            self.assertNotIn(number, value)
            self.assertEqual(value.count(number), 0)
        for other in ("1", 1.0, None, [1]):
            for call in (
                lambda: value.append(other),
                lambda: value.insert(0, other),
                lambda: value.extend([1, other]),
                lambda: value.__setitem__(0, other),
            ):
                self.assertIs(outcome(call), TypeError)
        self.assertEqual(list(value), ends)

    def test_equal_numbers(self):
        """What equals a number counts as it, as in a list."""
        value = List([0, 1, 2])
        self.assertIn(1.0, value)
        self.assertIn(True, value)
        self.assertNotIn(1.5, value)
        self.assertNotIn("1", value)
        self.assertEqual(value.index(2.0), 2)
        self.assertEqual(value.count(True), 1)
        self.assertEqual(value, [False, 1.0, 2])
        self.assertEqual([0, 1, 2], value)
        self.assertNotEqual(value, (0, 1, 2))
        self.assertNotEqual(value, [0, 1, 2, 3])
        self.assertNotEqual(value, ["0", 1, 2])
        self.assertLess(value, [0, 1, 2.5])
        self.assertGreater([1], value)
        self.assertIs(outcome(lambda: value < (1,)), TypeError)
        self.assertIs(outcome(lambda: value < Bytes()), TypeError)
        self.assertNotEqual(List([97]), Bytes(b"a"))

        class Refusing:
            def __eq__(self, other):
                raise ZeroDivisionError

        for each in (value, Texts(["a"]), Value([1])):
            self.assertIs(outcome(lambda: each.index(Refusing())), ZeroDivisionError)

    def test_iteration_while_changing(self):
        value = List([1, 2])
        for number in value:
            if len(value) < 1000:
                value.append(number)
        self.assertEqual(value, [1, 2] * 500)
        steps = iter(value)
        next(steps)
        value.clear()
        self.assertEqual(list(steps), [])
        value.append(1)
        self.assertEqual(list(steps), [])
        back = reversed(List([1, 2, 3]))
        self.assertEqual(list(back), [3, 2, 1])

    def test_code_that_changes_the_value(self):
        """A call that runs a caller's code uses the value as that leaves it."""
        value = List(range(100))

        class Shrinks:
            def __index__(self):
                value.clear()
                return 3

        for call in (
            lambda: value[Shrinks()],
            lambda: value.__setitem__(Shrinks(), 1),
            lambda: value.__setitem__(3, Shrinks()),
            lambda: value.__delitem__(Shrinks()),
            lambda: value.pop(Shrinks()),
        ):
            value = List(range(100))
            self.assertIs(outcome(call), IndexError)
            self.assertEqual(value, [])
        value = List(range(100))
        self.assertEqual(value[Shrinks():], [])
        value = List(range(100))
        value.insert(50, Shrinks())
        self.assertEqual(value, [3])

        class Equal:
            def __eq__(self, other):
                value.clear()
                return False

        value = List(range(100))
        self.assertNotIn(Equal(), value)
        value = List(range(100))
        self.assertIs(value == [Equal()] * 100, False)
        value = List([1, 2])
        value.extend(value.pop() for _ in range(2))
        self.assertEqual(value, [2, 1])

        def key(number):
            value.append(9)
            return -number

        value = List([1, 3, 2])
        value.sort(key=key)
        self.assertEqual(value, [3, 2, 1])

    def test_sources(self):
        import array

        self.assertEqual(List(b"ab"), [97, 98])
        self.assertEqual(List(array.array("q", [1, -2])), [1, -2])
        self.assertEqual(List(array.array("i", [1, -2])), [1, -2])
        self.assertEqual(List(array.array("l", [1, -2])), [1, -2])
        self.assertIs(outcome(lambda: List(array.array("d", [1.0]))), TypeError)
        self.assertIs(outcome(lambda: List(array.array("Q", [2**63]))), OverflowError)
        self.assertEqual(List(memoryview(array.array("q", range(9)))[::2]), [0, 2, 4, 6, 8])
        self.assertEqual(List(memoryview(List([5, 6]))), [5, 6])
        self.assertEqual(List({1: 2}), [1])
        self.assertIs(outcome(lambda: List(5)), TypeError)
        self.assertIs(outcome(lambda: List([1], [2])), TypeError)
        self.assertIs(outcome(lambda: List(numbers=[1])), TypeError)
        value = List([1, 2])
        value.__init__([3])
        self.assertEqual(value, [3])
        value.__init__(value)
        self.assertEqual(value, [3])
        value.__init__()
        self.assertEqual(value, [])

    def test_plus(self):
        value = List([1])
        self.assertIs(type(value + [2]), List)
        self.assertEqual(value + [2], [1, 2])
        self.assertEqual([2] + value, [2, 1])
        self.assertEqual(value + value, [1, 1])
        kept = value
        value += (2, 3)
        self.assertIs(kept, value)
        self.assertEqual(kept, [1, 2, 3])
        kept *= 2
        self.assertEqual(value, [1, 2, 3, 1, 2, 3])
        for other in ((1,), 1, "1", Bytes(b"1"), Texts(["1"])):
            self.assertIs(outcome(lambda: value + other), TypeError)
            self.assertIs(outcome(lambda: other + value), TypeError)

    def test_names(self):
        self.assertEqual(repr(List([1, -2])), "List([1, -2])")
        self.assertIsNone(List.__hash__)
        self.assertIs(outcome(lambda: hash(List())), TypeError)
        # What the hasher of Rust's standard library gives for the same.
        self.assertEqual(List([1, 2, 3]).hash(), 1561758979349565031)
        match List([1, 2]):
            case [first, second]:
                self.assertEqual((first, second), (1, 2))
            case _:
                self.fail("a List is matched as a sequence")


class Arrays(unittest.TestCase):
    def test_numbers(self):
        """A number that an item doesn't have is refused, wherever it stands, and nothing changes."""
        for code, ends in ENDS.items():
            value = Array(code, ends)
            self.assertEqual(list(value), list(ends))
            self.assertEqual(value.tobytes(), struct.pack(f"@2{code}", *ends))
            self.assertEqual((value.typecode, value.itemsize), (code, struct.calcsize(code)))
            self.assertEqual(repr(value), f"Array('{code}', [{ends[0]!r}, {ends[1]!r}])")
            over = (10**400, -(10**400)) if code in "fd" else (ends[0] - 1, ends[1] + 1, 2**64, -(2**64))
            wrong = [(one, OverflowError) for one in over]
            wrong += [(one, TypeError) for one in ("1", None, [1], 1j, b"1")]
            wrong += [] if code in "fd" else [(1.0, TypeError)]
            for one, error in wrong:
                for call in (
                    lambda: value.append(one), lambda: value.insert(0, one),
                    lambda: value.extend([1, one]), lambda: value.extend(each for each in (1, one)),
                    lambda: value.__setitem__(0, one), lambda: value.__setitem__(slice(1, 2), [one]),
                    lambda: value.__setitem__(slice(0, 2, 2), [one]), lambda: value.__iadd__([1, one]),
                    lambda: value + [one], lambda: [one] + value, lambda: Array(code, [one]),
                ):
                    self.assertIs(outcome(call), error, (code, one))
                self.assertNotIn(one, value)
                self.assertEqual(value.count(one), 0)
                self.assertEqual(list(value), list(ends))

    def test_conversions(self):
        """A type is made of items as `array.array` makes it, which rounds floats of 32 bits."""
        class Real:
            def __float__(self):
                return 0.1

        class Index:
            def __index__(self):
                return 5

        self.assertEqual(Array("d", [True, 2, Real(), Index()]), [1.0, 2.0, 0.1, 5.0])
        self.assertEqual(Array("f", [0.1, 1e300, -1e300])[:], list(array.array("f", [0.1, 1e300, -1e300])))
        self.assertNotIn(0.1, Array("f", [0.1]))
        for code in "bBhHiIlLqQ":
            self.assertEqual(Array(code, [True, Index()]), [1, 5])
        for one, other in itertools.product(ENDS, ENDS):
            items = [0, 1, 127]
            if one in "fd" and other not in "fd":
                self.assertIs(outcome(lambda: Array(other, Array(one, items))), TypeError)
                self.assertIs(outcome(lambda: Array(other, array.array(one, items))), TypeError)
            else:
                made = Array(other, Array(one, items))
                self.assertEqual((made.typecode, list(made)), (other, items))
                self.assertEqual(list(Array(other, array.array(one, items))), items)
                self.assertEqual([type(each) for each in made], [float if other in "fd" else int] * 3)
            extended = Array(other, [1])
            self.assertIs(outcome(lambda: extended.extend(Array(one, items))),
                          None if one == other else TypeError)
            self.assertIs(outcome(lambda: extended.__setitem__(slice(0, 0), Array(one, []))),
                          None if one == other else TypeError)
            self.assertIs(outcome(lambda: extended + Array(one, items)) is TypeError, one != other)
            self.assertEqual(extended, [1, *items] if one == other else [1])
            self.assertEqual(Array(one, items), Array(other, items))
            self.assertNotEqual(Array(one, items), Array(other, items[:2]))
            self.assertLess(Array(one, items), Array(other, [0, 2]))
            self.assertEqual(Array(one, items).hash() == Array(other, items).hash(),
                             array.array(one, items).tobytes() == array.array(other, items).tobytes())
        self.assertIs(outcome(lambda: Array("b", Array("i", [128]))), OverflowError)

    def test_not_a_number(self):
        nan = math.nan
        for code in "fd":
            value = Array(code, [nan, 1.0])
            self.assertNotEqual(value, value)
            self.assertIs(value == value.copy(), False)
            self.assertIs(value != value.copy(), True)
            self.assertNotIn(nan, value)
            self.assertEqual(value.count(nan), 0)
            for compare in (operator.lt, operator.le, operator.gt, operator.ge):
                plain_one = array.array(code, [nan])
                self.assertIs(compare(value, value), compare(plain_one, plain_one[:]))
            self.assertTrue(math.isnan(value[0]))
            self.assertEqual(Array(code, [0.0]), Array(code, [-0.0]))
            self.assertEqual(str(Array(code, [-0.0])[0]), "-0.0")
            self.assertEqual(value.hash(), value.copy().hash())

    def test_made(self):
        """The type is given once, and bytes are those that items have in memory."""
        for call in (lambda: Array(), lambda: Array(5), lambda: Array(None), lambda: Array(b"d"),
                     lambda: Array("d", 5), lambda: Array("d", [1], [2]), lambda: Array("d", items=[1]),
                     lambda: Array([1.0]), lambda: Array(Array("d"), Array("d")), lambda: Array("d", ["x"])):
            self.assertIs(outcome(call), TypeError)
        for code in ("", "u", "w", "x", "dd", "D", "@d", "c", "?", "n", "e"):
            self.assertIs(outcome(lambda: Array(code)), ValueError)
            self.assertIs(outcome(lambda: Array(code, [1])), ValueError)
        self.assertEqual(Array("h", struct.pack("@3h", 1, -2, 3)), [1, -2, 3])
        self.assertEqual(Array("h", bytearray(struct.pack("@h", 7))), [7])
        self.assertEqual(Array("h", memoryview(b"ab")), [97, 98])
        self.assertEqual(Array("d", Bytes(b"ab")), [97, 98])
        self.assertIs(outcome(lambda: Array("h", b"123")), ValueError)
        value = Array("h", [1])
        for data in (b"1", b"123", bytearray(b"1")):
            self.assertIs(outcome(lambda: value.frombytes(data)), ValueError)
        for data in (5, "ab", [1], None):
            self.assertIs(outcome(lambda: value.frombytes(data)), TypeError)
        value.frombytes(memoryview(struct.pack("@2h", 2, 3)))
        value.frombytes(value)
        value.frombytes(b"")
        self.assertEqual(value, [1, 2, 3] * 2)
        for arguments in (("h",), ("d",), ("h", [5]), (value,), (Array("d"),)):
            self.assertIs(outcome(lambda: value.__init__(*arguments)), ValueError)
        self.assertEqual((value.typecode, list(value)), ("h", [1, 2, 3] * 2))
        with self.assertRaises(AttributeError):
            value.typecode = "d"
        # Without an `__init__` there is no type, and so no item.
        bare = Array.__new__(Array)
        self.assertEqual((bare.typecode, bare.itemsize, len(bare), list(bare)), (None, 0, 0, []))
        for call in (lambda: bare.append(1), lambda: bare.extend([1]), lambda: bare.reserve(5),
                     lambda: bare.insert(0, 1), lambda: bare.edit(), lambda: bare + [1],
                     lambda: bare.__setitem__(slice(0, 0), [1]), lambda: bare.__setitem__(0, 1),
                     lambda: bare.extend(Array("d", [1])), lambda: Array("d").extend(bare)):
            self.assertIs(outcome(call), TypeError)
        self.assertIs(outcome(lambda: bare.pop()), IndexError)
        self.assertEqual(repr(bare), "Array(None, [])")
        self.assertEqual(memoryview(bare).tolist(), [])
        bare.__init__("i", [1])
        self.assertEqual(bare, [1])

        class Late:
            def __index__(self):
                late.__init__("b", [1, 2, 3])
                return 0

        late = Array.__new__(Array)
        for call in (lambda: late.append(Late()), lambda: late[Late()], lambda: late.insert(Late(), 9)):
            late = Array.__new__(Array)
            outcome(call)
            self.assertIn(list(late), ([], [1, 2, 3], [9, 1, 2, 3]))

    def test_code_that_changes_the_value(self):
        """A call that runs a caller's code uses the value as that leaves it."""
        class Shrinks:
            def __index__(self):
                value.clear()
                return 3

            def __float__(self):
                value.clear()
                return 3.0

        for code in ENDS:
            for call in (
                lambda: value[Shrinks()], lambda: value.__setitem__(Shrinks(), 1),
                lambda: value.__setitem__(3, Shrinks()), lambda: value.__delitem__(Shrinks()),
                lambda: value.pop(Shrinks()),
            ):
                value = Array(code, range(100))
                self.assertIs(outcome(call), IndexError)
                self.assertEqual(value, [])
            value = Array(code, range(100))
            self.assertEqual(value[Shrinks():], [])
            value = Array(code, range(100))
            value.insert(50, Shrinks())
            self.assertEqual(value, [3])
            value = Array(code, range(100))
            value.extend([1, Shrinks()])
            self.assertEqual(value, [1, 3])

    def test_sources(self):
        """What has the same items in one run is copied; all else is read one by one."""
        for code in ENDS:
            items = [0, 1, 2, 3, 4, 5]
            view = memoryview(array.array(code, items))
            for source in (view, view[1:], view[::2], view[::-1], view.cast("B"), tuple(items), iter(items),
                           dict.fromkeys(items), List(items), memoryview(List(items)), range(6)):
                wanted = items if hasattr(source, "__next__") else list(source)
                self.assertEqual(Array(code, source), wanted)
        self.assertEqual(Array("d", memoryview(array.array("d", [1.5, 2.5])).cast("B").cast("d")), [1.5, 2.5])
        self.assertIs(outcome(lambda: Array("i", array.array("d", [1.5]))), TypeError)
        square = memoryview(array.array("q", [1, 2, 3, 4])).cast("B").cast("q", [2, 2])
        for make in (List, functools.partial(Array, "q")):
            self.assertIs(outcome(lambda: make(square)), NotImplementedError)
        self.assertIs(outcome(lambda: Array("q", array.array("Q", [2**63]))), OverflowError)
        self.assertEqual(Array("Q", array.array("Q", [2**63])), [2**63])
        self.assertEqual(List(Array("q", [2**63 - 1, -1])), [2**63 - 1, -1])
        self.assertEqual(List(Array("b", [1, -1])), [1, -1])
        self.assertIs(outcome(lambda: List(Array("d", [1.0]))), TypeError)
        self.assertEqual(Value(Array("d", [1.5, 2])), [1.5, 2.0])
        self.assertEqual(Value([1.5, 2]), Array("d", [1.5, 2]))
        self.assertNotEqual(Value([1.5, 2]), Array("d", [1.5, 3]))

    def test_plus(self):
        value = Array("d", [1.5])
        self.assertIs(type(value + [2]), Array)
        self.assertEqual(repr(value + [2]), "Array('d', [1.5, 2.0])")
        self.assertEqual(repr([2] + value), "Array('d', [2.0, 1.5])")
        self.assertEqual(repr([2] + Array("d")), "Array('d', [2.0])")
        self.assertEqual(repr(Array("d") + Array("d")), "Array('d', [])")
        self.assertEqual(repr(value[5:] * 3), "Array('d', [])")
        self.assertEqual(repr(value * 0), "Array('d', [])")
        kept = value
        value += (2, 3)
        self.assertIs(kept, value)
        value *= 2
        self.assertEqual(kept, [1.5, 2, 3, 1.5, 2, 3])
        del value[::2]
        value.append(0.5)
        self.assertEqual(repr(kept), "Array('d', [2.0, 1.5, 3.0, 0.5])")
        value *= 0
        value.append(7)
        self.assertEqual(repr(kept), "Array('d', [7.0])")
        for other in ((1,), 1, "1", Bytes(b"1"), Texts(["1"]), List([1]), array.array("d", [1])):
            self.assertIs(outcome(lambda: value + other), TypeError)
            self.assertIs(outcome(lambda: other + value), TypeError)
        for other in ((1.5,), Bytes(), Texts(), List(), 1, None):
            self.assertIs(outcome(lambda: value < other), TypeError)
            self.assertNotEqual(value, other)
        self.assertNotEqual(Array("B", b"a"), Bytes(b"a"))
        self.assertNotEqual(Bytes(b"a"), Array("B", b"a"))
        self.assertIsNone(Array.__hash__)
        self.assertIs(outcome(lambda: hash(value)), TypeError)
        # SipHash-1-3 of no bytes but those of the items, whatever their type is.
        self.assertEqual(Array("i", [1, -1]).hash(), Array("B", struct.pack("@2i", 1, -1)).hash())
        self.assertNotEqual(Array("i", [1]).hash(), Array("i", [2]).hash())

    def test_limits(self):
        far = 2**70
        value = Array("i", [1, 2])
        value.insert(far, 3)
        value.insert(-far, 0)
        value.truncate(far)
        self.assertEqual(value[-far:far], [0, 1, 2, 3])
        for index in (far, -far, 4, -5):
            for call in (lambda: value[index], lambda: value.pop(index), lambda: value.__delitem__(index),
                         lambda: value.__setitem__(index, 1)):
                self.assertIs(outcome(call), IndexError)
        for count, error in ((2**63 - 1, OverflowError), (2**61, OverflowError), (2**60, MemoryError),
                             (-1, ValueError)):
            self.assertIs(outcome(lambda: value.reserve(count)), error)
        self.assertIs(outcome(lambda: Array("b").reserve(2**61)), MemoryError)
        self.assertIs(outcome(lambda: value.truncate(-1)), ValueError)
        self.assertIs(outcome(lambda: value * 2**61), MemoryError)
        self.assertIs(outcome(lambda: value.__imul__(2**60)), OverflowError)
        self.assertIs(outcome(lambda: Array("i").pop()), IndexError)
        self.assertEqual(value, [0, 1, 2, 3])


class Orders(unittest.TestCase):
    def test_orders(self):
        """Order, equality and hash are those of the contents, beside each kind's peers too."""
        for kind, models in (
            (List, [[], [-1], [-1, 5], [0], [1], [1, -9], [2**63 - 1]]),
            (functools.partial(Array, "i"), [[], [-1], [-1, 5], [0], [256], [1, -9], [2**31 - 1]]),
            (functools.partial(Array, "H"), [[], [0], [1], [256], [1, 9], [2**16 - 1]]),
            (functools.partial(Array, "d"), [[], [-1.5], [-1.5, 5.0], [0.5], [1e300], [math.inf],
                                             [-math.inf]]),
            (Bytes, [b"", b"\x00", b"a", b"a" * 16, b"b", b"\xff"]),
            (Texts, [[], [""], ["a"], ["a", "b"], ["a" * 16], ["\u20ac"], ["\U0001f331"]]),
        ):
            for left in models:
                for right in models:
                    first, second = kind(left), kind(right)
                    for compare in (operator.eq, operator.ne, operator.lt, operator.le,
                                    operator.gt, operator.ge):
                        self.assertIs(compare(first, second), compare(left, right))
                        self.assertIs(compare(first, right), compare(left, right))
                        self.assertIs(compare(left, second), compare(left, right))
                    self.assertEqual(first.hash() == second.hash(), left == right)

    def test_indices(self):
        """An index is a number or a slice."""
        for value in (List([1]), Array("d", [1]), Bytes(b"a"), Texts(["a"])):
            for key in ("0", 0.0, None, (0,)):
                for call in (
                    lambda: value[key],
                    lambda: value.__setitem__(key, value[0]),
                    lambda: value.__delitem__(key),
                ):
                    self.assertIs(outcome(call), TypeError)

    def test_aliases(self):
        """A value may be an argument of its own call."""
        for size in (1, 15, 16, 40, 1024):
            numbers, data, texts = List(range(size)), Bytes([7] * size), Texts(["a"] * size)
            arrays = [Array(code, [each % 100 for each in range(size)]) for code in ENDS]
            for value in (numbers, data, texts, *arrays):
                model = plain(list(value))
                value.extend(value)
                self.assertEqual(plain(list(value)), model * 2)
                value += value
                self.assertEqual(plain(list(value)), model * 4)
                value[1:2] = value
                self.assertEqual(plain(list(value)), model[:1] + model * 4 + (model * 4)[2:])
                value[:] = value[1:]
                self.assertEqual(plain(list(value)), model * 4 + (model * 4)[2:])
                value[::-1] = value
                self.assertEqual(plain(list(value)), (model * 4 + (model * 4)[2:])[::-1])


class Growth(unittest.TestCase):
    def test_at_once(self):
        """Calls that need one item of a large value don't take time by its length."""
        numbers, data, texts = List(range(10**6)), Bytes(10**6 * b"a"), Texts(["a"] * 10**5)
        reals = Array("d", range(10**6))
        start = time.perf_counter()
        for value, first in ((numbers, 0), (reals, 0.0), (data, 97), (texts, "a")):
            for _ in range(10**4):
                next(iter(value))
                next(reversed(value))
                self.assertIn(first, value)
                value.index(first)
                value.copy()
                value[10:20]
                value.append(first)
                value[5] = value[7]
                value.pop()
                len(value)
                bool(value)
        # It takes a second or two. A call that copies a million numbers each time adds ten.
        self.assertLess(time.perf_counter() - start, 12)


class BytesTests(unittest.TestCase):
    def test_items(self):
        value = Bytes(b"ab")
        for number in (-1, 256, 2**70):
            for call in (
                lambda: value.append(number),
                lambda: value.insert(0, number),
                lambda: value.extend([3, number]),
                lambda: value.__setitem__(0, number),
                lambda: number in value,
                lambda: Bytes([number]),
            ):
                self.assertIs(outcome(call), ValueError)
        for call in (lambda: value.append(1.5), lambda: value.append(b"a"), lambda: Bytes("a"),
                     lambda: Bytes(5), lambda: value + [1], lambda: value + "a"):
            self.assertIs(outcome(call), TypeError)
        self.assertEqual(value, b"ab")

    def test_peers(self):
        import array

        value = Bytes(b"abc")
        self.assertEqual(value, b"abc")
        self.assertEqual(b"abc", value)
        self.assertEqual(bytearray(b"abc"), value)
        self.assertEqual(value, memoryview(b"abc"))
        self.assertNotEqual(value, [97, 98, 99])
        self.assertNotEqual(value, "abc")
        self.assertLess(value, b"abd")
        self.assertGreater(b"abcd", value)
        self.assertEqual(value + b"d", b"abcd")
        self.assertIs(type(value + b"d"), Bytes)
        self.assertEqual(b"d" + value, b"dabc")
        kept = value
        # Bytes that don't stand in one run, and items of more than a byte.
        for view in (memoryview(b"abcdef")[::2], memoryview(b"abcdef")[::-1], memoryview(b"abcdef")[9:],
                     memoryview(array.array("q", [1, 2, 3]))[::2], memoryview(array.array("q", [1]))):
            self.assertEqual(Bytes(view), bytes(view))
            self.assertEqual(Bytes(b"x") + view, b"x" + bytes(view))
            changed, model = Bytes(b"xyz"), bytearray(b"xyz")
            for each in (changed, model):
                each.extend(bytes(view) if each is model else view)
                each[1:2] = view
            self.assertEqual(changed, model)
        released = memoryview(b"abc")
        released.release()
        self.assertIs(outcome(lambda: Bytes(released)), ValueError)
        value += memoryview(b"d")
        self.assertEqual(kept, b"abcd")
        self.assertEqual(Bytes(array.array("H", [1])), array.array("H", [1]).tobytes())
        self.assertEqual(Bytes(b",").join([Bytes(b"a"), b"b"]), b"a,b")
        self.assertEqual(repr(Bytes(b"a\x00")), "Bytes(b'a\\x00')")
        self.assertEqual(Bytes([1, 2, 3]).hash(), 8086395815454877121)
        self.assertIs(outcome(lambda: hash(value)), TypeError)

    def test_methods_of_bytes(self):
        """Each method of `bytearray` is there, but for a few, and gives what `bytes` gives."""
        missing = {name for name in dir(bytearray) if not hasattr(Bytes, name)}
        self.assertEqual(missing, {"__alloc__", "__mod__", "__rmod__", "fromhex", "maketrans"})
        for data in (b"", b"Hello  World\n", b" a,b,,c ", b"\xff\x00 tail", b"x" * 40):
            value = Bytes(data)
            for call in (
                lambda each: each.capitalize(), lambda each: each.center(20, b"*"),
                lambda each: each.expandtabs(), lambda each: each.isalnum(),
                lambda each: each.isalpha(), lambda each: each.isascii(),
                lambda each: each.isdigit(), lambda each: each.islower(),
                lambda each: each.isspace(), lambda each: each.istitle(),
                lambda each: each.isupper(), lambda each: each.ljust(20),
                lambda each: each.lower(), lambda each: each.lstrip(),
                lambda each: each.partition(b","), lambda each: each.removeprefix(b"He"),
                lambda each: each.removesuffix(b"\n"), lambda each: each.replace(b"l", b"LL", 2),
                lambda each: each.rjust(20), lambda each: each.rpartition(b","),
                lambda each: each.rsplit(b",", 1), lambda each: each.rstrip(),
                lambda each: each.split(), lambda each: each.split(sep=b",", maxsplit=1),
                lambda each: each.splitlines(keepends=True), lambda each: each.strip(b" \n"),
                lambda each: each.swapcase(), lambda each: each.title(),
                lambda each: each.translate(None, b"l"), lambda each: each.upper(),
                lambda each: each.zfill(20), lambda each: each.decode("latin1"),
                lambda each: each.hex(":"), lambda each: each.decode(),
                lambda each: each.split(b""), lambda each: each.startswith("a"),
                lambda each: each.endswith(7), lambda each: each.startswith((b"H", "a")),
            ):
                self.assertEqual(outcome(lambda: call(value)), outcome(lambda: call(data)))
            self.assertIs(type(value.upper()), Bytes)
            self.assertTrue(all(type(part) is Bytes for part in value.partition(b",")))


class TextsTests(unittest.TestCase):
    def test_items(self):
        value = Texts(["a", Text("b")])
        self.assertEqual(value, ["a", "b"])
        self.assertEqual([Text("a"), "b"], value)
        self.assertNotEqual(value, ["a", 1])
        self.assertIs(type(value[0]), LentText)
        self.assertIs(type(value[0].copy()), Text)
        for call in (lambda: value.append(1), lambda: value.extend(["c", 1]),
                     lambda: value.__setitem__(0, b"a"), lambda: Texts([None])):
            self.assertIs(outcome(call), TypeError)
        self.assertIs(outcome(lambda: value.append("\ud800")), UnicodeEncodeError)
        self.assertIs(outcome(lambda: value.extend(["c", "\ud800"])), UnicodeEncodeError)
        self.assertEqual(value, ["a", "b"])
        self.assertNotIn("\ud800", value)
        self.assertNotIn(1, value)
        self.assertEqual(Texts("ab"), ["a", "b"])
        self.assertEqual(value + ["c"], ["a", "b", "c"])
        self.assertEqual(["c"] + value, ["c", "a", "b"])
        self.assertEqual(repr(value), "Texts(['a', 'b'])")
        self.assertIs(outcome(lambda: hash(value)), TypeError)

    def test_parts(self):
        """A text that is read or put in shares memory, and no change of it is seen in the list."""
        for word in ("short", "a text that spills"):
            value = Texts([word])
            text = value[0]
            text += "!"
            self.assertEqual(value, [word])
            value.append(text)
            text.clear()
            self.assertEqual(value, [word, word + "!"])
            value[0] += "?"
            self.assertEqual(value, [word + "?", word + "!"])


if __name__ == "__main__":
    unittest.main()
