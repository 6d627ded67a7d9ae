"""Makes each call with each of its requests for memory refused in turn, alone and with three behind it,
and prints what goes wrong.

Runs with the library of `refuse.c` loaded first. A refusal raises a MemoryError and leaves the
value as it was; copies of it stay as they were, whatever comes of the call. Where `pickle` finds no
memory for the name of a function, it raises a PicklingError of its own.
"""

import copy
import ctypes
import itertools
import pickle

from ecow import Array, Bytes, List, Text, Texts, Value
from harness import plain

SHARED = (
    lambda value: value.copy(), lambda value: copy.deepcopy(value),
    lambda value: type(value)(value),
    lambda value: pickle.loads(pickle.dumps(value)), lambda value: repr(value),
)
SEQUENCE = SHARED + (
    lambda value: value.pop(), lambda value: value.pop(3), lambda value: value.extend(value),
    lambda value: value.__delitem__(slice(0, 9, 3)), lambda value: value.__delitem__(2),
    lambda value: value.reverse(), lambda value: value.clear(), lambda value: value.truncate(5),
    lambda value: value.__imul__(9), lambda value: value.reserve(5000), lambda value: value[3:7],
    lambda value: value[::-1], lambda value: value * 3, lambda value: list(value),
)
CALLS = (
    *((make, SEQUENCE + (
        lambda value: value.append(1), lambda value: value.insert(3, 1), lambda value: value.sort(),
        lambda value: value.extend([1] * 300), lambda value: value.extend(range(300)),
        lambda value: value.__setitem__(3, 9),
        lambda value: value.__setitem__(slice(1, 5), [1] * 40),
        lambda value: value.__setitem__(slice(0, 9, 3), [1, 2, 3]), lambda value: value + [1],
        lambda value: value.__iadd__([1] * 200), lambda value: memoryview(value)[2:],
        lambda value: List(range(500)), lambda value: value.remove(value[3]),
        lambda value: value.sort(key=lambda number: -number), lambda value: value.__init__([2**62]),
    )) for make in (lambda: List(range(100)), lambda: List(range(2**60, 2**60 + 40)))),
    *((make, SEQUENCE + (
        lambda value: value.append(1), lambda value: value.insert(3, 1), lambda value: value.sort(),
        lambda value: value.extend([1] * 300), lambda value: value.extend(range(300)),
        lambda value: value.extend(Array(value.typecode, [1] * 300)), lambda value: value.tobytes(),
        lambda value: value.__setitem__(3, 9), lambda value: value.tolist(), lambda value: value == [1],
        lambda value: value.__setitem__(slice(1, 5), [1] * 40), lambda value: value == value[:],
        lambda value: value.__setitem__(slice(0, 9, 3), [1, 2, 3]), lambda value: value + [1],
        lambda value: [1] + value, lambda value: value.remove(value[3]), lambda value: value.index(value[5]),
        lambda value: value.__iadd__([1] * 200), lambda value: memoryview(value)[2:],
        lambda value: Array(value.typecode, range(100)), lambda value: Array("d", value),
        lambda value: Array("d", bytes(800)), lambda value: value.frombytes(bytes(800)),
        lambda value: value.edit(), lambda value: value.edit()[3:], lambda value: value < [1],
        lambda value: value == Array("d", value), lambda value: value[9], lambda value: value.typecode,
    )) for make in (lambda: Array("d", range(100)), lambda: Array("h", range(100)),
                    lambda: Array("Q", range(2**60, 2**60 + 40)))),
    *((make, SEQUENCE + (
        lambda value: value.append(1), lambda value: value.insert(3, 1),
        lambda value: value.upper(),
        lambda value: value.extend(b"x" * 300), lambda value: value.__setitem__(3, 9),
        lambda value: value.__setitem__(slice(1, 5), b"y" * 90), lambda value: value + b"z" * 99,
        lambda value: value.split(b"e"), lambda value: value.replace(b"e", b"xyz"),
        lambda value: value.join([b"a" * 99, b"b"]), lambda value: value.decode(),
        lambda value: Bytes(bytes(99)), lambda value: memoryview(value)[2:],
    )) for make in (lambda: Bytes(b"fifteen letters"), lambda: Bytes(b"sixteen letters!" * 4))),
    *((make, SEQUENCE + (
        lambda value: value.append("x"), lambda value: value.insert(3, "abc"),
        lambda value: str(value),
        lambda value: value.extend(["a" * 50, "b"]), lambda value: value.__setitem__(3, "\u00e9"),
        lambda value: value.__setitem__(slice(1, 5), "y" * 90), lambda value: value + "z" * 99,
        lambda value: "z" * 99 + value, lambda value: value.upper(), lambda value: value.split("e"),
        lambda value: value.replace("e", "xyz"), lambda value: value.join(["a" * 99, "b"]),
        lambda value: value.encode(), lambda value: f"{value:>200}",
        lambda value: value.center(300),
        lambda value: value.partition("x"), lambda value: Text("q" * 99),
    )) for make in (lambda: Text("fifteen letters"), lambda: Text("s\u00e9xteen letters!" * 3))),
    (lambda: Texts(["a text that spills"] * 9 + ["b"]), SEQUENCE + (
        lambda value: value.append("x" * 40), lambda value: value.insert(3, "abc"),
        lambda value: value.extend(["a" * 50, "b"]), lambda value: value.__setitem__(3, "z" * 30),
        lambda value: value.__setitem__(slice(1, 5), ["y" * 90] * 9), lambda value: value.sort(),
        lambda value: value + ["z" * 99], lambda value: value[0], lambda value: value.remove("b"),
        lambda value: value.sort(key=len), lambda value: value.__init__(["y" * 40]),
        lambda value: Texts(["q" * 99] * 5),
    )),
    (lambda: Value([[1, 2], "x" * 40, {"k" * 30: 1}, 4, 2**60, 1.5]), SHARED + (
        lambda value: value.append("z" * 60), lambda value: value.insert(1, ["q" * 60]),
        *(lambda value, index=index: value.pop(index) for index in range(6)),
        lambda value: value.pop(), lambda value: value.extend(value),
        lambda value: value.pop([0, 1]), lambda value: value.pop([2, "k" * 30]),
        lambda value: value.extend(iter([1, "w" * 60, [2**60]] * 9)), lambda value: value.pop(9, 1),
        lambda value: value.__setitem__(0, {"a" * 30: 1}),
        lambda value: value.__delitem__(0), lambda value: value[:], lambda value: value[::-1],
        lambda value: list(value), lambda value: value.clear(), lambda value: value.to_python(),
    )),
    (lambda: Value({"a": [1, {"b": "x" * 60}], "name": "n" * 40, "big": 2**60}), SHARED + (
        lambda value: value.set(["a", 0], [1, 2]), lambda value: value.set(["a", 1, "b"], "y" * 90),
        lambda value: value.set(["a", 1, "new"], {"z": [1] * 9}), lambda value: value.get(["a", 1]),
        lambda value: value.part(["a", 1, "b"]), lambda value: value["a"],
        lambda value: value.pop("a"), lambda value: value.pop("name"), lambda value: value.pop("big"),
        lambda value: value.pop(["a", 1, "b"]), lambda value: value.pop("none", 5),
        lambda value: value.setdefault("new", 2**60), lambda value: value.setdefault("new", ["w" * 60]),
        lambda value: value.setdefault("new", "w" * 60), lambda value: value.setdefault("big"),
        lambda value: value.update({"new": 2**60, "a": ["w" * 60]}, name="v" * 60),
        lambda value: value.update([("new", [1]), ("big", 0), ("newer", "w" * 60)]),
        lambda value: value.__ior__({"new": 2**60, "a": 5}), lambda value: value | {"new": 5},
        lambda value: {"new": 5} | value, lambda value: value.__init__({"a": [1, "w" * 60]}),
        lambda value: value.append("w" * 60, ["a"]), lambda value: value.extend([1, "w" * 60] * 9, "a"),
        lambda value: value.insert(0, [2**60], ["a"]), lambda value: value.sort("a", key=str),
        lambda value: value.update({"c": "w" * 60, "b": 1, "d": [2]}, ["a", 1]),
        lambda value: value.__delitem__("name"), lambda value: value.__delitem__(("a", 1)),
        lambda value: value.__setitem__("q" * 40, "r" * 40),
        lambda value: value.clear(), lambda value: value.items(), lambda value: value.to_python(),
        lambda value: Value([1, {"x": ["y" * 50]}]),
    )),
)

library = ctypes.CDLL(None)
refuse = ctypes.c_long.in_dll(library, "test_refuse")
more, refused = (ctypes.c_int.in_dll(library, name) for name in ("test_more", "test_refused"))


def attempt(make, call, shared, number):
    """One call with a request refused: whether it came to that, and what went wrong."""
    value = make()
    other = value.copy() if shared else make()
    before, error = plain(value), None
    refused.value = 0
    refuse.value = number
    try:
        call(value)
    except Exception as raised:
        error = raised
    refuse.value = 0
    if error and not (refused.value and isinstance(error, (MemoryError, pickle.PicklingError))):
        return refused.value > 0, f"raised {error!r}"
    if error and plain(value) != before:
        return refused.value > 0, "changed the value"
    if isinstance(value, Array) and not memoryview(value).readonly:
        return refused.value > 0, "lends the value's memory to write to"
    if plain(other) != before:
        return refused.value > 0, "changed another value"
    return refused.value > 0, None


def main():
    requests = 0
    for kind, (make, calls) in enumerate(CALLS):
        for place, call in enumerate(calls):
            # What Python itself makes at a first call isn't made again.
            call(make())
            for shared, more.value in itertools.product((False, True), (0, 3)):
                number, came = 0, True
                while came:
                    number += 1
                    came, wrong = attempt(make, call, shared, number)
                    requests += came
                    if wrong:
                        print(f"kind {kind}, call {place}, {shared=}, {more.value=}, "
                              f"request {number}: {wrong}")
    print("refused" if requests > 300 else f"only {requests} requests")


main()
