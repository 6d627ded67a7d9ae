"""`Value` beside nested objects of Python's own."""

import collections
import copy
import dataclasses
import math
import os
import pickle
import random
import time
import types
import unittest

from ecow import LentValue, List, Text, Texts, Value
from harness import EDITS, Pool, draws, outcome, plain

NAMES = ("", "a", "b", "fifteen letters", "a name that spills", "\u00e9")


def made(draw, depth):
    """A random object that a value may hold."""
    choice = draw.randrange(5 if depth == 0 else 9)
    if choice > 4:
        size = draw.choice((0, 1, 2, 3, 5, 20))
        if choice > 6:
            return [made(draw, depth - 1) for _ in range(size)]
        return {draw.choice(NAMES) + str(at): made(draw, depth - 1) for at in range(size)}
    return (
        None,
        draw.random() < 0.5,
        draw.choice((0, 1, -1, 2**63 - 1, -(2**63), draw.randrange(100))),
        draw.choice((0.0, 1.5, -1e300, math.inf)),
        draw.choice(("", "x", "fifteen letters", "sixteen letters!", "\u00e9" * 900)),
    )[choice]


def paths(thing, before=()):
    """Each path in an object."""
    yield list(before)
    keys = thing if isinstance(thing, dict) else ()
    keys = range(len(thing)) if isinstance(thing, list) else keys
    for key in keys:
        yield from paths(thing[key], (*before, key))


def at(thing, path):
    for key in path:
        thing = thing[key]
    return thing


class Differential(unittest.TestCase):
    def test_names_that_come_and_go(self):
        chance = random.Random(5)
        for most in [4, 15, 16, 17, 60, 1000]:
            value, model = Value({}), {}
            for number in range(8 * most):
                name = f"name {chance.randrange(2 * most)}"
                fewer = number // (2 * most) % 2
                if model and chance.randrange(8) < (7 if fewer else 1):
                    name = chance.choice([next(iter(model)), next(reversed(model)), chance.choice(list(model))])
                    del value[name], model[name]
                else:
                    value[name] = model[name] = number
                self.assertEqual(value.get(name), model.get(name))
                if number % most == 0:
                    kept, as_it_was = Value(value), dict(model)
                    self.assertEqual(list(value.to_python().items()), list(model.items()))
            self.assertEqual(list(value.to_python().items()), list(model.items()))
            self.assertTrue(all(value[name] == model[name] for name in model))
            self.assertEqual(kept.to_python(), as_it_was)

    def test_edits(self):
        draw = draws("value")

        def pair():
            thing = [made(draw, 3) for _ in range(3)]
            return [Value(thing), thing]

        pool = Pool(self, draw, pair)
        for edit in range(EDITS):
            value, model = pool.pick()
            path = draw.choice(list(paths(model)))
            inner, part = at(model, path), value.part(path).copy()
            self.assertEqual(part, inner)
            one, index, other = made(draw, 2), draw.randint(-6, 6), draw.randint(-6, 6)
            # A part is a value of its own: no change of it is seen before it is put in.
            if isinstance(inner, list):
                call = draw.choice((
                    lambda each: each.append(one),
                    lambda each: each.insert(index, one),
                    lambda each: each.pop(),
                    lambda each: each.pop(index),
                    lambda each: each.extend([one, 1]),
                    lambda each: each.clear() if index > 4 else None,
                    lambda each: each.__setitem__(index, one),
                    lambda each: each.__delitem__(index),
                    lambda each: each[index],
                    lambda each: each[index:other],
                    lambda each: each[::-2],
                    lambda each: list(each),
                    lambda each: list(reversed(each)),
                    lambda each: one in each,
                    lambda each: len(each),
                    lambda each: bool(each),
                    lambda each: each == one,
                ))
                self.assertEqual(outcome(lambda: call(part)), outcome(lambda: call(inner)))
            elif isinstance(inner, dict):
                name = draw.choice((*inner, "new", "a"))
                call = draw.choice((
                    lambda each: each.pop(name),
                    lambda each: each.pop(name, 7),
                    lambda each: each.clear() if index > 4 else None,
                    lambda each: each.__setitem__(name, one),
                    lambda each: each.__delitem__(name),
                    lambda each: each[name],
                    lambda each: each.get(name, 7),
                    lambda each: list(each),
                    lambda each: list(each.keys()),
                    lambda each: list(each.values()),
                    lambda each: list(each.items()),
                    lambda each: name in each,
                    lambda each: len(each),
                    lambda each: bool(each),
                    lambda each: each == one,
                ))
                self.assertEqual(outcome(lambda: call(part)), outcome(lambda: call(inner)))
            value.set(path, part)
            self.assertEqual(value.to_python(), model)
            if edit % 40 == 0:
                pool.check()
                self.assertEqual(value, Value(model))
                self.assertEqual(repr(value), f"Value({model!r})")
        pool.check()


class Conversions(unittest.TestCase):
    def test_kinds(self):
        for thing, kind in ((None, "nothing"), (True, "truth"), (5, "number"), (1.5, "real"),
                            ("a", "text"), ([1], "list"), ({"a": 1}, "fields"), (0, "number"),
                            ("", "text"), ([], "list"), ({}, "fields")):
            value = Value(thing)
            self.assertEqual(value.kind, kind)
            self.assertIs(type(value.to_python()), type(thing))
            self.assertEqual(value.to_python(), thing)
            self.assertEqual(value, thing)
            self.assertEqual(thing, value)
            self.assertEqual(bool(value), bool(thing))
            inside = Value([thing])[0]
            self.assertIs(type(inside), LentValue if kind in ("list", "fields") else type(thing))
            self.assertEqual(Value([thing]).part(0).kind, kind)
        self.assertEqual(Value().kind, "nothing")
        self.assertEqual(Value((1, 2)), [1, 2])
        self.assertEqual(Value(List([1, 2])), [1, 2])
        self.assertEqual(Value(Texts(["a"])), ["a"])
        self.assertEqual(Value(Text("a")), "a")
        self.assertEqual(Value([Value({"a": Value(1)})]), [{"a": 1}])
        self.assertEqual(Text(Value("abc")), "abc")
        self.assertEqual(list(Value({"b": 1, "a": 2})), ["b", "a"])
        self.assertEqual(dict(Value({"b": 1, "a": [2]})), {"b": 1, "a": [2]})

    def test_exact(self):
        """1, 1.0 and True stay apart, and so do both zeros."""
        for thing in ([1, 1.0, True], [0, 0.0, False]):
            back = Value(thing).to_python()
            self.assertEqual(list(map(type, back)), list(map(type, thing)))
        self.assertEqual(math.copysign(1, Value(-0.0).to_python()), -1)
        self.assertTrue(math.isnan(Value(math.nan).to_python()))

    def test_refusals(self):
        """What is no value is refused, wherever it stands, and nothing changes."""
        value = Value({"a": [1]})
        for thing in ({1, 2}, b"a", object(), 1j, {1: 2}, {None: 1}, range(3)):
            for call in (
                lambda: Value(thing), lambda: Value([1, {"a": thing}]),
                lambda: value.__setitem__("a", thing), lambda: value.set(["a", 0], thing),
                lambda: value["a"].copy().append(thing), lambda: value["a", thing],
                lambda: value["a"].copy().extend([1, thing]),
                lambda: value["a"].copy().insert(0, thing), lambda: value.update(b=thing),
            ):
                self.assertIs(outcome(call), TypeError)
        for call in (lambda: Value(2**63), lambda: Value([-(2**63) - 1]),
                     lambda: value.__setitem__("b", 2**63)):
            self.assertIs(outcome(call), OverflowError)
        for call in (lambda: Value("\ud800"), lambda: Value({"\ud800": 1}),
                     lambda: value["\ud800"], lambda: value.set(["\ud800"], 1)):
            self.assertIs(outcome(call), UnicodeEncodeError)
        self.assertNotIn("\ud800", value)
        self.assertIs(outcome(lambda: hash(value)), TypeError)
        self.assertIs(outcome(lambda: Value(1, 2)), TypeError)
        self.assertIs(outcome(lambda: Value(1) < Value(2)), TypeError)
        self.assertEqual(value, {"a": [1]})

    def test_other_kinds(self):
        """A call for another kind raises a TypeError."""
        for thing in (None, True, 5, 1.5, "text"):
            value = Value(thing)
            for call in (
                lambda: len(value), lambda: iter(value), lambda: value[0], lambda: value["a"],
                lambda: value[:], lambda: value.append(1), lambda: value.insert(0, 1),
                lambda: value.extend([1]), lambda: value.pop(), lambda: value.pop("a"),
                lambda: value.clear(), lambda: value.keys(), lambda: value.values(),
                lambda: value.items(), lambda: value.__setitem__(0, 1), lambda: 1 in value,
                lambda: value.__setitem__("a", 1), lambda: value.__delitem__(0),
                lambda: value.part("a"), lambda: value.get("a"), lambda: value.set(["a", 0], 1),
            ):
                self.assertIs(outcome(call), TypeError)
            self.assertEqual(value, thing)
        fields, items = Value({"a": 1}), Value([1])
        for call in (
            lambda: fields[0], lambda: fields[:], lambda: fields.append(1), lambda: fields.pop(),
            lambda: fields.__delitem__(0), lambda: fields.__setitem__(0, 1),
            lambda: fields.insert(0, 1), lambda: fields.extend([1]), lambda: items["a"],
            lambda: items.keys(), lambda: items.__setitem__("a", 1), lambda: items[None],
            lambda: items.__setitem__(slice(0, 1), [2]), lambda: items[[0]],
        ):
            self.assertIs(outcome(call), TypeError)
        self.assertIs(outcome(lambda: fields["b"]), KeyError)
        self.assertIs(outcome(lambda: fields.pop("b")), KeyError)
        self.assertIs(outcome(lambda: items[1]), IndexError)
        self.assertIs(outcome(lambda: items[2**70]), IndexError)


class Paths(unittest.TestCase):
    def test_paths(self):
        value = Value({"a": [{"b": 1}, 2], "c": "x"})
        self.assertEqual(value.get(["a", 0, "b"]), 1)
        self.assertEqual(value.get(("a", -1)), 2)
        self.assertEqual(value.get("c"), "x")
        self.assertEqual(value.get([]), value)
        self.assertIs(value.get("d"), None)
        self.assertEqual(value.get(["a", 5], "none"), "none")
        self.assertEqual(value.part(["a", 0]), {"b": 1})
        self.assertEqual(value.part("c").kind, "text")
        before = value.copy()
        value.set(["a", 0, "b"], [10])
        value.set(["a", 0, "new"], None)
        value.set("d", 5)
        self.assertEqual(value, {"a": [{"b": [10], "new": None}, 2], "c": "x", "d": 5})
        self.assertEqual(before, {"a": [{"b": 1}, 2], "c": "x"})
        for path, error in ((["a", 9, "b"], IndexError), (["e", 0], KeyError),
                            (["c", 0], TypeError), (["a", "b"], TypeError), (["a", 9], IndexError),
                            (["a", 0, "b", 3], IndexError), (["a", 0, "b", None], TypeError)):
            kept = value.to_python()
            self.assertIs(outcome(lambda: value.set(path, 1)), error)
            self.assertEqual(value.to_python(), kept)
        value.set([], [1])
        self.assertEqual(value, [1])

    def test_keys_with_code(self):
        """A key whose code reads and changes the value sees no part that is taken out."""
        value = Value([[1], [2]])

        class Key:
            def __index__(self):
                seen.append(value.to_python())
                value.append(0)
                return 0

        seen = []
        value.set([Key(), Key()], 5)
        self.assertEqual(seen, [[[1], [2]], [[1], [2], 0]])
        self.assertEqual(value, [[5], [2], 0, 0])
        self.assertIs(outcome(lambda: value.set([0, "a"], 5)), TypeError)
        self.assertEqual(value, [[5], [2], 0, 0])

    def test_self(self):
        """A value may be put into itself, as it is at that moment."""
        value = Value([1])
        value.append(value)
        value.set([1, 0], value)
        self.assertEqual(value, [1, [[1, [1]]]])
        value.extend(value)
        self.assertEqual(len(value), 4)
        value[0] = value
        self.assertEqual(value[0][1], [[1, [1]]])

    def test_in_place(self):
        """A change at a path copies nothing where nobody shares it, and its way alone else."""
        value = Value({"a": [[number] for number in range(300_000)], "b": [1]})
        start = time.perf_counter()
        for number in range(1000):
            value.set(["a", 5, 0], number)
            self.assertEqual(value.get(["a", 5]), [number])
            value.copy().set(["b", 0], number)
        # A copy of the long list takes milliseconds each time.
        self.assertLess(time.perf_counter() - start, 2)

    def test_calls_at_paths(self):
        """Each call that changes a list or fields takes a path to it as its last argument."""
        def fresh():
            return {"a": {"items": [3, [1], 2], "z": 1}, "b": [[5, 4]], "c": "text"}

        value, model = Value(fresh()), fresh()
        for call, same in (
            (lambda: value.append(7, ["a", "items"]), lambda: model["a"]["items"].append(7)),
            (lambda: value.append([8], ("a", "items", 1)), lambda: model["a"]["items"][1].append([8])),
            (lambda: value.insert(-1, "x", ["a", "items"]), lambda: model["a"]["items"].insert(-1, "x")),
            (lambda: value.insert(9, {"y": 1}, ["b", -1]), lambda: model["b"][-1].insert(9, {"y": 1})),
            (lambda: value.extend((1, "e"), "b"), lambda: model["b"].extend((1, "e"))),
            (lambda: value.extend(value.get("b"), "b"), lambda: model["b"].extend(list(model["b"]))),
            (lambda: value.extend([], ["a", "items"]), lambda: model["a"]["items"].extend([])),
            (lambda: value.update({"z": 2, "new": [1]}, "a"), lambda: model["a"].update(z=2, new=[1])),
            (lambda: value.update([("k", 1)], "a", path=3), lambda: model["a"].update(k=1, path=3)),
            (lambda: value.update((), "a", other=4), lambda: model["a"].update(other=4)),
            (lambda: value.pop(["a", "items", 0]), lambda: model["a"]["items"].pop(0)),
            (lambda: value.index([1, [8]], ["a", "items"]), lambda: model["a"]["items"].index([1, [8]])),
            (lambda: value.index("none", ["a", "items"]), lambda: model["a"]["items"].index("none")),
            (lambda: value.sort(["a", "items"], key=str), lambda: model["a"]["items"].sort(key=str)),
            (lambda: value.sort(["b"], reverse=True, key=repr), lambda: model["b"].sort(reverse=True, key=repr)),
            (lambda: value.sort(["a", "items"]), lambda: model["a"]["items"].sort()),
        ):
            before = value.copy()
            kept = plain(before)
            self.assertEqual(outcome(call), outcome(same))
            self.assertEqual(value.to_python(), model)
            self.assertEqual(list(value["a"]), list(model["a"]))
            self.assertEqual(plain(before), kept)
        listed = Value([2, 1])
        listed.sort()
        self.assertEqual((listed.index(2), listed), (1, [1, 2]))
        kept = value.to_python()
        for path, error in ((["a"], TypeError), (["c"], TypeError), (["none"], KeyError),
                            (["a", "items", 99], IndexError), (["a", "z"], TypeError),
                            ([None], TypeError), (["b", 0.5], TypeError)):
            for call in (lambda: value.append(1, path), lambda: value.insert(0, 1, path),
                         lambda: value.extend([1], path), lambda: value.index(1, path),
                         lambda: value.sort(path)):
                self.assertIs(outcome(call), error)
                self.assertEqual(value.to_python(), kept)
        self.assertIs(outcome(lambda: value.extend([1, {2}], ["b"])), TypeError)
        self.assertIs(outcome(lambda: value.update({"n": {2}}, "a")), TypeError)
        self.assertEqual(value.to_python(), kept)
        # A list that nobody shares isn't copied.
        value = Value({"a": {"items": [0] * 300_000}})
        start = time.process_time()
        for number in range(2000):
            value.append(number, ["a", "items"])
            value.extend([number], ["a", "items"])
        self.assertLess(time.process_time() - start, 1)
        self.assertEqual(len(value["a", "items"]), 304_000)

    def changed(self, source, method, *arguments):
        """A new value, behind one call."""
        value = Value(source)
        getattr(value, method)(*arguments)
        return value

    def test_depth(self):
        """A value nested too deep is refused before the stack ends; edits may go on for ever."""
        value = Value([])
        for _ in range(511):
            value = Value([value])
        self.assertIs(outcome(lambda: Value([value])), RecursionError)
        self.assertIs(outcome(lambda: Value({"a": value})), RecursionError)
        self.assertIs(outcome(lambda: value.append(value)), RecursionError)
        self.assertIs(outcome(lambda: value.set([0] * 511, [[]])), RecursionError)
        for part, room in ((value[0], 1), (value.part(0), 1), (value.part([0, 0]), 2),
                           (value[0, 0], 2), (value[:][0], 1), (value.copy().pop(), 1)):
            for _ in range(room):
                part = Value([part])
            self.assertIs(outcome(lambda: Value([part])), RecursionError)
            self.assertIs(outcome(lambda: Value([0]).append(part)), RecursionError)
            self.assertIs(outcome(lambda: Value([0]).insert(0, part)), RecursionError)
            self.assertIs(outcome(lambda: Value([0]).extend([part])), RecursionError)
            self.assertIs(outcome(lambda: Value([0]).__setitem__(0, part)), RecursionError)
        value.set([0] * 511, 5)
        self.assertEqual(value.get([0] * 511), 5)
        for deepen in (
            lambda inner: Value([inner]), lambda inner: Value((1, inner)),
            lambda inner: Value({"a": inner}), lambda inner: self.changed([], "append", inner),
            lambda inner: self.changed([], "extend", [inner]),
            lambda inner: self.changed([], "insert", 0, inner),
            lambda inner: self.changed([0], "__setitem__", 0, inner),
            lambda inner: self.changed({}, "__setitem__", "a", inner),
            lambda inner: self.changed({}, "set", "a", inner),
            lambda inner: self.changed({}, "update", {"a": inner}),
            lambda inner: self.changed([[0]], "set", [0, 0], inner)[0],
            lambda inner: Value([inner]).copy(), lambda inner: Value([inner])[:],
            lambda inner: Value(Value([inner])), lambda inner: Value([[inner]]).pop(),
            lambda inner: Value([inner]).part([]),
        ):
            value, levels = Value([]), 1
            with self.assertRaises(RecursionError):
                while levels < 600:
                    value = deepen(value)
                    levels += 1
            # One way adds two levels before it takes one off.
            self.assertIn(levels, (511, 512))
        endless = []
        endless.append(endless)
        self.assertIs(outcome(lambda: Value(endless)), RecursionError)
        loop = {}
        loop["a"] = [loop]
        self.assertIs(outcome(lambda: Value(loop)), RecursionError)
        # What was taken out adds no depth.
        value = Value({"deep": [[[[]]]], "flat": [], "low": [[[0]]]})
        for _ in range(3000):
            value["low", 0, 0, 0] = value["flat"]
        self.assertEqual(value["low"], [[[[]]]])
        value = Value({})
        for _ in range(2000):
            before = value.copy()
            before.pop("before", None)
            value["before"] = before
        self.assertEqual(value, {"before": {}})
        log = Value({"log": [], "state": [1]})
        for _ in range(5000):
            entries = log["log"].copy()
            entries.append(log["state"])
            if len(entries) > 5:
                entries.pop(0)
            log["log"] = entries
        self.assertEqual(log, {"log": [[1]] * 5, "state": [1]})


class Lent(unittest.TestCase):
    """What a container hands out isn't changed, and has the hash of what it equals."""

    def refused(self, make, calls):
        for call in calls:
            thing = make()
            before, number = plain(thing), hash(thing)
            with self.assertRaisesRegex(TypeError, "a copy.. of it, and put that in"):
                call(thing)
            self.assertEqual(plain(thing), before)
            self.assertEqual(hash(thing), number)

    def test_values(self):
        value = Value({"a": [1, [2], "x"], "b": {"c": {}}})
        lists = (lambda: value["a"], lambda: value.get("a"), lambda: value.part("a"),
                 lambda: value.values()[0], lambda: value.items()[0][1], lambda: Value([[1]])[0],
                 lambda: next(iter(Value([[1]]))), lambda: value["a", 1], lambda: value["a"][1])
        for make in lists:
            self.refused(make, (
                lambda each: each.append(1), lambda each: each.extend([1]), lambda each: each.pop(),
                lambda each: each.insert(0, 1), lambda each: each.clear(), lambda each: each.pop(0),
                lambda each: each.__setitem__(0, 1), lambda each: each.__delitem__(0),
                lambda each: each.set([], 1), lambda each: each.set(0, 1),
                lambda each: each.__init__([1]),
            ))
        self.refused(lambda: value["b"], (
            lambda each: each.update(c=1), lambda each: each.setdefault("d"),
            lambda each: each.pop("c"), lambda each: each.set("c", 1),
        ))
        # As `+=` of a text, `|=` makes a new one.
        lent = value["b"]
        value["b"] |= {"d": 1}
        self.assertEqual((lent, value["b"]), ({"c": {}}, {"c": {}, "d": 1}))
        for thaw in (lambda each: each.copy(), Value, copy.copy, copy.deepcopy,
                     lambda each: each[:], lambda each: pickle.loads(pickle.dumps(each)),
                     lambda each: Value([each]).pop()):
            made = thaw(value["a"])
            made.append(1)
            self.assertEqual(value["a"], [1, [2], "x"])
            self.assertIs(outcome(lambda: hash(made)), TypeError)

    def test_texts(self):
        texts = Texts(["a", "a text that spills"])
        for make in (lambda: texts[0], lambda: texts[-1], lambda: list(texts)[1],
                     lambda: next(reversed(texts)), lambda: min(texts)):
            self.refused(make, (
                lambda each: each.append("b"), lambda each: each.extend(["b"]),
                lambda each: each.insert(0, "b"), lambda each: each.pop(),
                lambda each: each.remove("a"), lambda each: each.reverse(),
                lambda each: each.clear(), lambda each: each.truncate(0),
                lambda each: each.reserve(5), lambda each: each.__init__("b"),
                lambda each: each.__setitem__(0, "b"), lambda each: each.__delitem__(0),
                lambda each: each.__setitem__(slice(0, 1, 2), "b"),
            ))
            self.assertEqual(hash(make()), hash(str(make())))
        # As of a `str`, `+=` and `*=` make a new one.
        texts[0] += "b"
        texts[0] *= 2
        self.assertEqual(texts, ["abab", "a text that spills"])
        self.assertEqual({"abab": 1}[texts[0]], 1)
        self.assertEqual({texts[0]: 1}["abab"], 1)
        for made in (texts[0].copy(), Text(texts[0]), copy.copy(texts[0]), texts[0][:],
                     texts.copy().pop(), copy.deepcopy(texts[0]), texts[0] + "c", texts[0] * 1):
            made.append("c")
            self.assertIs(outcome(lambda: hash(made)), TypeError)
        self.assertEqual(texts[0], "abab")

    def test_hashes(self):
        """Equal ones have the same hash."""
        one, two = {"a": 1, "b": [1.0, True]}, {"b": [True, 1], "a": True}
        self.assertEqual(Value([one])[0], Value([two])[0])
        self.assertEqual(hash(Value([one])[0]), hash(Value([two])[0]))
        self.assertEqual(len({Value([each])[0] for each in (one, two, {"a": 1}, {"a": 1.0})}), 2)
        self.assertEqual(hash(Value([[math.nan, 0.0]])[0]), hash(Value([[math.nan, -0.0]])[0]))
        self.assertNotEqual(hash(Value([[1, 2]])[0]), hash(Value([[2, 1]])[0]))
        for scalar in (None, False, True, 1, -(2**63), 1.5, math.inf, "", "x", "a text that spills"):
            self.assertEqual(hash(Value([scalar]).part(0)), hash(scalar))
            self.assertEqual({scalar: 1}[Value({"a": scalar}).part("a")], 1)
        self.assertEqual(hash(Value([math.nan]).part(0)), hash(Value([math.nan]).part(0)))


class Equality(unittest.TestCase):
    def test_transitive(self):
        """Values and Python's own objects are equal where `to_python()` is."""
        draw = draws("equality")
        things = [None, False, 0, 0.0, -0.0, True, 1, 1.0, "", "1", [], {}, [1], [1.0], [True],
                  [[1], 2], [[1.0], 2], {"a": 1, "b": 2}, {"b": 2, "a": 1}, {"a": 1.0, "b": 2},
                  {"a": [{"b": 0, "c": 1}]}, {"a": [{"c": True, "b": False}]}, {"a": None},
                  {"b": None}, 2**63 - 1, float(2**63)]
        things += [made(draw, 2) for _ in range(20)]
        for one in things:
            for two in things:
                alike = one == two
                self.assertEqual(Value(one) == two, alike)
                self.assertEqual(one == Value(two), alike)
                self.assertEqual(Value(one) == Value(two), alike)
                self.assertEqual(Value(one) != Value(two), not alike)
                self.assertEqual(Value([one])[:] == Value([two]), alike)
        self.assertFalse(Value((1,)) == (1,))
        # What equals the same list is equal too.
        for one in (Value([1, 2]), List([1, 2]), [1, 2], collections.UserList([1, 2])):
            for two in (Value([1, 2]), List([1, 2]), [1, 2]):
                self.assertTrue(one == two and not one != two)
            self.assertFalse(one == Value([1, 3]) or one == Value({"a": 1}) or one == Value(1))
        self.assertTrue(Value(["a"]) == Texts(["a"]) and Texts(["a"]) == Value(["a"]))
        self.assertTrue(Value([["a"], [1]]) == [Texts(["a"]), List([1])])
        self.assertEqual(Value(math.nan), Value(math.nan))
        self.assertEqual(Value([1, math.nan]), Value([1.0, math.nan]))
        self.assertNotEqual(Value(math.nan), math.nan)
        self.assertNotEqual(Value([math.nan]), [math.nan])

    def test_objects(self):
        """An object of another type, or one whose code runs, is compared as `to_python()` is."""
        class Word(str):
            def __eq__(self, other):
                return True

            __hash__ = str.__hash__

        class Number(int):
            def __eq__(self, other):
                return other == 7

            __hash__ = int.__hash__

        class Items(list):
            def __eq__(self, other):
                return isinstance(other, list) and len(other) == 2

        class Names(dict):
            def __eq__(self, other):
                return True

        things = [Word("b"), Number(5), Items([1]), Names(x=1), Items(), "\ud800", "\u00e9" * 9, "\U0001f331",
                  "x\0y", 2**63, -(2**63), 2**64, 0.5, float(2**53), 2**53 + 1, math.inf, math.nan,
                  (1,), 1j, b"a", {1: 2}, {None: 1}, {"a": 1, 1: 2}, {Word("a"): 1}, range(2),
                  collections.OrderedDict(a=1), {"": ""},
                  [None], {"b": 1, "a": 2}, {"a": 2, "b": 1}, {"\ud800": 1}]
        plains = [None, True, 7, 5, -1, 0.5, 2**53, -(2**63), 2**63 - 1, float(2**63), math.inf, "b",
                  "\u00e9" * 9, "x\0y", "x", "\U0001f331", [], [1], [1, 2], {}, {"a": 1},
                  {"a": 2, "b": 1}, {"": ""}, [None]]
        for plain_one in plains:
            value = Value(plain_one)
            for thing in things + plains:
                for wrap in (lambda part: part, lambda part: [0, part, "x"], lambda part: {"k": 1, "l": part},
                             lambda part: [{"a": [part]}], lambda part: [part, part, [[part]]]):
                    one, other = wrap(plain_one), wrap(thing)
                    alike = one == other
                    self.assertIs(Value(one) == other, alike, (one, other))
                    if type(other) in (list, dict):
                        self.assertIs(Value(one) != other, not alike, (one, other))
                    self.assertIs(Value(wrap(value)) == other, alike)

        class Changing:
            """What changes both sides while they are compared."""

            def __eq__(self, other):
                value.clear()
                source.clear()
                kept.extend([bytes(50)] * 99)
                return True

        kept = []
        for make in (lambda part: ["x" * 40, part, {"a": "y" * 40}, part], lambda part: [[part, 1], [part]]):
            for _ in range(3):
                source, value = make(Changing()), Value(make(1))
                self.assertIn(outcome(lambda: value == source), (True, False))

    @unittest.skipIf("asan" in os.environ.get("LD_PRELOAD", ""), "the module is checked, and slow")
    def test_beside_objects(self):
        """A comparison with objects of Python's own takes at most ten times theirs."""
        def made():
            return {"items": [{"id": at, "name": f"item {at}", "tags": ["a", "b"]} for at in range(10**4)]}

        source, other = made(), made()
        value, times = Value(source), ([], [])
        for _ in range(15):
            for call, took in zip((lambda: value == source, lambda: other == source), times):
                start = time.perf_counter()
                self.assertTrue(call())
                took.append(time.perf_counter() - start)
        self.assertLess(min(times[0]), 10 * min(times[1]))

    def test_shared(self):
        """What shares its parts is compared, hashed, measured, copied and pickled part by part."""
        def layers(count):
            value = Value(["x" * 20])
            for _ in range(count):
                value = Value([value, value])
            return value

        value, other = layers(400), layers(400)
        self.assertTrue(value == other)
        self.assertFalse(value == layers(399))
        # Objects of Python's own may share their parts too.
        few, objects = Value(["x" * 20]), ["x" * 20]
        for _ in range(14):
            few, objects = Value([few] * 30), [objects] * 30
        self.assertTrue(few == objects and objects == few)
        self.assertFalse(few == [*objects[:-1], objects[:-1]])
        self.assertEqual(hash(value[0]), hash(other[1]))
        self.assertFalse(5 in value)
        self.assertTrue(value[0] in other)
        self.assertLess(len(pickle.dumps(layers(100))), 10_000)
        self.assertEqual(pickle.loads(pickle.dumps(layers(100))), layers(100))
        self.assertEqual(copy.deepcopy(value)[0, 0], other[1, 1])
        self.assertIs(outcome(lambda: Value([[value]]).set([0] * 120, value)), RecursionError)

    def test_mixed(self):
        """Objects in which values stand, and values whose parts are shared in other places."""
        leaf = {"a": [[1, "a text that spills"]], "b": [1.5, None]}
        shared = Value(leaf)
        value = Value([shared, shared, {"deep": [[[shared]]]}])
        copy_of_it = value.copy()
        apart = Value(value.to_python())
        for other in (copy_of_it, apart, apart.to_python(), [shared, leaf, {"deep": [[[leaf]]]}],
                      [leaf, Value([shared])[0], Value({"deep": [[[leaf]]]})],
                      [collections.UserDict(leaf), shared, {"deep": collections.UserList([[[leaf]]])}],
                      Value([leaf, shared, {"deep": [[[shared]]]}])):
            self.assertTrue(value == other and other == value)
            self.assertFalse(value != other or other != value)
        for path in ([0, "a", 0, 0], [2, "deep", 0, 0, 0, "b", 1], [1, "a", 0, 1]):
            for other in (copy_of_it.copy(), apart.copy()):
                other.set(path, "another")
                for one in (other, other.to_python(), [*other], [*other.to_python()]):
                    self.assertFalse(value == one or one == value)
        for wrong in ((1,), [(shared,)], {0: shared}, [leaf, leaf], [leaf, leaf, leaf], 5, "a", None):
            self.assertFalse(value == wrong)
        self.assertTrue(Value([[1, 2], ["a"]]) == [List([1, 2]), Texts(["a"])])
        self.assertFalse(Value([[], {}]) == [{}, []] or Value([[], {}]) == Value([{}, []]))
        # A NaN of two values is equal, wherever it stands.
        for wrap in (lambda part: [part], lambda part: [1, {"a": [[part]]}, 2]):
            deep = math.nan
            for _ in range(20):
                deep = wrap(deep)
            one, two = Value(deep), Value([Value(deep)] * 2)[0].copy()
            self.assertTrue(one == two)
            self.assertFalse(one == deep or deep == two)
            self.assertFalse(one == Value(wrap(deep)))

    def test_time(self):
        """The time of a comparison and of a pickle grows with the number of parts, and no faster."""
        def least(call):
            times = []
            for _ in range(5):
                start = time.process_time()
                call()
                times.append(time.process_time() - start)
            return min(times)

        def times(count):
            model = {"items": [{"id": at, "name": f"item {at}", "tags": ["a", "b"]} for at in range(count)]}
            value, other = Value(model), copy.deepcopy(model)
            self.assertLess(len(pickle.dumps(value)), len(pickle.dumps(model)) + 1000)
            return least(lambda: value == other), least(lambda: pickle.dumps(value))

        # Quadratic steps would take 1,024 times as long. A busy machine may slow one of the two.
        for few, many in zip(times(100), times(3200)):
            self.assertLess(many, 400 * few)

    def test_shared_sources(self):
        """A part of Python's own that stands in several places is read, compared and pickled once."""
        @dataclasses.dataclass
        class Pair:
            a: object
            b: object

        for wrap in (lambda part: [part, part], lambda part: (part, part),
                     lambda part: {"a": part, "b": part}, lambda part: [{"a": part}, [part]],
                     lambda part: collections.UserDict(a=part, b=part),
                     lambda part: collections.OrderedDict(a=part, b=part),
                     lambda part: Pair(part, part), lambda part: [part, Value([part]), part][::2]):
            few = many = [1, "a text that spills"]
            for _ in range(3):
                few = wrap(few)
            for _ in range(200):
                many = wrap(many)
            value, unshared = Value(many), copy.deepcopy(Value(few).to_python())
            self.assertEqual(Value(few).to_python(), unshared)
            self.assertEqual(Value(unshared), Value(few))
            if type(many) in (list, dict):
                self.assertTrue(value == many and many == value)
                self.assertFalse(value != many or many != value or value == wrap(many))
            self.assertLess(len(pickle.dumps(value)), 20_000)
            self.assertTrue(pickle.loads(pickle.dumps(value)) == value)
            # What shares memory is still changed by itself.
            one = Value(few)
            first, last = ("a", "b") if one.kind == "fields" else (0, -1)
            before = one[last].copy()
            one[first] = 5
            self.assertEqual(one[last], before)

        class Growing:
            """An index whose code changes the list that it stands in."""

            def __index__(self):
                source.append(1)
                return len(source)

        source = [Growing()]
        self.assertEqual(Value([source, source]), [[2], [2]])


class Mappings(unittest.TestCase):
    def test_sources(self):
        """Mappings in their own order, dataclasses and whole numbers of other libraries."""
        class Upper(dict):
            def items(self):
                return [(name.upper(), part) for name, part in super().items()]

        class Whole:
            def __index__(self):
                return 7

        @dataclasses.dataclass
        class Point:
            x: int
            y: list

        ordered = collections.OrderedDict([("a", 1), ("b", 2), ("c", 3)])
        ordered.move_to_end("a")
        for source, wanted in (
            (ordered, [("b", 2), ("c", 3), ("a", 1)]), (Upper(a=1), [("A", 1)]),
            (collections.Counter("aab"), [("a", 2), ("b", 1)]),
            (collections.UserDict(a=1), [("a", 1)]), (types.MappingProxyType({"a": 1}), [("a", 1)]),
            (collections.ChainMap({"a": 1}), [("a", 1)]), (Point(1, [Whole()]), [("x", 1), ("y", [7])]),
        ):
            self.assertEqual(Value(source).items(), wanted)
            self.assertEqual(Value([source])[0].items(), wanted)
        class Odd(str):
            __hash__, __eq__ = object.__hash__, object.__eq__

        for twice in ({Odd("a"): 1, "b": 2, "a": 3}, {"a": 1, "b": 2, Odd("a"): 3}):
            self.assertEqual(Value(twice).items(), [("a", 3), ("b", 2)])
        self.assertEqual(Value(Whole()).kind, "number")
        self.assertEqual(Value(collections.namedtuple("P", "x y")(1, 2)), [1, 2])
        for wrong in ({1}, b"x", bytearray(b"x"), 1j, Point, range(3), iter([1]), memoryview(b"x"),
                      {1: 2}, {"a": {1}}):
            self.assertIs(outcome(lambda: Value(wrong)), TypeError)

    def test_many_names(self):
        """A dict is read without a search for each name."""
        names = {f"name {number}": number for number in range(100_000)}
        start = time.process_time()
        value = Value(names)
        self.assertLess(time.process_time() - start, 2)
        self.assertEqual(value.items(), list(names.items()))

    def test_methods(self):
        """Beside `dict`."""
        value, model = Value({"a": 1, "b": [1]}), {"a": 1, "b": [1]}
        for call in (
            lambda each: each.update({"c": 3}), lambda each: each.update([("a", 2)], d=4),
            lambda each: each.update(), lambda each: each.update(a=5), lambda each: each | {"e": 1},
            lambda each: {"e": 1, "a": 0} | each, lambda each: each.setdefault("f", [7]),
            lambda each: each.setdefault("a", 8), lambda each: each.setdefault("g"),
            lambda each: each.__ior__({"h": 1}), lambda each: each.get("z", 9),
            lambda each: each.pop("h"), lambda each: each.pop("h", 1), lambda each: each.pop("h"),
            lambda each: each.update(5), lambda each: each | 5, lambda each: 5 | each,
            lambda each: each.update(Value({"i": 1}) if each is value else {"i": 1}),
        ):
            self.assertEqual(outcome(lambda: call(value)), outcome(lambda: call(model)))
            self.assertEqual(value.items(), list(model.items()))
        self.assertIs(outcome(lambda: value.update(a=1, b={1})), TypeError)
        self.assertEqual(value.items(), list(model.items()))
        for wrong in (Value([1]), Value(1)):
            self.assertIs(outcome(lambda: wrong.update(a=1)), TypeError)
            self.assertIs(outcome(lambda: wrong | {"a": 1}), TypeError)

    def test_paths(self):
        value = Value({"a": [{"b": 1}, 2]})
        value["a", 0, "b"] = [3]
        value["a", -1] = 4
        self.assertEqual(value["a", 0, "b", 0], 3)
        self.assertEqual(value[Text("a"), 1], 4)
        del value["a", 0, "b"]
        self.assertEqual(value, {"a": [{}, 4]})
        self.assertEqual(value.pop(("a", 1)), 4)
        self.assertEqual(value.pop(["a", 0]), {})
        self.assertEqual(value[()], {"a": []})
        for call, error in (
            (lambda: value["a", 0], IndexError), (lambda: value["b", 0], KeyError),
            (lambda: value.__delitem__(("a", 0)), IndexError), (lambda: value[["a"]], TypeError),
            (lambda: value.__delitem__(()), TypeError), (lambda: value["a", "b"], TypeError),
            (lambda: value.pop(["a", 7]), IndexError), (lambda: value.pop([]), TypeError),
        ):
            self.assertIs(outcome(call), error)
            self.assertEqual(value, {"a": []})


if __name__ == "__main__":
    unittest.main()
