"""What the tests have in common.

ECOW_EDITS in the environment says how many random edits each differential test makes, and
ECOW_SEED which."""

import array
import copy
import os
import random

from ecow import Array, Bytes, List, Text, Texts, Value

EDITS = int(os.environ.get("ECOW_EDITS", "3000"))
SEED = int(os.environ.get("ECOW_SEED", "20260915"))

# The types of an array's items by their codes, each with the least and the largest number.
ENDS = {
    **{code: (-(2 ** (bits - 1)), 2 ** (bits - 1) - 1) for code in "bhilq"
       for bits in [8 * array.array(code).itemsize]},
    **{code: (0, 2**bits - 1) for code in "BHILQ" for bits in [8 * array.array(code).itemsize]},
    "f": (-(2.0**127) * (2 - 2.0**-23), 2.0**127 * (2 - 2.0**-23)),
    "d": (-(2.0**1023) * (2 - 2.0**-52), 2.0**1023 * (2 - 2.0**-52)),
}

# Lengths at which a value changes its form: 15 bytes stand inline, and 1,024 items in one request.
LENGTHS = (0, 1, 2, 14, 15, 16, 17, 40, 1023, 1024, 1025, 1500)


def draws(name):
    """Random draws that a test's name and the seed decide."""
    return random.Random(f"{name} {SEED}")


def plain(thing):
    """The same contents in types of Python's own."""
    if isinstance(thing, (Array, List, array.array)):
        return list(thing)
    if isinstance(thing, (Bytes, bytearray)):
        return bytes(thing)
    if isinstance(thing, Text):
        return str(thing)
    if isinstance(thing, Texts):
        return [str(text) for text in thing]
    if isinstance(thing, Value):
        return thing.to_python()
    if isinstance(thing, (list, tuple)):
        return type(thing)(plain(each) for each in thing)
    return thing


def number(draw, code):
    """A number that an item of that type has."""
    least, most = ENDS[code]
    if code in "fd":
        return draw.choice((0.0, -0.0, 0.5, 1.0, least, most, float(draw.randint(-999, 999)) / 8))
    return draw.choice((0, 1, 3, least, most, draw.randint(least, most)))


def done(_):
    """None, for a change that gives the value itself."""


def list_edits(index, other, part, one, few, fitting, times):
    """The edits of a list, each with these arguments."""
    return (
        lambda each: each.append(one),
        lambda each: each.insert(index, one),
        lambda each: each.pop(),
        lambda each: each.pop(index),
        lambda each: each.remove(one),
        lambda each: each.extend(each),
        lambda each: each.reverse(),
        lambda each: each.__setitem__(index, one),
        lambda each: each.__delitem__(index),
        lambda each: each.__setitem__(part, few),
        lambda each: each.__setitem__(part, fitting),
        lambda each: each.__setitem__(slice(index, other), each),
        lambda each: each.__delitem__(part),
        lambda each: done(each.__imul__(times)),
    )


def outcome(call):
    """What a call returns, in Python's own types, or the type of what it raises."""
    try:
        return plain(call())
    except Exception as error:
        return type(error)


class Pool:
    """Values beside their models. Some are copies of others, and each is edited by itself."""

    MOST = 6

    def __init__(self, test, draw, made):
        self.test, self.draw, self.made = test, draw, made
        self.pairs = [made()]

    def pick(self):
        """A pair to edit: now and then a copy of another one, or a new one."""
        pair, chance = self.draw.choice(self.pairs), self.draw.random()
        if chance < 0.2:
            value, model = pair
            pair = [value.copy(), copy.deepcopy(model)]
        elif chance < 0.22:
            pair = self.made()
        else:
            return pair
        if len(self.pairs) == self.MOST:
            del self.pairs[self.draw.randrange(self.MOST)]
        self.pairs.append(pair)
        return pair

    def check(self, whole=plain):
        """No value holds what only a copy of it was given. `whole` is what a model stands for."""
        for value, model in self.pairs:
            self.test.assertEqual(plain(value), whole(model))
