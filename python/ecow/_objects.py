"""What the extension module leaves to Python: how values are read from objects of other classes,
compared, hashed, copied and pickled, and the methods of dictionaries. It calls what it finds here.

What a value holds is pickled as a block, an object of its own. Values that share memory have one
block while they are pickled, so it is stored once, and they share memory again when loaded."""

from __future__ import annotations

import array
import copy
import dataclasses
import operator
import sys
import weakref
from collections.abc import Callable, Iterable, Mapping
from typing import Any, Optional

from ecow._core import (
    Array, Bytes, LentText, LentValue, List, Text, Texts, Value, _address, _plain)

_KINDS = (List, Array, Bytes, Text, Texts, Value)


def plain(source: Any) -> Any:
    """What an object of another class is read as: an int, a list, or a dict in the order of its
    items."""
    if isinstance(source, Block):
        return source.value
    if isinstance(source, Mapping):
        return dict(source.items())
    if isinstance(source, (list, List, Array, Texts)):
        return list(source)
    if dataclasses.is_dataclass(source) and not isinstance(source, type):
        return {each.name: getattr(source, each.name) for each in dataclasses.fields(source)}
    if hasattr(type(source), "__index__"):
        return operator.index(source)
    raise TypeError(f"a value can't hold {type(source)!r}")


def hashed(value: Any) -> int:
    """The hash of what can't be changed: equal values have the same. Memory that parts share is
    visited once, and the stack doesn't grow."""
    known: dict[int, int] = {}
    made: list[int] = []
    todo: list[Any] = [(value, None)]
    while todo:
        part, count = todo.pop()
        if not isinstance(part, Value):
            made.append(hash(part) if part == part else 0)
        elif part.kind not in ("list", "fields"):
            todo.append((part.to_python(), None))
        elif count is not None:
            below = made[len(made) - count:]
            del made[len(made) - count:]
            made.append(hash(tuple(below)) if part.kind == "list"
                        else hash(frozenset(zip(part.keys(), below))))
            if count:
                known[_address(part)] = made[-1]
        elif _address(part) in known:
            made.append(known[_address(part)])
        else:
            parts = list(part) if part.kind == "list" else part.values()
            todo.append((part, len(parts)))
            todo.extend([(each, None) for each in reversed(parts)])
    return made[0]


class Later:
    """A part of a value, whose comparison is put off."""

    __slots__ = ("part", "todo")

    def __init__(self, part: Any, todo: list[Any]) -> None:
        self.part, self.todo = part, todo

    def __eq__(self, other: Any) -> bool:
        part = other.part if isinstance(other, Later) else other
        if not isinstance(part, Value) or _address(part) != _address(self.part):
            self.todo.append((self.part, part))
        return True


# What stands for each NaN of two values that are compared: it is itself, so it equals itself.
_NAN = float("nan")


def equal(value: Any, other: Any) -> bool:
    """Whether a value equals another, or a list or a dict, as `to_python()` of both do; a NaN in
    two values equals each NaN. Parts that are shared are compared once, unless they are as small
    as a record beside an object, and those that nest deep are put off: the stack doesn't grow."""
    both = isinstance(other, Value)
    least = 0 if both else 3
    todo: list[Any] = [(Value(value), Value(other) if both else other)]
    seen: dict[Any, Any] = {}

    def later(part: Any) -> Any:
        if part.kind in ("list", "fields"):
            return Later(part, todo)
        return _NAN if both and part.kind == "real" else part.to_python()

    while todo:
        sides = todo.pop()
        key = tuple([isinstance(each, Value) and _address(each) or id(each) for each in sides])
        if key[0] != key[1] and key not in seen:
            # What is compared stays, so that no other object has its address.
            seen[key] = sides
            opened = [each if not isinstance(each, Value) else _plain(each, later, least)
                      for each in sides]
            if opened[:1] != opened[1:]:
                return False
    return True


def _update(self: Any, other: Any = (), path: Any = (), /, **named: Any) -> None:
    """Sets the fields of a mapping, or of pairs of names and values, and those that are named: all
    or none, in the fields at a path."""
    made = self.part(path).copy()
    for name, part in dict(other, **named).items():
        made[name] = part
    self.set(path, made)


def _setdefault(self: Any, name: Any, default: Any = None, /) -> Any:
    """The value of a field, which is set where there is none."""
    if name in self:
        return self[name]
    made = Value([default])[0]
    self[name] = made
    return made


def _joined(left: Any, right: Any) -> Any:
    """A new value with the fields of both; the right ones count."""
    if not isinstance(right, (Mapping, Value)):
        return NotImplemented
    made = Value(left)
    _update(made, right)
    return made


def _joined_right(right: Any, left: Any) -> Any:
    return _joined(left, right) if isinstance(left, Mapping) else NotImplemented


def _joined_in_place(left: Any, right: Any) -> Any:
    """As with `+=` of a text, a value that may not be changed gives a new one."""
    if isinstance(left, LentValue):
        return _joined(left, right)
    _update(left, right)
    return left


def _items(self: Any, /) -> list[tuple[str, Any]]:
    """A list of the fields as pairs of a name and a value, in order."""
    return list(zip(self.keys(), self.values()))


def _items_of(self: Any, path: Any) -> list[Any]:
    if (part := self.part(path)).kind != "list":
        raise TypeError("Value is of another kind")
    return list(part)


def _index(self: Any, item: Any, path: Any = (), /) -> int:
    """Where the first such item of a list stands: ValueError where there is none."""
    return _items_of(self, path).index(item)


def _sort_at(self: Any, path: Any = (), /, *, key: Any = None, reverse: bool = False) -> None:
    """Sorts a list as `list.sort`."""
    self.set(path, sorted(_items_of(self, path), key=key, reverse=reverse))


def _sort(self: Any, /, *, key: Any = None, reverse: bool = False) -> None:
    """Sorts as `list.sort`."""
    self[:] = sorted(self, key=key, reverse=reverse)


def _frombytes(self: Any, data: Any, /) -> None:
    """Appends the items that have these bytes in memory: ValueError where the last isn't whole."""
    Array.extend(self, array.array(self.typecode, bytes(memoryview(data))))


for _kinds, _name, _method in (
    ((Array,), "frombytes", _frombytes), ((List, Array, Texts), "sort", _sort),
    ((Value,), "sort", _sort_at), ((Value,), "index", _index),
    ((Value,), "items", _items),
    ((Value,), "update", _update), ((Value,), "setdefault", _setdefault),
    ((Value,), "__or__", _joined), ((Value,), "__ror__", _joined_right),
    ((Value,), "__ior__", _joined_in_place),
):
    _method.__name__ = _method.__qualname__ = _name
    for _kind in _kinds:
        setattr(_kind, _name, _method)


class Block:
    """What some values hold: a value that nobody changes."""

    __slots__ = ("value", "parts", "__weakref__")

    def __init__(self, value: Any, parts: Any = None) -> None:
        self.value = value
        # What the texts of a list are pickled as, or the list or the dict that a nested value is,
        # with blocks for the parts that it shares.
        self.parts = parts

    def __reduce__(self) -> tuple[Any, ...]:
        value, parts = self.value, self.parts
        if isinstance(value, Value):
            named = isinstance(parts, dict)
            return load_value, (list(parts), list(parts.values())) if named else (None, parts)
        if isinstance(value, List):
            return load_list, (_in_order(bytes(value)).tobytes(),)
        if isinstance(value, Array):
            return load_array, (value.typecode, value.tolist())
        if isinstance(value, Texts):
            return load_texts, (parts,)
        return load_bytes, ((bytes if isinstance(value, Bytes) else str)(value),)


# The blocks that picklers hold at the moment. Memory that a block holds goes to no other value, so
# its address tells what is there.
_blocks: weakref.WeakValueDictionary[Any, Block] = weakref.WeakValueDictionary()


def _in_order(data: bytes) -> array.array[int]:
    """Numbers of their bytes: from the machine's order to that with the lowest byte first, or
    back."""
    numbers = array.array("q", data)
    if sys.byteorder == "big":
        numbers.byteswap()
    return numbers


def load_list(data: bytes) -> Block:
    """A block of numbers, of their bytes from the lowest on."""
    return Block(List(_in_order(data)))


def load_array(code: str, items: list[Any]) -> Block:
    """A block of items of a type."""
    return Block(Array(code, items))


def load_bytes(plain: Any) -> Block:
    """A block of bytes or of a text."""
    return Block(Text(plain) if isinstance(plain, str) else Bytes(plain))


def load_texts(parts: list[Any]) -> Block:
    """A block of texts."""
    return Block(Texts([_loaded(part) for part in parts]))


def load_value(names: Optional[list[str]], parts: list[Any]) -> Block:
    """A block of the fields of some names, or of a list."""
    return Block(Value(parts if names is None else dict(zip(names, parts))))


def _loaded(packed: Any) -> Any:
    return packed.value if isinstance(packed, Block) else packed


def _block(kind: Any, value: Any, new: list[Any], parts: Any = None) -> Block:
    """The block of the memory of a value of a kind, which holds the same; one that has none has its
    own. A new one is added to `new`."""
    address = _address(value)
    block = _blocks.get((kind, address)) if address else None
    if block is None:
        block = Block(kind(value), parts)
        new.append(block)
        if address:
            _blocks[kind, address] = block
    return block


def _packed_value(value: Any, new: list[Any]) -> Any:
    """The block of a list or of fields, behind the blocks of the parts that these share with others
    or that nest deep. The stack doesn't grow."""
    missing = [Value(value)]

    def find(part: Any) -> Any:
        if part.kind not in ("list", "fields"):
            return _packed(part, new)
        block = _blocks.get((Value, _address(part)))
        if block is None:
            missing.append(part)
        return block

    while missing:
        count = len(missing)
        plain = _plain(missing[-1], find, 0)
        if len(missing) == count:
            block = _block(Value, missing.pop(), new, plain)
    return block


def _packed(value: Any, new: list[Any]) -> Any:
    """What a value is pickled as: a block, or an object of Python's where it is as small."""
    kind: Any
    if isinstance(value, Value) and value.kind in ("list", "fields"):
        return _packed_value(value, new)
    if isinstance(value, Value):
        return _packed(Text(value), new) if value.kind == "text" else value.to_python()
    if isinstance(value, Texts):
        return _block(Texts, value, new, [_packed(text, new) for text in value])
    if isinstance(value, Array):
        return _block(Array, value, new)
    for kind, plain in ((List, list), (Bytes, bytes), (Text, str)):
        if isinstance(value, kind):
            return _block(kind, value, new) if _address(value) else plain(value)
    return value


def restored(kind: Any, *packed: Any) -> Any:
    """A value of a type, whose own `__init__` isn't called. What it is made of stands last."""
    base = [each for each in kind.__mro__ if each in _KINDS][0]
    value = kind.__new__(kind)
    base.__init__(value, _loaded(packed[-1]))
    return value


def reduced(value: Any) -> tuple[Any, ...]:
    """What `__reduce__` gives. Blocks are pickled before those that hold them, so that the stack
    doesn't grow."""
    new: list[Any] = []
    packed = _packed(value, new)
    kind = {LentText: Text, LentValue: Value}.get(type(value), type(value))
    return restored, (kind, new, packed), value.__getstate__()


def _set_state(made: Any, state: Any) -> None:
    """Gives a copy the attributes that its source has in its dictionary and in slots."""
    if hasattr(made, "__setstate__"):
        made.__setstate__(state)
        return
    attributes, slots = state if isinstance(state, tuple) else (state, None)
    if attributes:
        made.__dict__.update(attributes)
    for name, attribute in (slots or {}).items():
        setattr(made, name, attribute)


def copied(pair: tuple[Any, Any], memo: Optional[dict[int, Any]]) -> Any:
    """A copy, with the attributes of its source, or with deep copies of them."""
    source, made = pair
    if memo is not None:
        memo[id(source)] = made
    state = source.__getstate__()
    if state is not None:
        _set_state(made, state if memo is None else copy.deepcopy(state, memo))
    return made
