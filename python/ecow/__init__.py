"""Lists, arrays, bytes, texts and nested values whose copies share memory until one of them is changed.

A copy takes the same time however long the value is. No copy shows what is changed in another."""

from collections.abc import MutableSequence as _MutableSequence

import ecow._objects as _objects
from ecow._core import (
    Array, Bytes, LentText, LentValue, List, Text, Texts, Value, __version__, is_utf8)

__all__ = [
    "Array", "Bytes", "LentText", "LentValue", "List", "Text", "Texts", "Value", "__version__",
    "is_utf8"]

for _kind in (Array, Bytes, List, Text, Texts):
    _MutableSequence.register(_kind)
