from typing import Any

from ecow import Array as Array, Bytes as Bytes, LentText as LentText, LentValue as LentValue, List as List
from ecow import Text as Text, Texts as Texts, Value as Value
from ecow import __version__ as __version__, is_utf8 as is_utf8

def _address(value: Any, /) -> int: ...
def _plain(value: Any, find: Any, least: int, /) -> Any: ...
