"""What a type checker takes: it is checked, and run by nobody."""

from typing import assert_type

from ecow import Array, Bytes, LentText, LentValue, List, Text, Texts, Value

text = Text("a")
longer: Text = text + "b"
longer += Text("c")
assert_type(text[0], str)
assert_type(text[1:], Text)
assert_type(str(text), str)
texts = Texts(["a", text])
texts.sort(key=str)
assert_type(texts[0], LentText)
assert_type(texts.pop(), Text)
counts: dict[LentText, int] = {texts[0]: 1}
texts[0] += "b"
numbers = List([1])
numbers += [2]
numbers.extend(number for number in (1, 2))
assert_type(sum(numbers), int)
reals = Array("d", [1, 2.5])
reals += [0.5]
assert_type(reals[1:], Array)
assert_type(reals + [1.0], Array)
assert_type(reals.copy(), Array)
assert_type(Array(reals).typecode, str)
with reals.edit() as view:
    view[0] = 5
data = Bytes(b"x")
data += b"y"
assert_type(data.partition(Bytes(b"x")), tuple[Bytes, Bytes, Bytes])
value = Value({"a": [1, {"b": None}]})
value["a", 1, "b"] = 5
value.update({"x": 1}, y=[2.5])
value |= {"c": "d"}
assert_type(value | {"e": 1}, Value)
assert_type(value.part(["a", 0]), LentValue)
assert_type(value.part(["a", 0]).copy(), Value)
assert_type(hash(value["a"]), int)
# Each of these lines is refused: a comment that ignores nothing is refused itself.
texts[0].append("x")  # type: ignore
reals.append("x")  # type: ignore
value.part("a").append(1)  # type: ignore
counts[Text("b")] = 1  # type: ignore
del value["a", 0]
match value.to_python():
    case {"a": [*items]}:
        print(items)
