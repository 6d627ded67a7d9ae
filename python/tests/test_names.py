"""The types in `__init__.pyi` and the module tell of the same names."""

import ast
import copy
import dataclasses
import inspect
import pathlib
import pickle
import unittest
from collections.abc import Hashable, Iterable, MutableSequence, Sequence

import ecow

PATH = pathlib.Path(ecow.__file__).with_suffix(".pyi")
STUB = ast.parse(PATH.read_text())
CLASSES = {node.name: node for node in STUB.body if isinstance(node, ast.ClassDef)}
# What each type has from the interpreter and `copyreg`, and what later interpreters add.
OF_TYPES = {"__doc__", "__module__", "__new__", "__slotnames__"}
LATER = {"__buffer__", "__release_buffer__"}


def defined(node):
    """The names that a node of the stub defines."""
    if isinstance(node, (ast.FunctionDef, ast.ClassDef)):
        return {node.name}
    if isinstance(node, ast.AnnAssign):
        return {node.target.id}
    if isinstance(node, ast.Assign):
        return {target.id for target in node.targets}
    return set()


def names_of(body):
    return set().union(*map(defined, body))


class Names(unittest.TestCase):
    def test_module(self):
        told = {name for name in names_of(STUB.body) if name == "__version__" or name[0] != "_"}
        self.assertEqual(told, set(ecow.__all__))
        public = {name for name in dir(ecow) if name[0] != "_"}
        self.assertEqual(public, {name for name in ecow.__all__ if name[0] != "_"})
        self.assertEqual(sorted(ecow.__all__), ecow.__all__)
        self.assertTrue((PATH.parent / "py.typed").is_file())

    def test_methods(self):
        for name, node in CLASSES.items():
            kind = getattr(ecow, name)
            there = set(vars(kind)) - OF_TYPES
            # Operators of which the interpreter adds a form that always declines.
            there -= {"__rmod__"}
            there -= {"__lt__", "__le__", "__gt__", "__ge__"} if kind is ecow.Value else set()
            if name.startswith("Lent"):
                # The interpreter adds what compares, beside a hash. What changes a value is refused.
                there -= {"__eq__", "__ne__", "__lt__", "__le__", "__gt__", "__ge__"}
                there -= {"__iadd__", "__imul__", "__ior__"}
                node.body = [each for each in node.body if defined(each) <= there]
                self.assertEqual(there, {"__hash__"})
            self.assertEqual(there - LATER, names_of(node.body) - LATER, name)
            for member in there:
                if member[0] != "_":
                    self.assertTrue(getattr(kind, member).__doc__, f"{name}.{member}")
            self.assertTrue(kind.__doc__)
            self.assertEqual(kind.__module__, "ecow")

    def test_signatures(self):
        for name, node in CLASSES.items():
            for method in node.body:
                if not isinstance(method, ast.FunctionDef):
                    continue
                where = f"{name}.{method.name}"
                arguments = method.args
                positional = arguments.posonlyargs + arguments.args
                everything = positional[1:] + arguments.kwonlyargs
                self.assertEqual(positional[0].arg, "self", where)
                self.assertTrue(all(each.annotation for each in everything), where)
                self.assertIsNotNone(method.returns, where)
                runtime = getattr(getattr(ecow, name), method.name, None)
                signature = getattr(runtime, "__text_signature__", None)
                if not signature or method.name[:2] == "__":
                    continue
                told = list(inspect.signature(runtime).parameters.values())
                self.assertEqual([each.name for each in told if each.kind is not each.KEYWORD_ONLY],
                                 [each.arg for each in positional], where)
                self.assertEqual([each.name for each in told if each.kind is each.KEYWORD_ONLY],
                                 [each.arg for each in arguments.kwonlyargs], where)
                if len(told) > 1:
                    only = sum(each.kind is each.POSITIONAL_ONLY for each in told)
                    self.assertEqual(only, len(arguments.posonlyargs) or 1, where)
                defaults = [each for each in told if each.default is not each.empty]
                self.assertEqual(len(defaults),
                                 len(arguments.defaults) + len(arguments.kw_defaults), where)

    def test_protocols(self):
        for kind in (ecow.List, ecow.Array, ecow.Bytes, ecow.Text, ecow.Texts):
            self.assertTrue(issubclass(kind, MutableSequence))
            self.assertIsInstance(kind.__new__(kind), Sequence)
            for name in dir(MutableSequence):
                self.assertTrue(hasattr(kind, name) or name in (
                    "__abstractmethods__", "__class_getitem__", "__reversed__", "__slots__",
                    "_abc_impl"), name)
        self.assertIsInstance(ecow.Value([]), Iterable)
        for kind in (ecow.List, ecow.Array, ecow.Bytes, ecow.Text, ecow.Texts, ecow.Value):
            self.assertNotIsInstance(kind.__new__(kind), Hashable)
        for lent in (ecow.Texts(["a"])[0], ecow.Value([[1]])[0]):
            self.assertIsInstance(lent, Hashable)

    def test_lent(self):
        """A type that is lent has its kind's methods. Each that changes a value is told of as none."""
        for lent in (ecow.Texts(["aa"])[0], ecow.Value([{"a": 1}])[0], ecow.Value([[1]])[0]):
            key = "a" if isinstance(lent, ecow.Value) and lent.kind == "fields" else 0
            arguments = {
                "append": ("a",), "extend": ("a",), "insert": (0, "a"), "remove": ("a",), "set": (key, 0),
                "reserve": (1,), "setdefault": ("b",), "truncate": (0,), "__delitem__": (key,),
                "__setitem__": (key, "a"),
            }
            told = {each.target.id for each in CLASSES[type(lent).__name__].body
                    if isinstance(each, ast.AnnAssign)}
            for name in sorted(set(vars(type(lent).__base__)) - OF_TYPES - {"__init__", "__getattribute__"}):
                if name == "sort" and key == "a":
                    continue  # fields have no items to sort
                method, before, given = getattr(lent, name), repr(lent), arguments.get(name, ())
                refused = False
                try:
                    method(*given)
                except TypeError as error:
                    refused = "handed out can't be changed" in str(error)
                except Exception:
                    pass
                self.assertEqual(refused, name in told, f"{type(lent).__name__}.{name}")
                self.assertEqual(repr(lent), before)
            with self.assertRaises(TypeError):
                type(lent)()
            with self.assertRaises(TypeError):
                type("Derived", (type(lent),), {})
            for made in (lent.copy(), copy.copy(lent), copy.deepcopy(lent), pickle.loads(pickle.dumps(lent))):
                self.assertIs(type(made), type(lent).__base__)

    def test_defaults(self):
        """A dataclass refuses what can be changed as the default of a field."""
        for value in (ecow.List(), ecow.Array("d"), ecow.Bytes(), ecow.Text(), ecow.Texts(), ecow.Value({})):
            with self.assertRaisesRegex(ValueError, "mutable default"):
                dataclasses.make_dataclass("Page", [("field", object, value)])
        self.assertFalse(issubclass(ecow.Value, Sequence))

    def test_version(self):
        self.assertRegex(ecow.__version__, r"^\d+\.\d+\.\d+$")


if __name__ == "__main__":
    unittest.main()
