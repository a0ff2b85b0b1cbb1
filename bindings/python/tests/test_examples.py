"""The docstrings: every public class, call and property has one, and their examples run."""

import doctest
import inspect
import unittest

import common  # noqa: F401

import logpurple
from logpurple._resources import Resource

# The special methods that are public.
SPECIAL = ("__getitem__", "__contains__", "__iter__", "__reversed__", "__enter__")


def members(kind):
    """Yields the public calls and properties of a class, with those of its bases up to
    `Resource`."""
    found = {}
    for base in reversed(kind.__mro__):
        if base is kind or issubclass(base, Resource):
            found.update(vars(base))
    for name, member in found.items():
        if isinstance(member, (classmethod, staticmethod)):
            member = member.__func__
        if isinstance(member, property):
            member = member.fget
        if inspect.isfunction(member) and (name in SPECIAL or not name.startswith("_")):
            yield name, member


def public():
    """Yields what is public, by its name."""
    yield "logpurple", logpurple
    for name in logpurple.__all__:
        value = getattr(logpurple, name)
        if not inspect.isclass(value) and not inspect.isfunction(value):
            continue
        yield name, value
        for part, member in members(value) if inspect.isclass(value) else ():
            yield f"{name}.{part}", member


# The classes with an example, and those of them whose members need none.
WITH_EXAMPLE = ("Table", "Runs", "Writer", "Entries", "Scan", "Keys", "Values", "Items", "Kind",
                "TableError", "FinishedTable", "Compaction", "MultiWriter")
SHOWN_BY_CLASS = ("Keys", "Values", "Items", "Kind")


def wants_example(name, value):
    """Returns whether an example is expected."""
    if inspect.isclass(value):
        return name in WITH_EXAMPLE
    return name.split(".")[0] not in SHOWN_BY_CLASS and name not in (
        "Entries.__iter__", "Scan.__iter__", "Compaction.__iter__")


class Examples(unittest.TestCase):
    def test_docstrings_and_hints(self):
        for name, value in public():
            if "." in name and name.split(".")[0] in SHOWN_BY_CLASS:
                continue
            with self.subTest(name):
                summary = inspect.getdoc(value).split("\n\n")[0]
                self.assertRegex(summary, r"[.:]($|\s)")
                if inspect.isfunction(value):
                    hints = inspect.signature(value)
                    self.assertIsNot(hints.return_annotation, inspect.Signature.empty)
                    for part in list(hints.parameters.values()):
                        if part.name not in ("self", "cls"):
                            self.assertIsNot(part.annotation, inspect.Parameter.empty)
                            self.assertNotEqual(part.kind, inspect.Parameter.VAR_KEYWORD)

    def test_examples(self):
        finder = doctest.DocTestFinder(recurse=False)
        for name, value in public():
            with self.subTest(name):
                names = dict(vars(logpurple))
                tests = finder.find(value, name, module=False, globs=names)
                examples = [example for test in tests for example in test.examples]
                if wants_example(name, value):
                    self.assertTrue(examples, "there is no example")
                for test in tests:
                    runner = doctest.DocTestRunner(optionflags=doctest.ELLIPSIS)
                    output = []
                    runner.run(test, out=output.append)
                    self.assertEqual(runner.failures, 0, "".join(output))


if __name__ == "__main__":
    unittest.main()
