"""Type hints: `mypy --strict` takes the package and its uses, and finds misuses."""

import importlib.util
import os
import subprocess
import sys
import tempfile
import unittest

from common import HERE

import logpurple

PACKAGE = os.path.dirname(os.path.abspath(logpurple.__file__))
EXAMPLE = os.path.join(HERE, "..", "example.py")
WRONG = """from logpurple import MultiWriter, Runs, Table, Writer, compact
def f(table: Table, runs: Runs) -> None:
    len(table)
    len(runs)
    len(table.keys())
    table["a"]
    table.get("a")
    table.range("a")
    table.range(prefix="a")
    table.range(memtable=[b"a"])
    Runs.of_runs([table])
    Writer(Id=1)
    Writer(id="1")
    Writer(1)
    MultiWriter()
    MultiWriter("1")
    compact([table], levels=1)
    compact(5)
    table.entry_count = 5
    value: bytes = table.get(b"a")
    runs.add(runs)
    Table(b"")
    for number in table:
        number + 1
"""


def mypy(*words):
    return subprocess.run(
        [sys.executable, "-m", "mypy", "--strict", "--cache-dir", os.devnull, *words],
        env=dict(os.environ, MYPYPATH=os.path.dirname(PACKAGE)), stdout=subprocess.PIPE,
        universal_newlines=True)


@unittest.skipUnless(importlib.util.find_spec("mypy"), "mypy is not here")
class Typing(unittest.TestCase):
    def test_the_package_and_its_uses(self):
        checked = mypy(PACKAGE, os.path.join(HERE, "typed.py"),
                       *([EXAMPLE] if os.path.exists(EXAMPLE) else []))
        self.assertEqual(checked.returncode, 0, checked.stdout)

    def test_misuse(self):
        with tempfile.TemporaryDirectory() as folder:
            path = os.path.join(folder, "wrong.py")
            with open(path, "w", encoding="utf-8") as file:
                file.write(WRONG)
            found = {int(line.split(":")[1]) for line in mypy(path).stdout.splitlines()
                     if "wrong.py:" in line and ": error:" in line}
        wanted = [line for line, text in enumerate(WRONG.splitlines(), 1)
                  if line > 2 and not text.endswith(":")]
        self.assertEqual(sorted(found), wanted)


if __name__ == "__main__":
    unittest.main()
