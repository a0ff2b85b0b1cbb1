"""The parts of errors: the code, the path of the file, and the block if it is known."""

import copy
import os
import pathlib
import pickle
import tempfile
import unittest

from common import entries_of, file_of

import logpurple
from logpurple import Fault, Runs, Section, Table, TableError


def raised(call):
    """Returns the error that a call raises."""
    try:
        call()
    except TableError as error:
        return error
    raise AssertionError("there is no error")


class Errors(unittest.TestCase):
    def setUp(self):
        folder = tempfile.TemporaryDirectory()
        self.addCleanup(folder.cleanup)
        self.path = os.path.join(folder.name, "fruit.sst")
        self.file = bytearray(file_of(entries_of(3, 300), data_block_size=64))
        self.file[40] ^= 1  # in the first data block
        pathlib.Path(self.path).write_bytes(self.file)

    def test_a_path(self):
        table = Table.open(self.path)
        self.assertEqual(table.path, self.path)
        for error in (raised(lambda: list(table.entries())), raised(table.scan),
                      raised(lambda: list(table.share().items())),
                      raised(lambda: [table.get(key) for key in (b"", b"\0")]),
                      raised(lambda: [table.entry_many([b"", b"\0"])])):
            self.assertIsInstance(error, logpurple.ChecksumMismatch)
            self.assertEqual((error.path, error.code, error.section, error.offset),
                             (self.path, 5, None, None))
            self.assertEqual(str(error), f"checksum mismatch (5): {self.path!r}")
            self.assertEqual(repr(error), f"ChecksumMismatch({str(error)!r})")
        table.close()
        self.assertEqual(str(raised(table.facts)), f"the handle is closed (100): {self.path!r}")
        self.assertEqual(raised(lambda: Runs(table)).path, self.path)
        self.assertIn(repr(self.path), repr(table))

    def test_paths_of_each_kind(self):
        for path in (self.path, pathlib.Path(self.path), os.fsencode(self.path)):
            if not isinstance(path, bytes):
                self.assertEqual(Table.open(path).path, self.path)
        with open(self.path, "wb") as file:
            file.write(b"no table")
        error = raised(lambda: Table.open(pathlib.Path(self.path)))
        self.assertEqual((type(error), error.path), (logpurple.InvalidTrailer, self.path))
        self.assertEqual(str(error), f"invalid trailer (11): {self.path!r}")
        with self.assertRaises(FileNotFoundError) as absent:
            Table.open(self.path + "?")
        self.assertEqual(absent.exception.filename, self.path + "?")

    def test_no_path(self):
        for error in (raised(lambda: list(Table.open(self.file))),
                      raised(lambda: list(Runs(Table.open(self.path)))),
                      raised(lambda: logpurple.compact([Table.open(self.path)]))):
            self.assertEqual(str(error), "checksum mismatch (5)")
            self.assertIsNone(error.path)

    def test_a_block(self):
        for table, name in ((Table.open(self.path), repr(self.path) + ", "),
                            (Table.open(self.file), "")):
            for verify in (table.verify, lambda: table.verify(lambda *_: None)):
                error = raised(verify)
                self.assertEqual((error.section, error.offset), (Section.DATA, 0))
                self.assertEqual(error.finding, (Section.DATA, 0, Fault.UNLOADED, 5))
                block = f"{name}section DATA, offset 0"
                self.assertEqual(str(error),
                                 f"the table is not sound (107): {block}, fault UNLOADED")
                cause = error.__cause__
                self.assertEqual((type(cause), cause.section, cause.offset),
                                 (logpurple.ChecksumMismatch, Section.DATA, 0))
                self.assertEqual(str(cause), f"checksum mismatch (5): {block}")

    def test_copies(self):
        error = raised(Table.open(self.path).verify)
        for again in (pickle.loads(pickle.dumps(error)), copy.copy(error)):
            self.assertEqual((str(again), again.path, again.offset, again.finding),
                             (str(error), self.path, 0, error.finding))
        self.assertEqual(str(logpurple.Closed(path="x")), "the handle is closed (100): 'x'")

    def test_an_unknown_code(self):
        error = TableError(99)
        self.assertEqual((error.code, error.args), (99, (99,)))
        self.assertEqual(str(error), f"{error.text} (99)")


if __name__ == "__main__":
    unittest.main()
