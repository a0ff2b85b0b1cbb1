"""A table and several tables as mappings of keys to newest values, compared with a dict."""

import contextlib
import gc
import sys
import unittest

from common import entries_of, file_of, shown, small, sorted_entries, table_of

import logpurple
from logpurple import Entry, Kind, Runs, Table, Writer

# Keys of two bytes, which `dict` takes for pairs where an object has no `keys`.
TWO = [Entry(b"k%d" % digit, 1, Kind.VALUE, b"v%d" % digit) for digit in range(10)]


class Mappings(unittest.TestCase):
    def check(self, reader, wanted):
        """Compares all entries of a reader with a dict, whose keys are in order."""
        self.assertEqual(dict(reader), wanted)
        self.assertEqual({**reader}, wanted)
        self.assertEqual(list(reader), list(wanted))
        self.assertEqual(list(reversed(reader)), list(wanted)[::-1])
        for view, same in ((reader.keys(), wanted.keys()), (reader.values(), wanted.values()),
                           (reader.items(), wanted.items())):
            for _ in range(2):
                self.assertEqual(list(view), list(same))
                self.assertEqual(list(reversed(view)), list(same)[::-1])
            for each in list(same)[:5]:
                self.assertIn(each, view)
        for key in [b"", b"a", b"ab", b"zz", *list(wanted)[:20]]:
            self.assertEqual(key in reader, key in wanted)
            self.assertEqual(key in reader.keys(), key in wanted)
            self.assertEqual(reader.get(key), wanted.get(key))
            self.assertEqual(reader.get(key, 5), wanted.get(key, 5))
            self.assertEqual((key, b"1") in reader.items(), wanted.get(key) == b"1")
            self.assertNotIn((key, None), reader.items())
            if key not in wanted:
                with self.assertRaises(KeyError) as raised:
                    reader[key]
                self.assertEqual(raised.exception.args, (key,))
        self.assertNotIn(b"no value", reader.values())

    def test_random_tables(self):
        for seed in range(8):
            entries = entries_of(seed, 300)
            self.check(table_of(entries, **small(seed)), dict(shown(entries)))

    def test_random_runs(self):
        lists = [entries_of(seed, 150, above, 4) for seed, above in ((1, 20), (2, 11), (3, 2))]
        runs = Runs(*[table_of(entries, **small(i)) for i, entries in enumerate(lists)])
        wanted = dict(shown(sorted_entries(*lists)))
        self.check(runs, wanted)
        self.check(runs.packed(), wanted)

    def test_keys_of_two_bytes(self):
        wanted = {entry.key: entry.value for entry in TWO}
        self.check(table_of(TWO), wanted)
        self.check(Runs(table_of(TWO)), wanted)

    def test_a_key_whose_newest_version_is_a_deletion_is_no_key(self):
        for kind in (Kind.TOMBSTONE, Kind.WEAK_TOMBSTONE):
            entries = [Entry(b"a", 2, kind, b""), Entry(b"a", 1, Kind.VALUE, b"old"),
                       Entry(b"b", 3, Kind.INDIRECTION, b"stored")]
            table = table_of(entries)
            for reader in (table, Runs(table)):
                self.check(reader, {b"b": b"stored"})
                self.assertEqual(reader.get(b"a", at=2), b"old")
            self.assertEqual((table.entry_count, list(table.entries())), (3, entries))

    def test_no_keys(self):
        self.check(Runs(), {})
        self.check(table_of([Entry(b"a", 1, Kind.TOMBSTONE, b"")]), {})

    def test_there_is_no_len(self):
        """A length would be the number of keys, which needs a pass over the table."""
        table = table_of(TWO)
        for reader in (table, Runs(table)):
            for each in (reader, reader.keys(), reader.values(), reader.items()):
                with self.assertRaises(TypeError):
                    len(each)
                self.assertTrue(each)
        self.assertEqual((table.entry_count, Runs(table, table).table_count), (10, 2))

    def test_what_is_no_key(self):
        table = table_of(TWO)
        for wrong in ("k1", 5, None, [1]):
            for call in (lambda: wrong in table, lambda: wrong in Runs(table), lambda: table[wrong],
                         lambda: wrong in table.keys(), lambda: (wrong, b"") in table.items()):
                with self.assertRaises(TypeError):
                    call()

    def test_closed(self):
        table = table_of(TWO)
        views = [table.keys(), table.values(), table.items()]
        table.close()
        for view in views:
            for call in (iter, reversed):
                with self.assertRaises(logpurple.Closed):
                    next(call(view))


def references(file):
    gc.collect()
    return sys.getrefcount(file)


class Iterations(unittest.TestCase):
    """An iteration can be left at any time, and releases everything then."""

    def setUp(self):
        self.entries = entries_of(3, 900)
        self.file = file_of(self.entries, data_block_size=64)

    def begun(self):
        """Yields an iterator of each kind, over tables that reference the bytes."""
        for reader in (Table.open(self.file, kept=True), Runs(Table.open(self.file, kept=True))):
            yield from (iter(reader), reversed(reader), iter(reader.keys()), iter(reader.values()),
                        iter(reader.items()), reversed(reader.items()), reader.range(),
                        reader.range(b"a", b"c", reverse=True, at=5), reader.entries(),
                        reader.entries(b"a", reverse=True))
            if isinstance(reader, Table):
                yield reader.scan()

    def test_left_by_break(self):
        before = references(self.file)
        for count in (0, 1, 16, 17, 100):
            for iterator in self.begun():
                for _ in zip(range(count), iterator):
                    pass
                self.assertGreater(references(self.file), before)
            del iterator
            self.assertEqual(references(self.file), before)

    def test_left_by_an_exception(self):
        before = references(self.file)
        for iterator in self.begun():
            with self.assertRaises(ZeroDivisionError):
                for _ in iterator:
                    raise ZeroDivisionError
        del iterator
        self.assertEqual(references(self.file), before)

    def test_closed(self):
        table = Table.open(self.file)
        for iterator in (table.range(), table.range(reverse=True)):
            for count in range(3):
                if count:
                    next(iterator)
                if count == 2:
                    iterator.close()
                    self.assertEqual(list(iterator), [])
        with contextlib.closing(table.range()) as pairs:
            next(pairs)
        self.assertEqual(list(pairs), [])
        for steps in (table.entries(), table.scan()):
            with steps:
                self.assertEqual(next(steps), self.entries[0])
                self.assertFalse(steps.closed)
            self.assertTrue(steps.closed)
            with self.assertRaises(logpurple.Closed):
                next(steps)

    def test_at_its_end(self):
        table = Table.open(self.file)
        for steps in (table.entries(), table.scan()):
            for count, _ in enumerate(steps, 1):
                self.assertEqual(steps.closed, count == len(self.entries))

    def test_two_at_once(self):
        table = Table.open(self.file)
        wanted = shown(self.entries)
        keys = [key for key, _ in wanted]
        self.assertEqual(list(zip(table, table.items(), reversed(table))),
                         list(zip(keys, wanted, keys[::-1])))


class Named(Table):
    """A table of a class of its own."""


class Representations(unittest.TestCase):
    """`repr` shows what an object is, also of one that could not be made."""

    def test_tables(self):
        table = table_of(TWO, id=7)
        self.assertEqual(repr(table), "<Table id=7 entry_count=10>")
        with table._turn:  # as while another thread verifies it
            self.assertEqual(repr(table), "<Table>")
        table.close()
        self.assertEqual(repr(table), "<Table closed>")
        self.assertEqual(repr(Named.open(file_of(TWO))), "<Named id=0 entry_count=10>")
        self.assertEqual(repr(Table.__new__(Table)), "<Table closed>")

    def test_runs(self):
        runs = Runs(table_of(TWO), table_of(TWO[:1]))
        self.assertEqual(repr(runs), "<Runs table_count=2>")
        self.assertEqual(repr(runs.packed()), "<Runs table_count=2>")
        runs.close()
        self.assertEqual(repr(runs), "<Runs table_count=2 closed>")

    def test_views_and_iterators(self):
        table = table_of(TWO)
        self.assertEqual(repr(table.keys()), "<Keys of <Table id=0 entry_count=10>>")
        self.assertEqual(repr(table.values()), "<Values of <Table id=0 entry_count=10>>")
        self.assertEqual(repr(Runs(table).items()), "<Items of <Runs table_count=1>>")
        self.assertEqual(repr(table.entries()), "<Entries>")
        self.assertEqual(repr(table.entries(b"a", b"", True)),
                         "<Entries lower=b'a' upper=b'' reverse=True>")
        self.assertLess(len(repr(table.entries(b"a" * 1000))), 100)
        scan = table.scan()
        self.assertEqual(repr(scan), "<Scan>")
        scan.close()
        self.assertEqual(repr(scan), "<Scan closed>")

    def test_what_is_written(self):
        writer = Writer(id=5)
        self.assertEqual(repr(writer), "<Writer id=5>")
        self.assertEqual(repr(Writer.__new__(Writer)), "<Writer id=None closed>")
        writer.add(b"a", b"1")
        file = writer.finish()
        self.assertEqual(repr(writer), "<Writer id=5 closed>")
        wanted = f"<FinishedTable id=5 checksum={file.checksum:016x} {len(file)} bytes>"
        self.assertEqual((repr(file), str(file), f"{file}"), (wanted,) * 3)
        self.assertEqual(repr(logpurple.FinishedTable(b"x")), "FinishedTable(b'x')")
        files = logpurple.compact([Table.open(file)], id=5)
        self.assertEqual(repr(files), f"Compacted([{files[0]!r}], next_id=6)")
        self.assertEqual(repr(logpurple.compact([])), "Compacted([], next_id=1)")


if __name__ == "__main__":
    unittest.main()
