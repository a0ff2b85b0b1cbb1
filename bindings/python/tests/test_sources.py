"""Prefixes, memtables and runs of several tables, compared with plain lists; and files."""

import os
import random
import stat
import tempfile
import unittest

from common import (entries_of, file_of, newest, seen, shown, small, sorted_entries, table_of,
                    within)

import logpurple
from logpurple import NEWEST, Entry, Kind, Runs, Table, Writer

PREFIXES = [b"", b"a", b"ab", b"\0", b"\xff", b"\xff\xff", b"c\xff", b"abcabc", b"zz"]
BOUNDS = [(None, None), (b"a", None), (None, b"b"), (b"a\xff", b"c"), (b"c", b"a")]


def readers():
    """Yields readers, with all their entries."""
    for seed in range(4):
        entries = entries_of(seed, 200)
        yield table_of(entries, **small(seed)), entries
    lists = [entries_of(seed, 150, above, 4) for seed, above in ((1, 20), (2, 11), (3, 2))]
    runs = Runs(*[table_of(entries, **small(i)) for i, entries in enumerate(lists)])
    yield runs, sorted_entries(*lists)
    yield runs.packed(), sorted_entries(*lists)
    yield Runs(), []


def one_of(*lists):
    """Returns the entries of some lists in order. If two agree in key and number, that of the first
    list is kept."""
    found = {}
    for entries in reversed(lists):
        found.update(((entry.key, entry.seqno), entry) for entry in entries)
    return sorted_entries(found.values())


class Prefixes(unittest.TestCase):
    def test_range(self):
        for reader, entries in readers():
            for prefix in PREFIXES:
                for at in (NEWEST, 6):
                    wanted = [pair for pair in shown(entries, at) if pair[0].startswith(prefix)]
                    self.assertEqual(list(reader.range(prefix=prefix, at=at)), wanted)
                    self.assertEqual(list(reader.range(prefix=prefix, at=at, reverse=True)),
                                     wanted[::-1])
                    for lower, upper in BOUNDS:
                        self.assertEqual(list(reader.range(lower, upper, prefix=prefix, at=at)),
                                         within(wanted, lower, upper))

    def test_entries(self):
        for reader, entries in readers():
            found = entries if isinstance(reader, Table) else seen(entries)
            for prefix in PREFIXES:
                wanted = [entry for entry in found if entry.key.startswith(prefix)]
                self.assertEqual(list(reader.entries(prefix=bytearray(prefix))), wanted)
                self.assertEqual(list(reader.entries(prefix=prefix, reverse=True)), wanted[::-1])

    def test_no_prefix(self):
        table = table_of(entries_of(1, 10))
        for wrong in ("a", 5):
            with self.assertRaises(TypeError):
                table.range(prefix=wrong)
            with self.assertRaises(TypeError):
                table.entries(prefix=wrong)


class Memtables(unittest.TestCase):
    def test_range(self):
        dice = random.Random(5)
        for reader, entries in readers():
            for seed in range(6):
                memtable = entries_of(100 + seed, seed * 30, dice.choice((0, 3, 60)))
                both = one_of(memtable, entries)
                for at in (NEWEST, 6, 30, 0):
                    wanted = shown(both, at)
                    self.assertEqual(list(reader.range(memtable=memtable, at=at)), wanted)
                    self.assertEqual(list(reader.range(reverse=True, memtable=memtable, at=at)),
                                     wanted[::-1])
                    for lower, upper in BOUNDS:
                        self.assertEqual(
                            list(reader.range(lower, upper, memtable=tuple(memtable), at=at)),
                            within(wanted, lower, upper))
                    self.assertEqual(list(reader.range(memtable=memtable, at=at, prefix=b"a")),
                                     [pair for pair in wanted if pair[0].startswith(b"a")])

    def test_the_same_version(self):
        table = table_of([Entry(b"a", 3, Kind.VALUE, b"table"), Entry(b"b", 3, Kind.VALUE, b"b")])
        memtable = [Entry(b"a", 3, Kind.VALUE, b"memtable"), Entry(b"b", 2, Kind.TOMBSTONE, b"")]
        for reverse in (False, True):
            self.assertEqual(dict(table.range(memtable=memtable, reverse=reverse)),
                             {b"a": b"memtable", b"b": b"b"})

    def test_out_of_order(self):
        table = table_of([Entry(b"m", 3, Kind.VALUE, b"")])
        for first, second in ((b"b", 1), (b"a", 1)), ((b"a", 1), (b"a", 2)), ((b"a", 1), (b"a", 1)):
            memtable = [Entry(key, seqno, Kind.VALUE, b"") for key, seqno in (first, second)]
            for reverse in (False, True):
                with self.assertRaises(logpurple.OutOfOrder):
                    list(table.range(memtable=memtable, reverse=reverse))

    def test_left(self):
        table = table_of(entries_of(3, 100))
        memtable = entries_of(4, 100)
        pairs = table.range(memtable=memtable)
        wanted = shown(one_of(memtable, entries_of(3, 100)))
        table.close()
        self.assertEqual([next(pairs), next(pairs)], wanted[:2])
        pairs.close()
        self.assertEqual(list(pairs), [])


class OfRuns(unittest.TestCase):
    def test_reads(self):
        dice = random.Random(6)
        for _ in range(20):
            runs, lists = [], []
            for above in range(40, 0, -10):
                entries = entries_of(dice.random(), 60, above)
                cuts = sorted({0, len(entries), *dice.choices(range(len(entries)), k=3)})
                # A key goes into one table.
                cuts = [cut for cut in cuts if cut in (0, len(entries))
                        or entries[cut].key != entries[cut - 1].key]
                runs.append([table_of(entries[i:j]) for i, j in zip(cuts, cuts[1:])])
                lists.append(entries)
            both, read = sorted_entries(*lists), Runs.of_runs(runs)
            self.assertEqual(read.table_count, sum(map(len, runs)))
            self.assertLessEqual(len(read.packing().runs), len(runs))
            for at in (NEWEST, 45, 25):
                self.assertEqual(list(read.range(at=at)), shown(both, at))
            for key in {entry.key for entry in both}:
                self.assertEqual(read.entry(key), newest(both, key))

    def test_misuse(self):
        table = table_of(entries_of(1, 5))
        self.assertEqual(Runs.of_runs([]).table_count, 0)
        for wrong in (table, [table], [[5]], 5):
            with self.assertRaises(TypeError):
                Runs.of_runs(wrong)


class Files(unittest.TestCase):
    def setUp(self):
        folder = tempfile.TemporaryDirectory()
        self.addCleanup(folder.cleanup)
        self.folder = folder.name
        self.path = os.path.join(folder.name, "1.sst")
        self.file = file_of(entries_of(1, 50), id=7)

    def written(self, path, count=50):
        writer = Writer(id=7)
        for entry in entries_of(1, count):
            writer.add(entry.key, entry.value, entry.seqno, entry.kind)
        return writer.finish_to(path)

    def read(self):
        with open(self.path, "rb") as file:
            return file.read()

    def test_a_new_file(self):
        for save in (self.file.save, self.written):
            written = save(self.path)
            self.assertEqual(self.read(), self.file)
            self.assertEqual(os.listdir(self.folder), ["1.sst"])
            mask = os.umask(0)
            os.umask(mask)
            self.assertEqual(stat.S_IMODE(os.stat(self.path).st_mode), 0o666 & ~mask)
            os.unlink(self.path)
        self.assertEqual(written, (self.path, 7, self.file.checksum, len(self.file)))

    def test_a_file_of_several_pieces(self):
        value = os.urandom(1 << 20)
        writers = Writer(), Writer()
        for writer in writers:
            for digit in range(5):
                writer.add(b"%d" % digit, value)
        file, written = writers[0].finish(), writers[1].finish_to(self.path)
        self.assertEqual((self.read(), written.size), (file, len(file)))

    def test_a_file_that_is_replaced(self):
        with open(self.path, "wb") as file:
            file.write(b"old")
        os.chmod(self.path, 0o640)
        self.file.save(self.path)
        self.assertEqual(self.read(), self.file)
        self.assertEqual(stat.S_IMODE(os.stat(self.path).st_mode), 0o640)

    def test_failures(self):
        missing = os.path.join(self.folder, "missing", "1.sst")
        os.mkdir(self.path)
        for path, error in ((missing, FileNotFoundError), (self.path, IsADirectoryError)):
            for save in (self.file.save, self.written):
                with self.assertRaises(error):
                    save(path)
                self.assertEqual(os.listdir(self.folder), ["1.sst"])
        for wrong in (5, None):
            with self.assertRaises(TypeError):
                self.file.save(wrong)

    def test_without_an_entry(self):
        self.assertIsNone(Writer().finish_to(self.path))
        self.assertEqual(os.listdir(self.folder), [])

    def test_a_writer_is_closed_then(self):
        for path in (self.path, os.path.join(self.folder, "missing", "1.sst")):
            writer = Writer()
            writer.add(b"a", b"1")
            try:
                writer.finish_to(path)
            except FileNotFoundError:
                pass
            self.assertTrue(writer.closed)
            for call in (writer.finish, lambda: writer.finish_to(self.path)):
                with self.assertRaises(logpurple.Closed):
                    call()


if __name__ == "__main__":
    unittest.main()
