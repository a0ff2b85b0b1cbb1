"""Entries that are fetched ahead or written in bulk. None is lost or repeated, at either end. An
error is raised after the entries before it."""

import random
import unittest

from common import table_of

from logpurple import ChecksumMismatch, Closed, Entry, Kind, OutOfOrder, Runs, Table, Writer

ENTRIES = [Entry(b"%05d" % (place // 2), 9 - place % 2, Kind.VALUE, b"v" * (place % 50))
           for place in range(1500)]


class Bulk(unittest.TestCase):
    def test_ends(self):
        for seed in range(20):
            ends, left = random.Random(seed), list(ENTRIES)
            entries = table_of(ENTRIES).entries()
            share = ends.random()
            while left:
                back = ends.random() < share
                self.assertEqual(entries.take(reverse=back), left.pop(-1 if back else 0))
            self.assertIsNone(entries.take())
            self.assertIsNone(entries.take(reverse=True))

    def test_ends_of_several(self):
        """Two handles read the ends of several tables. They end where they meet."""
        newest = ENTRIES[::2]
        runs = Runs(table_of(newest[::2]), table_of(newest[1::2]), table_of(ENTRIES[1::2]))
        for seed in range(20):
            ends, left = random.Random(seed), list(newest)
            entries = runs.entries(reverse=seed % 2 == 1)
            share = ends.random()
            while left:
                back = ends.random() < share
                self.assertEqual(entries.take(reverse=back), left.pop(-1 if back else 0))
            self.assertIsNone(entries.take())
            self.assertIsNone(entries.take(reverse=True))
        # One end reads so many entries, and the other one the rest.
        for count in (0, 1, 16, 17, 80, 336, 700, 749, 750):
            for back in (False, True):
                entries, order = runs.entries(), newest[::-1] if back else newest
                self.assertEqual([entries.take(back) for _ in range(count)], order[:count])
                rest = list(iter(lambda: entries.take(not back), None))
                self.assertEqual(rest, order[count:][::-1])
                self.assertTrue(entries.closed)

    def test_left_at_any_time(self):
        table = table_of(ENTRIES)
        for count in (0, 1, 16, 17, 80, 81, 336, 337, 1499, 1500):
            entries = table.entries()
            self.assertEqual([entry for entry, _ in zip(entries, range(count))], ENTRIES[:count])
            # `zip` takes one entry more than it yields.
            rest = list(entries)
            self.assertEqual(rest, ENTRIES[count + 1:])
            self.assertEqual(list(table.scan()), ENTRIES)

    def test_entries_without_room(self):
        sizes = (1, 70000, 3, 65536, 65537, 10, 200000, 65533)
        entries = [Entry(b"k%02d" % place, 1, Kind.VALUE, bytes([place]) * size)
                   for place, size in enumerate(sizes)]
        table = table_of(entries)
        self.assertEqual(list(table.entries()), entries)
        self.assertEqual(list(table.entries(reverse=True)), entries[::-1])
        self.assertEqual(list(table.scan()), entries)
        self.assertEqual(list(Runs(table).entries()), entries)
        self.assertEqual(list(Runs(table).entries(reverse=True)), entries[::-1])
        both = Runs(table).entries()
        self.assertEqual([both.take(place % 2 == 1) for place in range(8)],
                         [entries[place // 2 if place % 2 == 0 else -1 - place // 2]
                          for place in range(8)])
        self.assertEqual(table.get_many([entry.key for entry in entries]),
                         [entry.value for entry in entries])

    def test_errors(self):
        writer = Writer(data_block_size=100)
        for entry in ENTRIES:
            writer.add(entry.key, entry.value, entry.seqno)
        file = bytearray(writer.finish())
        file[len(file) // 3] ^= 1
        for steps, whole in ((Runs(Table.open(file)).entries(), ENTRIES[::2]),
                             (Table.open(file).entries(), ENTRIES),
                             (Table.open(file).scan(), ENTRIES)):
            found = []
            with self.assertRaises(ChecksumMismatch):
                for entry in steps:
                    found.append(entry)
            self.assertEqual(found, whole[:len(found)])
            self.assertGreater(len(found), 100)
            self.assertTrue(steps.closed)
            self.assertEqual(list(steps), [])
        # An error that is left by closing is not raised.
        for steps in (Table.open(file).entries(), Table.open(file).scan()):
            for _ in found:
                next(steps)
            self.assertFalse(steps.closed)
            steps.close()
            self.assertTrue(steps.closed)
            with self.assertRaises(Closed):
                next(steps)
        # The front fetches the error before it is due: the entries before it come first.
        entries = Table.open(file).entries()
        ahead = [entries.take() for _ in range(len(found))]
        self.assertEqual(ahead, found)
        with self.assertRaises(ChecksumMismatch):
            entries.take()
        self.assertIsNone(entries.take(reverse=True))

    def test_closed(self):
        for steps in (table_of(ENTRIES).entries(), table_of(ENTRIES).scan(),
                      Runs(table_of(ENTRIES)).entries()):
            next(steps)
            steps.close()
            for _ in range(2):
                with self.assertRaises(Closed):
                    next(steps)

    def test_ranges(self):
        newest = [(entry.key, entry.value) for entry in ENTRIES[::2]]
        older = [(entry.key, entry.value) for entry in ENTRIES[1::2]]
        table = table_of(ENTRIES)
        for read in (table, Runs(table)):
            for reverse, turn in ((False, 1), (True, -1)):
                self.assertEqual(list(read.range(reverse=reverse)), newest[::turn])
                self.assertEqual(list(read.range(reverse=reverse, at=9)), older[::turn])
                self.assertEqual(list(read.range(reverse=reverse, at=8)), [])

    def test_many_written(self):
        for count in (0, 1, 255, 256, 257, 1000):
            items = [(b"%05d" % place, b"v" * (place % 9)) for place in range(count)]
            writer, single = Writer(), Writer()
            writer.add_many(iter(items), seqno=3, kind=Kind.INDIRECTION)
            for key, value in items:
                single.add(key, value, 3, Kind.INDIRECTION)
            self.assertEqual(writer.finish(), single.finish())

    def test_many_that_are_no_pairs(self):
        """Lists of other lengths are no pairs, whatever their total length."""
        for wrong in ([(b"a",), (b"b", b"1", b"2")], [(b"a", b"1", b"2")], [b"a"], [5], [None]):
            writer = Writer()
            with self.assertRaises((TypeError, ValueError)):
                writer.add_many(wrong)
            self.assertIsNone(writer.finish())

    def test_a_short_range_takes_one_call(self):
        for count, calls in ((0, 1), (1, 1), (31, 1), (32, 2), (40, 2)):
            entries = table_of(ENTRIES).entries(b"%05d" % 0, b"%05d" % count)
            self.assertEqual(len(list(entries)), 2 * count)
            self.assertEqual(entries._fetched, calls)

    def test_many_out_of_order(self):
        writer = Writer()
        with self.assertRaises(OutOfOrder):
            writer.add_many([(b"a", b""), (b"b", b""), (b"a", b""), (b"c", b"")])
        writer.add(b"d", b"")
        self.assertEqual(list(Table.open(writer.finish())), [b"a", b"b", b"d"])


if __name__ == "__main__":
    unittest.main()
