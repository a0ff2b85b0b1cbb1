"""Bytes that a table reads without a copy, and verification by steps."""

import array
import gc
import itertools
import mmap
import sys
import tempfile
import unittest

from common import entries_of, file_of, small, sorted_entries, table_of

import logpurple
from logpurple import Runs, Table


class Bytes(bytes):
    """Bytes of a class of their own."""


def counted(file):
    """Returns the number of references to some bytes, after a garbage collection."""
    gc.collect()
    return sys.getrefcount(file)


class Kept(unittest.TestCase):
    def setUp(self):
        self.written = entries_of(3, 80)
        self.file = file_of(self.written, **small(1))

    def test_reads(self):
        for file in (self.file, memoryview(self.file), Bytes(self.file),
                     memoryview(self.file + b"..")[:-2]):
            table = Table.open(file, kept=True)
            self.assertEqual(list(table.entries()), self.written)
            self.assertEqual(table.verify().item_count, len(self.written))
            keys = [entry.key for entry in self.written]
            self.assertEqual(table.get_many(keys), Table.open(self.file).get_many(keys))

    def test_what_may_be_written_to(self):
        for file in (bytearray(self.file), array.array("B", self.file),
                     memoryview(bytearray(self.file)).toreadonly(), memoryview(self.file)[::2],
                     memoryview(self.file + self.file)[::-1]):
            with self.assertRaises(BufferError):
                Table.open(file, kept=True)
        for file in (5, None, [1]):
            with self.assertRaises(TypeError):
                Table.open(file, kept=True)

    def test_bytes_that_are_no_table(self):
        file = self.file[:-1]
        before = counted(file)
        with self.assertRaises(logpurple.InvalidTrailer):
            Table.open(file, kept=True)
        self.assertEqual(counted(file), before)

    def test_stays_until_all_is_closed(self):
        before = counted(self.file)
        for order in itertools.permutations(range(5)):
            table = Table.open(self.file, kept=True)
            runs = Runs(table)
            held = [table, table.share(), table.entries(), runs, runs.packed()]
            del table, runs
            for place in order:
                self.assertGreater(counted(self.file), before)
                if place == 2:
                    self.assertEqual(list(held[place]), self.written)
                else:
                    self.assertIsNotNone(held[place].entry(self.written[0].key))
                held[place].close()
            self.assertEqual(counted(self.file), before)

    def test_a_scan_keeps_them(self):
        before = counted(self.file)
        table = Table.open(self.file, kept=True)
        scan = table.scan()
        table.close()
        self.assertGreater(counted(self.file), before)
        self.assertEqual(list(scan), self.written)
        self.assertEqual(counted(self.file), before)

    def test_collected_in_a_circle(self):
        before = counted(self.file)
        table = Table.open(self.file, kept=True)
        table.itself, table.entries_of_it = table, table.entries()
        self.assertGreater(counted(self.file), before)
        del table
        self.assertEqual(counted(self.file), before)

    def test_a_map_of_a_file(self):
        with tempfile.TemporaryFile() as file:
            file.write(self.file)
            file.flush()
            with mmap.mmap(file.fileno(), 0, access=mmap.ACCESS_READ) as mapped:
                table = Table.open(mapped, kept=True)
                entries = table.entries()
                with self.assertRaises(BufferError):
                    mapped.close()
                table.close()
                with self.assertRaises(BufferError):
                    mapped.close()
                self.assertEqual(list(entries), self.written)
            with mmap.mmap(file.fileno(), 0, access=mmap.ACCESS_WRITE) as mapped:
                with self.assertRaises(BufferError):
                    Table.open(mapped, kept=True)

    def test_with_tables_of_their_own(self):
        other = entries_of(4, 60, 9)
        runs = Runs(table_of(other), Table.open(self.file, kept=True))
        wanted = sorted_entries(self.written, other)
        self.assertEqual([entry.key for entry in runs.entries()],
                         sorted({entry.key for entry in wanted}))


class Steps(unittest.TestCase):
    def test_progress(self):
        written = entries_of(3, 300)
        for seed in range(4):
            table, calls = table_of(written, **small(seed)), []
            verified = table.verify(lambda read, size: calls.append((read, size)))
            self.assertEqual(verified, table.verify())
            self.assertEqual([read for read, _ in calls], sorted(read for read, _ in calls))
            self.assertEqual({size for _, size in calls}, {table.facts().data_size})
            self.assertEqual((calls[0][0], calls[-1][0]), (0, table.facts().data_size))
            self.assertGreater(len(calls), table.facts().data_block_count)

    def test_the_table_may_be_used_and_closed(self):
        table = table_of(entries_of(3, 80), **small(1))

        def use(read, size):
            if read < size / 2:
                self.assertEqual(table.verify().item_count, table.entry_count)
            else:
                table.close()

        self.assertGreater(table.verify(use).item_count, 0)
        with self.assertRaises(logpurple.Closed):
            table.verify(use)

    def test_stopped(self):
        calls = []

        def stop(read, size):
            calls.append(read)
            raise KeyboardInterrupt

        with self.assertRaises(KeyboardInterrupt):
            table_of(entries_of(3, 80)).verify(stop)
        self.assertEqual(calls, [0])

    def test_what_progress_raises_stays(self):
        wrong = logpurple.Faulty()
        wrong.finding = "of another table"

        def stop(read, size):
            raise wrong

        with self.assertRaises(logpurple.Faulty) as raised:
            table_of(entries_of(3, 80)).verify(stop)
        self.assertIs(raised.exception, wrong)
        self.assertEqual(wrong.finding, "of another table")

    def test_damage(self):
        file = file_of(entries_of(3, 60), **small(1))
        for place in range(0, len(file), 7):
            damaged = file[:place] + bytes([file[place] ^ 0xff]) + file[place + 1:]
            try:
                table = Table.open(damaged)
            except logpurple.TableError:
                continue
            found = []
            for verify in (table.verify, lambda: table.verify(lambda *_: None)):
                try:
                    found.append(verify())
                except logpurple.Faulty as faulty:
                    found.append((faulty.finding, type(faulty.__cause__)))
            self.assertEqual(found[0], found[1])


if __name__ == "__main__":
    unittest.main()
