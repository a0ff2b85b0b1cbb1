"""Several tables: read as one, and compacted."""

import itertools
import random
import unittest

from common import (entries_of, file_of, kept, keys_of, newest, seen, shown, small, sorted_entries,
                    table_of, within)

import logpurple
from logpurple import NEWEST, Entry, Kind, Runs, Table, Writer, compact, compact_each


class Several(unittest.TestCase):
    def setUp(self):
        # No two entries have the same key and sequence number; the newest table is the first.
        self.lists = [entries_of(seed, 150, above, 4)
                      for seed, above in ((1, 20), (2, 11), (3, 2), (4, 1))]
        self.all = sorted_entries(*self.lists)
        self.tables = [table_of(entries, **small(i)) for i, entries in enumerate(self.lists)]
        self.runs = Runs(*self.tables)

    def test_gets(self):
        for at in list(range(0, 60, 3)) + [NEWEST]:
            values = dict(shown(self.all, at))
            for key in keys_of(self.all):
                self.assertEqual(self.runs.entry(key, at), newest(self.all, key, at))
                self.assertEqual(self.runs.get(key, b"-", at), values.get(key, b"-"))

    def test_ranges(self):
        for at in list(range(0, 60, 7)) + [NEWEST]:
            for lower, upper in itertools.product([None, b"", b"ab", b"c"], [None, b"b", b"ca\0"]):
                wanted = within(seen(self.all, at), lower, upper)
                self.assertEqual(list(self.runs.entries(lower, upper, at=at)), wanted)
                self.assertEqual(list(self.runs.entries(lower, upper, True, at)), wanted[::-1])
                wanted = within(shown(self.all, at), lower, upper)
                self.assertEqual(list(self.runs.range(lower, upper, at=at)), wanted)
                self.assertEqual(list(self.runs.range(lower, upper, True, at)), wanted[::-1])
        self.assertEqual(list(self.runs), [key for key, _ in shown(self.all)])

    def test_a_range_from_both_ends(self):
        wanted, dice = seen(self.all), random.Random(5)
        for _ in range(5):
            entries, front, back = self.runs.entries(), [], []
            for _ in wanted:
                from_back = dice.random() < 0.5
                (back if from_back else front).append(entries.take(from_back))
            self.assertEqual(front + back[::-1], wanted)
            self.assertEqual([entries.take(), entries.take(True)], [None, None])

    def test_order_of_closing_and_adding(self):
        entries = self.runs.entries()
        first = next(entries)
        for table in self.tables:
            table.close()
        self.runs.add(table_of([Entry(b"new", 1, Kind.VALUE, b"")]))
        self.assertEqual(self.runs[b"new"], b"")
        self.runs.close()
        self.assertEqual([first] + list(entries), seen(self.all))
        for closed in (self.runs.entries, self.runs.range, lambda: self.runs.get(b"a"),
                       lambda: self.runs.add(self.tables[0])):
            with self.assertRaises(logpurple.Closed):
                closed()

    def test_packed(self):
        packed = self.runs.packed()
        self.assertIsInstance(packed, Runs)
        for table in self.tables:
            table.close()
        self.runs.close()
        for at in (0, 5, 20, NEWEST):
            self.assertEqual(list(packed.entries(at=at)), seen(self.all, at))
            self.assertEqual(list(packed.entries(at=at, reverse=True)), seen(self.all, at)[::-1])
            for key in keys_of(self.all):
                self.assertEqual(packed.entry(key, at), newest(self.all, key, at))
        with self.assertRaises(logpurple.Closed):
            self.runs.packed()
        with self.assertRaises(logpurple.Closed):
            self.runs.packing()

    def test_packing(self):
        dice = random.Random(4)
        for count in range(9):
            spans = [sorted(dice.choices(range(12), k=2)) for _ in range(count)]
            runs = Runs()
            for number, span in enumerate(spans):
                keys = sorted({b"%02d" % key for key in span})
                runs.add(table_of([Entry(key, count - number, Kind.VALUE, b"%d" % number)
                                   for key in keys]))
            packing, packed = runs.packing(), runs.packed()
            self.check_packing(packing, spans)
            self.assertEqual(list(packed.entries()), list(runs.entries()))
            # Packing again only changes the indices, which go run by run.
            again, first = packed.packing(), itertools.count()
            self.assertEqual(again.runs, [[next(first) for _ in run] for run in packing.runs])

    def check_packing(self, packing, spans):
        run_of = {table: at for at, run in enumerate(packing.runs) for table in run}
        self.assertEqual(sorted(run_of), list(range(len(spans))))
        for run in packing.runs:
            for one, next_one in zip(run, run[1:]):
                self.assertLess(spans[one][1], spans[next_one][0])
        for newer, older in itertools.combinations(range(len(spans)), 2):
            if spans[newer][0] <= spans[older][1] and spans[older][0] <= spans[newer][1]:
                self.assertLess(run_of[newer], run_of[older])
        self.assertEqual(len(packing.chain), len(packing.runs))
        for newer, older in zip(packing.chain, packing.chain[1:]):
            self.assertLess(newer, older)
            self.assertLessEqual(spans[newer][0], spans[older][1])
            self.assertLessEqual(spans[older][0], spans[newer][1])

    def test_none(self):
        with Runs() as runs:
            self.assertEqual((runs.packing().runs, runs.packing().chain), ([], []))
            self.assertEqual(list(runs.packed().entries()), [])
            self.assertEqual((list(runs.entries()), runs.get(b"a")), ([], None))
            self.assertEqual(compact(runs), [])
        self.assertEqual(compact([]), [])
        self.assertEqual((compact([], id=5).next_id, compact([], id=2**64 - 1).next_id), (6, None))

    def test_compaction(self):
        for evict, zero, watermark in itertools.product([False, True], [False, True],
                                                        [0, 1, 15, 30, 100, NEWEST]):
            files = compact(self.tables, watermark=watermark, evict=evict, zero=zero, id=5)
            wanted = kept(self.all, watermark, evict, zero)
            self.assertEqual(len(files), 1 if wanted else 0)
            table = Table.open(files[0])
            self.assertEqual((list(table.entries()), table.facts().id), (wanted, 5))
            self.assertEqual(table.verify().item_count, len(wanted))
            # Snapshots at the watermark or above see the same in all tables.
            for at in (watermark, watermark + 1, 40, NEWEST):
                if at >= max(watermark, 1) and at <= NEWEST:
                    self.assertEqual(list(table.range(at=at)), shown(self.all, at))
        self.assertEqual(list(self.runs.entries()), seen(self.all))

    def test_compaction_into_many_tables(self):
        for target in (0, 1, 100, 500):
            files = compact(self.runs, watermark=NEWEST, target=target, id=9, data_block_size=64)
            tables = [Table.open(file) for file in files]
            self.assertGreater(len(tables), 2)
            # At a target of 0 a table ends before its first key, so its id is skipped.
            first = 10 if target == 0 else 9
            self.assertEqual([table.facts().id for table in tables],
                             list(range(first, first + len(tables))))
            self.assertEqual([file.id for file in files], [table.facts().id for table in tables])
            self.assertEqual(files.next_id, first + len(tables))
            wanted = kept(self.all, NEWEST, False, False)
            self.assertEqual([e for table in tables for e in table.entries()], wanted)
            self.assertEqual(list(Runs(*tables).entries()), seen(wanted))

    def test_compaction_table_by_table(self):
        for tables in (self.tables, self.runs, []):
            for target in (0, 1, 100, 500, NEWEST):
                options = {"watermark": NEWEST, "target": target, "id": 9, "data_block_size": 64}
                at_once, compaction = compact(tables, **options), compact_each(tables, **options)
                self.assertEqual(compaction.next_id, 10)
                files = list(compaction)
                self.assertEqual((files, compaction.next_id), (at_once, at_once.next_id))
                self.assertEqual([file.id for file in files], [file.id for file in at_once])
                self.assertTrue(compaction.closed)
                self.assertRaises(StopIteration, next, compaction)
        # It has shares of the tables.
        count = len(compact(self.tables, target=0))
        compaction = compact_each(self.tables, target=0)
        for table in self.tables:
            table.close()
        self.assertEqual((next(compaction).id, compaction.next_id), (1, 3))
        self.assertEqual(len(list(compaction)), count - 1)

    def test_a_compaction_that_is_closed_early(self):
        with compact_each(self.tables, target=0) as compaction:
            self.assertIs(iter(compaction), compaction)
            self.assertEqual(next(compaction).id, 1)
        self.assertEqual((compaction.closed, compaction.next_id), (True, 3))
        with self.assertRaises(logpurple.Closed):
            next(compaction)
        with self.assertRaises(TypeError):
            logpurple.Compaction()

    def test_errors_of_compaction_table_by_table(self):
        # The table of the first key is finished before the second one is found to be there twice.
        lists = [[Entry(b"a", 1, Kind.VALUE, b"")]] + 2 * [[Entry(b"b", 1, Kind.VALUE, b"")]]
        compaction = compact_each([table_of(entries) for entries in lists], target=0, id=4)
        self.assertEqual((next(compaction).id, compaction.next_id), (5, 7))
        with self.assertRaises(logpurple.OutOfOrder):
            next(compaction)
        self.assertEqual((list(compaction), compaction.next_id), ([], 7))
        file = bytearray(file_of(self.lists[1], data_block_size=64))
        file[40] ^= 0xff
        with self.assertRaises(logpurple.ChecksumMismatch):
            compact_each([Table.open(file), self.tables[0]])
        with self.assertRaises(logpurple.NoSuch):
            compact_each(self.tables, data_block_restart_interval=0)
        with self.assertRaises(OverflowError):
            compact_each(self.tables, id=2**64)
        with self.assertRaises(TypeError):
            compact_each(self.tables[0])

    def test_errors_of_compaction(self):
        both = [table_of(self.lists[0]), table_of(self.lists[0])]
        with self.assertRaises(logpurple.OutOfOrder):
            compact(both)
        with self.assertRaises(logpurple.TableIdsSpent):
            compact(self.tables, id=2**64 - 1, target=1, data_block_size=64)
        with self.assertRaises(logpurple.NoSuch):
            compact(self.tables, data_block_restart_interval=0)
        made = compact(self.tables, id=2**64 - 1)
        self.assertEqual((len(made), made.next_id), (1, None))
        for options in ({"watermark": -1}, {"target": 2**64}, {"id": 2**64}):
            with self.assertRaises(OverflowError):
                compact(self.tables, **options)
        for wrong in ({"unused": 1}, {"watermarks": 1}, {"watermark": 1.5}, {"id": "1"}):
            with self.assertRaises(TypeError):
                compact(self.tables, **wrong)
        for wrong in (5, [5], [None], [self.runs], b"abc", [Writer()], self.tables[0]):
            with self.assertRaises(TypeError):
                compact(wrong)
        self.tables[1].close()
        with self.assertRaises(logpurple.Closed):
            compact(self.tables)

    def test_a_damaged_table_is_not_compacted(self):
        file = bytearray(file_of(self.lists[1], data_block_size=64))
        file[40] ^= 0xff
        with self.assertRaises(logpurple.ChecksumMismatch):
            compact([Table.open(file), self.tables[0]])

    def test_an_exception_of_an_iterator_of_tables(self):
        def yielded():
            yield self.tables[0]
            raise ZeroDivisionError

        with self.assertRaises(ZeroDivisionError):
            compact(yielded())

    def test_one_table_twice(self):
        table = self.tables[0]
        self.assertEqual(list(Runs(table, table).entries()), seen(self.lists[0]))


if __name__ == "__main__":
    unittest.main()
