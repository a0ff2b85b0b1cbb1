"""Several tables: snapshots, the longest key, a global sequence number, both format versions,
packing, and the cuts of a compaction."""

import os
import unittest

from common import file_of, table_of
from test_stored import STORED, stored

from logpurple import NEWEST, Entry, Kind, Runs, Table, compact

V, T = Kind.VALUE, Kind.TOMBSTONE
LONGEST = 1 << 20
# Fills a data block, and reaches a target of 1,024 bytes.
LONG = b"v" * 8000


def versions(*rows):
    return [Entry(key, seqno, kind, value) for key, seqno, kind, value in rows]


def names(entries):
    return [(entry.key, entry.seqno) for entry in entries]


class Reads(unittest.TestCase):
    def test_below_a_number(self):
        newer = versions((b"a", 9, V, b""), (b"a", 7, V, b""), (b"b", 3, T, b""))
        runs = Runs(table_of(newer), table_of(versions((b"a", 2, V, b""), (b"c", 5, V, b""))))
        for at, upper, wanted in (
                (0, None, []), (3, None, [(b"a", 2)]),
                (8, None, [(b"a", 7), (b"b", 3), (b"c", 5)]),
                (9, None, [(b"a", 7), (b"b", 3), (b"c", 5)]),
                (NEWEST, None, [(b"a", 9), (b"b", 3), (b"c", 5)]), (8, b"b", [(b"a", 7)])):
            self.assertEqual(names(runs.entries(upper=upper, at=at)), wanted)
            self.assertEqual(names(runs.entries(upper=upper, at=at, reverse=True)), wanted[::-1])

    def test_the_longest_key(self):
        key = b"a" * LONGEST
        newer = versions((key, 9, V, b"x"))
        older = versions((key, 5, V, b"y"), (key, 3, V, b"z"))
        runs = Runs(table_of(newer), table_of(older))
        for reverse in (False, True):
            entries = runs.entries()
            self.assertEqual(entries.take(reverse), newer[0])
            self.assertIsNone(entries.take(not reverse))
            self.assertIsNone(entries.take(reverse))
        self.assertEqual(runs.entry(key, 6), older[0])
        # It is compacted, after another one.
        kept = versions((b"a", 1, V, b"x"), (b"k" * LONGEST, 1, V, b"y"))
        files = compact([table_of(kept)], watermark=5, target=0)
        self.assertEqual([list(Table.open(file).entries()) for file in files],
                         [kept[:1], kept[1:]])


class Compactions(unittest.TestCase):
    def test_numbers_are_kept_lifted(self):
        # The sum is compared to the watermark, and it is what is stored.
        file = file_of(versions((b"a", 3, V, b"x")))
        for global_seqno, number in ((10, 13), (1, 0)):
            table = Table.open(file, global_seqno=global_seqno)
            files = compact([table], watermark=5, zero=True)
            self.assertEqual([names(Table.open(each).entries()) for each in files],
                             [[(b"a", number)]])

    def test_where_new_tables_begin(self):
        # "a", "d" and "e" fill a block each; "b" and "c" go into that of "d".
        tables = [table_of(versions(*rows)) for rows in (
            [(b"a", 9, V, LONG), (b"b", 6, V, b"x"), (b"d", 4, V, LONG)],
            [(b"a", 5, V, b"x"), (b"c", 7, T, b""), (b"e", 1, V, LONG)],
            [(b"b", 2, V, b"x"), (b"c", 3, V, b"x"), (b"d", 2, V, b"x")])]
        # The versions after d@4 are dropped.
        of_each = [[(b"a", 9), (b"a", 5)], [(b"b", 6), (b"b", 2)], [(b"c", 7), (b"c", 3)],
                   [(b"d", 4)], [(b"e", 1)]]
        by_size = [of_each[0], of_each[1] + of_each[2] + of_each[3], of_each[4]]
        for target, ids, wanted in ((0, [6, 7, 8, 9, 10], of_each), (1024, [5, 6, 7], by_size)):
            made = [Table.open(file) for file in compact(tables, watermark=5, target=target, id=5)]
            self.assertEqual([table.facts().id for table in made], ids)
            self.assertEqual([names(table.entries()) for table in made], wanted)

    def test_the_versions_of_a_key_stay_in_one_table(self):
        for numbers in ({b"a": 5}, {b"a": 3, b"b": 1, b"c": 2}):
            written = versions(*((key, seqno, V, LONG) for key, count in numbers.items()
                                 for seqno in reversed(range(count))))
            files = compact([table_of(written)], target=1024)
            self.assertEqual([Table.open(file).entry_count for file in files],
                             list(numbers.values()))


class Packings(unittest.TestCase):
    # A table of a least and a greatest key.
    def table(self, ends):
        return table_of(versions(*((bytes([key]), 1, V, b"") for key in ends)))

    def check(self, runs, wanted, chain):
        packing = runs.packing()
        self.assertEqual(packing.runs, wanted)
        self.assertEqual(len(packing.chain), len(chain))
        for table, may_be in zip(packing.chain, chain):
            self.assertIn(table, may_be)

    def test_tables_go_behind_those_that_they_overlap(self):
        for spans, wanted, chain in (
                ([], [], []),
                ([b"ab", b"ab"], [[0], [1]], [[0], [1]]),
                ([b"mp", b"az", b"ac"], [[0], [1], [2]], [[0], [1], [2]]),
                ([b"df", b"ac"], [[1, 0]], [[0, 1]])):
            self.check(Runs(*map(self.table, spans)), wanted, chain)

    def test_a_run_of_two_tables(self):
        runs = Runs(self.table(b"mp"), self.table(b"ac")).packed()
        # They are in key order.
        self.check(runs, [[0, 1]], [[0, 1]])
        for ends in (b"bn", b"df", b"xz"):
            runs.add(self.table(ends))
        self.check(runs, [[0, 1, 4], [2], [3]], [[0, 1], [2], [3]])


@unittest.skipUnless(os.path.exists(STORED), "the stored tables are not here")
class BothVersions(unittest.TestCase):
    def test_a_stored_table_and_a_new_one(self):
        count = 0
        for each in stored():
            older = Table.open(each.file)
            if older.facts().version != 3:
                continue
            count += 1
            entries = list(older.entries())
            last = versions((entries[-1].key + b"\0", 2, V, b""))
            newer = table_of(last)
            self.assertEqual(newer.facts().version, 4)
            runs = Runs(newer, older).packed()
            # The two are one run, the older one first.
            self.assertEqual(runs.packing().runs, [[0, 1]])
            firsts = [entry for place, entry in enumerate(entries)
                      if place == 0 or entry.key != entries[place - 1].key]
            self.assertEqual(list(runs.entries()), firsts + last)
            self.assertEqual(list(runs.entries(reverse=True)), (firsts + last)[::-1])
            made = [Table.open(file) for file in compact(runs, target=0)]
            self.assertEqual({table.facts().version for table in made}, {4})
            self.assertEqual([entry for table in made for entry in table.entries()],
                             entries + last)
        self.assertGreater(count, 5)


if __name__ == "__main__":
    unittest.main()
