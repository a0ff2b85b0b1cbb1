"""A table, compared with the list of its entries."""

import array
import copy
import mmap
import os
import pathlib
import pickle
import tempfile
import unittest

from common import (entries_of, file_of, fnv, keys_of, newest, seen, shown, small, table_of,
                    within)

import logpurple
from logpurple import Entry, Fault, Finding, Kind, Memory, Section, Table, Writer

BOUNDS = [None, b"", b"\0", b"a", b"ab", b"b\0", b"ca", b"\xff", b"\xff" * 9]
OTHER_CHECKSUM = Finding(Section.DATA, 0, Fault.OTHER_CHECKSUM, 0)


def found_by(table, checksum=None):
    """Returns the finding of a verification, or `None` if it finds no fault."""
    try:
        table.verify(checksum=checksum)
    except logpurple.Faulty as faulty:
        return faulty.finding
    return None


class Tables(unittest.TestCase):
    def test_gets(self):
        for seed in range(10):
            entries = entries_of(seed, 300)
            file, keys = file_of(entries, **small(seed)), keys_of(entries)
            table = Table.open(file, 0, seed % 2 == 0, seed % 3 == 0)
            self.assertEqual((table.entry_count, table.verify().item_count), (len(entries),) * 2)
            for at in list(range(11)) + [logpurple.NEWEST]:
                expected = [newest(entries, key, at) for key in keys]
                self.assertEqual([table.entry(key, at) for key in keys], expected)
                self.assertEqual(table.entry_many(keys, at), expected)
                values = dict(shown(entries, at))
                self.assertEqual([table.get(key, b"-", at) for key in keys],
                                 [values.get(key, b"-") for key in keys])
                self.assertEqual(table.get_many(reversed(keys), b"-", at),
                                 [values.get(key, b"-") for key in reversed(keys)])

    def test_many_keys_repeat_and_may_be_none(self):
        entries = entries_of(11, 50)
        table = table_of(entries)
        key = entries[0].key
        self.assertEqual(table.entry_many([key] * 9), [newest(entries, key)] * 9)
        self.assertEqual((table.get_many([]), table.entry_many(iter([]))), ([], []))
        self.assertEqual(table.entry_many([b"", bytearray(key), memoryview(key)]),
                         [newest(entries, b""), newest(entries, key), newest(entries, key)])
        for wrong in (b"abc", "abc", bytearray(b"a"), 5, ["a"], [5], [None]):
            with self.assertRaises(TypeError):
                table.get_many(wrong)

    def test_many_keys_twice_absent_or_deleted(self):
        entries, absent = entries_of(13, 200), [b"zz", b"c" * 9, b"\xff" * 9]
        deleted = [entry.key for entry in seen(entries) if entry.kind.is_deletion]
        self.assertGreater(len(deleted), 9)
        for options in ({}, small(1), small(2)):
            table = table_of(entries, **options)
            for keys in (keys_of(entries) * 2, absent * 2, deleted * 2, deleted + absent):
                for at in (0, 1, 5, logpurple.NEWEST):
                    self.assertEqual(table.entry_many(keys, at),
                                     [newest(entries, key, at) for key in keys])
            self.assertEqual(table.get_many(deleted * 2), [None] * (2 * len(deleted)))

    def test_ranges(self):
        for seed in range(6):
            entries = entries_of(seed, 200)
            table = table_of(entries, **small(seed))
            for lower in BOUNDS:
                for upper in BOUNDS:
                    wanted = within(entries, lower, upper)
                    self.assertEqual(list(table.entries(lower, upper)), wanted)
                    self.assertEqual(list(table.entries(lower, upper, True)), wanted[::-1])
            for at in range(11):
                for lower, upper in ((None, None), (b"ab", b"ca"), (b"c", b"a")):
                    wanted = within(shown(entries, at), lower, upper)
                    self.assertEqual(list(table.range(lower, upper, at=at)), wanted)
                    self.assertEqual(list(table.range(lower, upper, True, at)), wanted[::-1])
            self.assertEqual(list(table), [key for key, _ in shown(entries)])
            self.assertEqual([key in table for key in keys_of(entries)],
                             [key in dict(shown(entries)) for key in keys_of(entries)])

    def test_a_range_from_both_ends(self):
        wanted = entries_of(3, 200)
        table = table_of(wanted, data_block_size=64)
        for turn in range(2, 6):
            entries, front, back = table.entries(), [], []
            for step in range(len(wanted)):
                (back if step % turn == 0 else front).append(entries.take(step % turn == 0))
            self.assertEqual(front + back[::-1], wanted)
            self.assertEqual([entries.take(), entries.take(True), list(entries)], [None, None, []])

    def test_scans(self):
        for seed in range(6):
            wanted = entries_of(seed, 200)
            table = table_of(wanted, **small(seed))
            scan, other = table.scan(), table.scan()
            self.assertEqual(next(scan), wanted[0])
            table.close()
            self.assertEqual([wanted[0]] + list(scan), wanted)
            self.assertEqual((list(other), list(scan), next(scan, None)), (wanted, [], None))
        lifted = Table.open(file_of(wanted), global_seqno=100)
        self.assertEqual(list(lifted.scan()), list(lifted.entries()))

    def test_memory(self):
        for seed in (0, 1, 2, 3):
            file = file_of(entries_of(seed, 300), **{**small(seed), "filter_bits_per_key": 100})
            found = [Table.open(file, 0, *pins).memory() for pins in
                    ((False, False), (True, False), (False, True), (True, True))]
            for each in found:
                self.assertIsInstance(each, Memory)
                self.assertEqual((each.file_len, each.marks_size),
                                 (len(file), 8 * (len(file) // 2048 + 1)))
            filters = [each.pinned_filter_size for each in found]
            self.assertEqual([filters[0], filters[1]], [filters[2], filters[3]])
            has_parts = small(seed)["filter_partition_size"] > 0
            self.assertEqual((filters[0], filters[1] > 0), (0, not has_parts))
            indexes = [each.pinned_index_size for each in found]
            self.assertEqual([indexes[0], indexes[2]], [indexes[1], indexes[3]])
            self.assertGreater(indexes[2], 0)
            with Table.open(file, kept=True) as kept:
                self.assertEqual(kept.memory(), kept.share().memory())
                self.assertEqual(kept.memory(), found[3])

    def test_long_and_empty(self):
        longest, value = b"k" * 65535, os.urandom(1 << 20)
        writer = Writer()
        writer.add(b"", b"", seqno=2)
        writer.add(b"", b"empty key", seqno=1)
        writer.add(b"\0", b"\0\0")
        writer.add(longest, value)
        table = Table.open(writer.finish())
        self.assertEqual([table[b""], table.get(b"", at=2), table[b"\0"], table[longest]],
                         [b"", b"empty key", b"\0\0", value])
        self.assertEqual(table.get_many([longest, b"\0\0", b""]), [value, None, b""])
        self.assertEqual(next(table.range(reverse=True)), (longest, value))
        self.assertIsNone(table.get(longest + b"k"))
        self.assertEqual(table.verify().item_count, 4)

    def test_what_has_bytes(self):
        writer = Writer()
        writer.add(bytearray(b"a"), memoryview(b"1.2")[::2])
        writer.add(memoryview(b"b"), bytearray(b"2"))
        writer.add(array.array("B", b"c"), array.array("I", [1]))
        file = writer.finish()
        with tempfile.TemporaryDirectory() as folder:
            path = pathlib.Path(folder, "table")
            path.write_bytes(file)
            with open(path, "rb") as opened:
                mapped = mmap.mmap(opened.fileno(), 0, access=mmap.ACCESS_READ)
            with mapped:
                sources = [file, bytearray(file), memoryview(file), path, str(path), mapped,
                           array.array("B", file), memoryview(b"-" + file + b"-")[1:-1]]
                tables = [Table.open(source) for source in sources]
        for table in tables:
            self.assertEqual(dict(table.range()), {b"a": b"12", b"b": b"2", b"c": b"\1\0\0\0"})
            self.assertEqual(table[bytearray(b"a")], b"12")

    def test_a_borrowed_buffer_is_released(self):
        file = bytearray(file_of(entries_of(2, 9)))
        table = Table.open(file)
        file.append(0)  # a borrowed buffer cannot grow
        file[:] = bytes(len(file))
        with self.assertRaises(logpurple.InvalidTrailer):
            Table.open(file)
        file.append(0)
        self.assertEqual(list(table.entries()), entries_of(2, 9))

    def test_a_finished_table(self):
        file = file_of(entries_of(3, 20), id=6)
        for each in (file, copy.copy(file), pickle.loads(pickle.dumps(file))):
            self.assertEqual((each.id, each.checksum, bytes(each)), (6, fnv(file), bytes(file)))
            self.assertEqual(hash(each), hash(bytes(file)))
        self.assertEqual(list(Table.open(file, kept=True).entries()), entries_of(3, 20))

    def test_a_checksum(self):
        file = file_of(entries_of(3, 20), **small(1))
        table = Table.open(file, global_seqno=5)
        self.assertEqual(table.verify(checksum=fnv(file)), table.verify())
        for wrong in (0, fnv(file) - 1, 2**64 - 1):
            self.assertEqual(found_by(table, wrong), OTHER_CHECKSUM)
        self.assertRaises(TypeError, lambda: table.verify(lambda *_: None, checksum=fnv(file)))

    def test_a_checksum_of_damaged_bytes(self):
        file, faults = file_of(entries_of(3, 20), **small(1)), set()
        checksum = fnv(file)
        for place in range(len(file)):
            damaged = file[:place] + bytes([file[place] ^ 0xff]) + file[place + 1:]
            try:
                table = Table.open(damaged)
            except logpurple.TableError:
                continue
            self.assertEqual(found_by(table, checksum), OTHER_CHECKSUM)
            found = found_by(table)
            self.assertEqual(found_by(table, fnv(damaged)), found)
            faults.add(found and found.fault)
        # Without a checksum, some damage is found, and some is not.
        self.assertGreaterEqual(faults, {None, Fault.UNLOADED})

    def test_a_global_number(self):
        table = Table.open(file_of(entries_of(3, 20)), global_seqno=100)
        self.assertEqual([e._replace(seqno=e.seqno - 100) for e in table.entries()],
                         entries_of(3, 20))
        self.assertEqual(table.facts().global_seqno, 100)
        with self.assertRaises(logpurple.GlobalSeqNoTooLarge):
            Table.open(file_of(entries_of(3, 20)), global_seqno=2**64 - 5)

    def test_facts(self):
        entries = entries_of(4, 100)
        facts = table_of(entries, id=2**64 - 1, level=255, created_at=5).facts()
        numbers = [entry.seqno for entry in entries]
        self.assertEqual((facts.id, facts.version, facts.item_count), (2**64 - 1, 4, len(entries)))
        self.assertEqual((facts.lowest_seqno, facts.highest_seqno), (min(numbers), max(numbers)))
        self.assertEqual(facts.tombstone_count, sum(e.kind.is_deletion for e in entries))
        self.assertEqual(facts.weak_tombstone_count,
                         sum(e.kind == Kind.WEAK_TOMBSTONE for e in entries))
        self.assertIsInstance(next(table_of(entries).entries()), Entry)


if __name__ == "__main__":
    unittest.main()
