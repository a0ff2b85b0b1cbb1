"""Tables that a test lays out, changes or cuts short; the longest keys and the largest numbers; and
every range of every small list."""

import itertools
import struct
import unittest
from ctypes import addressof

from common import file_of, fnv, table_of

import logpurple
from logpurple import NEWEST, Entry, Fault, Kind, Section, Table, Writer, _calls

NONE = 2**64 - 1
A1 = Entry(b"a", 1, Kind.VALUE, b"x")
ROWS = [Entry(b"a", 9, Kind.VALUE, b""), Entry(b"a", 7, Kind.VALUE, b""),
        Entry(b"a", 5, Kind.VALUE, b""), Entry(b"b", 1, Kind.VALUE, b"")]


def sections(file):
    """Returns the offsets and sizes of the sections: data, index, its top level, filter, its top
    level, version and meta block."""
    numbers = struct.unpack("<14Q", file[-120:-8])
    return [None if place == NONE else (place, size)
            for place, size in zip(numbers[::2], numbers[1::2])]


def items_of(file):
    """Returns the items of the meta block: a tag, a sequence number, a name and a value each."""
    place, size = sections(file)[6]
    payload, at, items = file[place + 24:place + size], 4, []
    for _ in range(struct.unpack_from("<I", payload)[0]):
        tag, seqno, length, rest = struct.unpack_from("<BQII", payload, at)
        at += 17 + length + rest
        items.append((tag, seqno, payload[at - rest - length:at - rest], payload[at - rest:at]))
    return items


def with_items(file, items):
    """Returns a table with other items in its meta block."""
    place = sections(file)[6][0]
    payload = struct.pack("<I", len(items)) + b"".join(
        struct.pack("<BQII", tag, seqno, len(name), len(value)) + name + value
        for tag, seqno, name, value in items)
    header = file[place:place + 8] + struct.pack("<IIQ", len(payload), len(payload), fnv(payload))
    return file[:place] + header + payload + file[-120:-16] + struct.pack(
        "<Q", len(header + payload)) + file[-8:]


GONE = "gone"


def changed(changes, file=file_of([A1], id=1, filter_bits_per_key=0)):
    """Returns a table where items have another value, another tag and seqno, or are missing."""
    items = []
    for tag, seqno, name, value in items_of(file):
        change = changes.get(name.decode(), value)
        if isinstance(change, tuple):
            items.append((*change, name, value))
        elif change is not GONE:
            items.append((tag, seqno, name, change))
    return with_items(file, items)


MISSING, SHORT = logpurple.MetaKeyMissing, logpurple.InvalidMetaValue
VERSION, HASH = logpurple.UnsupportedTableVersion, logpurple.UnsupportedHashType
CHECKSUM, INTERVAL = logpurple.UnsupportedChecksumType, logpurple.UnsupportedIndexInterval
COMPRESSION = logpurple.UnsupportedCompression

READ = """block_count#data block_count#filter block_count#index checksum_type compression#data
compression#index created_at file_size filter_hash_type item_count key#max key#min
restart_interval#index seqno#max seqno#min table_id table_version tombstone_count
weak_tombstone_count weak_tombstone_reclaimable""".split()

NOT_READ = """crate_version data_block_hash_ratio index_keys_have_seqno initial_level key_count
prefix_truncation#data prefix_truncation#index restart_interval#data user_data_size""".split()


class Items(unittest.TestCase):
    """Opening a table in which items of the meta block are changed."""

    def test_the_same_items(self):
        file = file_of([A1], id=1, filter_bits_per_key=0)
        self.assertEqual(changed({}), file)
        self.assertEqual([name.decode() for _, _, name, _ in items_of(file)],
                         sorted(READ + NOT_READ))

    def check(self, changes, error):
        """Checks that opening fails with an error or, for `None`, that reads find the same."""
        if error is None:
            self.assertEqual(list(Table.open(changed(changes)).entries()), [A1])
        else:
            with self.assertRaises(error):
                Table.open(changed(changes))

    def test_one_item_with_another_value(self):
        for name, value, error in (
                ("table_version", [5], VERSION), ("table_version", [], VERSION),
                ("table_version", [3, 0], VERSION), ("table_version", [4, 0], VERSION),
                ("table_version", [3], None), ("table_version", [4], None),
                ("filter_hash_type", [2], HASH), ("filter_hash_type", [1, 0], HASH),
                ("checksum_type", [2], CHECKSUM), ("checksum_type", [], CHECKSUM),
                ("restart_interval#index", [], SHORT), ("restart_interval#index", [2], INTERVAL),
                ("restart_interval#index", [1, 2], None),
                ("item_count", [1, 0, 0, 0, 0, 0, 0], SHORT),
                ("item_count", [1, 0, 0, 0, 0, 0, 0, 0, 0], None),
                ("block_count#filter", [1], SHORT), ("created_at", [0] * 15, SHORT),
                ("created_at", [0] * 17, None), ("key#min", [], None),
                ("seqno#max", [0] * 7, SHORT), ("compression#data", [1], COMPRESSION),
                ("compression#index", [1], COMPRESSION), ("compression#index", [], SHORT),
                ("crate_version", [], None)):
            with self.subTest(name=name, value=value):
                self.check({name: bytes(value)}, error)

    def test_an_item_that_is_read_has_to_be_there(self):
        """It has to be below the largest number, with any tag. Other items may be missing."""
        for name in READ:
            with self.subTest(name=name):
                self.check({name: GONE}, MISSING)
                self.check({name: (0, NONE)}, MISSING)
                self.check({name: (0, NONE - 1)}, None)
                self.check({name: (1, 0)}, None)
        for name in NOT_READ:
            with self.subTest(name=name):
                self.check({name: GONE}, None)

    def test_items_are_read_in_one_order(self):
        """Opening returns the error of the first of two faults."""
        two = b"\2"
        for first, second, error in (
                (("table_version", two), ("filter_hash_type", GONE), VERSION),
                (("filter_hash_type", two), ("checksum_type", two), HASH),
                (("checksum_type", two), ("restart_interval#index", GONE), CHECKSUM),
                (("restart_interval#index", two), ("table_id", GONE), INTERVAL),
                (("table_id", GONE), ("item_count", b""), MISSING),
                (("created_at", b""), ("key#min", GONE), SHORT),
                (("key#max", GONE), ("seqno#min", b""), MISSING),
                (("seqno#max", GONE), ("compression#data", two), MISSING)):
            with self.subTest(first=first, second=second):
                self.check(dict([first, second]), error)

    def test_an_item_that_is_not_borne_out(self):
        """`verify` reports the fault. `test_reads` compares the reported item."""
        none, three = bytes(8), struct.pack("<Q", 3)
        for name, value in (("block_count#data", none), ("block_count#data", three),
                            ("file_size", none), ("item_count", none), ("item_count", three),
                            ("key#max", b""), ("key#min", b""), ("seqno#max", three),
                            ("seqno#min", three), ("tombstone_count", three),
                            ("weak_tombstone_count", three),
                            ("weak_tombstone_reclaimable", three)):
            file = changed({name: value})
            with self.subTest(name=name), self.assertRaises(logpurple.Faulty) as raised:
                Table.open(file).verify()
            found = raised.exception.finding
            self.assertEqual((found.section, found.offset, found.fault),
                             (Section.META, sections(file)[6][0], Fault.UNBORNE))

    def test_entries_above_what_the_meta_block_says(self):
        """Their numbers are tested when they are read."""
        highest, three = Entry(b"a", NONE - 1, Kind.VALUE, b"x"), struct.pack("<Q", 3)
        file = changed({"seqno#max": three, "seqno#min": three},
                       file_of([highest], filter_bits_per_key=0))
        table = Table.open(file, global_seqno=3)
        for reverse in (False, True):
            entries = table.entries()
            with self.assertRaises(logpurple.SeqNoOverflow):
                entries.take(reverse)
            self.assertEqual((entries.take(), entries.take(True)), (None, None))
        scan = table.scan()
        with self.assertRaises(logpurple.SeqNoOverflow):
            next(scan)
        self.assertEqual(list(scan), [])
        self.assertIsNone(table.entry(b"a"))


class Laid(unittest.TestCase):
    """The positions of the sections of written tables, and the numbers of blocks of index and
    filter."""

    def check(self, entries, laid, index, filters, **options):
        file = file_of(entries, id=1, **options)
        self.assertEqual(sections(file), laid)
        items = {name: value for _, _, name, value in items_of(file)}
        self.assertEqual(items[b"block_count#index"], struct.pack("<Q", index))
        self.assertEqual(items[b"block_count#filter"], struct.pack("<Q", filters))
        self.assertEqual(list(Table.open(file).entries()), entries)

    def test_sections(self):
        self.check(ROWS, [(0, 184), (184, 212), (396, 128), None, None, (524, 1), (525, 1099)],
                   4, 1, data_block_size=0, index_partition_size=1, filter_bits_per_key=0)
        self.check(ROWS, [(0, 184), (184, 128), (312, 53), None, None, (365, 1), (366, 1099)],
                   1, 1, data_block_size=0, index_partition_size=4096, filter_bits_per_key=0)
        self.check(ROWS, [(0, 184), None, (184, 128), (312, 66), (378, 78), (456, 1), (457, 1099)],
                   1, 2, data_block_size=0, filter_partition_size=1, filter_bits_per_key=100)
        self.check(ROWS, [(0, 184), None, (184, 128), (312, 33), (345, 53), (398, 1), (399, 1099)],
                   1, 1, data_block_size=0, filter_partition_size=4096, filter_bits_per_key=100)
        self.check(ROWS, [(0, 184), None, (184, 128), None, None, (312, 1), (313, 1099)],
                   1, 0, data_block_size=0, filter_partition_size=4096, filter_bits_per_key=0)
        self.check([A1], [(0, 47), None, (47, 53), None, None, (100, 1), (101, 1099)],
                   1, 1, filter_bits_per_key=0)

    def test_a_table_that_ends_early_has_no_trailer(self):
        file = file_of([A1], filter_bits_per_key=0)
        for length in range(len(file)):
            with self.assertRaises(logpurple.InvalidTrailer):
                Table.open(file[:length])
        self.assertEqual(list(Table.open(file).entries()), [A1])

    def test_steps_of_a_verification(self):
        """The steps read the index and a data block, since the table has no filter."""
        calls = []
        verified = table_of([A1], filter_bits_per_key=0).verify(
            lambda read, size: calls.append((read, size)))
        self.assertEqual((verified.item_count, verified.data_block_count), (1, 1))
        self.assertEqual(calls, [(0, 47), (47, 47)])


class Written(unittest.TestCase):
    def test_options_that_change_the_meta_block_alone(self):
        """The restart interval and the hash ratio are one item each."""
        entries = [Entry(b"%03d" % place, 1, Kind.VALUE, b"v") for place in range(300)]
        file = file_of(entries, data_block_size=256)
        place, _ = sections(file)[6]
        for option, name, values in (
                ("data_block_restart_interval", b"restart_interval#data", (1, 255)),
                ("data_block_hash_ratio", b"data_block_hash_ratio", (750, 2**32 - 1))):
            for value in values:
                other = file_of(entries, data_block_size=256, **{option: value})
                self.assertEqual((len(other), other[:place], other[-120:]),
                                 (len(file), file[:place], file[-120:]))
                self.assertEqual({after[2] for before, after in zip(items_of(file), items_of(other))
                                  if before != after}, {name})

    def test_entries_follow_in_strict_order(self):
        for key, seqno, kind, follows in (
                (b"a", 2, Kind.VALUE, False), (b"a", 1, Kind.VALUE, False),
                (b"a", 1, Kind.TOMBSTONE, False), (b"", 0, Kind.VALUE, False),
                (b"b", NONE, Kind.VALUE, False), (b"a", 0, Kind.VALUE, True),
                (b"aa", 9, Kind.VALUE, True)):
            writer = Writer()
            writer.add(b"a", b"x", 1)
            if follows:
                writer.add(key, b"", seqno, kind)
            else:
                with self.assertRaises(logpurple.OutOfOrder):
                    writer.add(key, b"", seqno, kind)
            self.assertEqual(Table.open(writer.finish()).entry_count, 1 + follows)

    def test_the_longest_key_and_a_longer_one(self):
        longest = b"a" * 1048576
        writer = Writer()
        writer.add(longest, b"", 1)
        with self.assertRaises(logpurple.KeyTooLong):
            writer.add(longest + b"a", b"", 1)
        with self.assertRaises(logpurple.WriterFailed):
            writer.add(b"b", b"", 1)
        with self.assertRaises(logpurple.WriterFailed):
            writer.finish()

    def test_ranges_of_the_longest_key_and_the_empty_one(self):
        longest = b"a" * 1048576
        rows = [Entry(longest, 5, Kind.VALUE, b"x"), Entry(longest, 3, Kind.VALUE, b"y"),
                Entry(b"b", 1, Kind.VALUE, b"z")]
        empty = [Entry(b"", 7, Kind.VALUE, b"")]
        for bits, parts in ((0, 0), (100, 0), (100, 1)):
            options = {"data_block_size": 0, "filter_bits_per_key": bits,
                       "index_partition_size": parts, "filter_partition_size": parts}
            for file, key, wanted in ((file_of(rows, **options), longest, rows[:2]),
                                      (file_of(empty, **options), b"", empty)):
                for pin_filter, pin_index in itertools.product((False, True), repeat=2):
                    table = Table.open(file, 0, pin_filter, pin_index)
                    self.assertEqual(list(table.entries(key, key + b"\0")), wanted)
                    self.assertEqual(list(table.entries(key, key + b"\0", True)), wanted[::-1])
                    self.assertEqual(table.entry(key), wanted[0])

    def test_the_largest_numbers(self):
        """The global sequence number is added to each. No snapshot sees the largest one."""
        for seqno, added in ((NONE - 1, 0), (NONE - 1, 1), (0, NONE - 1), (0, NONE),
                             (3, NONE - 3), (3, 10)):
            table = Table.open(file_of([A1._replace(seqno=seqno)]), added)
            lifted = A1._replace(seqno=seqno + added)
            self.assertEqual(list(table.entries()) + list(table.scan()), [lifted] * 2)
            self.assertEqual(table.entry(b"a"), lifted if lifted.seqno < NEWEST else None)
            self.assertIsNone(table.entry(b"a", lifted.seqno))
        for seqno, added in ((NONE - 1, 2), (1, NONE), (3, NONE - 2)):
            with self.assertRaises(logpurple.GlobalSeqNoTooLarge):
                Table.open(file_of([A1._replace(seqno=seqno)]), added)


KEYS = [b"", b"a", b"b"]
# Whether a bound is there, and whether it includes a key of these.
EDGES = [(kind, key) for key in KEYS for kind in (1, 2)] + [(0, b"")]


def lists():
    """All lists of one to six versions of three keys, each with its own number."""
    for counts in itertools.product(range(7), repeat=3):
        if 0 < sum(counts) <= 6:
            numbers = itertools.count(sum(counts), -1)
            yield [Entry(key, next(numbers), Kind.VALUE, b"")
                   for key, count in zip(KEYS, counts) for _ in range(count)]


def is_within(key, lower, upper):
    above = lower[0] == 0 or key > lower[1] or (lower[0] == 1 and key == lower[1])
    return above and (upper[0] == 0 or key < upper[1] or (upper[0] == 1 and key == upper[1]))


def dealt(numbers, ends):
    """Returns the numbers that steps at some ends take from a list, and 0 after the last."""
    numbers, taken = list(numbers), []
    for is_back in ends:
        taken.append(numbers.pop(-1 if is_back else 0) if numbers else 0)
    return taken


class Ranges(unittest.TestCase):
    """All ranges of all small lists, read by five steps at any ends."""

    def check(self, table, entries):
        handle, found = _calls.Handle(), _calls.Entry()
        ref, found_ref = addressof(handle), addressof(found)
        for lower, upper in itertools.product(EDGES, repeat=2):
            numbers = [e.seqno for e in entries if is_within(e.key, lower, upper)]
            for ends in itertools.product((False, True), repeat=5):
                code = _calls.range_open(table._ref, lower[0], lower[1], len(lower[1]),
                                         upper[0], upper[1], len(upper[1]), ref)
                taken = []
                for is_back in ends:
                    code |= _calls.range_next(ref, is_back, found_ref)
                    taken.append(found.seqno if found.kind else 0)
                _calls.close(ref)
                self.assertEqual((code, taken), (0, dealt(numbers, ends)),
                                 (entries, lower, upper, ends))

    def test_by_two_levels(self):
        """Reads a block for each entry, by an index of two levels."""
        for entries in lists():
            file = file_of(entries, data_block_size=0, index_partition_size=1,
                           filter_bits_per_key=0)
            self.check(Table.open(file), entries)

    def test_on_demand(self):
        """Reads blocks that entries of the empty key do not fill, by an unpinned index."""
        for entries in lists():
            file = file_of(entries, data_block_size=1, filter_bits_per_key=0)
            self.check(Table.open(file, 0, True, False), entries)


class Many(unittest.TestCase):
    """Many reads at once of damaged tables."""

    def test_reads_that_do_not_rest_on_the_damage(self):
        file = bytearray(file_of([A1], filter_bits_per_key=0))
        file[46] ^= 1
        table = Table.open(file)
        with self.assertRaises(logpurple.ChecksumMismatch):
            table.entry_many([b"c", b"a"], 2)
        self.assertEqual(table.entry_many([b"c", b"a"], 1), [None, None])

    def test_the_earliest_error(self):
        """Changes the last byte of the block of a@7, and the magic number of that of b@1."""
        file = bytearray(file_of(ROWS, data_block_size=0, filter_bits_per_key=0))
        file[91], file[138] = ord("?"), ord("?")
        table = Table.open(file)
        with self.assertRaises(logpurple.ChecksumMismatch):
            table.entry_many([b"a", b"b"], 8)
        with self.assertRaises(logpurple.InvalidHeader):
            table.entry_many([b"b", b"a"], 8)
        self.assertEqual(table.entry_many([b"a", b"c"], 10), [ROWS[0], None])


if __name__ == "__main__":
    unittest.main()
