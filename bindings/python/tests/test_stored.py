"""The stored tables of the repository, which other programs wrote. Each is read, compared with the
list of its entries, and compacted. It is written again if its options are known."""

import os
import unittest

from common import HERE, file_of, kept, newest, seen, shown
from twice import HAS_READER, read, read_again

from logpurple import NEWEST, Entry, Kind, Runs, Table, compact

STORED = os.path.join(HERE, "..", "..", "..", "crates", "test_vectors", "stdin")
KINDS = [Kind.VALUE, Kind.TOMBSTONE, Kind.WEAK_TOMBSTONE, None, Kind.INDIRECTION]


def bytes_of(word):
    return b"" if word == "-" else bytes.fromhex(word)


# The id, the level and the timestamp. More numbers are whether the index and the filter are
# partitioned, the sizes of partitions and blocks, tenths of a bit per key, and the restart interval.
def options_of(words):
    numbers = [int(word) for word in words]
    options = dict(zip(("id", "level", "created_at"), numbers))
    if len(numbers) > 3:
        options.update(index_partition_size=numbers[4] * numbers[6],
                       filter_partition_size=numbers[5] * numbers[6], data_block_size=numbers[7],
                       filter_bits_per_key=numbers[8], data_block_restart_interval=numbers[9])
    return options


class Stored:
    def __init__(self, file):
        self.file, self.entries, self.options = file, [], None
        self.queries, self.damages = [], []


def stored():
    tables = []
    with open(STORED, encoding="ascii") as lines:
        for line in lines:
            word, *words = line.split()
            if word == "table":
                tables.append(Stored(bytes_of(words[0])))
            elif word == "entry":
                tables[-1].entries.append(Entry(bytes_of(words[0]), int(words[1]),
                                                KINDS[int(words[2])], bytes_of(words[3])))
            elif word == "query":
                tables[-1].queries.append((bytes_of(words[0]), int(words[1])))
            elif word == "write":
                tables[-1].options = options_of(words)
            elif word == "damage":
                tables[-1].damages.append([int(each) for each in words])
    return tables


@unittest.skipUnless(os.path.exists(STORED), "the stored tables are not here")
class StoredTables(unittest.TestCase):
    def test_read(self):
        self.assertGreater(len(stored()), 30)
        for each in stored():
            table = Table.open(each.file)
            entries = list(table.entries())
            self.assertEqual(list(table.entries(reverse=True)), entries[::-1])
            self.assertEqual(list(table.scan()), entries)
            self.assertEqual(table.verify().item_count, len(entries))
            self.assertEqual(entries, sorted(entries, key=lambda e: (e.key, -e.seqno)))
            runs = Runs(table)
            for key, at in each.queries:
                self.assertEqual(table.entry(key, at), newest(entries, key, at))
                self.assertEqual(runs.entry(key, at), newest(entries, key, at))
            keys = [key for key, _ in each.queries]
            self.assertEqual(table.entry_many(keys, 5), [newest(entries, key, 5) for key in keys])
            for at in (1, 5, 9, NEWEST):
                self.assertEqual(list(runs.entries(at=at)), seen(entries, at))
                self.assertEqual(list(table.range(at=at)), shown(entries, at))
                self.assertEqual(list(runs.range(reverse=True, at=at)), shown(entries, at)[::-1])
            if each.options is not None:
                self.assertEqual(entries, each.entries)

    def test_written_again(self):
        count = 0
        for each in stored():
            if each.options is not None:
                self.assertEqual(file_of(each.entries, **each.options), each.file)
                count += 1
        self.assertGreater(count, 10)

    def test_compacted(self):
        for each in stored():
            table = Table.open(each.file)
            entries = list(table.entries())
            for watermark, evict, zero in ((0, False, False), (7, True, False),
                                           (NEWEST, True, True)):
                wanted = kept(entries, watermark, evict, zero)
                files = compact([table], watermark=watermark, evict=evict, zero=zero)
                self.assertEqual([e for file in files for e in Table.open(file).entries()], wanted)

    @unittest.skipUnless(HAS_READER, "the second reader is not here")
    def test_damaged(self):
        unopened = errors = 0
        for each in stored():
            keys = [key for key, _ in each.queries]
            for is_filter, is_index, *places in each.damages:
                file = bytearray(each.file)
                for place, byte in zip(places[::2], places[1::2]):
                    file[place] = byte
                wanted = read_again(file, keys, is_filter == 1, is_index == 1)
                self.assertEqual(read(file, keys, is_filter == 1, is_index == 1), wanted)
                if isinstance(wanted, int):
                    unopened += 1
                else:
                    errors += wanted[0][1] > 0
        self.assertGreater(unopened, 100)
        self.assertGreater(errors, 100)


if __name__ == "__main__":
    unittest.main()
