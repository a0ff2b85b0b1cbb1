"""Times writes and reads from Python beside plyvel, and compares what both answer. `run` in this
folder starts it after the driver, with the driver's arguments.

Entries, keys that are read, passes and rounds are those of the driver. Times are processor time of
the one thread that works.
"""

import argparse
import gc
import itertools
import os
import random
import sys
import time
from typing import Callable, NamedTuple

sys.path.insert(0, os.path.join(os.path.dirname(os.path.abspath(__file__)), "..", "bindings",
                                "python"))

from logpurple import Table, Writer  # noqa: E402

try:
    from plyvel_store import Plyvel
except ImportError as error:
    Plyvel = None
    print(f"\nplyvel has no column, since Python cannot import it: {error}")

STRIDE = 40  # more than the entries of a block
BATCH = 1000  # how many keys are read at once
RANGE = 50  # how many entries a short range takes
FILTER_BITS = 10  # a key, of plyvel's filters, unless the command says another number


def key_of(number):
    return b"%016d" % number


def numbers(count, stride, behind):
    """Numbers of entries with this stride, in random order; or of keys directly after them."""
    found = [2 * i + behind for i in range(stride // 2, count, stride)]
    random.Random(7).shuffle(found)
    return found


class Read(NamedTuple):
    """A kind of read: how many a pass has, the call, and its expected result."""

    title: str
    unit: str
    count: int
    by: Callable
    wanted: object


class Work:
    """Entries, keys that are read, and the results of reading them."""

    def __init__(self, count):
        dice = random.Random(count)
        self.count = count
        self.again = max(1, 100000 // count)
        self.entries = [(key_of(2 * i), dice.getrandbits(800).to_bytes(100, "little"))
                        for i in range(count)]
        present = numbers(count, STRIDE, 0)
        absent = [key_of(number) for number in numbers(count, STRIDE, 1)]
        batch = numbers(count // BATCH * BATCH, count // BATCH, 0)
        self.reads = [*self.of_keys([key_of(number) for number in present],
                                    [self.value(number) for number in present]),
                      *self.of_absent_keys(absent),
                      *self.of_a_batch([key_of(number) for number in batch],
                                       [self.value(number) for number in batch]),
                      *self.of_entries([key_of(number) for number in present],
                                       [self.range_size(number) for number in present])]

    def value(self, number):
        return self.entries[number // 2][1]

    def range_size(self, number):
        """The bytes of the values of a short range."""
        return sum(len(value) for _, value in self.entries[number // 2:][:RANGE])

    @staticmethod
    def of_keys(keys, found):
        return [Read("get", "", len(keys), lambda reader: reader.gets(keys), found)]

    @staticmethod
    def of_absent_keys(keys):
        return [Read("get of an absent key", "", len(keys), lambda reader: reader.gets(keys),
                     [None] * len(keys))]

    @staticmethod
    def of_a_batch(keys, found):
        return [Read("1,000 keys at once", ", a key", len(keys),
                     lambda reader: reader.gets_at_once(keys), found),
                Read("the same one by one", ", a key", len(keys),
                     lambda reader: reader.gets(keys), found)]

    def of_entries(self, keys, sizes):
        whole = sum(len(value) for _, value in self.entries)
        return [Read("range of 50 entries", "", len(keys),
                     lambda reader: reader.ranges(keys, RANGE), sizes),
                Read("range of a table", ", an entry", self.count,
                     lambda reader: reader.whole_range(), whole),
                Read("scan", ", an entry", self.count, lambda reader: reader.whole_scan(), whole)]


def written_singly(entries):
    writer = Writer(id=1)
    for key, value in entries:
        writer.add(key, value, seqno=1)
    return writer.finish()


def written_at_once(entries):
    writer = Writer(id=1)
    writer.add_many(entries, seqno=1)
    return writer.finish()


class Ours:
    """An open table."""

    def __init__(self, file):
        self._table = Table.open(file)

    def gets(self, keys):
        get = self._table.get
        return [get(key) for key in keys]

    def gets_at_once(self, keys):
        return self._table.get_many(keys)

    def ranges(self, keys, count):
        range_of, first = self._table.range, itertools.islice
        return [sum(len(value) for _, value in first(range_of(key), count)) for key in keys]

    def whole_range(self):
        return sum(len(value) for _, value in self._table.range())

    def whole_scan(self):
        return sum(len(entry.value) for entry in self._table.scan())

    def entries(self):
        return self._table.range()


class Bench:
    """The workloads of one number of entries, and the least time of each, in ns an operation."""

    def __init__(self, count, filter_bits):
        self.least = {}
        self.work = Work(count)
        self.file = written_singly(self.work.entries)
        self.stores = []
        if Plyvel is not None:
            self.stores = [Plyvel(self.work.entries, filter_bits, compares)
                           for compares in (False, True)]
        for reader in (Ours(self.file), *self.stores):
            if list(reader.entries()) != self.work.entries:
                sys.exit("bench: a table from Python has other entries")

    def timed(self, store, title, count, call, wanted):
        """Does some work, and keeps the least time for each of this many operations."""
        gc.collect()
        start = time.thread_time()
        answer = call()
        took = (time.thread_time() - start) / count * 1e9
        self.least[store, title] = min(took, self.least.get((store, title), took))
        if answer != wanted:
            sys.exit(f"bench: {store}, {title} from Python: another answer")

    def round(self):
        count, entries = self.work.count, self.work.entries
        self.timed("ours", "write", count, lambda: written_singly(entries), self.file)
        self.timed("ours", "write at once", count, lambda: written_at_once(entries), self.file)
        for read in self.work.reads:
            reader = Ours(self.file)
            for a_pass in (", first pass", *[", second pass"] * self.work.again):
                self.timed("ours", read.title + a_pass, read.count, lambda: read.by(reader),
                           read.wanted)
        for store in self.stores:
            self.round_of(store)

    def round_of(self, store):
        if not store.compares:
            with store.empty_database() as write:
                self.timed(store.name, "write", self.work.count, write, None)
        for read in self.work.reads:
            for _ in range(1 + self.work.again):
                self.timed(store.name, read.title, read.count, lambda: read.by(store), read.wanted)

    def rows(self):
        """The printed rows: a title, the name of our time, and that of the other stores' times."""
        rows = [("write, an entry", "write", "write"),
                ("write, many at once, an entry", "write at once", "write")]
        for read in self.work.reads:
            for a_pass in (", first pass", ", second pass"):
                ours = read.title + a_pass
                rows.append((ours + read.unit, ours, read.title))
        return rows

    def print(self):
        names = [store.name for store in self.stores]
        print(f"\nFrom Python, {self.work.count} entries of 16 + 100 bytes\n\n| Work | ours, ns |",
              *(f"{name}, ns (ratio) |" for name in names))
        print("|---|---|" + "---|" * len(names))
        for printed, of_ours, of_theirs in self.rows():
            ours = self.least["ours", of_ours]
            theirs = [self.least.get((name, of_theirs)) for name in names]
            print(f"| {printed} | {ours:.0f} |",
                  *(f"{ns:.0f} ({ours / ns:.2f}) |" if ns else "- |" for ns in theirs))

    def close(self):
        for store in self.stores:
            store.close()


def main():
    parser = argparse.ArgumentParser()
    parser.add_argument("--rounds", type=int, default=5)
    parser.add_argument("--filter-bits", type=int, default=FILTER_BITS, help="of plyvel alone")
    parser.add_argument("counts", type=int, nargs="*")
    asked = parser.parse_args()
    for count in asked.counts or [10000, 1000000]:
        bench = Bench(count, asked.filter_bits)
        for _ in range(asked.rounds):
            bench.round()
        bench.print()
        bench.close()


if __name__ == "__main__":
    main()
