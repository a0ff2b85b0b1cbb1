"""Threads that use one table in turns, or a share each at the same time."""

import threading
import unittest

from common import entries_of, file_of, newest, seen, small, sorted_entries

import logpurple
from logpurple import Entries, Runs, Table, Writer, compact


def together(works):
    """Calls each function in a thread of its own, and raises the error of any."""
    raised, start = [], threading.Barrier(len(works))

    def run(work):
        try:
            start.wait()
            work()
        except BaseException as error:  # noqa: B036
            raised.append(error)

    threads = [threading.Thread(target=run, args=(work,)) for work in works]
    for thread in threads:
        thread.start()
    for thread in threads:
        thread.join()
    if raised:
        raise raised[0]


class Threads(unittest.TestCase):
    def setUp(self):
        self.entries = entries_of(6, 300)
        self.keys = sorted({entry.key for entry in self.entries})
        # Nothing was read yet, so that threads compare blocks at the same time.
        self.tables = [Table.open(file_of(self.entries, **small(seed)), 0, *pins)
                       for seed in range(4) for pins in ((True, True), (False, False))]

    def read(self, table, start):
        wanted = {key: newest(self.entries, key) for key in self.keys}
        for i in range(len(self.keys) * 2):
            key = self.keys[(start + 7 * i) % len(self.keys)]
            self.assertEqual(table.entry(key), wanted[key])
        self.assertEqual(table.entry_many(self.keys), list(wanted.values()))
        self.assertEqual(list(table.entries(reverse=start % 2 == 1)),
                         self.entries[::-1] if start % 2 == 1 else self.entries)
        self.assertEqual(list(table.scan()), self.entries)
        self.assertEqual(table.verify().item_count, len(self.entries))

    def test_in_turns(self):
        for table in self.tables[:2]:
            together([lambda n=n: self.read(table, 31 * n) for n in range(6)])

    def test_each_its_own_share(self):
        for table in self.tables:
            shares = [table.share() for _ in range(5)]

            def work(n, table):
                self.read(table, 31 * n)
                other = table.share()
                table.close()
                self.read(other, n)

            together([lambda n=n, t=t: work(n, t) for n, t in enumerate(shares)]
                     + [lambda: self.read(table, 3)])

    def test_ranges_and_runs_of_one_table(self):
        for table in self.tables:
            runs = [Runs(table, table.share()) for _ in range(2)]
            ranges = [table.entries() for _ in range(2)] + [each.entries() for each in runs]
            read = [None] * 4

            def take(i):
                read[i] = list(ranges[i])

            together([lambda i=i: take(i) for i in range(4)]
                     + [lambda: compact([table.share()], watermark=3)]
                     + [lambda each=each: [each.get(key) for key in self.keys] for each in runs])
            self.assertEqual(read, [self.entries] * 2 + [seen(self.entries)] * 2)

    def test_one_range_for_several_threads(self):
        entries, taken = self.tables[0].entries(), [[] for _ in range(4)]
        self.assertIsInstance(entries, Entries)

        def take(i):
            taken[i].extend(entries)

        together([lambda i=i: take(i) for i in range(4)])
        for each in taken:
            self.assertEqual(each, sorted_entries(each))
        self.assertEqual(sorted_entries(*taken), self.entries)

    def test_closed_by_another(self):
        table = self.tables[0]

        def read():
            try:
                while True:
                    table.get(self.keys[0])
            except logpurple.Closed:
                pass

        together([read, read, table.close])

    def test_shares_are_made_and_closed_at_once(self):
        table = self.tables[1]

        def work():
            for _ in range(200):
                with table.share() as other, Runs(other) as runs:
                    entries = runs.entries()
                    other.close()
                    next(entries)

        together([work] * 4)
        self.read(table, 1)

    def test_writers(self):
        files = [None] * 4

        def write(i):
            files[i] = file_of(self.entries, **small(i))

        together([lambda i=i: write(i) for i in range(4)])
        for i in range(4):
            self.assertEqual(files[i], file_of(self.entries, **small(i)))

    def test_one_writer_for_several_threads(self):
        writer, taken = Writer(), []

        def add(i):
            for seqno in range(200, 0, -1):
                try:
                    writer.add(b"key", b"%d" % i, seqno)
                    taken.append(seqno)
                except logpurple.OutOfOrder:
                    pass

        together([lambda i=i: add(i) for i in range(4)])
        read = [entry.seqno for entry in Table.open(writer.finish()).entries()]
        self.assertEqual(read, sorted(taken, reverse=True))


if __name__ == "__main__":
    unittest.main()
