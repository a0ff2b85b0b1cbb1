"""Writers of several tables: their tables are those of a compaction, whenever they are taken."""

import itertools
import unittest
from unittest import mock

from common import entries_of, table_of

import logpurple
from logpurple import NEWEST, Kind, MultiWriter, Table, compact

TARGETS = (0, 1, 100, 500, NEWEST)


def ids(files):
    return [file.id for file in files]


# A writer of two finished tables and an unfinished one.
def begun(**options):
    writer = MultiWriter(0, **options)
    writer.add_many([(b"a", b""), (b"b", b""), (b"c", b"")])
    return writer


class MultiWriters(unittest.TestCase):
    def test_tables_are_those_of_a_compaction(self):
        entries = entries_of(11, 150)
        for target, step in itertools.product(TARGETS, (1, 7, 1000)):
            options = {"target": target, "id": 9, "data_block_size": 64}
            writer, files = MultiWriter(**options), []
            for count, entry in enumerate(entries, 1):
                writer.add(entry.key, entry.value, entry.seqno, entry.kind)
                if count % step == 0:
                    files += iter(writer.take, None)
            files += writer.finish()
            wanted = compact([table_of(entries)], **options)
            self.assertEqual((files, writer.next_id), (wanted, wanted.next_id))
            self.assertEqual(ids(files), ids(wanted))
            self.assertEqual([file.checksum for file in files], [file.checksum for file in wanted])
            self.assertEqual([entry for file in files for entry in Table.open(file).entries()],
                             entries)

    def test_next_id(self):
        writer = MultiWriter(0, id=4)
        self.assertEqual((writer.next_id, writer.take(), writer.next_id), (5, None, 5))
        writer.add(b"a", b"")
        writer.delete(b"b")
        self.assertEqual((writer.take().id, writer.next_id), (5, 7))
        self.assertEqual((writer.take(), writer.next_id), (None, 7))
        self.assertEqual((ids(writer.finish()), writer.next_id), ([6], 7))
        for target in TARGETS:
            writer = MultiWriter(target, id=4)
            self.assertEqual((writer.finish(), writer.next_id), ([], 5))
        self.assertIsNone(MultiWriter(0, id=NEWEST).next_id)

    def test_closed(self):
        finished = begun()
        finished.finish()
        with begun() as left:
            self.assertEqual(left.take().id, 1)
        for writer in (finished, left):
            self.assertTrue(writer.closed)
            for call in (lambda: writer.add(b"d", b""), lambda: writer.add_many([(b"d", b"")]),
                         lambda: writer.delete(b"d"), writer.take, writer.finish):
                with self.assertRaises(logpurple.Closed):
                    call()

    def test_order(self):
        writer = begun(id=2)
        for key, seqno in ((b"c", 0), (b"c", 1), (b"b", 0), (b"d", NEWEST)):
            with self.assertRaises(logpurple.OutOfOrder):
                writer.add(key, b"", seqno)
        with self.assertRaises(logpurple.NoSuch):
            writer.add(b"d", b"", 0, 4)
        self.assertEqual(ids(writer.finish()), [3, 4, 5])

    def test_tables_that_are_finished_are_taken_after_an_error(self):
        writer = MultiWriter(0, id=NEWEST - 2)
        writer.add_many([(b"a", b""), (b"b", b"")])
        with self.assertRaises(logpurple.TableIdsSpent):
            writer.add(b"c", b"")
        with self.assertRaises(logpurple.WriterFailed):
            writer.add(b"c", b"")
        self.assertEqual((ids(iter(writer.take, None)), writer.next_id), ([NEWEST - 1], None))
        with self.assertRaises(logpurple.WriterFailed):
            writer.finish()
        self.assertTrue(writer.closed)

    def test_a_key_that_is_too_long(self):
        writer = MultiWriter(0)
        writer.add(b"a", b"")
        with self.assertRaises(logpurple.KeyTooLong):
            writer.add(b"b" * ((1 << 20) + 1), b"")
        self.assertEqual((ids(iter(writer.take, None)), writer.next_id), ([1], 3))
        with self.assertRaises(logpurple.WriterFailed):
            writer.finish()

    def test_a_copy_that_fails_loses_no_table(self):
        for takes_again in (False, True):
            writer = begun()
            with mock.patch("logpurple._writing._file", side_effect=MemoryError):
                for _ in range(2):
                    self.assertRaises(MemoryError, writer.take)
            files = list(iter(writer.take, None)) if takes_again else []
            self.assertEqual(ids(files + writer.finish()), [1, 2, 3])

    def test_options(self):
        for options in ({"level": 256}, {"data_block_restart_interval": 0}):
            with self.assertRaises(logpurple.NoSuch):
                MultiWriter(0, **options)
        for target in (-1, NEWEST + 1):
            with self.assertRaises(OverflowError):
                MultiWriter(target)
        for wrong in (lambda: MultiWriter(), lambda: MultiWriter("1"), lambda: MultiWriter(0, 1),
                      lambda: begun().add("d", b""), lambda: begun().add(b"d", None)):
            with self.assertRaises(TypeError):
                wrong()
        self.assertEqual(repr(MultiWriter(0, id=3)), "<MultiWriter id=3>")

    def test_versions_of_a_key_are_in_one_table(self):
        writer = MultiWriter(1)
        for key in (b"a", b"b"):
            for seqno in (3, 2, 1):
                writer.add(key, b"v" * 8000, seqno, Kind.VALUE)
        self.assertEqual([[(entry.key, entry.seqno) for entry in Table.open(file).entries()]
                          for file in writer.finish()],
                         [[(key, seqno) for seqno in (3, 2, 1)] for key in (b"a", b"b")])


if __name__ == "__main__":
    unittest.main()
