"""Errors: damage, closed objects, wrong types, numbers that do not fit, and calls from places where
none is expected."""

import copy
import ctypes
import gc
import inspect
import itertools
import os
import pickle
import signal
import sys
import types
import unittest
import weakref

from common import entries_of, file_of, seen, small, table_of
from twice import HAS_READER, outcome, read, read_again

import logpurple
from logpurple import (NEWEST, Fault, Kind, MultiWriter, Runs, Section, Table, TableError, Writer,
                       _calls, compact, compact_each)


@unittest.skipUnless(HAS_READER, "the second reader is not here")
class Damage(unittest.TestCase):
    def check(self, damaged, written, pin):
        keys = [entry.key for entry in written] + [b"zz"]
        wanted = read_again(damaged, keys, pin, not pin)
        self.assertEqual(read(damaged, keys, pin, not pin), wanted)
        if isinstance(wanted, int):
            return
        table = Table.open(damaged, pin_filter=pin, pin_index=not pin)
        (entries, error), _, (_, scan_error), _, _ = wanted
        self.assertEqual(outcome(lambda: list(Runs(table).entries())), error or seen(entries))
        compacted = outcome(lambda: compact([table]))
        self.assertEqual(outcome(lambda: list(compact_each([table]))), compacted)
        if scan_error:
            self.assertEqual(compacted, scan_error)
        else:
            self.assertIsInstance(compacted, list)
        if self.is_sound(table, len(written), len(damaged)):
            self.assertEqual(wanted[0], (written, 0))

    def is_sound(self, table, count, length):
        """Returns whether `verify` finds no fault, and checks the parts of a fault."""
        try:
            self.assertEqual(table.verify().item_count, count)
        except logpurple.Faulty as error:
            found = error.finding
            self.assertIsInstance(found.fault, Fault)
            self.assertIsInstance(found.section, Section)
            self.assertLess(found.offset, length)
            self.assertEqual(found.detail > 0,
                             found.fault in (Fault.UNLOADED, Fault.UNFILTERED))
            self.assertEqual(error.__cause__ is None, found.detail == 0)
            return False
        return True

    def test_each_byte(self):
        for seed in (1, 2, 7):
            written = entries_of(seed, 5)
            file = file_of(written, **small(seed))
            for place in range(len(file)):
                for byte in (file[place] ^ 0xff, file[place] ^ 1, 0):
                    damaged = file[:place] + bytes([byte]) + file[place + 1:]
                    self.check(damaged, written, place % 2 == 0)

    def test_each_length(self):
        written = entries_of(3, 5)
        file = file_of(written)
        for length in range(len(file)):
            with self.assertRaises(logpurple.InvalidTrailer):
                Table.open(file[:length])
            self.check(file[length:], written, True)


class Misuse(unittest.TestCase):
    def test_closed(self):
        table, writer, runs = table_of(entries_of(1, 9)), Writer(), Runs()
        entries, scan = table.entries(), table.scan()
        compaction = compact_each(runs)
        for held in (table, writer, runs, entries, scan, compaction):
            held.close()
            held.close()
        for call in (lambda: table.get(b"a"), lambda: table.entry(b"a"), lambda: table[b"a"],
                     lambda: b"a" in table, lambda: table.entry_count, lambda: list(table),
                     table.facts, table.verify, table.share, table.entries, table.range, table.scan,
                     table.memory, lambda: next(scan), lambda: table.verify(checksum=0),
                     lambda: table.get_many([b"a"]), lambda: table.get_many([]),
                     lambda: table.entry_many([b"a"]), lambda: writer.add(b"a", b""),
                     lambda: writer.delete(b"a"), writer.finish, lambda: runs.get(b"a"),
                     runs.entries, runs.range, lambda: compact(runs), lambda: compact([table]),
                     lambda: compact_each(runs), lambda: next(compaction),
                     lambda: Runs(table), lambda: Runs().add(table),
                     lambda: next(entries), entries.take):
            with self.assertRaises(logpurple.Closed) as raised:
                call()
            self.assertEqual((raised.exception.code, isinstance(raised.exception, ValueError)),
                             (100, True))

    def test_closed_in_the_middle(self):
        wanted = entries_of(2, 50)
        table = table_of(wanted)
        pairs, entries = table.range(), table.entries()
        first = next(entries)
        table.close()
        self.assertEqual([first] + list(entries), wanted)
        self.assertGreater(len(list(pairs)), 5)
        with self.assertRaises(StopIteration):
            next(entries)
        entries.close()
        self.assertIsNone(entries.take())

    def test_finished(self):
        writer = Writer()
        writer.add(b"a", b"")
        self.assertIsInstance(writer.finish(), bytes)
        for call in (writer.finish, lambda: writer.add(b"b", b"")):
            with self.assertRaises(logpurple.Closed):
                call()

    def test_order(self):
        writer = Writer()
        writer.add(b"b", b"", 4)
        for key, seqno in ((b"b", 4), (b"b", 5), (b"a", 3), (b"", 1), (b"c", NEWEST)):
            with self.assertRaises(logpurple.OutOfOrder):
                writer.add(key, b"", seqno)
        for kind in (0, 4, 6, 2**32 - 1):
            with self.assertRaises(logpurple.NoSuch):
                writer.add(b"c", b"", 4, kind)
        writer.add(b"b", b"", 3)
        writer.add(b"b\0", b"", NEWEST - 1)
        self.assertEqual(Table.open(writer.finish()).entry_count, 3)

    def test_a_key_that_is_too_long(self):
        writer = Writer()
        writer.add(b"a" * (1 << 20), b"")
        with self.assertRaises(logpurple.KeyTooLong):
            writer.add(b"b" * ((1 << 20) + 1), b"")
        with self.assertRaises(logpurple.WriterFailed):
            writer.add(b"c", b"")
        with self.assertRaises(logpurple.WriterFailed):
            writer.finish()
        with self.assertRaises(logpurple.Closed):
            writer.finish()

    def test_options(self):
        for options in ({"data_block_restart_interval": 0}, {"data_block_restart_interval": 256},
                        {"level": 256}, {"data_block_size": (4 << 20) + 1},
                        {"index_partition_size": 2**32 - 1}, {"filter_partition_size": 2**31}):
            with self.assertRaises(logpurple.NoSuch):
                Writer(**options)
        for options in ({"unused": 0}, {"ID": 1}, {"level": "1"}, {"level": None}, {"level": 1.0}):
            with self.assertRaises(TypeError):
                Writer(**options)
        with self.assertRaises(TypeError):
            Writer(1)

    def test_default_options(self):
        """The defaults in signatures are the library's, in the order of its structure."""
        defaults = _calls.Options()
        _calls.options_default(ctypes.byref(defaults))
        wanted = [(name, getattr(defaults, name)) for name, _ in _calls.Options._fields_[:-1]]
        for call in (Writer, MultiWriter, compact, compact_each):
            parameters = list(inspect.signature(call).parameters.values())[-len(wanted):]
            self.assertEqual([(each.name, each.default) for each in parameters], wanted)
            self.assertEqual({each.kind for each in parameters}, {inspect.Parameter.KEYWORD_ONLY})

    def test_numbers_that_do_not_fit(self):
        writer, table = Writer(), table_of(entries_of(8, 3))
        for call in (lambda: writer.add(b"a", b"", seqno=2**64), lambda: table.get(b"a", at=-1),
                     lambda: writer.add(b"a", b"", kind=2**32 + 1), lambda: writer.delete(b"", -1),
                     lambda: table.get(b"a", at=2**64), lambda: table.get_many([b"a"], at=2**64),
                     lambda: table.entry_many([], at=-1), lambda: table.range(at=2**64),
                     lambda: Runs(table).range(at=-1), lambda: Runs(table).entries(at=2**64),
                     lambda: Table.open(b"", global_seqno=2**64), lambda: Writer(id=2**64),
                     lambda: Writer(filter_bits_per_key=2**32), lambda: Writer(id=-1),
                     lambda: table.verify(checksum=2**64), lambda: table.verify(checksum=-1)):
            with self.assertRaises(OverflowError):
                call()

    def test_types(self):
        writer, table = Writer(), table_of(entries_of(8, 3))
        runs = Runs(table)
        for call in (lambda: table.get("a"), lambda: table.get(5), lambda: table.get(None),
                     lambda: table["a"], lambda: "a" in table, lambda: runs["a"],
                     lambda: table.entries("a"), lambda: table.range(b"a", 5),
                     lambda: runs.range("a"), lambda: writer.add("a", b""),
                     lambda: writer.add(b"a", "1"), lambda: writer.add(b"a", None),
                     lambda: writer.add(b"a", 5), lambda: writer.add(b"a", b"", "1"),
                     lambda: writer.add(b"a", b"", 1.0), lambda: table.get(b"a", at="1"),
                     lambda: Table.open(5), lambda: Table.open(None), lambda: Table.open([1]),
                     lambda: Table.open(b"", global_seqno=None), lambda: Runs(writer),
                     lambda: Runs([table]), lambda: runs.add(runs), lambda: runs.add(b"a"),
                     lambda: compact(table), lambda: compact([runs]), lambda: compact(5)):
            with self.assertRaises(TypeError):
                call()
        with self.assertRaises(FileNotFoundError):
            Table.open("there is no such file")

    def test_what_is_opened_is_not_copied(self):
        table = table_of(entries_of(7, 3))
        for held in (table, table.entries(), table.scan(), Runs(table), Writer(), MultiWriter(0),
                     table._handle):
            for copied in (copy.copy, copy.deepcopy, pickle.dumps):
                with self.assertRaises(TypeError):
                    copied(held)

    def test_exceptions(self):
        text = ctypes.create_string_buffer(100)
        by_code = {}
        for name in logpurple._errors.__all__[1:]:
            kind = getattr(logpurple, name)
            self.assertTrue(issubclass(kind, TableError) and kind.__doc__)
            by_code[kind.code] = kind
            length = _calls.strerror_copy(kind.code, text, 100)
            self.assertEqual(text.raw[:length].decode(), kind().text)
            again = pickle.loads(pickle.dumps(kind()))
            self.assertEqual((type(again), str(again), again.code), (kind, str(kind()), kind.code))
        self.assertEqual(sorted(by_code), list(range(1, 25)) + list(range(100, 108)))
        self.assertEqual(logpurple._errors.error(99).code, 99)
        for code in (0, 25, 99, 108, 2**32 - 1):
            _calls.strerror_copy(code, text, 100)
        self.assertTrue(issubclass(logpurple.OutOfMemory, MemoryError))

    def test_a_handle_that_holds_another_kind(self):
        table, writer = table_of(entries_of(7, 3)), Writer()
        # The methods call what is declared here, so that the library itself returns the error.
        for kind in Table.__mro__:
            for name, member in vars(kind).items():
                if not hasattr(writer, name) and callable(member):
                    is_method = isinstance(member, types.FunctionType)
                    setattr(writer, name, member.__get__(writer) if is_method else member)
        for call in (lambda: Table.get(writer, b"a"), lambda: Table.facts(writer),
                     lambda: Table.entries(writer), lambda: Table.verify(writer),
                     lambda: Table.verify(writer, checksum=0),
                     lambda: Table.scan(writer), lambda: Table.memory(writer),
                     lambda: Table._find(writer, [b"a"], 1), lambda: Writer.add(table, b"a", b""),
                     lambda: MultiWriter.add(writer, b"a", b""),
                     lambda: Writer.add(MultiWriter(0), b"a", b"")):
            with self.assertRaises(logpurple.OtherKind):
                call()


class Places(unittest.TestCase):
    def test_collected_in_any_order(self):
        wanted = entries_of(3, 60)
        file = file_of(wanted, **small(1))
        for order in itertools.permutations(range(5)):
            table = Table.open(file)
            held = [table, table.entries(), Runs(table), table.share(), None]
            held[4] = held[2].entries()
            firsts = [next(held[1]), next(held[4])]
            names = [weakref.ref(each) for each in held]
            del table
            for place in order:
                held[place] = None
                gc.collect()
                self.assertIsNone(names[place]())
                for i in (1, 4):
                    if held[i] is not None:
                        self.assertNotIn(next(held[i]), firsts)
                if held[0] is not None:
                    self.assertEqual(held[0].entry_count, len(wanted))
                if held[3] is not None:
                    self.assertEqual(list(held[3].entries()), wanted)

    def test_collected_in_a_circle(self):
        class Named(Table):
            pass

        table = Named.open(file_of(entries_of(3, 9)))
        self.assertIsInstance(table.share(), Named)
        table.itself, table.entries_of_it = table, table.entries()
        name = weakref.ref(table)
        del table
        gc.collect()
        self.assertIsNone(name())

    def test_an_object_without_a_handle(self):
        Table.__new__(Table).__del__()
        with self.assertRaises(logpurple.Closed):
            Table._empty().get(b"a")

    def test_what_calls_alone_make(self):
        for kind, by in ((Table, "a Table is opened by Table.open"),
                         (logpurple.Entries, "Table.entries and Runs.entries"),
                         (logpurple.Scan, "a Scan is made by Table.scan")):
            for parts, named in (((), {}), (("fruit.sst",), {}), ((), {"reverse": True})):
                with self.assertRaisesRegex(TypeError, by):
                    kind(*parts, **named)

    def test_a_call_within_a_call(self):
        table = table_of(entries_of(3, 50))
        with table._turn:
            with self.assertRaises(RuntimeError):
                table.get(b"a")
        self.assertIsInstance(table.get_many([b"a"]), list)

    @unittest.skipUnless(hasattr(signal, "setitimer"), "there are no timers here")
    def test_signals(self):
        wanted = entries_of(3, 200)
        table, seen = table_of(wanted), []

        def handler(*_):
            try:
                seen.append(table.entry(wanted[0].key) == wanted[0])
            except RuntimeError:
                seen.append(True)

        before = signal.signal(signal.SIGALRM, handler)
        signal.setitimer(signal.ITIMER_REAL, 0.001, 0.001)
        try:
            for _ in range(20000):
                self.assertEqual(table.entry(wanted[-1].key),
                                 next(e for e in wanted if e.key == wanted[-1].key))
        finally:
            signal.setitimer(signal.ITIMER_REAL, 0)
            signal.signal(signal.SIGALRM, before)
        self.assertTrue(seen and all(seen))

    @unittest.skipUnless(hasattr(os, "fork"), "there is no fork here")
    def test_forks(self):
        wanted = entries_of(3, 50)
        table = table_of(wanted)
        entries = table.entries()
        first = next(entries)
        sys.stdout.flush()
        child = os.fork()
        if child == 0:
            right = [first] + list(entries) == wanted and list(table.entries()) == wanted
            table.close()
            os._exit(0 if right else 1)
        self.assertEqual(os.waitpid(child, 0)[1], 0)
        self.assertEqual([first] + list(entries), wanted)


if __name__ == "__main__":
    unittest.main()
