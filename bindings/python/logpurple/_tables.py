"""Tables, and how one or several of them are read."""

from __future__ import annotations

import array
import ctypes
import os
from ctypes import addressof, byref
from typing import (Any, Callable, Generator, Iterable, Iterator, List, Optional, Sequence, Tuple,
                    Type, TypeVar, Union, overload)

from . import _calls
from ._calls import copied
from ._errors import Faulty, check, faulty
from ._files import Path
from ._iterators import DELETIONS, KINDS, Batch, Bounds, Entries, Pairs, Scan, Steps, visible
from ._merging import merged
from ._records import NEWEST, Entry, Facts, Fault, Finding, Memory, Packing, Section, Verified
from ._resources import BytesLike, Resource, Returned, number, plain
from ._views import Items, Keys, Values

_Default = TypeVar("_Default")
_SomeTable = TypeVar("_SomeTable", bound="Table")
_SomeRuns = TypeVar("_SomeRuns", bound="Runs")

# The kinds of what a read finds that has no value: no entry, and deletions.
_WITHOUT_VALUE = (0, *DELETIONS)


class _Reader(Resource):
    """A reader of keys and their newest values."""

    # The library's call for a point read.
    _get: Callable[..., int]

    # Begins to read the entries of a range: those that are visible at a snapshot, or more.
    def _range(self, bounds: Bounds, reverse: bool, at: int) -> Steps:
        raise NotImplementedError

    def entry(self, key: BytesLike, at: int = NEWEST) -> Optional[Entry]:
        """Returns the newest version of a key whose sequence number is below `at`.

        The version may be a deletion. Returns `None` if there is no such version.

        This is a point read. It loads at most one block of each of the filter, the index and the
        data; of a `Runs` as many for each run.

        >>> writer = Writer()
        >>> writer.delete(b"a", seqno=7)
        >>> table = Table.open(writer.finish())
        >>> table.entry(b"a").kind.name, table.entry(b"a", at=7), Runs(table).entry(b"b")
        ('TOMBSTONE', None, None)
        """
        key, at = plain(key), number(at)
        entry, lent = self._entry, self._lent
        with self._turn:
            code = self._get(self._ref, key, len(key), at, self._entry_ref)
            if code:
                raise self._error(code)
            if entry.kind == 0:
                return None
            self._check(_calls.found_lend(self._ref, self._lent_ref))
            return Entry(copied(lent.key, lent.key_len), entry.seqno, KINDS[entry.kind],
                         copied(lent.value, lent.value_len))

    @overload
    def get(self, key: BytesLike, default: None = None, at: int = NEWEST) -> Optional[bytes]: ...

    @overload
    def get(self, key: BytesLike, default: _Default,
            at: int = NEWEST) -> Union[bytes, _Default]: ...

    def get(self, key: BytesLike, default: Optional[_Default] = None,
            at: int = NEWEST) -> Union[bytes, Optional[_Default]]:
        """Returns the value of a key at the snapshot `at`, or `default` if it has none.

        The snapshot sees the versions whose sequence numbers are below `at`. A key has no value if
        it sees none of its versions, or if the newest that it sees is a deletion. The value of a
        `Kind.INDIRECTION` is what the table stores; `entry` returns the kind, too.

        >>> writer = Writer()
        >>> writer.add(b"a", b"1", seqno=4)
        >>> table = Table.open(writer.finish())
        >>> table.get(b"a"), table.get(b"a", at=4), Runs(table).get(b"b", b"none")
        (b'1', None, b'none')
        """
        key, at = plain(key), number(at)
        lent = self._lent
        with self._turn:
            code = self._get(self._ref, key, len(key), at, self._entry_ref)
            if code:
                raise self._error(code)
            if self._entry.kind in _WITHOUT_VALUE:
                return default
            self._check(_calls.found_lend(self._ref, self._lent_ref))
            return copied(lent.value, lent.value_len)

    def range(self, lower: Optional[BytesLike] = None, upper: Optional[BytesLike] = None,
              reverse: bool = False, at: int = NEWEST, *, prefix: Optional[BytesLike] = None,
              memtable: Optional[Sequence[Entry]] = None
              ) -> Generator[Tuple[bytes, bytes], None, None]:
        """Yields the keys from `lower` on and below `upper`, with their values at a snapshot.

        The snapshot `at` sees the versions whose sequence numbers are below it. The pairs are in
        key order or, if `reverse`, in reverse. `None` is no bound. There are no pairs if `lower` is
        not below `upper`. Keys for which `get` finds no value are left out. The cost is that of
        reading every version of each key in the range.

        `prefix`: only the keys that begin with it.
        `memtable`: entries that no table has yet, in the order of a table, as a list. The range
        reads them as if they were a table, and only those within the bounds. It must not change
        meanwhile. If a table has the same version of a key, that of the memtable is yielded. Raises
        `OutOfOrder` where it reads two entries that are not in order.

        The iterator can be left at any time. It is released with the last reference to it, or by
        its `close`. One thread at a time may use it.

        >>> writer = Writer()
        >>> for key, seqno in ((b"a", 2), (b"a", 1), (b"b", 3)):
        ...     writer.add(key, b"%d" % seqno, seqno)
        >>> table = Table.open(writer.finish())
        >>> list(table.range(reverse=True)), list(Runs(table).range(at=2))
        ([(b'b', b'3'), (b'a', b'2')], [(b'a', b'1')])
        >>> new = [Entry(b"a", 5, Kind.TOMBSTONE, b""), Entry(b"be", 4, Kind.VALUE, b"4")]
        >>> list(table.range(memtable=new)), list(table.range(prefix=b"b", memtable=new, at=4))
        ([(b'b', b'3'), (b'be', b'4')], [(b'b', b'3')])
        """
        at, bounds, reverse = number(at), _bounds(lower, upper, prefix), bool(reverse)
        steps = self._range(bounds, reverse, at)
        if memtable is None:
            return visible(steps, at, reverse)
        return _pairs(merged(steps, memtable, bounds, at, reverse))

    def keys(self) -> Keys:
        """Returns a view of the keys that have a value. `for key in table` is the same.

        `dict(table)` makes a point read for each key. `dict(table.items())` reads the table once.

        >>> writer = Writer()
        >>> writer.add(b"a", b"1")
        >>> writer.delete(b"b")
        >>> table = Table.open(writer.finish())
        >>> list(table.keys()), dict(table), list(Runs(table).keys())
        ([b'a'], {b'a': b'1'}, [b'a'])
        """
        return Keys(self)

    def values(self) -> Values:
        """Returns a view of the newest values, in key order.

        >>> writer = Writer()
        >>> writer.add(b"a", b"2", seqno=2)
        >>> writer.add(b"a", b"1", seqno=1)
        >>> table = Table.open(writer.finish())
        >>> list(table.values()), list(Runs(table).values())
        ([b'2'], [b'2'])
        """
        return Values(self)

    def items(self) -> Items:
        """Returns a view of the keys that have a value, with their newest values.

        `range` does the same within bounds and at a snapshot.

        >>> writer = Writer()
        >>> writer.add_many([(b"a", b"1"), (b"b", b"2")])
        >>> table = Table.open(writer.finish())
        >>> list(table.items()), dict(Runs(table).items())
        ([(b'a', b'1'), (b'b', b'2')], {b'a': b'1', b'b': b'2'})
        """
        return Items(self)

    def __getitem__(self, key: BytesLike) -> bytes:
        """Returns the newest value of a key. This is a point read.

        Raises `KeyError` if the key has no value, for example because it is deleted.

        >>> writer = Writer()
        >>> writer.add(b"a", b"1")
        >>> writer.delete(b"b")
        >>> table = Table.open(writer.finish())
        >>> table[b"a"]
        b'1'
        >>> table[b"b"]
        Traceback (most recent call last):
        ..
        KeyError: b'b'
        """
        found = self.get(key)
        if found is None:
            raise KeyError(key)
        return found

    def __contains__(self, key: BytesLike) -> bool:
        """Returns whether a key has a value. This is a point read.

        >>> writer = Writer()
        >>> writer.add(b"a", b"1")
        >>> writer.delete(b"b")
        >>> table = Table.open(writer.finish())
        >>> b"a" in table, b"b" in table, b"c" in Runs(table)
        (True, False, False)
        """
        key = plain(key)
        with self._turn:
            code = self._get(self._ref, key, len(key), NEWEST, self._entry_ref)
            if code:
                raise self._error(code)
            return self._entry.kind not in _WITHOUT_VALUE

    def __iter__(self) -> Iterator[bytes]:
        """Yields the keys that have a value, in order.

        >>> writer = Writer()
        >>> writer.add(b"a", b"1")
        >>> writer.delete(b"b")
        >>> writer.add(b"c", b"2")
        >>> table = Table.open(writer.finish())
        >>> list(table), list(Runs(table))
        ([b'a', b'c'], [b'a', b'c'])
        """
        return iter(self.keys())

    def __reversed__(self) -> Iterator[bytes]:
        """Yields the keys that have a value, in reverse order.

        >>> writer = Writer()
        >>> writer.add_many([(b"a", b"1"), (b"b", b"2")])
        >>> table = Table.open(writer.finish())
        >>> list(reversed(table)), list(reversed(Runs(table)))
        ([b'b', b'a'], [b'b', b'a'])
        """
        return reversed(self.keys())


class Table(Returned, _Reader):
    """A sorted table, which `Table.open` opens.

    It reads as a mapping of the keys to their newest values: `table[key]`, `get`, `in`, iteration,
    `keys`, `values`, `items` and `reversed`. A key whose newest version is a deletion is not in it.
    `entries` and `scan` read every version, deletions too.

    A table does not store how many keys have a value, so it has no `len`:
    `sum(1 for key in table)` reads the whole table. `entry_count` is the number of versions, and
    takes constant time.

    `table[key]`, `get`, `entry` and `in` are point reads, which load one data block at most.
    Iterations read the data blocks one after another.

    >>> writer = Writer()
    >>> writer.add(b"a", b"new", seqno=2)
    >>> writer.add(b"a", b"old", seqno=1)
    >>> writer.delete(b"b", seqno=3)
    >>> with Table.open(writer.finish()) as table:
    ...     table[b"a"], list(table), b"b" in table, table.entry_count
    (b'new', [b'a'], False, 3)
    """

    _maker = "opened by Table.open"
    _get = _calls.table_get

    @classmethod
    def open(cls: Type[_SomeTable], source: Union[BytesLike, Path],
             global_seqno: int = 0, pin_filter: bool = True, pin_index: bool = True,
             kept: bool = False) -> _SomeTable:
        """Opens a table from its bytes or from the path of a file.

        A file is read whole. Bytes are copied, unless they are kept.

        `global_seqno`: is added to the sequence number of each entry.
        `pin_filter`, `pin_index`: whether a filter or an index of one block stays loaded. Otherwise
        each read loads it.
        `kept`: the table reads the bytes themselves. They are referenced until the table and all
        that was opened from it are closed. Until then no process may write to them, for example to
        a mapped file. They must be read-only and contiguous, as `bytes` are, and a map of a file
        with `ACCESS_READ`.

        Raises `OSError` if the file cannot be read, a `TableError` if the bytes are no table, and
        `BufferError` if bytes cannot be kept. A table with damaged blocks may open: then reads that
        load such a block fail, and `verify` finds it.

        >>> writer = Writer()
        >>> writer.add(b"a", b"1", seqno=2)
        >>> file = writer.finish()
        >>> table = Table.open(bytearray(file), global_seqno=10)
        >>> table.entry(b"a").seqno
        12
        >>> Table.open(file, kept=True)[b"a"]
        b'1'
        >>> Table.open(bytearray(file), kept=True)
        Traceback (most recent call last):
        ..
        BufferError: bytes that are kept have to be read-only
        """
        global_seqno, call = number(global_seqno), _calls.table_open
        table = cls._empty()
        if isinstance(source, (str, os.PathLike)):
            # Nothing else references the bytes that are read here, so they need no copy.
            kept = True
            table._path = os.fsdecode(source)
            with open(source, "rb") as file:
                source = file.read()
        if kept:
            source, call = _calls.kept(source), _calls.table_open_kept
            table._kept = (source,)
        with _calls.Borrowed(source) as (address, length):
            table._check(call(address, length, global_seqno, bool(pin_filter), bool(pin_index),
                              table._ref))
        return table

    @property
    def path(self) -> Optional[str]:
        """The path that the table was opened by; `None` if it was opened from bytes.

        >>> writer = Writer()
        >>> writer.add(b"a", b"1")
        >>> Table.open(writer.finish()).path is None
        True
        """
        return self._path

    @property
    def entry_count(self) -> int:
        """The number of entries: every version of each key, deletions too.

        It is `facts().item_count`, which the meta block states, so it takes constant time.

        >>> writer = Writer()
        >>> writer.add(b"a", b"1", seqno=2)
        >>> writer.delete(b"a", seqno=1)
        >>> table = Table.open(writer.finish())
        >>> table.entry_count, len(list(table.entries()))
        (2, 2)
        """
        return self.facts().item_count

    def share(self: _SomeTable) -> _SomeTable:
        """Returns another object for the same table, for example for another thread.

        No bytes are copied. Each object is closed by itself. Threads that use one object take
        turns, and threads with a share each read at the same time.

        >>> writer = Writer()
        >>> writer.add(b"a", b"1")
        >>> table = Table.open(writer.finish())
        >>> other = table.share()
        >>> table.close()
        >>> other[b"a"]
        b'1'
        """
        other = self._empty()
        with self._turn:
            other._kept, other._path = self._kept, self._path
            self._check(_calls.table_share(self._ref, other._ref))
        return other

    @overload
    def get_many(self, keys: Iterable[BytesLike], default: None = None,
                 at: int = NEWEST) -> List[Optional[bytes]]: ...

    @overload
    def get_many(self, keys: Iterable[BytesLike], default: _Default,
                 at: int = NEWEST) -> List[Union[bytes, _Default]]: ...

    def get_many(self, keys: Iterable[BytesLike], default: Any = None,
                 at: int = NEWEST) -> List[Any]:
        """Returns what `get` returns for each of some keys, in their order.

        The keys may be in any order and repeat. Raises the error of the first key that has one.

        >>> writer = Writer()
        >>> writer.add_many([(b"a", b"1"), (b"b", b"2")])
        >>> Table.open(writer.finish()).get_many([b"b", b"c", b"a", b"b"])
        [b'2', None, b'1', b'2']
        """
        values = []
        rows, data = self._find(keys, at)
        start = 0
        for kind, _, key_len, value_len in rows:
            start += key_len
            values.append(default if kind in _WITHOUT_VALUE else data[start:start + value_len])
            start += value_len
        return values

    def entry_many(self, keys: Iterable[BytesLike], at: int = NEWEST) -> List[Optional[Entry]]:
        """Returns what `entry` returns for each of some keys, in their order, as `get_many` does.

        >>> writer = Writer()
        >>> writer.add(b"a", b"1", seqno=5)
        >>> Table.open(writer.finish()).entry_many([b"b", b"a"])
        [None, Entry(key=b'a', seqno=5, kind=<Kind.VALUE: 1>, value=b'1')]
        """
        found: List[Optional[Entry]] = []
        rows, data = self._find(keys, at)
        start = 0
        for kind, seqno, key_len, value_len in rows:
            middle = start + key_len
            end = middle + value_len
            found.append(Entry(data[start:middle], seqno, KINDS[kind], data[middle:end])
                         if kind else None)
            start = end
        return found

    # Returns a row for the result of each key, zeros if nothing was found.
    def _find(self, keys: Iterable[BytesLike], at: int) -> Batch:
        if isinstance(keys, (bytes, bytearray, memoryview, str)):
            raise TypeError("keys are expected, and not one key")
        at, each = number(at), [plain(key) for key in keys]
        joined, lengths = b"".join(each), array.array("Q", map(len, each)) or _NUMBER
        found = array.array("Q", bytes(32 * len(each)))
        with Resource() as answers:
            with self._turn:
                answers._kept = self._kept
                self._check(_calls.table_get_many(
                    self._ref, joined, len(joined), lengths.buffer_info()[0], len(each), at,
                    (found or _NUMBER).buffer_info()[0], len(each), answers._ref))
            key_lens, value_lens = found[2::4], found[3::4]
            room = ctypes.create_string_buffer(sum(key_lens) + sum(value_lens) or 1)
            count = ctypes.c_uint64()
            self._check(_calls.answers_take(answers._ref, 0, addressof(room), len(room),
                                            byref(count)))
            return zip(found[0::4], found[1::4], key_lens, value_lens), room.raw

    def entries(self, lower: Optional[BytesLike] = None, upper: Optional[BytesLike] = None,
                reverse: bool = False, *, prefix: Optional[BytesLike] = None) -> Entries:
        """Returns an iterator over every version of the keys from `lower` on and below `upper`.

        The entries are in key order, and those of one key from the newest to the oldest; if
        `reverse`, all of this in reverse. `None` is no bound, and `prefix` leaves only the keys
        that begin with it. There are no entries if `lower` is not below `upper`. Nothing is loaded
        before the first entry is taken.

        >>> writer = Writer()
        >>> for key, seqno in ((b"a", 2), (b"a", 1), (b"b", 3)):
        ...     writer.add(key, b"", seqno)
        >>> table = Table.open(writer.finish())
        >>> [(entry.key, entry.seqno) for entry in table.entries(b"a", b"b", reverse=True)]
        [(b'a', 1), (b'a', 2)]
        """
        return self._range(_bounds(lower, upper, prefix), bool(reverse), NEWEST)

    def _range(self, bounds: Bounds, reverse: bool, at: int) -> Entries:
        entries = Entries._empty()
        entries._bounds, entries._reverse = bounds, reverse
        with self._turn:
            entries._kept, entries._path = self._kept, self._path
            self._check(_calls.range_open(self._ref, *bounds, entries._ref))
        return entries

    def scan(self) -> Scan:
        """Returns an iterator over every version of each key, in order.

        It reads the data blocks in the order of the file, each once, and no index. So it also reads
        a table whose index is damaged. The first block is loaded at once, and its error raised.

        >>> writer = Writer()
        >>> for key, seqno in ((b"a", 2), (b"a", 1), (b"b", 3)):
        ...     writer.add(key, b"", seqno)
        >>> with Table.open(writer.finish()) as table:
        ...     [(entry.key, entry.seqno) for entry in table.scan()]
        [(b'a', 2), (b'a', 1), (b'b', 3)]
        """
        scan = Scan._empty()
        with self._turn:
            scan._kept, scan._path = self._kept, self._path
            self._check(_calls.scan_open(self._ref, scan._ref))
        return scan

    def memory(self) -> Memory:
        """Returns how much memory the table holds, in bytes.

        >>> writer = Writer()
        >>> writer.add(b"a", b"1")
        >>> file = writer.finish()
        >>> memory = Table.open(file, pin_filter=False).memory()
        >>> memory.file_len == len(file), memory.pinned_filter_size, memory.marks_size
        (True, 0, 8)
        """
        found = _calls.Memory()
        with self._turn:
            self._check(_calls.table_memory(self._ref, byref(found)))
        return Memory(*(getattr(found, name) for name in Memory._fields))

    def facts(self) -> Facts:
        """Returns the metadata that the table claims. It takes constant time.

        >>> writer = Writer(id=3)
        >>> writer.add(b"a", b"1", seqno=8)
        >>> facts = Table.open(writer.finish()).facts()
        >>> facts.id, facts.item_count, facts.highest_seqno
        (3, 1, 8)
        """
        with self._turn:
            return self._facts()

    # Returns the facts, within a turn.
    def _facts(self) -> Facts:
        found = _calls.Facts()
        self._check(_calls.table_facts(self._ref, byref(found)))
        return Facts(*(getattr(found, name) for name in Facts._fields))

    def verify(self, progress: Optional[Callable[[int, int], object]] = None, *,
               checksum: Optional[int] = None) -> Verified:
        """Reads every block once, and checks that the table stores entries in order.

        Raises `Faulty` with the first fault, if there is one.

        `progress`: is called after each block with two numbers, the bytes of data blocks that were
        read and their total. It may use the table. An exception that it raises ends the
        verification.
        `checksum`: is compared with that of all bytes of the table, before a block is read. It is
        the `checksum` of a `FinishedTable` or a `WrittenFile`. If the bytes have another one, the
        fault is `Fault.OTHER_CHECKSUM`.

        Raises `TypeError` if both are passed: a verification by steps compares no checksum.

        Without a checksum, some bytes are never read, so a change of them is not found. In a table
        of a `Writer` these are the version section, and the trailer's positions of this section,
        the data blocks and partitions. A checksum covers every byte.

        >>> writer = Writer()
        >>> writer.add(b"a", b"1")
        >>> written = writer.finish()
        >>> file = bytearray(written)
        >>> Table.open(file).verify(checksum=written.checksum).item_count
        1
        >>> calls = []
        >>> Table.open(file).verify(lambda read, size: calls.append(read == size)).item_count
        1
        >>> calls
        [False, False, True]
        >>> file[0] ^= 1
        >>> Table.open(file).verify()
        Traceback (most recent call last):
        ..
        logpurple.Faulty: the table is not sound (107): section DATA, offset 0, fault UNLOADED
        >>> Table.open(file).verify(checksum=written.checksum)
        Traceback (most recent call last):
        ..
        logpurple.Faulty: the table is not sound (107): section DATA, offset 0, fault OTHER_CHECKSUM
        """
        if progress is not None:
            if checksum is not None:
                raise TypeError("verify takes progress or a checksum, and not both")
            return self._verify_by_steps(progress)
        wanted = None if checksum is None else number(checksum)
        found = _calls.Verified()
        with self._turn:
            if wanted is None:
                code = _calls.table_verify(self._ref, byref(found))
            else:
                code = _calls.table_verify_with(self._ref, wanted, byref(found))
        return self._verified(code, found)

    def _verify_by_steps(self, progress: Callable[[int, int], object]) -> Verified:
        steps, state, found = Resource(), _calls.Progress(), _calls.Verified()
        with self._turn:
            steps._kept = self._kept
            self._check(_calls.verification_open(self._ref, steps._ref))
        with steps:
            while True:
                with steps._turn:
                    code = _calls.verification_step(steps._ref, byref(state), byref(found))
                if code or state.at_end:
                    return self._verified(code, found)
                progress(state.bytes_read, state.data_size)

    # Returns the result of a verification, or raises its error.
    def _verified(self, code: int, found: _calls.Verified) -> Verified:
        if code == Faulty.code:
            raise faulty(Finding(Section(found.section), found.offset, Fault(found.fault),
                                 found.detail), self._path)
        self._check(code)
        return Verified(found.item_count, found.data_block_count)

    # The facts are left out while another call is at work, which may take long.
    def _parts(self) -> List[str]:
        parts = super()._parts()
        if self._is_open and self._turn.try_enter():
            try:
                if self._is_open:  # still
                    facts = self._facts()
                    parts += [f"id={facts.id}", f"entry_count={facts.item_count}"]
            finally:
                self._turn.leave()
        return parts


# An array for a call that reads none of it: a pointer is never NULL.
_NUMBER = array.array("Q", [0])


# Returns the bounds of a range as a call takes them. The range is from the lower bound on and below
# the upper one, and has only keys that begin with the prefix.
def _bounds(lower: Optional[BytesLike], upper: Optional[BytesLike],
            prefix: Optional[BytesLike]) -> Bounds:
    low = None if lower is None else plain(lower)
    high = None if upper is None else plain(upper)
    if prefix is not None:
        first = plain(prefix)
        after = _after(first)
        low = first if low is None else max(low, first)
        high = after if high is None else high if after is None else min(high, after)
    below, above = low or b"", high or b""
    return (0 if low is None else 1, below, len(below), 0 if high is None else 2, above, len(above))


# The least key above all that begin with a prefix; `None` if there is none.
def _after(prefix: bytes) -> Optional[bytes]:
    rest = prefix.rstrip(b"\xff")
    return rest[:-1] + bytes([rest[-1] + 1]) if rest else None


# Yields the keys and values of some entries, without the deletions.
def _pairs(entries: Iterator[Entry]) -> Pairs:
    for entry in entries:
        if not entry.kind.is_deletion:
            yield entry.key, entry.value


class Runs(_Reader):
    """Several tables that are read as one. The newest table comes first.

    It reads as a mapping of the keys to their newest values in all tables, as a `Table` does. A key
    whose newest version is a deletion is not in it, and it has no `len`. A point read reads each
    run. A run is one table, unless `packed` has put several in it that do not overlap.

    Unlike that of a `Table`, `entries` yields only the newest version of each key.

    >>> newer, older = Writer(), Writer()
    >>> newer.add(b"a", b"new", seqno=2)
    >>> older.add(b"a", b"old", seqno=1)
    >>> older.add(b"b", b"more", seqno=1)
    >>> runs = Runs(Table.open(newer.finish()), Table.open(older.finish()))
    >>> runs[b"a"], runs.get(b"a", at=2), runs[b"b"], list(runs)
    (b'new', b'old', b'more', [b'a', b'b'])
    """

    _get = _calls.runs_get
    _table_count = 0

    def __init__(self, *tables: Table) -> None:
        """Reads some tables as one, the newest first. They may be closed then."""
        super().__init__()
        check(_calls.runs_open(self._ref))
        for table in tables:
            self.add(table)

    @classmethod
    def of_runs(cls: Type[_SomeRuns], runs: Iterable[Iterable[Table]]) -> _SomeRuns:
        """Reads several runs as one, the newest first. The tables of a run do not overlap.

        A point read searches one table of a run. If tables of one run overlap, the first of them is
        read as the newest, and they are searched one by one. The tables may be closed then.

        Raises the errors of `add`.

        >>> tables = []
        >>> for key, seqno in ((b"a", 2), (b"c", 2), (b"a", 1)):
        ...     writer = Writer()
        ...     writer.add(key, b"%d" % seqno, seqno)
        ...     tables.append(Table.open(writer.finish()))
        >>> runs = Runs.of_runs([tables[:2], tables[2:]])
        >>> list(runs.items()), runs.packing().runs
        ([(b'a', b'2'), (b'c', b'2')], [[0, 1], [2]])
        """
        if isinstance(runs, Table):
            raise TypeError("runs are expected, and not one table")
        each = cls()
        with each:
            for run in runs:
                for table in listed(run):
                    each.add(table)
            # Tables that do not overlap go into one run.
            return each.packed()

    @property
    def table_count(self) -> int:
        """The number of tables.

        >>> Runs().table_count
        0
        """
        return self._table_count

    def add(self, table: Table) -> None:
        """Adds a table, which is older than those before it. It may be closed then.

        Raises `OutOfOrder` if the table claims that its least key is above its greatest.

        >>> writer = Writer()
        >>> writer.add(b"a", b"1")
        >>> runs = Runs()
        >>> with Table.open(writer.finish()) as table:
        ...     runs.add(table)
        >>> runs[b"a"]
        b'1'
        """
        if not isinstance(table, Table):
            raise TypeError(f"a Table is expected, and not a {type(table).__name__}")
        with self._turn, table._turn:
            table._check(_calls.runs_add(self._ref, table._ref))
            self._kept += table._kept
            self._table_count += 1

    def entries(self, lower: Optional[BytesLike] = None, upper: Optional[BytesLike] = None,
                reverse: bool = False, at: int = NEWEST, *,
                prefix: Optional[BytesLike] = None) -> Entries:
        """Returns an iterator over the newest versions of the keys from `lower` on and below
        `upper`, at the snapshot `at`.

        It yields the newest version of each key whose sequence number is below `at`. This may be a
        deletion. The entries are in key order or, if `reverse`, in reverse. `None` is no bound, and
        `prefix` leaves only the keys that begin with it. There are no entries if `lower` is not
        below `upper`. A table that is added later is not read.

        >>> newer, older = Writer(), Writer()
        >>> newer.delete(b"a", seqno=2)
        >>> older.add(b"a", b"old", seqno=1)
        >>> runs = Runs(Table.open(newer.finish()), Table.open(older.finish()))
        >>> [entry.kind.name for entry in runs.entries()]
        ['TOMBSTONE']
        >>> [entry.kind.name for entry in runs.entries(at=2)]
        ['VALUE']
        """
        at = number(at)
        bounds = _bounds(lower, upper, prefix)
        entries = Entries._empty()
        entries._bounds, entries._reverse = bounds, bool(reverse)
        with self._turn:
            entries._kept = self._kept
            self._check(_calls.runs_range_open(self._ref, *bounds, at, entries._ref))
            if not reverse:
                self._check(_calls.runs_scan_open(self._ref, *bounds, at, entries._scanned()))
        return entries

    def _range(self, bounds: Bounds, reverse: bool, at: int) -> Steps:
        steps: Steps = Entries._empty() if reverse else Scan._empty()
        open_steps = _calls.runs_range_open if reverse else _calls.runs_scan_open
        with self._turn:
            steps._kept = self._kept
            self._check(open_steps(self._ref, *bounds, at, steps._ref))
        return steps

    def packed(self: _SomeRuns) -> _SomeRuns:
        """Returns the same tables in as few runs as possible.

        Tables that do not overlap go into one run, and each key keeps the order of its tables. So
        reads find the same, in fewer steps. This object stays as it is.

        >>> runs = Runs()
        >>> for key in (b"a", b"b"):
        ...     writer = Writer()
        ...     writer.add(key, b"1")
        ...     runs.add(Table.open(writer.finish()))
        >>> list(runs.packed().range())
        [(b'a', b'1'), (b'b', b'1')]
        """
        packed = self._empty()
        with self._turn:
            packed._kept, packed._table_count = self._kept, self._table_count
            self._check(_calls.runs_pack(self._ref, packed._ref))
        return packed

    def packing(self) -> Packing:
        """Returns the runs that `packed` makes, and a chain of tables. The chain shows that no
        fewer runs are possible.

        >>> runs = Runs()
        >>> for keys in (b"ac", b"d", b"b"):
        ...     writer = Writer()
        ...     for key in keys:
        ...         writer.add(bytes([key]), b"")
        ...     runs.add(Table.open(writer.finish()))
        >>> runs.packing()
        Packing(runs=[[0, 1], [2]], chain=[0, 2])
        """
        with Resource() as packing:
            with self._turn:
                self._check(_calls.packing_open(self._ref, packing._ref))

            def read(call: Callable[..., int], *indices: int) -> int:
                found = ctypes.c_uint64()
                self._check(call(packing._ref, *indices, byref(found)))
                return found.value

            count = read(_calls.packing_count)
            runs = [[read(_calls.packing_table, run, index)
                     for index in range(read(_calls.packing_run, run))] for run in range(count)]
            return Packing(runs, [read(_calls.packing_chain, index) for index in range(count)])

    def _parts(self) -> List[str]:
        return super()._parts() + [f"table_count={self._table_count}"]


def listed(tables: Iterable[Table]) -> List[Table]:
    """Returns some tables. Raises `TypeError` for a single one, which iterates over its keys."""
    if isinstance(tables, Table):
        raise TypeError("tables are expected, and not one table")
    return list(tables)
