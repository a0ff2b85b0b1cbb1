"""Writing tables, from entries and from other tables."""

from __future__ import annotations

import array
import ctypes
import itertools
from ctypes import byref
from typing import (Callable, Iterable, Iterator, List, NoReturn, Optional, Tuple, TypeVar,
                    Union)

from . import _calls
from ._errors import AlreadyOpen, Closed, Nothing
from ._files import Path, save
from ._records import NEWEST, Kind, WrittenFile
from ._resources import BytesLike, Resource, Returned, number, plain
from ._tables import Runs, Table, listed

# How many entries `Writer.add_many` passes to a call, and how many bytes of a file are copied at a
# time.
_MANY = 256
_PIECE = 1 << 20

_SomeCompaction = TypeVar("_SomeCompaction", bound="Compaction")

# The bits of each option, in the order of its structure.
_BITS = [8 * ctypes.sizeof(kind) for name, kind in _calls.Options._fields_[:-1]]


# The options of a writer, in the order of its structure.
def _options(*values: int) -> _calls.Options:
    return _calls.Options(*map(number, values, _BITS))


class FinishedTable(bytes):
    """The bytes of a table, which writers, `compact` and `compact_each` return.

    `id`: the id of the table.
    `checksum`: the FNV-1a hash of all bytes, which is not part of them.

    >>> writer = Writer(id=4)
    >>> writer.add(b"a", b"1")
    >>> writer.finish()
    <FinishedTable id=4 checksum=8836759aab92fee1 ... bytes>
    """

    id: int
    checksum: int

    def __repr__(self) -> str:
        if not hasattr(self, "checksum"):
            return f"FinishedTable({super().__repr__()})"
        return f"<FinishedTable id={self.id} checksum={self.checksum:016x} {len(self)} bytes>"

    __str__ = __repr__

    def save(self, path: Path) -> None:
        """Writes the table to a file, which is then complete and synced.

        The bytes go into a file beside it, which is renamed. So the path has the whole table, or
        its earlier file. A file that is there is replaced. Raises `OSError`.

        >>> import os, tempfile
        >>> writer = Writer()
        >>> writer.add(b"a", b"1")
        >>> with tempfile.TemporaryDirectory() as folder:
        ...     path = os.path.join(folder, "1.sst")
        ...     writer.finish().save(path)
        ...     Table.open(path)[b"a"]
        b'1'
        """
        save(path, (self,))


class Compacted(List[FinishedTable]):
    """The tables that `compact` wrote, in key order. It is empty if no entry was kept.

    `next_id`: the first id that no table has, for the next one; `None` if no id is left.
    """

    next_id: Optional[int]

    def __repr__(self) -> str:
        return f"Compacted({super().__repr__()}, next_id={getattr(self, 'next_id', None)})"


# The finished tables that a handle holds.
def _files(files: Resource) -> List[FinishedTable]:
    count = ctypes.c_uint64()
    files._check(_calls.files_count(files._ref, byref(count)))
    return [_file(files, index) for index in range(count.value)]


def _file(files: Resource, index: int) -> FinishedTable:
    found, count = _calls.File(), ctypes.c_uint64()
    files._check(_calls.files_tell(files._ref, index, byref(found)))
    # Zeros, which the call writes over before anything else refers to them.
    file = FinishedTable(found.len)
    files._check(_calls.files_copy(files._ref, index, 0, file, found.len, byref(count)))
    file.id, file.checksum = found.id, found.checksum
    return file


# Yields the bytes of a finished table, in pieces.
def _pieces(files: Resource, index: int) -> Iterator[bytes]:
    room, count, offset = ctypes.create_string_buffer(_PIECE), ctypes.c_uint64(), 0
    while True:
        files._check(_calls.files_copy(files._ref, index, offset, room, _PIECE, byref(count)))
        if not count.value:
            return
        yield memoryview(room)[:count.value].tobytes()
        offset += count.value


# Writes an entry through a writer, by one of the calls that do so.
def _add(writer: Resource, call: Callable[..., int], key: BytesLike, value: BytesLike, seqno: int,
         kind: int) -> None:
    key, seqno, kind = plain(key), number(seqno), number(kind, 32)
    with _calls.Borrowed(value) as (address, length), writer._turn:
        writer._check(call(writer._ref, key, len(key), seqno, kind, address, length))


class Writer(Resource):
    """Writes a table: its entries in order, and then `finish`, which returns its bytes, or
    `finish_to`, which writes them to a file.

    Keys ascend. The versions of one key follow each other, with descending sequence numbers. The
    whole table is in memory. A writer that is closed before `finish`, as by `with`, writes none.

    `id`: the id of the table, up to 64 bits.
    `created_at`: the time of creation, in nanoseconds since 1970, up to 64 bits.
    `level`: the level of the tree that the table is for, up to 255.
    `data_block_size`: a data block ends once its keys and values have this size, up to 4 MiB.
    `data_block_restart_interval` (1 to 255), `data_block_hash_ratio` (up to 32 bits): are stored in
    the meta block. They change nothing else.
    `index_partition_size`, `filter_partition_size`: the size of a partition, in bytes, up to 4 MiB;
    0 for one block without partitions.
    `filter_bits_per_key`: the size of the filter, in tenths of a bit for each key, up to 32 bits; 0
    for no filter.

    4 MiB are 4,194,304 bytes.

    Raises `NoSuch` if an option is out of its range. Raises `OverflowError` if it is negative or
    has more bits than its field.

    >>> with Writer() as writer:
    ...     writer.add(b"a", b"1")
    ...     file = writer.finish()
    >>> Table.open(file)[b"a"]
    b'1'
    >>> writer = Writer(id=7, filter_bits_per_key=0)
    >>> writer.add(b"b", b"")
    >>> writer.add(b"a", b"")
    Traceback (most recent call last):
    ..
    logpurple.OutOfOrder: an entry is out of order (104)
    >>> Table.open(writer.finish()).facts().id
    7
    """

    _id: Optional[int] = None

    def __init__(self, *, id: int = 0, created_at: int = 0, level: int = 0,
                 data_block_size: int = 4096, data_block_restart_interval: int = 16,
                 data_block_hash_ratio: int = 0, index_partition_size: int = 0,
                 filter_partition_size: int = 0, filter_bits_per_key: int = 100) -> None:
        """Begins a table. The class has the options."""
        super().__init__()
        options = _options(id, created_at, level, data_block_size, data_block_restart_interval,
                           data_block_hash_ratio, index_partition_size, filter_partition_size,
                           filter_bits_per_key)
        self._id = options.id
        self._check(_calls.writer_open(byref(options), self._ref))

    def add(self, key: BytesLike, value: BytesLike, seqno: int = 0,
            kind: Kind = Kind.VALUE) -> None:
        """Writes an entry. Its key and value are copied.

        Raises `OutOfOrder` if the entry does not follow the one before it, or if `seqno` is
        `NEWEST`. Raises `NoSuch` if there is no such kind. The writer stays as it was.

        Raises `KeyTooLong` if the key has more than 1,048,576 bytes, and `ValueTooLong` if the
        value has 2^32 bytes or more. Raises `BlockTooLarge` if the data block would have 2^32 bytes
        or more. It counts 28, and for each entry 17 and the bytes of its key and value. After one
        of these, or `OutOfMemory`, the writer has failed: `add` and `finish` raise `WriterFailed`.

        >>> writer = Writer()
        >>> writer.add(b"a", b"1", seqno=2)
        >>> writer.add(b"a", b"", seqno=1, kind=Kind.WEAK_TOMBSTONE)
        >>> Table.open(writer.finish()).entry_count
        2
        """
        _add(self, _calls.writer_add, key, value, seqno, kind)

    def add_many(self, entries: Iterable[Tuple[BytesLike, BytesLike]], seqno: int = 0,
                 kind: Kind = Kind.VALUE) -> None:
        """Writes many keys with their values, all with one sequence number and of one kind.

        It does what `add` does for each, in much less time. It raises the error of the first entry
        that fails; the entries before it are written.

        >>> writer = Writer()
        >>> writer.add_many((b"%d" % digit, b"") for digit in range(10))
        >>> Table.open(writer.finish()).entry_count
        10
        """
        seqno, kind_number = number(seqno), number(kind, 32)
        items, count = iter(entries), ctypes.c_uint64()
        while True:
            some = list(itertools.islice(items, _MANY))
            if not some:
                return
            parts = [part for key, value in some for part in (plain(key), plain(value))]
            rows = array.array("Q", (kind_number, seqno, 0, 0)) * len(some)
            rows[2::4] = array.array("Q", map(len, parts[0::2]))
            rows[3::4] = array.array("Q", map(len, parts[1::2]))
            data = b"".join(parts)
            with self._turn:
                self._check(_calls.writer_add_many(self._ref, rows.buffer_info()[0], len(some),
                                                   data, len(data), byref(count)))

    def delete(self, key: BytesLike, seqno: int = 0) -> None:
        """Writes a deletion of every older version of a key. It raises the errors of `add`.

        >>> writer = Writer()
        >>> writer.delete(b"a")
        >>> b"a" in Table.open(writer.finish())
        False
        """
        self.add(key, b"", seqno, Kind.TOMBSTONE)

    def finish(self) -> Optional[FinishedTable]:
        """Returns the bytes of the table, or `None` if no entry was written.

        The writer is closed then, also if this fails. Raises `WriterFailed` if the writer has
        failed.

        >>> Writer().finish() is None
        True
        >>> writer = Writer(id=4)
        >>> writer.add(b"a", b"1")
        >>> file = writer.finish()
        >>> isinstance(file, bytes), file.id, f"{file.checksum:016x}"
        (True, 4, '8836759aab92fee1')
        """
        with self._turn:
            try:
                self._check(_calls.writer_finish(self._ref))
                files = _files(self)
            finally:
                self._release()
        return files[0] if files else None

    def finish_to(self, path: Path) -> Optional[WrittenFile]:
        """Writes the table to a file, as `FinishedTable.save` does, without a copy in memory.

        Returns what was written, or `None` if there was no entry: then there is no file. The writer
        is closed then, also if this fails. Raises `OSError`, and the errors of `finish`.

        >>> import os, tempfile
        >>> writer = Writer(id=4)
        >>> writer.add(b"a", b"1")
        >>> with tempfile.TemporaryDirectory() as folder:
        ...     written = writer.finish_to(os.path.join(folder, "4.sst"))
        ...     Table.open(written.path)[b"a"], written.id, f"{written.checksum:016x}"
        (b'1', 4, '8836759aab92fee1')
        """
        found, count = _calls.File(), ctypes.c_uint64()
        with self._turn:
            try:
                self._check(_calls.writer_finish(self._ref))
                self._check(_calls.files_count(self._ref, byref(count)))
                if not count.value:
                    return None
                self._check(_calls.files_tell(self._ref, 0, byref(found)))
                return WrittenFile(save(path, _pieces(self, 0)), found.id, found.checksum,
                                   found.len)
            finally:
                self._release()

    def _parts(self) -> List[str]:
        return super()._parts() + [f"id={self._id}"]


class MultiWriter(Resource):
    """Writes several tables, one after another: their entries in order, and then `finish`.

    `take` returns each finished table while the writer goes on, so that memory holds only the table
    that is being written. No key is in two tables. A writer that is closed before `finish`, as by
    `with`, drops the tables that were not taken.

    `target`: a new table starts at the next key once the data blocks of the current one have this
    size in bytes. If it is 0, each key has a table of its own.
    `id`: the id of the first table; the ids after it ascend by one. If `target` is 0, the first
    table has the id after it. It is used up even if nothing is written.
    `next_id`: the first id that no table has, the one that is being written included; `None` if no
    id is left. Only `finish`, and `take` when it returns a table, update it.

    The other options, and their errors, are those of `Writer`.

    >>> with MultiWriter(0, id=3) as writer:
    ...     for key in (b"a", b"b", b"c"):
    ...         writer.add(key, b"")
    ...         print([file.id for file in iter(writer.take, None)])
    ...     print([file.id for file in writer.finish()], writer.next_id)
    []
    [4]
    [5]
    [6] 7
    """

    next_id: Optional[int]
    _id: Optional[int] = None

    def __init__(self, target: int, *, id: int = 0, created_at: int = 0, level: int = 0,
                 data_block_size: int = 4096, data_block_restart_interval: int = 16,
                 data_block_hash_ratio: int = 0, index_partition_size: int = 0,
                 filter_partition_size: int = 0, filter_bits_per_key: int = 100) -> None:
        """Begins the first table. The class has the options."""
        super().__init__()
        # Holds a table from the call that takes it until it is copied.
        self._taken = Resource()
        target = number(target)
        options = _options(id, created_at, level, data_block_size, data_block_restart_interval,
                           data_block_hash_ratio, index_partition_size, filter_partition_size,
                           filter_bits_per_key)
        self._id = options.id
        self.next_id = options.id + 1 if options.id < NEWEST else None
        self._check(_calls.multi_writer_open(byref(options), target, self._ref))

    def add(self, key: BytesLike, value: BytesLike, seqno: int = 0,
            kind: Kind = Kind.VALUE) -> None:
        """Writes an entry as `Writer.add` does, and first begins the next table if one is due.

        Raises the errors of `Writer.add`. If a table is due, it also raises `TableIdsSpent` if no
        id is left, and `BlockTooLarge` or `SectionTooLarge` if the index or the filter of the
        current table is too large.

        After `OutOfOrder` and `NoSuch` the writer stays as it was. After any other error it has
        failed, and the unfinished table is lost. Finished tables can still be taken.

        >>> writer = MultiWriter(1 << 20)
        >>> writer.add(b"a", b"1", seqno=2)
        >>> writer.add(b"a", b"", seqno=3)
        Traceback (most recent call last):
        ..
        logpurple.OutOfOrder: an entry is out of order (104)
        """
        _add(self, _calls.multi_writer_add, key, value, seqno, kind)

    def add_many(self, entries: Iterable[Tuple[BytesLike, BytesLike]], seqno: int = 0,
                 kind: Kind = Kind.VALUE) -> None:
        """Writes many keys with their values, all with one sequence number and of one kind.

        It calls `add` for each. The entries before the first that fails are written.

        >>> writer = MultiWriter(0)
        >>> writer.add_many((b"%d" % digit, b"") for digit in range(10))
        >>> len(writer.finish())
        10
        """
        for key, value in entries:
            self.add(key, value, seqno, kind)

    def delete(self, key: BytesLike, seqno: int = 0) -> None:
        """Writes a deletion of every older version of a key. It raises the errors of `add`.

        >>> writer = MultiWriter(0)
        >>> writer.delete(b"a")
        >>> [b"a" in Table.open(file) for file in writer.finish()]
        [False]
        """
        self.add(key, b"", seqno, Kind.TOMBSTONE)

    def take(self) -> Optional[FinishedTable]:
        """Returns the oldest finished table that was not taken, or `None` if there is none yet.

        Tables can be taken between any two calls, also after `add` failed. No error loses a table.
        `iter(writer.take, None)` yields all that are finished so far.

        >>> writer = MultiWriter(0)
        >>> writer.add(b"a", b"1")
        >>> writer.take() is None
        True
        >>> writer.add(b"b", b"2")
        >>> [list(Table.open(file).items()) for file in iter(writer.take, None)]
        [[(b'a', b'1')]]
        """
        next_id = ctypes.c_uint64()
        with self._turn:
            code = _calls.multi_writer_take(self._ref, self._taken._ref, byref(next_id))
            if code == Nothing.code:
                return None
            # If it is open, it holds a table that was taken before, and whose copy failed.
            if code != AlreadyOpen.code:
                self._check(code)
                self.next_id = next_id.value or None
            file = _file(self._taken, 0)
            _calls.close(self._taken._ref)
            return file

    def finish(self) -> List[FinishedTable]:
        """Returns the tables that were not taken, in key order. There are none without an entry.

        The writer is closed then, also if this fails: the tables that were not taken are lost.
        Raises `WriterFailed` if the writer has failed, and else the errors of `Writer.finish`.

        >>> MultiWriter(0).finish()
        []
        >>> writer = MultiWriter(0, id=4)
        >>> writer.add_many([(b"a", b""), (b"b", b"")])
        >>> [file.id for file in writer.finish()]
        [5, 6]
        """
        files, next_id = Resource(), ctypes.c_uint64()
        with files, self._turn:
            try:
                self._check(_calls.multi_writer_finish(self._ref, files._ref, byref(next_id)))
                self.next_id = next_id.value or None
                return self._uncopied() + _files(files)
            finally:
                self._release()

    # A table that was taken, and whose copy failed.
    def _uncopied(self) -> List[FinishedTable]:
        count = ctypes.c_uint64()
        if _calls.files_count(self._taken._ref, byref(count)) == Closed.code:
            return []
        return _files(self._taken)

    def _release(self) -> None:
        super()._release()
        if hasattr(self, "_taken"):
            self._taken._release()

    def _parts(self) -> List[str]:
        return super()._parts() + [f"id={self._id}"]


def compact(tables: Union[Runs, Iterable[Table]], *, watermark: int = 0, evict: bool = False,
            zero: bool = False, target: int = NEWEST, id: int = 0, created_at: int = 0,
            level: int = 0, data_block_size: int = 4096, data_block_restart_interval: int = 16,
            data_block_hash_ratio: int = 0, index_partition_size: int = 0,
            filter_partition_size: int = 0, filter_bits_per_key: int = 100) -> Compacted:
    """Merges some tables, the newest first, into new ones. Returns these, in key order.

    The tables stay as they are. Memory holds all new tables at once: `compact_each` yields them one
    by one.

    `watermark`: the least snapshot that is still read. Versions whose sequence numbers are not
    below it are kept, and the newest version of each key below it. Older ones are dropped. By
    default all are kept.
    `evict`: whether deletions that are not needed are dropped. Set it only if the tree has no table
    that is older than these.
    `zero`: whether sequence numbers below the watermark become 0.
    `target`: a new table starts at the next key once the data blocks of the last one have this size
    in bytes. By default there is one table.
    `id`: the id of the first table; the ids after it ascend by one. If `target` is 0, the first
    table has the id after it. If no entry is kept, the id is used up, too.

    The other options are those of `Writer`.

    A deletion is dropped only if it is the oldest version of its key that is kept. A
    `Kind.WEAK_TOMBSTONE` is dropped if the version directly before it is a `Kind.VALUE` that is
    dropped. With `evict` it is also dropped if there is no older version of its key, and a
    `Kind.TOMBSTONE` is dropped.

    Raises `OutOfOrder` if a table is not as a writer makes it, or if two tables have one key with
    one sequence number. Raises `TableIdsSpent` if no id is left, `NoSuch` and `OverflowError` as a
    `Writer` does, and the errors of reading and writing. No table is returned then.

    >>> newer, older = Writer(), Writer()
    >>> newer.delete(b"a", seqno=9)
    >>> older.add(b"a", b"old", seqno=1)
    >>> older.add(b"b", b"more", seqno=2)
    >>> tables = [Table.open(writer.finish()) for writer in (newer, older)]
    >>> files = compact(tables, watermark=10, evict=True, id=8)
    >>> [(file.id, list(Table.open(file).items())) for file in files], files.next_id
    ([(8, [(b'b', b'more')])], 9)
    """
    watermark, target = number(watermark), number(target)
    options = _options(id, created_at, level, data_block_size, data_block_restart_interval,
                       data_block_hash_ratio, index_partition_size, filter_partition_size,
                       filter_bits_per_key)
    runs = _runs_of(tables)
    files, next_id = Resource(), ctypes.c_uint64()
    with files:
        with runs._turn:
            files._check(_calls.compact(runs._ref, byref(options), watermark, bool(evict),
                                        bool(zero), target, files._ref, byref(next_id)))
        compacted = Compacted(_files(files))
        compacted.next_id = next_id.value or None
        return compacted


def _runs_of(tables: Union[Runs, Iterable[Table]]) -> Runs:
    return tables if isinstance(tables, Runs) else Runs(*listed(tables))


class Compaction(Returned):
    """An iterator over the tables of a compaction, which `compact_each` returns.

    It has shares of the tables it reads, which may be closed meanwhile. It may be dropped before
    its end: the table that is being written is dropped then, and the others stay. It is released
    with the last reference to it, by `close`, or at the end of a `with` statement.

    After an error it is exhausted.

    `next_id`: the first id that no table has so far, the one that is being written included; `None`
    if no id is left.

    >>> writer = Writer()
    >>> writer.add_many([(b"a", b""), (b"b", b"")])
    >>> compaction = compact_each([Table.open(writer.finish())], target=0, id=3)
    >>> [(file.id, compaction.next_id) for file in compaction]
    [(4, 6), (5, 6)]
    """

    _maker = "made by compact_each"
    next_id: Optional[int]
    # Whether no table is left.
    _is_over = False

    def __iter__(self: _SomeCompaction) -> _SomeCompaction:
        """Returns the iterator itself."""
        return self

    def __next__(self) -> FinishedTable:
        """Returns the next table as soon as it is finished. Raises the errors of `compact`.

        >>> next(compact_each([]))
        Traceback (most recent call last):
        ..
        StopIteration
        """
        files, next_id = Resource(), ctypes.c_uint64()
        with files, self._turn:
            if self._is_over:
                raise StopIteration
            code = _calls.compaction_next(self._ref, files._ref, byref(next_id))
            if code:
                self._end(code)
            self.next_id = next_id.value or None
            try:
                return _file(files, 0)
            except BaseException:
                self._release()  # without this table none may follow
                raise

    # Releases what a compaction reads, unless it is closed, and raises its error, if it has one.
    def _end(self, code: int) -> NoReturn:
        if code != Closed.code:
            self._is_over = True
            self._release()
        if code == Nothing.code:
            raise StopIteration
        raise self._error(code)


def compact_each(tables: Union[Runs, Iterable[Table]], *, watermark: int = 0, evict: bool = False,
                 zero: bool = False, target: int = NEWEST, id: int = 0, created_at: int = 0,
                 level: int = 0, data_block_size: int = 4096, data_block_restart_interval: int = 16,
                 data_block_hash_ratio: int = 0, index_partition_size: int = 0,
                 filter_partition_size: int = 0, filter_bits_per_key: int = 100) -> Compaction:
    """Merges some tables as `compact` does. Returns an iterator over the new tables, in key order.

    Each is returned as soon as it is finished. Memory holds the table that is being written, and a
    block or two of each run. The options are those of `compact`.

    Loads the first data block of each run, and raises the first error of that. Raises `NoSuch` and
    `OverflowError` as `compact` does. The iterator raises its other errors, after the tables that
    were finished before.

    >>> newer, older = Writer(), Writer()
    >>> newer.add(b"a", b"new", seqno=9)
    >>> older.add_many([(b"a", b"old"), (b"b", b"more")], seqno=1)
    >>> tables = [Table.open(writer.finish()) for writer in (newer, older)]
    >>> with compact_each(tables, watermark=10, target=0) as files:
    ...     [list(Table.open(file).items()) for file in files]
    [[(b'a', b'new')], [(b'b', b'more')]]
    """
    watermark, target = number(watermark), number(target)
    options = _options(id, created_at, level, data_block_size, data_block_restart_interval,
                       data_block_hash_ratio, index_partition_size, filter_partition_size,
                       filter_bits_per_key)
    runs, compaction = _runs_of(tables), Compaction._empty()
    with runs._turn:
        compaction._kept = runs._kept
        compaction._check(_calls.compaction_open(runs._ref, byref(options), watermark, bool(evict),
                                                 bool(zero), target, compaction._ref))
    compaction.next_id = options.id + 1 if options.id < NEWEST else None
    return compaction
