"""The iterators over entries. They fetch many entries by each call of the library."""

from __future__ import annotations

import array
import collections
import ctypes
import reprlib
from ctypes import addressof
from typing import Deque, Generator, Iterable, Iterator, List, Optional, Tuple, Type, TypeVar

from . import _calls
from ._calls import copied
from ._errors import Closed
from ._records import Entry, Kind
from ._resources import Returned

_Steps = TypeVar("_Steps", bound="Steps")

# The numbers of entries that the first call and each later one fetch.
_BATCHES = (64, 256)
# A call fetches at most so many bytes of keys and values, or one entry that has more.
_BATCH_BYTES = 1 << 16

# Rows of kind, sequence number and lengths; and the bytes of their keys and values, one after
# another.
Batch = Tuple[Iterable[Tuple[int, int, int, int]], bytes]

# The kind, the bytes and the length of a range's lower bound and of its upper one.
Bounds = Tuple[int, bytes, int, int, bytes, int]

KINDS = {int(kind): kind for kind in Kind}
DELETIONS = (int(Kind.TOMBSTONE), int(Kind.WEAK_TOMBSTONE))
_new = tuple.__new__


def entries_of(batch: Batch) -> Iterator[Entry]:
    """Yields the entries of a batch."""
    rows, data = batch
    start = 0
    for kind, seqno, key_len, value_len in rows:
        middle = start + key_len
        end = middle + value_len
        yield _new(Entry, (data[start:middle], seqno, KINDS[kind], data[middle:end]))
        start = end


class _Room:
    """Room for the entries that a call copies."""

    __slots__ = ("_rows", "_bytes", "_count", "_words")

    def __init__(self) -> None:
        self._rows = array.array("Q", bytes(32 * _BATCHES[-1]))
        self._bytes = ctypes.create_string_buffer(_BATCH_BYTES)
        self._count = ctypes.c_uint64()
        self._words = (addressof(self._bytes), _BATCH_BYTES, addressof(self._count))

    # Returns up to `size` entries that a call copies, with the one that does not fit, if there is
    # one; `None` if there are no entries. Returns the call's error code, and whether the end is
    # reached.
    def fill(self, steps: Steps, back: bool, size: int) -> Tuple[Optional[Batch], int, bool]:
        code = steps._call(back, self._rows.buffer_info()[0], size, *self._words, steps._entry_ref)
        if code == Closed.code:
            return None, code, False
        rows = self._rows[:4 * self._count.value]
        keys, values = rows[2::4], rows[3::4]
        data = copied(self._words[0], sum(keys) + sum(values))
        entry = steps._entry
        is_over = code != 0 or not entry.kind and self._count.value < size
        if entry.kind:
            steps._check(_calls.found_lend(steps._reader(back), steps._lent_ref))
            lent = steps._lent
            rows.extend((entry.kind, entry.seqno, lent.key_len, lent.value_len))
            keys, values = rows[2::4], rows[3::4]
            data += copied(lent.key, lent.key_len) + copied(lent.value, lent.value_len)
        batch = (zip(rows[0::4], rows[1::4], keys, values), data) if rows else None
        return batch, code, is_over


# Rooms that no iterator uses, for later ones. Appending and popping are atomic.
_ROOMS: List[_Room] = []
_MOST_ROOMS = 8


class Steps(Returned):
    """An iterator over entries, which fetches up to a few hundred at a time."""

    # Whether the source has no more, and how many batches were fetched.
    _is_over = False
    _fetched = 0
    # An error of the source. It is raised after the entries that were fetched before it.
    _pending: Optional[Exception] = None
    _room: Optional[_Room] = None
    # The entries that were fetched at the front and at the back, and not yet taken.
    _queues: Tuple[Deque[Entry], Deque[Entry]]

    @classmethod
    def _empty(cls: Type[_Steps]) -> _Steps:
        steps = super()._empty()
        steps._queues = (collections.deque(), collections.deque())
        return steps

    # The call that copies the next entries into some room.
    def _call(self, back: bool, *room: int) -> int:
        raise NotImplementedError

    # The handle that reads an end.
    def _reader(self, back: bool) -> int:
        return self._ref

    # Returns those of the entries that an end has fetched which the other end has not.
    def _unread(self, entries: Iterator[Entry], back: bool) -> Iterable[Entry]:
        return entries

    def close(self) -> None:
        """Releases what the iterator reads, and drops the entries that it has fetched.

        A second call does nothing. If entries were left, later calls raise `Closed`.

        >>> writer = Writer()
        >>> writer.add_many([(b"a", b""), (b"b", b"")])
        >>> entries = Table.open(writer.finish()).entries()
        >>> next(entries).key
        b'a'
        >>> entries.close()
        >>> next(entries)
        Traceback (most recent call last):
        ..
        logpurple.Closed: the handle is closed (100)
        """
        with self._turn:
            if self._queues[0] or self._queues[1] or self._pending:
                self._is_over, self._pending = False, None
            self._end()

    @property
    def closed(self) -> bool:
        """Whether the iterator is closed, or has no entry left.

        >>> writer = Writer()
        >>> writer.add(b"a", b"1")
        >>> entries = Table.open(writer.finish()).entries()
        >>> entries.closed, len(list(entries)), entries.closed
        (False, 1, True)
        """
        return not (self._is_open or self._queues[0] or self._queues[1] or self._pending)

    def __iter__(self: _Steps) -> _Steps:
        """Returns the iterator itself. It yields each entry once."""
        return self

    # Drops what was fetched, and releases the source.
    def _end(self) -> None:
        for queue in self._queues:
            queue.clear()
        self._give_room()
        self._release()

    # Leaves the room to a later iterator.
    def _give_room(self) -> None:
        room, self._room = self._room, None
        if room is not None and len(_ROOMS) < _MOST_ROOMS:
            _ROOMS.append(room)

    # Returns the room, that of an earlier iterator if there is one.
    def _take_room(self) -> _Room:
        if self._room is None:
            try:
                self._room = _ROOMS.pop()
            except IndexError:
                self._room = _Room()
        return self._room

    # Returns the next entries at an end of the source, within a turn; `None` at its end.
    def _batch(self, back: bool) -> Optional[Batch]:
        if self._pending is not None:
            pending, self._pending = self._pending, None
            self._end()
            raise pending
        if self._is_over:
            return None
        size = _BATCHES[min(self._fetched, len(_BATCHES) - 1)]
        self._fetched += 1
        self._is_over = True
        try:
            batch, code, is_over = self._take_room().fill(self, back, size)
            if batch is None:
                self._check(code)
        except Closed:
            self._is_over = False
            raise
        except BaseException:
            # Entries may be lost, so the iterator is exhausted.
            self._end()
            raise
        self._is_over = is_over
        if code:
            self._pending = self._error(code)
        if is_over:
            self._finish()
        return batch

    # Releases the source at its end. Entries that were fetched stay.
    def _finish(self) -> None:
        self._is_over = True
        self._give_room()
        self._release()

    # Yields each batch at an end.
    def _batches(self, back: bool) -> Iterator[Batch]:
        while True:
            with self._turn:
                batch = self._batch(back)
            if batch is None:
                return
            yield batch

    # Returns the next entry at an end; `None` if none is left. Two threads may call it at once.
    def _step(self, back: bool) -> Optional[Entry]:
        queue, other = self._queues[back], self._queues[not back]
        while True:
            try:
                return queue.popleft()
            except IndexError:
                pass
            with self._turn:
                if queue:
                    continue
                batch = self._batch(back)
                if batch is not None:
                    queue.extend(self._unread(entries_of(batch), back))
                    continue
            # At the end of the source, only what the other end has fetched is left.
            try:
                return other.pop()
            except IndexError:
                return None


class Scan(Steps):
    """An iterator over all entries of a table, which `Table.scan` returns.

    It reads the data blocks in the order of the file, each once, and no index. It has a share of
    the table, which may be closed meanwhile. It may be dropped before its end. It is released with
    the last reference to it, by `close`, or at the end of a `with` statement.

    After an error it is exhausted.

    >>> writer = Writer()
    >>> writer.add_many([(b"a", b""), (b"b", b"")])
    >>> scan = Table.open(writer.finish()).scan()
    >>> next(scan).key, [entry.key for entry in scan]
    (b'a', [b'b'])
    """

    _maker = "made by Table.scan"

    def _call(self, back: bool, *room: int) -> int:
        return _calls.scan_take(self._ref, *room)

    def __next__(self) -> Entry:
        try:
            return self._queues[0].popleft()
        except IndexError:
            found = self._step(False)
        if found is None:
            raise StopIteration
        return found


class Entries(Steps):
    """An iterator over entries, which `Table.entries` and `Runs.entries` return.

    `take` reads from either end. It has shares of the tables it reads, which may be closed
    meanwhile. It may be dropped before its end. It is released with the last reference to it, by
    `close`, or at the end of a `with` statement.

    After an error it is exhausted, from both ends.

    >>> writer = Writer()
    >>> writer.add_many([(b"a", b""), (b"b", b""), (b"c", b"")])
    >>> entries = Table.open(writer.finish()).entries()
    >>> next(entries).key
    b'a'
    >>> entries.take(reverse=True).key
    b'c'
    >>> [entry.key for entry in entries]
    [b'b']
    """

    _maker = "made by Table.entries and Runs.entries"
    _bounds: Bounds = (0, b"", 0, 0, b"", 0)
    _reverse = False
    # The scan that reads the front of several tables, if there is one: the range then reads the
    # back alone. The keys that the front and the back have fetched last.
    _scan: Optional[_calls.Handle] = None
    _scan_ref = 0
    _last: List[Optional[bytes]]

    def take(self, reverse: bool = False) -> Optional[Entry]:
        """Returns the next entry from the front or, if `reverse`, from the back.

        Returns `None` if no entry is left.

        >>> writer = Writer()
        >>> writer.add_many([(b"a", b""), (b"b", b"")])
        >>> entries = Table.open(writer.finish()).entries()
        >>> entries.take(reverse=True).key, entries.take().key, entries.take()
        (b'b', b'a', None)
        """
        return self._step(bool(reverse))

    # Has the front read by a scan, and returns its handle, which a call is to fill.
    def _scanned(self) -> int:
        self._scan, self._last = _calls.Handle(), [None, None]
        self._scan_ref = addressof(self._scan)
        return self._scan_ref

    def _call(self, back: bool, *room: int) -> int:
        if back or self._scan is None:
            return _calls.range_take(self._ref, back, *room)
        return _calls.scan_take(self._scan_ref, *room)

    def _reader(self, back: bool) -> int:
        return self._ref if back or self._scan is None else self._scan_ref

    # The scan and the range read the same entries, each key once. They end where they meet.
    def _unread(self, entries: Iterator[Entry], back: bool) -> Iterable[Entry]:
        if self._scan is None:
            return entries
        found, met = list(entries), self._last[not back]
        if met is not None:
            left = [entry for entry in found if (entry.key > met if back else entry.key < met)]
            if len(left) < len(found):
                self._pending = None
                self._finish()
            found = left
        if found:
            self._last[back] = found[-1].key
        return found

    def _release(self) -> None:
        if self._scan is not None:
            _calls.close(self._scan_ref)
        super()._release()

    def __next__(self) -> Entry:
        found = self._step(self._reverse)
        if found is None:
            raise StopIteration
        return found

    def _parts(self) -> List[str]:
        has_lower, lower, _, has_upper, upper, _ = self._bounds
        parts = super()._parts()
        if has_lower:
            parts.append(f"lower={reprlib.repr(lower)}")
        if has_upper:
            parts.append(f"upper={reprlib.repr(upper)}")
        if self._reverse:
            parts.append("reverse=True")
        return parts


Pairs = Generator[Tuple[bytes, bytes], None, None]


def visible(entries: Steps, at: int, reverse: bool) -> Pairs:
    """Yields the keys and values that are visible at a snapshot, and closes the entries."""
    return _visible_backward(entries, at) if reverse else _visible_forward(entries, at)


# From the front the first version of a key that is visible is the newest.
def _visible_forward(entries: Steps, at: int) -> Pairs:
    last: Optional[bytes] = None
    with entries:
        for rows, data in entries._batches(False):
            start = 0
            for kind, seqno, key_len, value_len in rows:
                middle = start + key_len
                end = middle + value_len
                if seqno < at:
                    key = data[start:middle]
                    if key != last:
                        last = key
                        if kind not in DELETIONS:
                            yield key, data[middle:end]
                start = end


# From the back the last version of a key that is visible is the newest.
def _visible_backward(entries: Steps, at: int) -> Pairs:
    last: Optional[bytes] = None
    kind, value = 0, b""
    with entries:
        for rows, data in entries._batches(True):
            start = 0
            for next_kind, seqno, key_len, value_len in rows:
                middle = start + key_len
                end = middle + value_len
                if seqno < at:
                    key = data[start:middle]
                    if last is not None and key != last and kind not in DELETIONS:
                        yield last, value
                    last, kind, value = key, next_kind, data[middle:end]
                start = end
    if last is not None and kind not in DELETIONS:
        yield last, value
