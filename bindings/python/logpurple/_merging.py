"""The entries of a reader together with those of a memtable."""

from __future__ import annotations

from typing import Iterator, Optional, Sequence

from ._errors import OutOfOrder
from ._iterators import Bounds, Steps, entries_of
from ._records import Entry


def merged(steps: Steps, memtable: Sequence[Entry], bounds: Bounds, at: int,
           reverse: bool) -> Iterator[Entry]:
    """Yields the newest versions that are visible at a snapshot, deletions too.

    `steps` reads the tables within the bounds, and `memtable` has more entries in the order of a
    table. If both have a version with one sequence number, that of the memtable is yielded.
    """
    with steps:
        newer = _newest(_within(memtable, bounds, reverse), at, reverse)
        older = _newest(_read(steps, reverse), at, reverse)
        yield from _union(newer, older, reverse)


# Yields all that an end reads.
def _read(steps: Steps, reverse: bool) -> Iterator[Entry]:
    for batch in steps._batches(reverse):
        yield from entries_of(batch)


# Yields the entries of a memtable whose keys are within bounds.
def _within(memtable: Sequence[Entry], bounds: Bounds, reverse: bool) -> Iterator[Entry]:
    has_lower, lower, _, has_upper, upper, _ = bounds
    start = _first_at(memtable, lower) if has_lower else 0
    end = _first_at(memtable, upper) if has_upper else len(memtable)
    last: Optional[Entry] = None
    for index in range(end - 1, start - 1, -1) if reverse else range(start, end):
        entry = memtable[index]
        if last is not None and not (_precedes(entry, last) if reverse else _precedes(last, entry)):
            raise OutOfOrder()
        last = entry
        yield entry


# Returns the index of the first entry whose key is not below a bound.
def _first_at(memtable: Sequence[Entry], bound: bytes) -> int:
    start, end = 0, len(memtable)
    while start < end:
        middle = (start + end) // 2
        if memtable[middle].key < bound:
            start = middle + 1
        else:
            end = middle
    return start


# Whether an entry may come before another one in a table.
def _precedes(entry: Entry, other: Entry) -> bool:
    return entry.key < other.key or entry.key == other.key and entry.seqno > other.seqno


# Yields the newest version of each key that is visible at a snapshot.
def _newest(entries: Iterator[Entry], at: int, reverse: bool) -> Iterator[Entry]:
    last: Optional[Entry] = None
    for entry in entries:
        if entry.seqno >= at:
            continue
        is_other = last is None or entry.key != last.key
        if reverse:
            # The newest version of a key comes last.
            if last is not None and is_other:
                yield last
            last = entry
        elif is_other:
            last = entry
            yield entry
    if reverse and last is not None:
        yield last


# Merges two iterators that have each key once. If both have a key, it yields the version with the
# larger sequence number, or that of the first.
def _union(first: Iterator[Entry], second: Iterator[Entry], reverse: bool) -> Iterator[Entry]:
    one, other = next(first, None), next(second, None)
    while one is not None and other is not None:
        if one.key == other.key:
            yield other if other.seqno > one.seqno else one
            one, other = next(first, None), next(second, None)
        elif (one.key > other.key) == reverse:
            yield one
            one = next(first, None)
        else:
            yield other
            other = next(second, None)
    while one is not None:
        yield one
        one = next(first, None)
    while other is not None:
        yield other
        other = next(second, None)
