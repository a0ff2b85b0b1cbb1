"""Entries, and the results of calls about a table."""

from __future__ import annotations

import enum
from typing import List, NamedTuple

#: The largest sequence number. A read at it finds the newest version of a key, but no version that
#: has this number itself. A `Writer` takes no such version; a global sequence number can make one.
NEWEST = 2**64 - 1


class Kind(enum.IntEnum):
    """The kind of an entry.

    `VALUE`: a value.
    `TOMBSTONE`: a deletion of every older version of the key.
    `WEAK_TOMBSTONE`: a deletion of the one version directly before it.
    `INDIRECTION`: a value that is stored elsewhere. The entry's value is what the table stores.

    >>> Kind.VALUE.is_deletion, Kind.WEAK_TOMBSTONE.is_deletion
    (False, True)
    """

    VALUE = 1
    TOMBSTONE = 2
    WEAK_TOMBSTONE = 3
    INDIRECTION = 5

    @property
    def is_deletion(self) -> bool:
        """Whether it is `TOMBSTONE` or `WEAK_TOMBSTONE`."""
        return self in (Kind.TOMBSTONE, Kind.WEAK_TOMBSTONE)


class Entry(NamedTuple):
    """A version of a key. The newest version has the largest `seqno`."""

    key: bytes
    seqno: int
    kind: Kind
    value: bytes


class Facts(NamedTuple):
    """The claims of a table about itself. In bytes of another writer they may be wrong.

    `id`: the id that the table was written with.
    `version`: the format version, 3 or 4.
    `global_seqno`: the global sequence number that the table was opened with.
    `lowest_seqno`, `highest_seqno`: as stored, without `global_seqno`.
    `item_count`: the number of entries, that is versions, not keys.
    `tombstone_count`: how many of these are deletions of either kind.
    `weak_tombstone_count`: how many of these are weak deletions.
    `data_block_count`, `index_block_count`: numbers of blocks.
    `data_size`: the size of the data blocks, in bytes.
    """

    id: int
    version: int
    global_seqno: int
    lowest_seqno: int
    highest_seqno: int
    item_count: int
    tombstone_count: int
    weak_tombstone_count: int
    data_block_count: int
    index_block_count: int
    data_size: int


class Memory(NamedTuple):
    """The memory that a table holds, in bytes. All shares of the table hold it together.

    `file_len`: the table's bytes; the caller's own if the table was opened with `kept`.
    `pinned_index_size`: the part of them that is the pinned index, the whole or its top level; 0 if
    none is pinned.
    `pinned_filter_size`: the part of them that is the pinned filter; 0 if none is pinned, and for a
    partitioned filter.
    `marks_size`: the verified-block cache, which is beside `file_len`.
    """

    file_len: int
    pinned_index_size: int
    pinned_filter_size: int
    marks_size: int


class Packing(NamedTuple):
    """How tables are packed. A table is an index into those of the `Runs`, from 0 on.

    `runs`: the tables of each run, in key order.
    `chain`: as many tables as there are runs, each of which overlaps the next, which is older.
    """

    runs: List[List[int]]
    chain: List[int]


class Verified(NamedTuple):
    """The numbers of entries and of data blocks of a table that `Table.verify` found valid."""

    item_count: int
    data_block_count: int


class WrittenFile(NamedTuple):
    """A file that `Writer.finish_to` wrote.

    `path`: its path, as it was passed.
    `id`: the id of the table.
    `checksum`: the FNV-1a hash of all bytes, which is not part of them.
    `size`: the number of bytes.
    """

    path: str
    id: int
    checksum: int
    size: int


class Section(enum.IntEnum):
    """A section of a table.

    `DATA`: the data blocks.
    `INDEX`: the partitions of a partitioned index.
    `TLI`: the top level of a partitioned index, or the whole index.
    `FILTER`: the whole filter, or the partitions of a partitioned one.
    `FILTER_TLI`: the top level of a partitioned filter.
    `TABLE_VERSION`: the version of the table.
    `META`: the meta block.
    """

    DATA = 1
    INDEX = 2
    TLI = 3
    FILTER = 4
    FILTER_TLI = 5
    TABLE_VERSION = 6
    META = 7


class Fault(enum.IntEnum):
    """A fault of a block or, the last one, of a whole file.

    `UNLOADED`: the block does not load.
    `HOLLOW`: the block is empty.
    `MISPLACED`: the block does not start at the end of the one before it.
    `TOO_HIGH`: an entry has the largest sequence number.
    `UNORDERED`: an entry does not follow the one before it.
    `DENIED`: the filter has a false negative: it excludes a key of the table.
    `UNFILTERED`: a block of the filter does not load.
    `OTHER_KEY`: the block does not end with the key that the index has for it.
    `OTHER_NUMBER`: the block does not end with the sequence number that the index has for it.
    `UNBORNE`: an item of the meta block does not match the entries.
    `UNNAMED`: the index does not name a data block.
    `OTHER_CHECKSUM`: the file has another checksum than the given one.
    """

    UNLOADED = 1
    HOLLOW = 2
    MISPLACED = 3
    TOO_HIGH = 4
    UNORDERED = 5
    DENIED = 6
    UNFILTERED = 7
    OTHER_KEY = 8
    OTHER_NUMBER = 9
    UNBORNE = 10
    UNNAMED = 11
    OTHER_CHECKSUM = 12


class Finding(NamedTuple):
    """The first fault of a table, and where it is.

    `section`: the section of the block.
    `offset`: the offset in the file at which the block starts, in bytes.
    `fault`: the fault. `Fault.OTHER_CHECKSUM` is reported at the first byte of the file.
    `detail`: the error code of loading the block, for `Fault.UNLOADED` and `Fault.UNFILTERED`; else
    0.
    """

    section: Section
    offset: int
    fault: Fault
    detail: int
