"""Sorted tables of a log-structured store: written, read, compacted and verified.

A table is bytes, as those of a file. It stores entries in order. Each has a key, a sequence number,
a kind and a value:

>>> writer = Writer()
>>> writer.add(b"apple", b"red", seqno=2)
>>> writer.add(b"apple", b"green", seqno=1)
>>> writer.delete(b"pear", seqno=3)
>>> file = writer.finish()

A table reads as a mapping of the keys to their newest values. A key whose newest version is a
deletion is not in it:

>>> table = Table.open(file)
>>> table[b"apple"], b"pear" in table, dict(table.items())
(b'red', False, {b'apple': b'red'})

A snapshot `at` sees the versions whose sequence numbers are below it. `entries` yields every
version, deletions too:

>>> table.get(b"apple", at=2)
b'green'
>>> [(entry.key, entry.seqno, entry.kind.name) for entry in table.entries()]
[(b'apple', 2, 'VALUE'), (b'apple', 1, 'VALUE'), (b'pear', 3, 'TOMBSTONE')]

- `Table` reads one table, and `Runs` several as one.
- `Writer` writes a table, and `compact` merges several into new ones. Both return `FinishedTable`,
  which is `bytes` with an `id` and a `checksum`. Its `save`, and `Writer.finish_to`, write a file.
  `compact_each` yields each new table as soon as it is finished.
- `MultiWriter` cuts its entries into tables of a target size. Its `take` returns each while it
  writes on.
- `Entry`, `Facts`, `Memory`, `Packing`, `Verified`, `Finding` and `WrittenFile` are named tuples.
- Errors are exceptions of the class `TableError`. `Table.verify` raises `Faulty`.
- `NEWEST` is the largest sequence number, and the default snapshot.

Keys, values and tables may be any object with a buffer, which type hints call `BytesLike`. A range
is from its lower bound on and below its upper one.

An object is closed by `close`, by `with`, or with its last reference. Objects may be closed in any
order: an iterator does not need its table. They cannot be copied or pickled.

Threads may share an object: its calls take turns. To read a table at the same time, each thread
needs a share of it, which `Table.share` returns. A forked process may use an object unless another
thread was using it at the fork.

The package needs CPython 3.8 or later, and the library libsst.
"""

from . import _errors
from ._errors import *  # noqa: F401,F403
from ._iterators import Entries, Scan
from ._records import (NEWEST, Entry, Facts, Fault, Finding, Kind, Memory, Packing, Section,
                       Verified, WrittenFile)
from ._resources import BytesLike
from ._tables import Runs, Table
from ._views import Items, Keys, Values
from ._writing import (Compacted, Compaction, FinishedTable, MultiWriter, Writer, compact,
                       compact_each)

__version__ = "4.0.0"

__all__ = ["NEWEST", "BytesLike", "Compacted", "Compaction", "Entries", "Entry", "Facts", "Fault",
           "Finding", "FinishedTable", "Items", "Keys", "Kind", "Memory", "MultiWriter", "Packing",
           "Runs", "Scan", "Section", "Table", "Values", "Verified", "WrittenFile", "Writer",
           "compact", "compact_each"]
__all__ += _errors.__all__

# The names of the package are the public ones, as errors and `help` show them.
for _name in __all__:
    if hasattr(globals()[_name], "__qualname__"):
        globals()[_name].__module__ = __name__
