"""Uses of the package that `mypy --strict` takes, with the types that it finds."""

import array
import contextlib
import mmap
import pathlib
from typing import Dict, Iterator, List, Optional, Tuple, Union

from logpurple import (BytesLike, Compacted, Compaction, Entries, Entry, Finding, FinishedTable,
                       Keys, Kind, MultiWriter, Runs, Scan, Table, TableError, Verified, Writer,
                       WrittenFile, compact, compact_each)


def written() -> FinishedTable:
    with Writer(id=3, filter_bits_per_key=0) as writer:
        writer.add(b"a", bytearray(b"1"), seqno=2, kind=Kind.VALUE)
        writer.add_many([(memoryview(b"b"), array.array("B", b"2"))], seqno=1)
        writer.delete(b"c")
        file: Optional[FinishedTable] = writer.finish()
    assert file is not None
    return file


def written_in_turn() -> List[FinishedTable]:
    with MultiWriter(1 << 20, id=3, level=1) as writer:
        writer.add(b"a", bytearray(b"1"), seqno=2, kind=Kind.VALUE)
        writer.add_many([(memoryview(b"b"), array.array("B", b"2"))], seqno=1)
        writer.delete(b"c")
        first: Optional[FinishedTable] = writer.take()
        files: List[FinishedTable] = list(iter(writer.take, None))
        left: Optional[int] = writer.next_id
        rest: List[FinishedTable] = writer.finish()
    print(first, left)
    return files + rest


def read(reader: Union[Table, Runs], key: BytesLike) -> None:
    newest: Optional[bytes] = reader.get(key)
    value: bytes = reader.get(key, b"none")
    number: Union[bytes, int] = reader.get(key, 5, at=7)
    item: bytes = reader[key]
    is_in: bool = key in reader
    entry: Optional[Entry] = reader.entry(key, at=2)
    keys: Keys = reader.keys()
    all_of_it: Dict[bytes, bytes] = dict(reader.items())
    the_same: Dict[bytes, bytes] = dict(reader)
    names: List[bytes] = sorted(reader, key=len)
    back: Iterator[bytes] = reversed(reader)
    values: List[bytes] = list(reader.values())
    with contextlib.closing(reader.range(b"a", reverse=True, at=3)) as pairs:
        pair: Tuple[bytes, bytes] = next(pairs)
    more = [Entry(b"ab", 3, Kind.VALUE, b"")]
    both: Dict[bytes, bytes] = dict(reader.range(prefix=b"a", memtable=more))
    with reader.entries(upper=b"c", prefix=key) as entries:
        taken: Optional[Entry] = entries.take(reverse=True)
        each: Entries = iter(entries)
    print(newest, value, number, item, is_in, entry, keys, all_of_it, the_same, names, next(back),
          values, pair, both, taken, each)


def main(path: pathlib.Path, mapped: mmap.mmap) -> None:
    read(Table.open(str(path)), b"a")
    try:
        with Table.open(mapped, kept=True) as table, Runs(table, table.share()) as runs:
            read(runs, mapped)
            many: List[Optional[bytes]] = table.get_many([b"a", bytearray(b"b")])
            others: List[Union[bytes, int]] = table.get_many([b"a"], 5)
            scan: Scan = table.scan()
            verified: Verified = table.verify(lambda read, size: None)
            files: Compacted = compact(runs, watermark=5, level=1)
            first: FinishedTable = files[0]
            each: Compaction = compact_each(runs, target=0)
            second: FinishedTable = next(each)
            rest: List[FinishedTable] = list(each)
            left: Optional[int] = each.next_id
            verified = Table.open(first).verify(checksum=first.checksum)
            first.save(path)
            written: Optional[WrittenFile] = Writer().finish_to(path)
            several: Runs = Runs.of_runs([[table], iter([table])])
            print(many, others, next(scan).kind.is_deletion, verified.item_count, first.checksum,
                  written, several, second, rest, left)
    except TableError as error:
        where: Tuple[Optional[str], Optional[int], int] = error.path, error.offset, error.code
        finding: Optional[Finding] = getattr(error, "finding", None)
        print(where, finding)
