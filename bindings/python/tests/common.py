"""Shared by the tests: lists of entries, tables of them, and the same reads of plain lists."""

import os
import random
import sys

HERE = os.path.dirname(os.path.abspath(__file__))
sys.path.insert(0, os.path.join(HERE, ".."))

from logpurple import NEWEST, Entry, Kind, Table, Writer  # noqa: E402

KINDS = [Kind.VALUE, Kind.VALUE, Kind.TOMBSTONE, Kind.WEAK_TOMBSTONE, Kind.INDIRECTION]


def fnv(data):
    """Returns the FNV-1a hash of some bytes, the checksum of a block or of a file."""
    found = 0xcbf29ce484222325
    for byte in data:
        found = (found ^ byte) * 0x100000001b3 % 2**64
    return found


def entries_of(seed, count, above=0, step=1):
    """Returns random entries in the order of a table. Their sequence numbers are above one number,
    and a step apart."""
    dice = random.Random(seed)
    versions = {}
    for _ in range(count):
        key = bytes(dice.choices(b"abc\0\xff", k=dice.randint(0, 5)))
        kind = dice.choice(KINDS)
        value = b"" if kind.is_deletion else bytes(dice.choices(b"xyz\0", k=dice.randint(0, 4)))
        versions[key, -above - step * dice.randint(1, 9)] = (kind, value)
    return [Entry(key, -number, kind, value)
            for (key, number), (kind, value) in sorted(versions.items())]


def small(seed):
    """Returns options for small blocks, with and without partitions and a filter."""
    return {"id": seed, "data_block_size": 64, "data_block_hash_ratio": 500 * (seed % 3),
            "index_partition_size": 100 * (seed % 2), "filter_partition_size": 50 * (seed // 2 % 2),
            "data_block_restart_interval": 1 + seed % 4,
            "filter_bits_per_key": 100 * (seed % 5 > 0)}


def file_of(entries, **options):
    writer = Writer(**options)
    for entry in entries:
        writer.add(entry.key, entry.value, entry.seqno, entry.kind)
    return writer.finish()


def table_of(entries, **options):
    return Table.open(file_of(entries, **options))


def sorted_entries(*lists):
    return sorted((entry for entries in lists for entry in entries),
                  key=lambda entry: (entry.key, -entry.seqno))


def keys_of(entries):
    """Returns the keys of some entries, and some that none has."""
    return sorted({entry.key for entry in entries} | {b"zz", b"c" * 9})


def newest(entries, key, at=NEWEST):
    return next((e for e in entries if e.key == key and e.seqno < at), None)


def seen(entries, at=NEWEST):
    """Returns the newest version of each key that is visible at a snapshot, of sorted entries."""
    found = {}
    for entry in entries:
        if entry.seqno < at:
            found.setdefault(entry.key, entry)
    return list(found.values())


def shown(entries, at=NEWEST):
    return [(entry.key, entry.value) for entry in seen(entries, at) if not entry.kind.is_deletion]


def within(pairs, lower, upper):
    return [pair for pair in pairs
            if (lower is None or pair[0] >= lower) and (upper is None or pair[0] < upper)]


def kept(entries, watermark, evict, zero):
    """Returns the entries that a compaction keeps of sorted entries."""
    left = []
    for key in sorted({entry.key for entry in entries}):
        versions = [entry for entry in entries if entry.key == key]
        cut = next((i for i, e in enumerate(versions) if e.seqno < watermark), len(versions) - 1)
        heads, older = versions[:cut + 1], versions[cut + 1:]
        last = heads[-1].kind
        if last == Kind.WEAK_TOMBSTONE and older:
            goes = older[0].kind == Kind.VALUE
        else:
            goes = evict and last.is_deletion
        left += heads[:-1] if goes else heads
    return [e._replace(seqno=0) if zero and e.seqno < watermark else e for e in left]
