"""Writes two tables, opens them, reads keys and ranges of one and of both together, compacts them
into one and verifies it. `bindings/test` runs it."""

from typing import Iterable

from logpurple import NEWEST, Entry, FinishedTable, Runs, Table, Writer, compact


def opened(file: "FinishedTable | None") -> Table:
    """Opens a table that was written, which has entries."""
    assert file is not None
    return Table.open(file)


def write_older() -> Table:
    """Writes the older table. It has two versions of `apple`, the newest first."""
    with Writer(id=1) as writer:
        writer.add(b"apple", b"red", seqno=7)
        writer.add(b"apple", b"green", seqno=3)
        writer.add(b"pear", b"yellow", seqno=5)
        writer.delete(b"plum", seqno=6)
        return opened(writer.finish())


def write_newer() -> Table:
    """Writes the newer table, in which `pear` is deleted."""
    with Writer(id=2) as writer:
        writer.add(b"fig", b"violet", seqno=9)
        writer.delete(b"pear", seqno=8)
        return opened(writer.finish())


def show(word: str, entry: Entry) -> None:
    print(word, entry.key.decode(), entry.seqno, int(entry.kind), entry.value.decode())


def read_key(table: Table, key: bytes, at: int = NEWEST) -> None:
    """Shows the version of a key that is visible at a snapshot."""
    entry = table.entry(key, at)
    if entry is None:
        print("none", key.decode())
    else:
        show("found", entry)


def walk(entries: Iterable[Entry]) -> None:
    for entry in entries:
        show("walked", entry)


def main() -> None:
    older, newer = write_older(), write_newer()
    read_key(older, b"apple")
    read_key(older, b"apple", at=5)  # sees the versions whose sequence numbers are below 5
    read_key(older, b"fig")
    walk(older.entries(b"pear", reverse=True))
    runs = Runs(newer, older)  # the newest first
    newer.close()  # `runs` has shares of both
    older.close()
    walk(runs.entries())
    # Nobody reads older versions, so the new table has the newest values only.
    (file,) = compact(runs, watermark=NEWEST, evict=True, id=3)
    print("verified", Table.open(file).verify().item_count)


if __name__ == "__main__":
    main()
