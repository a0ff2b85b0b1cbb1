"""Reads of a table that may be damaged, by the library and by a second reader. That is
`.ci/answers`, which was written from docs/FORMAT.md and shares no code with the library."""

import os
import runpy

from common import HERE

from logpurple import NEWEST, Entry, Kind, Table, TableError

READER = os.path.join(HERE, "..", "..", "..", ".ci", "answers")
HAS_READER = os.path.exists(READER)
_second = runpy.run_path(READER) if HAS_READER else {}

# The kinds of entries by their tags in a file.
KINDS = {0: Kind.VALUE, 1: Kind.TOMBSTONE, 2: Kind.WEAK_TOMBSTONE, 4: Kind.INDIRECTION}


def outcome(call):
    """Returns what a call returns, or its error code."""
    try:
        return call()
    except TableError as error:
        return error.code


def drained(begin):
    """Returns the entries of an iteration, and the error code that ends it, 0 for none."""
    entries = []
    try:
        for entry in begin():
            entries.append(entry)
    except TableError as error:
        return entries, error.code
    return entries, 0


def read(file, keys, pin_filter, pin_index):
    """Returns the code of the error of opening a table.

    If it opens, returns its entries from the front, from the back and in the order of the file.
    Each list has the error that ends it. Then follow the newest entry of each key, or the error in
    its place, and the same of all keys at once.
    """
    table = outcome(lambda: Table.open(file, pin_filter=pin_filter, pin_index=pin_index))
    if isinstance(table, int):
        return table
    return (drained(table.entries), drained(lambda: table.entries(reverse=True)),
            drained(table.scan), [outcome(lambda: table.entry(key)) for key in keys],
            outcome(lambda: table.entry_many(keys)))


def _entry(found):
    if isinstance(found, _second["Refused"]):
        return found.number
    return found and Entry(found.key, found.number, KINDS[found.kind], found.value)


def _drained(table, source, is_back=False):
    entries = []
    try:
        iteration = table.walk(source)
    except _second["Refused"] as error:
        return entries, error.number
    while True:
        entry = _entry(iteration.step(is_back))
        if not isinstance(entry, Entry):
            return entries, entry or 0
        entries.append(entry)


def read_again(file, keys, pin_filter, pin_index):
    """Returns what the second reader finds, in the form of `read`."""
    try:
        table = _second["Table"](bytes(file), _second["Pins"](pin_filter, pin_index))
    except _second["Refused"] as error:
        return error.number
    newest = [_entry(table.read(key, NEWEST)[0]) for key in keys]
    first_error = next((found for found in newest if isinstance(found, int)), newest)
    return (_drained(table, table.entries), _drained(table, table.entries, True),
            _drained(table, table.scan), newest, first_error)
