"""Views of a table's keys, values and items."""

from __future__ import annotations

import operator
from typing import TYPE_CHECKING, Generic, Iterator, Tuple, TypeVar

from ._resources import BytesLike

if TYPE_CHECKING:
    from ._tables import _Reader

_Item = TypeVar("_Item")
_first, _second = operator.itemgetter(0), operator.itemgetter(1)


class _View(Generic[_Item]):
    """Keys, values or pairs of a table or of several. Each iteration starts anew."""

    def __init__(self, reader: _Reader) -> None:
        self._reader = reader

    # Begins an iteration.
    def _begin(self, reverse: bool) -> Iterator[_Item]:
        raise NotImplementedError

    def __iter__(self) -> Iterator[_Item]:
        return self._begin(False)

    def __reversed__(self) -> Iterator[_Item]:
        return self._begin(True)

    def __repr__(self) -> str:
        return f"<{type(self).__name__} of {self._reader!r}>"


class Keys(_View[bytes]):
    """The keys that have a value, which `Table.keys` and `Runs.keys` return.

    Each iteration reads the table from the start, and `reversed` from the end. `in` is a point
    read.

    >>> writer = Writer()
    >>> writer.add_many([(b"a", b"1"), (b"b", b"2")])
    >>> keys = Table.open(writer.finish()).keys()
    >>> list(keys), list(reversed(keys)), b"a" in keys
    ([b'a', b'b'], [b'b', b'a'], True)
    """

    def _begin(self, reverse: bool) -> Iterator[bytes]:
        return map(_first, self._reader.range(reverse=reverse))

    def __contains__(self, key: BytesLike) -> bool:
        return key in self._reader


class Values(_View[bytes]):
    """The newest values, in key order, which `Table.values` and `Runs.values` return.

    Each iteration reads the table from the start, and `reversed` from the end. `in` is an
    iteration.

    >>> writer = Writer()
    >>> writer.add_many([(b"a", b"1"), (b"b", b"2")])
    >>> values = Table.open(writer.finish()).values()
    >>> list(values), list(reversed(values)), b"3" in values
    ([b'1', b'2'], [b'2', b'1'], False)
    """

    def _begin(self, reverse: bool) -> Iterator[bytes]:
        return map(_second, self._reader.range(reverse=reverse))


class Items(_View[Tuple[bytes, bytes]]):
    """The keys and their newest values, which `Table.items` and `Runs.items` return.

    Each iteration reads the table from the start, and `reversed` from the end. `in` is a point
    read.

    >>> writer = Writer()
    >>> writer.add_many([(b"a", b"1"), (b"b", b"2")])
    >>> items = Table.open(writer.finish()).items()
    >>> dict(items), next(reversed(items)), (b"a", b"2") in items
    ({b'a': b'1', b'b': b'2'}, (b'b', b'2'), False)
    """

    def _begin(self, reverse: bool) -> Iterator[Tuple[bytes, bytes]]:
        return self._reader.range(reverse=reverse)

    def __contains__(self, item: Tuple[BytesLike, BytesLike]) -> bool:
        key, value = item
        found = self._reader.get(key)
        return found is not None and found == value
