"""The errors: an exception for each error code."""

from __future__ import annotations

from typing import Any, Dict, List, Optional, Type

from . import _calls
from ._records import Finding, Section

__all__ = [
    "TableError", "OutOfMemory", "Truncated", "InvalidHeader", "InvalidTag", "ChecksumMismatch",
    "InvalidBlock", "KeyTooLong", "ValueTooLong", "BlockTooLarge", "SectionTooLarge",
    "InvalidTrailer", "MissingSection", "MetaKeyMissing", "InvalidMetaValue",
    "UnsupportedTableVersion", "UnsupportedHashType", "UnsupportedChecksumType",
    "UnsupportedIndexInterval", "UnsupportedCompression", "GlobalSeqNoTooLarge", "SeqNoOverflow",
    "TableIdsSpent", "WriterFailed", "SourceError", "Closed", "AlreadyOpen", "OtherKind", "NoRoom",
    "OutOfOrder", "NoSuch", "Nothing", "Faulty",
]


class TableError(Exception):
    """The base class of the errors of this package.

    `code`: the error code, 1 to 24 for a table or a writer, 100 to 107 for a call.
    `path`: the path of the table's file, if the table was opened by its path.
    `section`, `offset`: the section of the block at fault, and its offset in the file in bytes.

    The last three are `None` if they are not known.

    >>> try:
    ...     Table.open(b"no table")
    ... except TableError as error:
    ...     print(error, error.code, error.path)
    invalid trailer (11) 11 None
    """

    code = 0

    def __init__(self, code: Optional[int] = None, *, path: Optional[str] = None,
                 section: Optional[Section] = None, offset: Optional[int] = None) -> None:
        if code is not None:
            self.code = code
        super().__init__(self.code)
        self.path, self.section, self.offset = path, section, offset

    @property
    def text(self) -> str:
        """The library's text for the error code.

        >>> ChecksumMismatch().text
        'checksum mismatch'
        """
        return _calls.strerror(self.code)

    def __str__(self) -> str:
        parts = self._parts()
        return f"{self.text} ({self.code})" + (": " + ", ".join(parts) if parts else "")

    def __repr__(self) -> str:
        return f"{type(self).__name__}({str(self)!r})"

    # Where the error occurred, as far as it is known.
    def _parts(self) -> List[str]:
        parts = []
        if self.path is not None:
            parts.append(repr(self.path))
        if self.section is not None:
            parts.append(f"section {self.section.name}")
        if self.offset is not None:
            parts.append(f"offset {self.offset}")
        return parts


class OutOfMemory(TableError, MemoryError):
    """An allocation failed. Any call may raise this."""

    code = 1


class Truncated(TableError):
    """A block reaches past the sections."""

    code = 2


class InvalidHeader(TableError):
    """The header of a block is invalid."""

    code = 3


class InvalidTag(TableError):
    """A block is of another kind than was expected."""

    code = 4


class ChecksumMismatch(TableError):
    """The bytes of a block do not have its checksum."""

    code = 5


class InvalidBlock(TableError):
    """The payload of a block is invalid."""

    code = 6


class KeyTooLong(TableError):
    """A key has more than 1,048,576 bytes."""

    code = 7


class ValueTooLong(TableError):
    """A value has 2^32 bytes or more."""

    code = 8


class BlockTooLarge(TableError):
    """A block would have 2^32 bytes or more."""

    code = 9


class SectionTooLarge(TableError):
    """A section has 2^32 bytes or more, or would have as many."""

    code = 10


class InvalidTrailer(TableError):
    """The bytes do not end with the trailer of a table."""

    code = 11


class MissingSection(TableError):
    """A required section is missing."""

    code = 12


class MetaKeyMissing(TableError):
    """A required item of the meta block is missing."""

    code = 13


class InvalidMetaValue(TableError):
    """The value of an item of the meta block is invalid."""

    code = 14


class UnsupportedTableVersion(TableError):
    """The table's format version is not 3 or 4."""

    code = 15


class UnsupportedHashType(TableError):
    """The filter uses another hash function."""

    code = 16


class UnsupportedChecksumType(TableError):
    """The table uses another checksum."""

    code = 17


class UnsupportedIndexInterval(TableError):
    """The restart interval of the index is not 1."""

    code = 18


class UnsupportedCompression(TableError):
    """The table is compressed."""

    code = 19


class GlobalSeqNoTooLarge(TableError):
    """The highest sequence number plus the global one exceeds 64 bits."""

    code = 20


class SeqNoOverflow(TableError):
    """The sequence number of an entry plus the global one exceeds 64 bits."""

    code = 21


class TableIdsSpent(TableError):
    """No id is left for a further table."""

    code = 22


class WriterFailed(TableError):
    """An earlier call of the writer failed."""

    code = 23


class SourceError(TableError):
    """A source of entries failed. Nothing in this package raises this."""

    code = 24


class Closed(TableError, ValueError):
    """The object is closed."""

    code = 100


class AlreadyOpen(TableError):
    """A handle to fill holds something. Nothing in this package raises this."""

    code = 101


class OtherKind(TableError):
    """A handle holds something of another kind. Nothing in this package raises this."""

    code = 102


class NoRoom(TableError):
    """A buffer is too small. Nothing in this package raises this."""

    code = 103


class OutOfOrder(TableError, ValueError):
    """An entry does not follow the one before it, or a table's least key is above its greatest."""

    code = 104


class NoSuch(TableError, ValueError):
    """An option is out of its range, or a kind is not one of `Kind`."""

    code = 105


class Nothing(TableError):
    """Nothing was found. Nothing in this package raises this: calls return `None`."""

    code = 106


class Faulty(TableError):
    """`Table.verify` found a fault. `finding` is the first one, and where it is.

    The cause (`__cause__`) is the error of loading the block, if it does not load.
    """

    code = 107
    finding: Optional[Finding] = None

    def _parts(self) -> List[str]:
        parts = super()._parts()
        if self.finding is not None:
            parts.append(f"fault {self.finding.fault.name}")
        return parts


#: The exception of each error code.
BY_CODE: Dict[int, Type[TableError]] = {kind.code: kind for kind in TableError.__subclasses__()}


def error(code: int, **parts: Any) -> TableError:
    """Returns the exception for an error code. `parts` are those of a `TableError`."""
    kind = BY_CODE.get(code)
    return TableError(code, **parts) if kind is None else kind(**parts)


def check(code: int, path: Optional[str] = None) -> None:
    """Raises the exception for an error code. 0 is none."""
    if code:
        raise error(code, path=path)


def faulty(finding: Finding, path: Optional[str]) -> Faulty:
    """Returns the exception for a finding, with its cause."""
    raised = Faulty(path=path, section=finding.section, offset=finding.offset)
    raised.finding = finding
    if finding.detail:
        raised.__cause__ = error(finding.detail, path=path, section=finding.section,
                                 offset=finding.offset)
    return raised
