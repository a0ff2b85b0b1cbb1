"""The objects that own a handle of the library, and how they are closed and used."""

from __future__ import annotations

import array
import mmap
import operator
import threading
from ctypes import addressof
from typing import Any, List, NoReturn, Optional, Tuple, Type, TypeVar, Union

from . import _calls
from ._errors import TableError, error

#: An object with a buffer, whose bytes a call reads.
BytesLike = Union[bytes, bytearray, memoryview, mmap.mmap, "array.array[Any]"]

_SomeResource = TypeVar("_SomeResource", bound="Resource")


def number(value: Any, bits: int = 64) -> int:
    """Returns a number that fits a call's parameter.

    Raises `TypeError` if it is no integer, and `OverflowError` if it does not fit.
    """
    found: int = operator.index(value)
    if not 0 <= found < 1 << bits:
        raise OverflowError(f"{found} does not fit {bits} bits")
    return found


def plain(value: Any) -> bytes:
    """Returns the bytes of a buffer. Raises `TypeError` for anything else."""
    if type(value) is bytes:
        return value
    try:
        return bytes(memoryview(value))
    except TypeError:
        raise TypeError(f"bytes are expected, and not {type(value).__name__}") from None


class Turn:
    """Allows one call at a time to use a handle. A read needs two calls: one fills the handle, and
    the next copies the result. A call within another one of the same thread, as from a signal
    handler, raises `RuntimeError`."""

    __slots__ = ("_lock", "_is_taken")

    def __init__(self) -> None:
        self._lock = threading.RLock()
        self._is_taken = False

    def __enter__(self) -> None:
        self._lock.acquire()
        if self._is_taken:
            self._lock.release()
            raise RuntimeError("a call comes within another one of the same object")
        self._is_taken = True

    def __exit__(self, *_: object) -> None:
        self._is_taken = False
        self._lock.release()

    def try_enter(self) -> bool:
        """Takes the turn unless it is taken, and returns whether it did."""
        if not self._lock.acquire(False):
            return False
        if self._is_taken:
            self._lock.release()
            return False
        self._is_taken = True
        return True

    def leave(self) -> None:
        """Ends the turn."""
        self.__exit__()


class Resource:
    """An object with a handle. `close`, `with` and garbage collection close it."""

    # The path of the file that it reads, for errors.
    _path: Optional[str] = None
    _is_open = False

    def __init__(self) -> None:
        self._turn = Turn()
        self._handle = _calls.Handle()
        self._ref = addressof(self._handle)
        # The bytes that the library reads without a copy. They stay until the handle is closed.
        self._kept: Tuple[memoryview, ...] = ()
        # A read fills these. They are used within a turn only.
        self._entry, self._lent = _calls.Entry(), _calls.Lent()
        self._entry_ref, self._lent_ref = addressof(self._entry), addressof(self._lent)
        self._is_open = True

    # A new object, which a call is to fill.
    @classmethod
    def _empty(cls: Type[_SomeResource]) -> _SomeResource:
        resource = cls.__new__(cls)
        Resource.__init__(resource)
        return resource

    def close(self) -> None:
        """Releases what the object holds. A second call does nothing.

        Later calls of the object raise `Closed`.

        >>> writer = Writer()
        >>> writer.add(b"a", b"1")
        >>> table = Table.open(writer.finish())
        >>> table.close()
        >>> table[b"a"]
        Traceback (most recent call last):
        ..
        logpurple.Closed: the handle is closed (100)
        """
        with self._turn:
            self._release()

    @property
    def closed(self) -> bool:
        """Whether the object is closed.

        >>> with Runs() as runs:
        ...     runs.closed
        False
        >>> runs.closed
        True
        """
        return not self._is_open

    def __enter__(self: _SomeResource) -> _SomeResource:
        """Returns the object, which is closed at the end of the `with` statement.

        >>> with Runs() as runs:
        ...     runs.get(b"a", b"none")
        b'none'
        >>> runs.get(b"a")
        Traceback (most recent call last):
        ..
        logpurple.Closed: the handle is closed (100)
        """
        return self

    def __exit__(self, *_: object) -> None:
        self.close()

    def __del__(self) -> None:
        # Nothing else references it, so its turn is free. In a process that was forked, a thread
        # that is not there may have it for good.
        if hasattr(self, "_lent_ref") and _calls is not None and self._turn.try_enter():
            self._release()

    # Closes the handle, within a turn, and then drops the bytes that it kept.
    def _release(self) -> None:
        self._is_open = False
        _calls.close(self._ref)
        self._kept = ()

    def __copy__(self) -> NoReturn:
        raise TypeError(f"a {type(self).__name__} cannot be copied")

    def __deepcopy__(self, _: object) -> NoReturn:
        raise TypeError(f"a {type(self).__name__} cannot be copied")

    def __reduce_ex__(self, _: object) -> NoReturn:
        raise TypeError(f"a {type(self).__name__} cannot be pickled")

    # Raises the exception of an error code, with the path.
    def _check(self, code: int) -> None:
        if code:
            raise self._error(code)

    def _error(self, code: int) -> TableError:
        return error(code, path=self._path)

    def __repr__(self) -> str:
        parts = self._parts()
        return f"<{' '.join(parts)}{' closed' if self.closed else ''}>"

    # The words that `repr` shows, beside whether the object is closed.
    def _parts(self) -> List[str]:
        return [type(self).__name__] + ([] if self._path is None else [repr(self._path)])


class Returned(Resource):
    """An object that only calls make: `_maker` names them."""

    _maker = ""

    def __init__(self, *_: NoReturn, **__: NoReturn) -> None:
        """Raises `TypeError`: only the calls that the class names make such an object."""
        raise TypeError(f"a {type(self).__name__} is {self._maker}")
