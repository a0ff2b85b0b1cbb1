"""The calls of sst.h, by ctypes."""

from __future__ import annotations

import ctypes
import os
from ctypes import (POINTER, Structure, byref, c_bool, c_char_p, c_int, c_size_t, c_ssize_t,
                    c_uint32, c_uint64, c_void_p)
from typing import Any, Callable, NoReturn, Optional, Tuple, Union


class Handle(Structure):
    """A handle: two words, which are zeros while it holds nothing."""

    _fields_ = [("words", c_uint64 * 2)]

    def _refuse(self, *_: object) -> NoReturn:
        raise TypeError("a handle cannot be copied or pickled")

    __copy__ = __deepcopy__ = __reduce__ = __reduce_ex__ = _refuse


class Entry(Structure):
    """The kind, the sequence number and the lengths of an entry; zeros for no entry."""

    _fields_ = [("kind", c_uint64), ("seqno", c_uint64), ("key_len", c_uint64),
                ("value_len", c_uint64)]


class Lent(Structure):
    """The addresses and lengths of an entry's key and value."""

    _fields_ = [("key", c_void_p), ("key_len", c_uint64), ("value", c_void_p),
                ("value_len", c_uint64)]


class Facts(Structure):
    """The facts that a table's meta block states."""

    _fields_ = [(name, c_uint64) for name in (
        "id", "version", "global_seqno", "lowest_seqno", "highest_seqno", "item_count",
        "tombstone_count", "weak_tombstone_count", "data_block_count", "index_block_count",
        "data_size")]


class Memory(Structure):
    """The memory of a table, in bytes."""

    _fields_ = [(name, c_uint64) for name in ("file_len", "pinned_index_size",
                                              "pinned_filter_size", "marks_size")]


class Verified(Structure):
    """The result of a verification."""

    _fields_ = [("item_count", c_uint64), ("data_block_count", c_uint64), ("offset", c_uint64),
                ("section", c_uint32), ("fault", c_uint32), ("detail", c_uint32),
                ("unused", c_uint32)]


class Progress(Structure):
    """The progress of a verification."""

    _fields_ = [(name, c_uint64) for name in ("bytes_read", "data_size", "at_end")]


class Options(Structure):
    """The options of a writer."""

    _fields_ = [("id", c_uint64), ("created_at", c_uint64)] + [(name, c_uint32) for name in (
        "level", "data_block_size", "data_block_restart_interval", "data_block_hash_ratio",
        "index_partition_size", "filter_partition_size", "filter_bits_per_key", "unused")]


class File(Structure):
    """The id, the checksum and the length of a finished table."""

    _fields_ = [("id", c_uint64), ("checksum", c_uint64), ("len", c_uint64)]


#: The version of the calls that are declared below.
VERSION = 4

_FOLDER = os.path.dirname(os.path.abspath(__file__))
_BINDINGS = os.path.normpath(os.path.join(_FOLDER, "..", ".."))
# The library in the package's folder, as in a wheel; and the one that bindings/build has built, if
# the package is in a checkout.
_PACKAGED = os.path.join(_FOLDER, "libsst.so")
_BUILT = os.path.join(_BINDINGS, "out", "libsst.so")
# The names by which the system's loader may know it.
_INSTALLED = ("libsst.so.4", "libsst.so")


def _load() -> ctypes.CDLL:
    """Loads the library.

    Looks in the package's folder, then takes the file that LOGPURPLE_LIBRARY names, then the one
    that a checkout has built, then the one that the system's loader finds. Raises `ImportError` if
    there is none, or if the first that exists does not load.
    """
    named = os.environ.get("LOGPURPLE_LIBRARY")
    places = [f"{_PACKAGED}: {_state(_PACKAGED)}",
              f"the file that the variable LOGPURPLE_LIBRARY names: {named or 'it is not set'}"]
    is_checkout = os.path.exists(os.path.join(_BINDINGS, "build"))
    if is_checkout:
        places.append(f"{_BUILT}: {_state(_BUILT)}")
    names: Tuple[str, ...] = _INSTALLED
    if os.path.exists(_PACKAGED):
        names = (_PACKAGED,)
    elif named:
        names = (named,)
    elif is_checkout and os.path.exists(_BUILT):
        names = (_BUILT,)
    errors = []
    for name in names:
        try:
            return ctypes.CDLL(name)
        except OSError as error:
            errors.append(str(error))
    listed = "\n".join(f"  {place}" for place in places)
    raise ImportError(f"""cannot load libsst.so: {errors[-1]}
logpurple looks for it in these places, and takes the first:
{listed}
  {' or '.join(_INSTALLED)} where the system's loader finds it
To build it, run bindings/build in a checkout of logpurple. Then copy it to the first of these
places, or set LOGPURPLE_LIBRARY to its path.""")


def _state(path: str) -> str:
    return "it exists" if os.path.exists(path) else "it does not exist"


def _declare(name: str, *types: Any, returns: Any = c_uint32) -> Callable[..., int]:
    call = getattr(_library, name)
    call.argtypes = types
    call.restype = returns
    declared: Callable[..., int] = call
    return declared


def _require_version() -> None:
    """Raises `ImportError` unless the library has the calls that are declared below."""
    try:
        found = _library.sst_version()
    except AttributeError as error:
        raise ImportError(f"{_library._name} is not libsst: {error}") from error
    if found != VERSION:
        raise ImportError(
            f"{_library._name} has version {found} of the calls of sst.h, and logpurple needs "
            f"version {VERSION}: use the library and the package of one release")


_library = _load()
_require_version()

# Handles, and the structures that each read fills, are passed by their addresses: that is fastest.
_handle = _entry = _lent = c_void_p
# Bytes that a call reads, and their length.
_bytes = (c_char_p, c_size_t)
# The address of an array, and its length.
_array = (c_void_p, c_size_t)
_bounds = (c_uint32, *_bytes, c_uint32, *_bytes)
# Room for entries, room for their keys and values, the number that was copied, and the entry that
# did not fit.
_room = (*_array, *_array, c_void_p, _entry)

version = _declare("sst_version")
close = _declare("sst_close", _handle, returns=None)
strerror_copy = _declare("sst_strerror_copy", c_uint32, *_array, returns=c_uint64)
found_lend = _declare("sst_found_lend", _handle, _lent)
table_open = _declare("sst_table_open", *_bytes, c_uint64, c_bool, c_bool, _handle)
table_open_kept = _declare("sst_table_open_kept", *_bytes, c_uint64, c_bool, c_bool, _handle)
table_get = _declare("sst_table_get", _handle, *_bytes, c_uint64, _entry)
table_get_many = _declare("sst_table_get_many", _handle, *_bytes, *_array, c_uint64, *_array,
                          _handle)
table_facts = _declare("sst_table_facts", _handle, POINTER(Facts))
table_memory = _declare("sst_table_memory", _handle, POINTER(Memory))
table_share = _declare("sst_table_share", _handle, _handle)
table_verify = _declare("sst_table_verify", _handle, POINTER(Verified))
table_verify_with = _declare("sst_table_verify_with", _handle, c_uint64, POINTER(Verified))
verification_open = _declare("sst_verification_open", _handle, _handle)
verification_step = _declare("sst_verification_step", _handle, POINTER(Progress),
                             POINTER(Verified))
answers_take = _declare("sst_answers_take", _handle, c_uint64, *_array, POINTER(c_uint64))
range_open = _declare("sst_range_open", _handle, *_bounds, _handle)
range_next = _declare("sst_range_next", _handle, c_bool, _entry)
range_take = _declare("sst_range_take", _handle, c_bool, *_room)
scan_open = _declare("sst_scan_open", _handle, _handle)
scan_next = _declare("sst_scan_next", _handle, _entry)
scan_take = _declare("sst_scan_take", _handle, *_room)
runs_open = _declare("sst_runs_open", _handle)
runs_add = _declare("sst_runs_add", _handle, _handle)
runs_get = _declare("sst_runs_get", _handle, *_bytes, c_uint64, _entry)
runs_range_open = _declare("sst_runs_range_open", _handle, *_bounds, c_uint64, _handle)
runs_scan_open = _declare("sst_runs_scan_open", _handle, *_bounds, c_uint64, _handle)
runs_pack = _declare("sst_runs_pack", _handle, _handle)
packing_open = _declare("sst_packing_open", _handle, _handle)
packing_count = _declare("sst_packing_count", _handle, POINTER(c_uint64))
packing_run = _declare("sst_packing_run", _handle, c_uint64, POINTER(c_uint64))
packing_table = _declare("sst_packing_table", _handle, c_uint64, c_uint64, POINTER(c_uint64))
packing_chain = _declare("sst_packing_chain", _handle, c_uint64, POINTER(c_uint64))
options_default = _declare("sst_options_default", POINTER(Options), returns=None)
writer_open = _declare("sst_writer_open", POINTER(Options), _handle)
writer_add = _declare("sst_writer_add", _handle, *_bytes, c_uint64, c_uint32, *_bytes)
writer_add_many = _declare("sst_writer_add_many", _handle, *_array, *_bytes, POINTER(c_uint64))
writer_finish = _declare("sst_writer_finish", _handle)
multi_writer_open = _declare("sst_multi_writer_open", POINTER(Options), c_uint64, _handle)
multi_writer_add = _declare("sst_multi_writer_add", _handle, *_bytes, c_uint64, c_uint32, *_bytes)
multi_writer_take = _declare("sst_multi_writer_take", _handle, _handle, POINTER(c_uint64))
multi_writer_finish = _declare("sst_multi_writer_finish", _handle, _handle, POINTER(c_uint64))
compact = _declare("sst_compact", _handle, POINTER(Options), c_uint64, c_bool, c_bool, c_uint64,
                   _handle, POINTER(c_uint64))
compaction_open = _declare("sst_compaction_open", _handle, POINTER(Options), c_uint64, c_bool,
                           c_bool, c_uint64, _handle)
compaction_next = _declare("sst_compaction_next", _handle, _handle, POINTER(c_uint64))
files_count = _declare("sst_files_count", _handle, POINTER(c_uint64))
files_tell = _declare("sst_files_tell", _handle, c_uint64, POINTER(File))
files_copy = _declare("sst_files_copy", _handle, c_uint64, c_uint64, c_char_p, c_size_t,
                      POINTER(c_uint64))


# CPython's own calls for buffers.


class _Buffer(Structure):
    """A `Py_buffer`."""

    _fields_ = [("buf", c_void_p), ("obj", c_void_p), ("len", c_ssize_t), ("itemsize", c_ssize_t),
                ("readonly", c_int), ("ndim", c_int), ("format", c_void_p), ("shape", c_void_p),
                ("strides", c_void_p), ("suboffsets", c_void_p), ("internal", c_void_p)]


_get_buffer = ctypes.pythonapi.PyObject_GetBuffer
_get_buffer.argtypes = (ctypes.py_object, POINTER(_Buffer), c_int)
_release_buffer = ctypes.pythonapi.PyBuffer_Release
_release_buffer.argtypes = (POINTER(_Buffer),)
_release_buffer.restype = None


class Borrowed:
    """Borrows the bytes of a buffer for a `with` statement, as an address and a length.

    The buffer keeps its size until then. Bytes that are not contiguous are copied.
    """

    def __init__(self, source: Any) -> None:
        self._source = source
        self._buffer: Optional[_Buffer] = None

    def __enter__(self) -> Tuple[Union[c_char_p, bytes], int]:
        if isinstance(self._source, bytes):
            return c_char_p(self._source), bytes.__len__(self._source)
        buffer = _Buffer()
        try:
            _get_buffer(self._source, byref(buffer), 0)
        except BufferError:
            copy = bytes(memoryview(self._source))
            return copy, len(copy)
        self._buffer = buffer
        return c_char_p(buffer.buf) if buffer.len else b"", buffer.len

    def __exit__(self, *_: object) -> None:
        if self._buffer is not None:
            _release_buffer(byref(self._buffer))


def kept(source: Any) -> memoryview:
    """Returns a view of bytes that stay as they are while the view is referenced.

    Raises `BufferError` if they are not contiguous, or may be written to as far as their owner
    knows.
    """
    view = memoryview(source)
    if not view.c_contiguous:
        raise BufferError("bytes that are kept have to be contiguous")
    if not view.readonly or view.obj is not None and not memoryview(view.obj).readonly:
        raise BufferError("bytes that are kept have to be read-only")
    return view


def copied(address: int, length: int) -> bytes:
    """Returns a copy of the bytes at an address."""
    if length >= 1 << 31:
        return bytes((ctypes.c_char * length).from_address(address))
    return ctypes.string_at(address, length) if length else b""


def strerror(code: int) -> str:
    """Returns the library's text for an error code."""
    room = ctypes.create_string_buffer(100)
    length = strerror_copy(code, ctypes.addressof(room), len(room))
    return room.raw[:length].decode()
