"""LevelDB by plyvel, set up as the driver sets up LevelDB."""

import contextlib
import itertools
import os
import shutil
import tempfile

import plyvel

_WRITTEN = 1000  # how many entries a batch has
_ROOM = 1 << 30  # of a memtable and of a file, so that there is one table


class Plyvel:
    """A database of one table in a file in memory.

    LevelDB maps the file and does not cache its blocks, since none is compressed. If `compares` is
    set, each read compares a block's checksum, as the driver's do; by default plyvel's do not.
    """

    def __init__(self, entries, filter_bits, compares):
        self.name = "plyvel, checksums compared" if compares else "plyvel"
        self.compares = compares
        self._entries = entries
        self._filter_bits = filter_bits
        self._folder, self._db = self._begin()
        self._write(self._db)
        self._db.compact_range()
        tables = sum(int(self._db.get_property(b"leveldb.num-files-at-level%d" % level))
                     for level in range(7))
        if tables != 1:
            raise RuntimeError(f"plyvel: {tables} tables and not one")

    # An empty database, in a folder in memory if there is such a file system.
    def _begin(self):
        memory = "/dev/shm" if os.path.isdir("/dev/shm") else None
        folder = tempfile.mkdtemp(prefix="bench-plyvel-", dir=memory)
        return folder, plyvel.DB(
            folder, create_if_missing=True, paranoid_checks=True, compression=None,
            bloom_filter_bits=self._filter_bits, write_buffer_size=_ROOM, max_file_size=_ROOM)

    def _write(self, db):
        for first in range(0, len(self._entries), _WRITTEN):
            with db.write_batch() as batch:
                put = batch.put
                for key, value in self._entries[first:first + _WRITTEN]:
                    put(key, value)

    @staticmethod
    def _end(folder, db):
        db.close()
        shutil.rmtree(folder)

    @contextlib.contextmanager
    def empty_database(self):
        """A call that writes all entries into another database, by batches: into its log and its
        memtable."""
        folder, db = self._begin()
        try:
            yield lambda: self._write(db)
        finally:
            self._end(folder, db)

    def close(self):
        self._end(self._folder, self._db)

    def gets(self, keys):
        get = self._db.get
        if self.compares:
            return [get(key, verify_checksums=True) for key in keys]
        return [get(key) for key in keys]

    def gets_at_once(self, keys):
        return self.gets(keys)

    def entries(self, **bounds):
        return self._db.iterator(**bounds, verify_checksums=self.compares)

    def ranges(self, keys, count):
        first = itertools.islice
        return [sum(len(value) for _, value in first(self.entries(start=key), count))
                for key in keys]

    def whole_range(self):
        return sum(len(value) for _, value in self.entries())

    def whole_scan(self):
        return self.whole_range()
