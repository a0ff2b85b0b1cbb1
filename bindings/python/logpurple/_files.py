"""Writing the file of a table."""

from __future__ import annotations

import contextlib
import os
import secrets
import stat
from typing import Iterable, Union

#: The path of a file.
Path = Union[str, "os.PathLike[str]"]


def save(path: Path, parts: Iterable[bytes]) -> str:
    """Writes a file, and returns its path.

    The parts go into a file beside it, which is synced and then renamed. So the path has the whole
    file or its earlier file. The new file gets the permissions of the one that it replaces.
    """
    path = os.fspath(path)
    folder = os.path.dirname(path) or os.curdir
    partial = f"{path}.{secrets.token_hex(4)}.tmp"
    with open(partial, "xb") as file:
        try:
            with contextlib.suppress(FileNotFoundError):
                os.fchmod(file.fileno(), stat.S_IMODE(os.stat(path).st_mode))
            for part in parts:
                file.write(part)
            file.flush()
            os.fsync(file.fileno())
            os.replace(partial, path)
        except BaseException:
            os.unlink(partial)
            raise
    _sync_folder(folder)
    return path


# Makes a rename in a folder last.
def _sync_folder(folder: str) -> None:
    descriptor = os.open(folder, os.O_RDONLY | os.O_DIRECTORY)
    try:
        os.fsync(descriptor)
    finally:
        os.close(descriptor)
