"""A register's file, changed so that it has the old text or the new one and never half, and no change undoes another:
one lock from reading to storing; the new text beside it, synced, put in its place, and the folder synced."""
from __future__ import annotations

import errno
import fcntl
import os
from contextlib import suppress
from typing import Callable, Optional, Tuple


class ChangedMeanwhile(Exception):
    """The stored text is not the one that the change was meant for. Nothing is stored."""


def _put(folder: int, name: str, text: bytes, like: os.stat_result) -> None:
    """Stores the text in the place of the file of that name in the folder."""
    beside = f".{name}.new"
    with suppress(FileNotFoundError):
        os.unlink(beside, dir_fd=folder)  # of a process that was killed
    flags = os.O_WRONLY | os.O_CREAT | os.O_EXCL | os.O_NOFOLLOW
    try:
        with open(os.open(beside, flags, 0o600, dir_fd=folder), "wb") as file:
            with suppress(PermissionError):
                os.fchown(file.fileno(), like.st_uid, -1)
            os.fchown(file.fileno(), -1, like.st_gid)
            os.fchmod(file.fileno(), like.st_mode & 0o7777)
            file.write(text)
            file.flush()
            os.fsync(file.fileno())
        os.rename(beside, name, src_dir_fd=folder, dst_dir_fd=folder)
    except OSError:
        with suppress(OSError):
            os.unlink(beside, dir_fd=folder)
        raise
    os.fsync(folder)


def change(path: str, changed: Callable[[bytes], bytes], if_text: Optional[bytes] = None,
           dry_run: bool = False) -> Tuple[bytes, bytes]:
    """The texts before and after `changed`, which is stored unless `dry_run`; given `if_text`, only if that is stored.

    >>> from tempfile import NamedTemporaryFile
    >>> with NamedTemporaryFile() as file:
    ...     change(file.name, lambda text: text + b"new")
    (b'', b'new')
    """
    place, name = os.path.split(os.path.realpath(path))
    folder = os.open(place, os.O_RDONLY | os.O_DIRECTORY)
    try:
        fcntl.flock(folder, fcntl.LOCK_EX)  # no file is left behind, and a rename cannot take the lock away
        with open(os.open(name, os.O_RDONLY, dir_fd=folder), "rb") as file:
            old, like = file.read(), os.fstat(file.fileno())
        if if_text is not None and old != if_text:
            raise ChangedMeanwhile(path)
        new = changed(old)
        if not dry_run and new != old:
            if not os.access(name, os.W_OK, dir_fd=folder, effective_ids=True):
                raise PermissionError(errno.EACCES, "may not be written")
            _put(folder, name, new, like)
    finally:
        os.close(folder)
    return old, new
