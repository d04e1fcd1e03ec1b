"""Locks on open files. Where a system has none, as Windows hasn't these, nobody is waited for, and no file is known to be free."""
from __future__ import annotations

import contextlib
import errno
import os
from typing import IO, Iterator

try:
    import fcntl
except ImportError:
    fcntl = None  # type: ignore[assignment]

HAS_LOCKS = fcntl is not None


def lock(handle: int | IO[bytes]) -> None:
    """Locks a file, once no other process does."""
    if HAS_LOCKS:
        fcntl.flock(handle, fcntl.LOCK_EX)


def lock_free(handle: int | IO[bytes]) -> None:
    """Locks a file that no other process locks; else OSError tells so."""
    if not HAS_LOCKS:
        raise BlockingIOError(errno.EAGAIN, 'this system tells of no lock')
    fcntl.flock(handle, fcntl.LOCK_EX | fcntl.LOCK_NB)


@contextlib.contextmanager
def turn(folder: str | None) -> Iterator[None]:
    """While no other tool has its turn in a folder, if there is one."""
    if not folder or not HAS_LOCKS:
        yield
        return
    handle = os.open(folder, os.O_RDONLY | os.O_DIRECTORY | os.O_NOFOLLOW | os.O_CLOEXEC)
    try:
        lock(handle)
        yield
    finally:
        os.close(handle)
