"""Files that a user names, or a stranger made, read whole: regular ones alone, which neither wait nor go on for ever, and no more of
one than a tool has room for."""
from __future__ import annotations

import contextlib
import errno
import os
import stat
from typing import Iterator

LONGEST = 1 << 24  # bytes of a source, Intel HEX, run file, page or symbols
LONGEST_REPORT = 1 << 26  # bytes of a report or a sealed report
KINDS = ((stat.S_ISFIFO, 'FIFO'), (stat.S_ISCHR, 'device'), (stat.S_ISBLK, 'device'), (stat.S_ISSOCK, 'socket'))


class Unfit(OSError):
    """What stands there is no file, or a longer one than is read."""


def check(path: str, most: int = LONGEST, within: int | None = None) -> None:
    """Raises Unfit if no tool takes what stands at a path, and OSError if nothing can be told of it."""
    fit(path, os.stat(path, dir_fd=within, follow_symlinks=within is None), most)


def fit(path: str, found: os.stat_result, most: int) -> None:
    """Raises Unfit of what isn't regular or has more than so many bytes."""
    if stat.S_ISDIR(found.st_mode):
        raise IsADirectoryError(errno.EISDIR, os.strerror(errno.EISDIR), path)
    if stat.S_ISLNK(found.st_mode):
        raise Unfit(errno.ELOOP, "it is a link, which isn't followed", path)
    if not stat.S_ISREG(found.st_mode):
        kind = next((word for is_one, word in KINDS if is_one(found.st_mode)), 'thing of its own')
        raise Unfit(errno.EINVAL, f'it is a {kind}, and no file', path)
    if found.st_size > most:
        raise too_long(path, most)


def too_long(path: str, most: int) -> Unfit:
    """Why a long file isn't read."""
    return Unfit(errno.EFBIG, f'it has more than {most:,} bytes', path)


def text_of(octets: bytes) -> str:
    """Bytes as a person wrote them: UTF-8, else a character for each byte."""
    try:
        return octets.decode('utf-8')
    except UnicodeDecodeError:
        return octets.decode('latin-1')


@contextlib.contextmanager
def inside(folder: str) -> Iterator[int | None]:
    """The handle of a folder; None on a system that opens nothing by one, as Windows."""
    if os.open not in os.supports_dir_fd:
        yield None
        return
    handle = os.open(folder, os.O_RDONLY | os.O_DIRECTORY)
    try:
        yield handle
    finally:
        os.close(handle)


def read_whole(path: str, most: int = LONGEST, within: int | None = None) -> bytes:
    """The bytes of a file. OSError tells why nothing was read. `within` is the handle of a folder, in which the path is a name that may
    be no link. What isn't regular isn't even opened, since some devices act on that."""
    check(path, most, within)
    flags = os.O_RDONLY | os.O_NONBLOCK | os.O_NOCTTY | os.O_CLOEXEC
    handle = os.open(path, flags | (os.O_NOFOLLOW if within is not None else 0), dir_fd=within)
    with open(handle, 'rb') as file:
        fit(path, os.fstat(handle), most)  # another one may have come to its place
        octets = file.read(most + 1) or b''
    if len(octets) > most:
        raise too_long(path, most)
    return octets
