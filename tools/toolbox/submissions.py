"""A class's files, each opened once and read once. Below the folder in which all of them stand no link is followed, since it may lead to
any file of the teacher's; the way to that folder is the teacher's own."""
from __future__ import annotations

import errno
import os
import stat

from toolbox.reading import Unfit, read_whole

FOLDER = os.O_PATH | os.O_DIRECTORY | os.O_CLOEXEC


def folder_of(files: list[str]) -> str:
    """The folder below which all files stand: that of all their folders; of one file the folder above its own, which may be a link too."""
    folders = [os.path.dirname(os.path.abspath(file)) for file in files]
    return os.path.commonpath(folders) if len(files) > 1 else os.path.dirname(folders[0])


def octets_of(file: str, folder: str) -> bytes:
    """The bytes of a submission below that folder. OSError tells why there are none."""
    *above, name = os.path.relpath(os.path.abspath(file), folder).split(os.sep)
    handle = os.open(folder, FOLDER)
    try:
        for part in above:
            inner = opened(part, handle)
            os.close(handle)
            handle = inner
        return read_whole(name, within=handle)
    finally:
        os.close(handle)


def opened(part: str, within: int) -> int:
    """The handle of a folder within another one."""
    if stat.S_ISLNK(os.stat(part, dir_fd=within, follow_symlinks=False).st_mode):
        raise Unfit(errno.ELOOP, f"its folder {part} is a link, which isn't followed", part)
    return os.open(part, FOLDER | os.O_NOFOLLOW, dir_fd=within)
