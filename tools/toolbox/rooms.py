"""Rooms: a folder for what a tool writes while it runs, which no other user can enter. What a tool leaves that is killed goes when the
next one begins."""
from __future__ import annotations

import contextlib
import os
import re
import shutil
import stat
import tempfile
from typing import Iterator

from toolbox.command import state_folder
from toolbox.locks import HAS_LOCKS, lock, lock_free, turn

MARK, NEW = 'mark', 'new'
BEGUN = re.compile('[a-z]+-[a-z0-9_]{8}')  # a room's name


@contextlib.contextmanager
def room(name: str) -> Iterator[str]:
    """A folder for a tool of this name, where its temporary files lie too. As long as it lives, it holds a lock on the folder's mark."""
    folder, before = folder_of_rooms(), tempfile.tempdir
    with contextlib.ExitStack() as stack:
        with turn(folder):
            if folder:
                sweep(folder)
            prefix = f'{name}-' if folder else f'zebludor-{name}-'
            path = stack.enter_context(tempfile.TemporaryDirectory(prefix=prefix, dir=folder, ignore_cleanup_errors=True))
            mark = stack.enter_context(open(f'{path}/{NEW}', 'xb'))
            lock(mark)
            mark.write(text_of_mark(path))
            mark.flush()
            if HAS_LOCKS:
                os.rename(mark.name, f'{path}/{MARK}')  # it has this name once it is held
        tempfile.tempdir = path
        try:
            yield path
        finally:
            tempfile.tempdir = before


def sweep(folder: str) -> None:
    """Removes the rooms in a folder whose tools are gone, and nothing else. Nobody begins one meanwhile."""
    for name in os.listdir(folder):
        path = os.path.join(folder, name)
        if is_left(path):
            shutil.rmtree(path, ignore_errors=True)
        elif BEGUN.fullmatch(name) and is_private(path):
            remove_begun(path)


def remove_begun(path: str) -> None:
    """Removes a room whose tool was killed before it had a mark, which is empty but for that."""
    with contextlib.suppress(OSError):
        if not {*os.listdir(path)} - {NEW}:
            with contextlib.suppress(FileNotFoundError):
                os.remove(os.path.join(path, NEW))
            os.rmdir(path)


def folder_of_rooms() -> str | None:
    """Where rooms stand: with what lasts as long as the user is logged in, else below the state folder; None if neither place is the
    user's alone, so that a room has to be a new folder beside other users' files."""
    login = os.environ.get('XDG_RUNTIME_DIR', '')
    places = [os.path.join(login, 'zebludor')] if os.path.isabs(login) and is_private(login) else []
    places = list(map(os.path.realpath, (*places, os.path.join(state_folder(), 'rooms'))))
    return next(filter(is_had, places), None)


def is_had(folder: str) -> bool:
    """Whether a folder is there, or can be made, that is the user's alone and that no other user can replace."""
    parts = folder.split('/')
    try:
        os.makedirs(folder, 0o700, exist_ok=True)
        return is_private(folder) and os.access(folder, os.W_OK) and all(is_guarded('/'.join(parts[:count]) or '/') for count in range(1, len(parts)))
    except OSError:
        return False


def is_private(folder: str) -> bool:
    """Whether a path is a folder of the user's own, and no link to one, which others can't enter."""
    try:
        found = os.lstat(folder)
    except OSError:
        return False
    return stat.S_ISDIR(found.st_mode) and found.st_uid == os.geteuid() and stat.S_IMODE(found.st_mode) == 0o700


def is_guarded(folder: str) -> bool:
    """Whether no other user but root can rename or remove what the user or root has in a folder."""
    found = os.lstat(folder)
    return found.st_uid in (0, os.geteuid()) and (not found.st_mode & 0o022 or bool(found.st_mode & stat.S_ISVTX))


def text_of_mark(path: str) -> bytes:
    """What stands in a room's mark. It names the room, so that a copy of one isn't taken for it."""
    return os.fsencode(f'{os.path.basename(path)}: a room of zebludor, which goes once no process locks this file\n')


def is_left(path: str) -> bool:
    """Whether a path is a room with its mark, which no tool holds."""
    if not is_private(path):
        return False
    try:
        with open(os.open(f'{path}/{MARK}', os.O_RDONLY | os.O_NOFOLLOW | os.O_NONBLOCK | os.O_CLOEXEC), 'rb') as mark:
            found, text = os.fstat(mark.fileno()), text_of_mark(path)
            if not stat.S_ISREG(found.st_mode) or found.st_uid != os.geteuid() or mark.read(len(text) + 1) != text:
                return False
            lock_free(mark)
    except OSError:
        return False
    return True
