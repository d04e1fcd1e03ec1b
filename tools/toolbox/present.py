"""Which of the stored programs and libraries are made of the present sources, as the launcher finds it, without a shell. What was compared
is noted below the user's cache with what the system tells of each file, so that the next one only looks whether one was touched."""
from __future__ import annotations

import contextlib
import functools
import marshal
import os
import sys
from typing import Iterator, NamedTuple

from zebludor import ENDING, LIBRARY

TOP = os.path.dirname(os.path.dirname(os.path.dirname(os.path.realpath(__file__))))
STORED = f'{TOP}/stored'
KINDS = ('.rt', '.antt')
# The stored programs, by whose start it is seen that this machine has what they need, and the library: the crate that each is made of.
PROGRAMS = {f'{name}{ENDING}': name for name in ('pcboard', 'pcprobe', 'pcmasm')}
MADE = PROGRAMS | {LIBRARY: 'zebludor_program'}
USAGE = 2  # the status of a program that is asked for its help


class Present(NamedTuple):
    """The names of what is stored and made of the present sources, and what names the message that it was proved elsewhere."""

    names: tuple[str, ...]
    mark: str


def cache() -> str | None:
    """The user's folder for what is kept between calls, as the launcher has it, if there is one."""
    home = os.environ.get('HOME')
    folder = os.environ.get('XDG_CACHE_HOME') or (f'{home}/.cache' if home else '')
    return f'{folder}/zebludor' if folder else None


def is_release() -> bool:
    """Whether this is an unpacked release."""
    return os.path.isfile(f'{TOP}/RELEASE') and not os.path.lexists(f'{TOP}/crates.txt')


def machine() -> str:
    """What tells whether programs start here that did so where a note was written."""
    if sys.platform != 'linux':
        return sys.platform
    system = os.uname()
    return f'{system.sysname} {system.nodename} {system.machine} {os.confstr("CS_GNU_LIBC_VERSION")}'


def paths_in(folder: str) -> Iterator[str]:
    """The folders in a folder, and the sources."""
    with contextlib.suppress(FileNotFoundError), os.scandir(folder) as entries:
        for one in entries:
            if one.name.endswith(KINDS):
                yield one.path
            elif one.is_dir():
                yield one.path
                yield from paths_in(one.path)


def touched(paths: list[str]) -> bytes:
    """What tells whether a file or folder was touched, of each of these. A change that keeps a file's size and time has another time of
    the inode, and what comes or goes changes its folder's."""
    stat = os.stat
    return marshal.dumps([(at.st_ino, at.st_mtime_ns, at.st_ctime_ns) for at in map(stat, paths)], 2)


def text_of(found: Present, paths: list[str]) -> bytes:
    """A note but for what tells whether something was touched: a line that says all, the same again, so that one that was damaged is
    known, and the paths."""
    line = '\t'.join((' '.join(found.names), found.mark, machine()))
    return '\n'.join((line, line, *paths, '', '')).encode('utf-8', 'surrogateescape')


def noted(path: str) -> Present | None:
    """What a note says, if nothing was touched since, and it is this user's and of this machine."""
    try:
        with open(path, 'rb') as file:
            owner = os.fstat(file.fileno()).st_uid
            text, _, rest = file.read().partition(b'\n\n')
        line, again, *paths = text.decode('utf-8', 'surrogateescape').split('\n')
        names, mark, where = line.split('\t')
        is_one = owner == os.geteuid() and line == again and where == machine() and rest == touched(paths)
    except (OSError, ValueError):
        return None
    return Present(tuple(names.split()), mark) if is_one else None


def present() -> Present:
    """What is stored and made of the present sources."""
    folder = cache()
    path = f'{folder}/present{TOP.replace("/", "+")}' if folder else ''
    return path and noted(path) or compared(path)


def compared(path: str) -> Present:
    """The same by comparing, which is noted there, if anywhere. What isn't older than the note could change again within the clock's
    tick, and then there is none."""
    with new_file(path) as (handle, began):
        below = {} if is_release() else crates_below()
        paths = paths_of(set[str]().union(*below.values()))
        times = touched(paths)
        found = of_the_stored(below)
        if began and all(max(mtime, ctime) < began for _, mtime, ctime in marshal.loads(times)):
            with contextlib.suppress(OSError):
                with open(handle, 'wb', closefd=False) as file:
                    file.write(text_of(found, paths) + times)
                os.rename(f'{path}.{os.getpid()}', path)
    return found


def paths_of(crates: set[str]) -> list[str]:
    """What is compared that is there: what is stored, or the folder to which that may come, the list of crates, and their sources with
    their folders."""
    from toolbox.sources import PARTS

    stored = [STORED, f'{STORED}/PROVED', *(f'{STORED}/{name}' for name in MADE)] if os.path.exists(STORED) else [TOP]
    found = [f'{TOP}/crates.txt', f'{TOP}/crates', *stored]
    for name in sorted(crates):
        folders = [f'{TOP}/crates/{name}/{part}' for part in PARTS]
        found += [f'{TOP}/crates/{name}', *folders, *(path for folder in folders for path in paths_in(folder))]
    return list(filter(os.path.exists, found))


@contextlib.contextmanager
def new_file(path: str) -> Iterator[tuple[int, int]]:
    """The handle of a new file beside a path, and when it was made, by the clock of its file system; 0 if there can't be one. It goes at
    the end, unless it has another name by then."""
    own = f'{path}.{os.getpid()}'
    try:
        os.makedirs(os.path.dirname(path), exist_ok=True)
        handle = os.open(own, os.O_WRONLY | os.O_CREAT | os.O_TRUNC | os.O_CLOEXEC, 0o666)
    except OSError:
        yield -1, 0
        return
    try:
        yield handle, os.fstat(handle).st_mtime_ns
    finally:
        os.close(handle)
        with contextlib.suppress(OSError):
            os.remove(own)


def crates_below() -> dict[str, set[str]]:
    """The crates of which each of what is stored is made."""
    from toolbox.crates import Crates

    crates = Crates(TOP)
    return {name: crates.below(crate) for name, crate in MADE.items()}


def of_the_stored(below: dict[str, set[str]]) -> Present:
    """What of it is the one of which stored/PROVED tells, made of the present sources unless this is a release, and starts."""
    from toolbox import proved, sources

    known, sum_of = proved.read(STORED), functools.cache(sources.sum_of)
    if known is None:
        return Present((), '')
    names = list[str]()
    for name, made in known.made.items():
        path = f'{STORED}/{name}'
        is_one = name in MADE and os.path.isfile(path) and (sum_of(path) == made.sum or is_release() and f'changed {name} {sum_of(path)}' in known.changed)
        if is_one and (is_release() or made.sources == sources.sum_of_sources(below[name], TOP, sum_of)) and (name == LIBRARY or starts(path)):
            names.append(name)
    return Present(tuple(names), 'told' + ''.join(f'-{made.sum[:16]}' for made in known.made.values()))


def starts(path: str) -> bool:
    """Whether a program starts on this machine."""
    import subprocess

    try:
        done = subprocess.run([path, '--help'], stdin=subprocess.DEVNULL, stdout=subprocess.DEVNULL, stderr=subprocess.DEVNULL, check=False)
    except OSError:
        return False
    return done.returncode == USAGE
