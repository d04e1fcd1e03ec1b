"""Calls of the system that fail, cut short, or end the process, by Python functions in place of those of `os`: of a run the nth one of a
kind that has to do with files in a folder."""
from __future__ import annotations

import _pyio
import builtins
import errno
import fcntl
import io
import os
import signal
from typing import Any, Callable

from toolbox import writing

KINDS = {
    'open': ('open', 'listdir', 'scandir', 'mkdir'),
    'read': ('read',),
    'write': ('write', 'sendfile', 'ftruncate'),
    'flush': ('fsync',),
    'rename': ('link', 'rename', 'replace', 'exchange'),
}
HOWS = ('EIO', 'ENOSPC', 'EINTR', 'kill', 'short')


def home_of(name: str) -> Any:
    """The module that has a function."""
    return writing if name == 'exchange' else os


class Failing:
    """The functions, over files in a folder. It counts the calls of each kind; `at` the nth one of `kind` something comes to pass: an
    error by its name, the process's end, half of what was asked for, or `meanwhile`, after which the call goes on."""

    def __init__(
        self, folder: str, kind: str = '', at: int = 0, how: str = '', meanwhile: Callable[[], None] = lambda: None, has_exchange: bool = True
    ) -> None:
        self.folder, self.kind, self.at, self.how, self.meanwhile = os.path.realpath(folder), kind, at, how, meanwhile
        self.has_exchange = has_exchange  # of names, as most file systems have it
        self.names: dict[str, list[str]] = {each: [] for each in KINDS}
        self.unflushed: list[str] = []
        self._open, self._dirty = dict[int, str](), set[int]()
        self._real: dict[str, Callable[..., Any]] = {name: getattr(home_of(name), name) for names in KINDS.values() for name in names}

    def install(self) -> None:
        """Puts them in place. Python's own files are those that call functions of `os`."""
        for kind, names in KINDS.items():
            for name in names:
                setattr(home_of(name), name, self._stand_in(kind, name))
        if not self.has_exchange:
            writing.exchange = lambda *_: False
        builtins.open, io.open = _pyio.open, _pyio.open  # type: ignore[assignment]
        closing = os.close

        def close(handle: int) -> None:
            self._open.pop(handle, None)
            closing(handle)

        os.close = close  # type: ignore[assignment]

    def _is_meant(self, name: str, words: tuple[Any, ...]) -> bool:
        """Whether a call has to do with the folder."""
        if name in ('read', 'write', 'fsync', 'ftruncate', 'sendfile'):
            return words[0] in self._open
        path = words[1 if name in KINDS['rename'] else 0] if words else '.'
        return isinstance(path, (str, bytes)) and f'{os.path.realpath(os.fsdecode(path))}/'.startswith(f'{self.folder}/')

    def _stand_in(self, kind: str, name: str) -> Callable[..., Any]:
        real = self._real[name]

        def call(*words: Any, **named: Any) -> Any:
            if not self._is_meant(name, words):
                return real(*words, **named)
            self.names[kind].append(name)
            if kind == self.kind and len(self.names[kind]) == self.at:
                cut = self._fail(name, words)
                words = cut if cut is not None else words
            self._note(name, words)
            done = real(*words, **named)
            if name == 'open':
                self._open[done] = os.fspath(words[0])
            return done

        return call

    def _fail(self, name: str, words: tuple[Any, ...]) -> tuple[Any, ...] | None:
        """What comes to pass at the call; of one that is cut short its words."""
        if self.how == 'kill':
            os.kill(os.getpid(), signal.SIGKILL)
        if self.how == 'meanwhile':
            self.meanwhile()
            return None
        if self.how == 'short':
            half = (len(words[1]) + 1) // 2 if name == 'write' else 0
            return (words[0], words[1][:half]) if name == 'write' else None
        number = getattr(errno, self.how)
        raise OSError(number, os.strerror(number))

    def _note(self, name: str, words: tuple[Any, ...]) -> None:
        """Which files hold what isn't flushed yet; one that takes another's place has to be flushed before."""
        if name in ('write', 'sendfile'):
            self._dirty.add(os.fstat(words[0]).st_ino)
        elif name == 'fsync':
            self._dirty.discard(os.fstat(words[0]).st_ino)
        elif name in ('rename', 'replace', 'exchange') and os.stat(words[0]).st_ino in self._dirty:
            self.unflushed.append(os.path.basename(os.fspath(words[1])))


def tell_turns(path: str) -> None:
    """Makes a file once a lock is held by somebody else."""
    real = fcntl.flock

    def flock(*words: Any) -> None:
        try:
            real(*words)
        except BlockingIOError:
            with open(path, 'w', encoding='ascii'):
                pass
            raise

    fcntl.flock = flock  # type: ignore[assignment]
