"""Processes that end with the one that has started them, however that ends: the kernel kills them when the thread that started them
is gone, so one thread starts them all and stays."""
from __future__ import annotations

import ctypes
import os
import queue
import signal
import subprocess
import sys
import threading
from typing import Any

from toolbox.threads import begin

PR_SET_PDEATHSIG = 1
_LIBRARY: Any = ctypes.CDLL(None) if sys.platform == 'linux' else None


def bind(parent: int) -> None:
    """In a new process: its end is bound to its parent's, which may have ended already."""
    if _LIBRARY:
        _LIBRARY.prctl(PR_SET_PDEATHSIG, signal.SIGKILL)
    if os.getppid() != parent:
        os._exit(1)


class Starter:
    """The thread that starts processes."""

    def __init__(self) -> None:
        self.process = os.getpid()
        self._asked = queue.SimpleQueue[tuple[list[str], dict[str, Any], 'queue.SimpleQueue[Any]']]()
        begin(self._start_them)

    def started(self, words: list[str], how: dict[str, Any]) -> subprocess.Popen[bytes]:
        """The process of a command, begun in this thread; OSError where it can't be."""
        answers = queue.SimpleQueue[Any]()
        self._asked.put((words, how, answers))
        found = answers.get()
        if isinstance(found, BaseException):
            raise found
        return found

    def _start_them(self) -> None:
        while True:
            words, how, answers = self._asked.get()
            try:
                answers.put(subprocess.Popen(words, preexec_fn=self._bind if _LIBRARY else None, **how))
            except BaseException as error:  # pylint: disable=broad-exception-caught
                answers.put(error)

    def _bind(self) -> None:
        bind(self.process)


_LOCK = threading.Lock()
_STARTERS = list[Starter]()


def started(words: list[str], **how: Any) -> subprocess.Popen[bytes]:
    """A process that ends with this one; `how` is as for subprocess.Popen."""
    with _LOCK:
        if not _STARTERS or _STARTERS[0].process != os.getpid():  # a fork has none of its parent's threads
            _STARTERS[:] = [Starter()]
        starter = _STARTERS[0]
    return starter.started(words, how)
