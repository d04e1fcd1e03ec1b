"""A tool run in a process of its own, which is split off from one that has loaded it: by files for its streams, with limits, and with what
it took. So thousands of runs cost milliseconds each."""
from __future__ import annotations

import contextlib
import glob
import functools
import importlib.machinery
import importlib.util
import io
import os
import resource
import signal
import sys
import tempfile
import time
import traceback
from dataclasses import dataclass
from typing import Callable

TOP = os.path.dirname(os.path.dirname(os.path.dirname(os.path.realpath(__file__))))
MOST_MEMORY = 2 << 30  # bytes of addresses beside those that it begins with, by which a run that takes all there is ends
SMALL = 48 << 20  # bytes that a process has which has loaded a tool and nothing else
HANGS = 60  # seconds after which a run that takes no processor time is ended


@dataclass(frozen=True)
class Ended:
    """How a run ended: its status, or the signal's number below 0; what it printed; the processor time that it took, and the memory,
    without what a long run of tests had left the process from which it was split off."""

    status: int
    out: bytes
    err: str
    seconds: float
    megabytes: int


@functools.cache
def tool(name: str) -> Callable[[list[str]], int]:
    """The own function of a tool, or of a program of another folder, which is named with it."""
    path = path_of(name)
    loader = importlib.machinery.SourceFileLoader(f'tool_{name.replace("/", "_")}', path)
    module = importlib.util.module_from_spec(importlib.machinery.ModuleSpec(loader.name, loader, origin=loader.path))
    module.__file__, sys.modules[loader.name] = loader.path, module
    if os.path.dirname(path) not in sys.path:
        sys.path.append(os.path.dirname(path))  # as where it is started
    loader.exec_module(module)
    return module.main  # type: ignore[no-any-return]


def path_of(name: str) -> str:
    """Where a tool stands."""
    return f'{TOP}/{name}' if '/' in name else f'{TOP}/tools/{name}'


def started(name: str, words: list[str]) -> Callable[[], None]:
    """A tool with its words, as its own file starts it."""
    from toolbox.command import start

    main = tool(name)

    def work() -> None:
        sys.argv = [path_of(name), *words]
        start(main)

    return work


def program(path: str, words: list[str]) -> Callable[[], None]:
    """A program with its words."""
    return lambda: os.execv(path, [path, *words])


def tried(work: Callable[[], None], folder: str, given: bytes = b'', seconds: int = 10) -> Ended:
    """Runs it in a folder, for so many seconds of a processor at most."""
    with tempfile.TemporaryFile() as stdin, tempfile.TemporaryFile() as out, tempfile.TemporaryFile() as err:
        stdin.write(given)
        stdin.seek(0)
        held = left()
        child = os.fork()
        if child == 0:
            status = 1
            try:
                status = inside(work, folder, (stdin.fileno(), out.fileno(), err.fileno()), seconds)
            finally:
                os._exit(status)
        status, used = waited(child)
        out.seek(0)
        err.seek(0)
        return Ended(status, out.read(), err.read().decode('utf-8', 'replace'), used.ru_utime + used.ru_stime, (used.ru_maxrss >> 10) - (held >> 20))


def inside(work: Callable[[], None], folder: str, streams: tuple[int, ...], seconds: int) -> int:
    """In the new process: the run, to its status."""
    os.setsid()
    os.chdir(folder)
    for number, stream in enumerate(streams):
        os.dup2(stream, number)
    sys.stdin = io.TextIOWrapper(io.BufferedReader(io.FileIO(0, closefd=False)), encoding='utf-8')
    sys.stdout, sys.stderr = (io.TextIOWrapper(io.BufferedWriter(io.FileIO(number, 'w', closefd=False)), encoding='utf-8') for number in (1, 2))
    for number in (signal.SIGINT, signal.SIGTERM, signal.SIGHUP):
        signal.signal(number, signal.default_int_handler if number == signal.SIGINT else signal.SIG_DFL)
    resource.setrlimit(resource.RLIMIT_CPU, (seconds, seconds + 1))
    most = sizes()[0] + MOST_MEMORY
    resource.setrlimit(resource.RLIMIT_AS, (most, most))
    resource.setrlimit(resource.RLIMIT_CORE, (0, 0))
    try:
        work()
        return 0
    except SystemExit as ended:
        return ended.code if isinstance(ended.code, int) else 0
    except BaseException:  # pylint: disable=broad-exception-caught
        traceback.print_exc()
        return 1
    finally:
        for stream in (sys.stdout, sys.stderr):
            with contextlib.suppress(OSError, ValueError):
                stream.flush()


def sizes() -> list[int]:
    """The bytes of addresses that this process has, of its memory, and of the memory that is a file's."""
    with open('/proc/self/statm', encoding='ascii') as file:
        return [int(pages) * resource.getpagesize() for pages in file.read().split()[:3]]


def left() -> int:
    """The bytes of memory that a process which is split off from this one begins with, beyond those of a small one."""
    _, resident, shared = sizes()
    return max(0, resident - shared - SMALL)


def ticks_of(group: int) -> int:
    """The processor time that the processes of a group have taken, with those that have ended."""
    found = 0
    for path in glob.glob('/proc/[0-9]*/stat'):
        with contextlib.suppress(OSError), open(path, encoding='utf-8', errors='replace') as file:
            words = file.read().rpartition(')')[2].split()
            found += sum(map(int, words[11:15])) if int(words[2]) == group else 0
    return found


def waited(child: int) -> tuple[int, resource.struct_rusage]:
    """Waits for a process, and ends all that it has started."""
    end, before = time.monotonic() + HANGS, 0
    pause = 0.001
    while True:
        found, status, used = os.wait4(child, os.WNOHANG)
        if found:
            break
        if time.monotonic() > end:
            if (now := ticks_of(child)) == before:
                os.killpg(child, signal.SIGKILL)
            end, before = time.monotonic() + HANGS, now
        time.sleep(pause)
        pause = min(pause * 1.5, 0.02)
    try:
        os.killpg(child, signal.SIGKILL)
    except (ProcessLookupError, PermissionError):
        pass
    return os.waitstatus_to_exitcode(status), used
