"""How much a run of a file may take that nobody vouches for: memory, which the program refuses to go beyond, and time, after which the
run is cut."""
from __future__ import annotations

import argparse
import contextlib
import signal
from typing import Any, Iterator

from toolbox.command import Sorry
from toolbox.program import limit_memory

SECONDS, MEMORY = 60, 256  # megabytes
LEAST = {'seconds': 1, 'memory': 16}
MOST = 1_000_000
_held: list[int] = []


class Cut(BaseException):
    """The time is over. Nothing in between takes it for a refusal of its own."""


def add_words(reader: argparse.ArgumentParser) -> None:
    """The words by which a tool's run gets more than the usual."""
    reader.add_argument('--seconds', type=int, default=SECONDS, metavar='N', help=f'how long it may take ({SECONDS})')
    reader.add_argument('--memory', type=int, default=MEMORY, metavar='MB', help=f'how much memory a run may take ({MEMORY})')


def check(given: argparse.Namespace) -> None:
    """Refuses limits that are none."""
    for name, least in LEAST.items():
        if getattr(given, name) is not None and not least <= getattr(given, name) <= MOST:
            raise Sorry(f'--{name} takes {least:,} to {MOST:,}')


@contextlib.contextmanager
def held(seconds: int, memory: int) -> Iterator[None]:
    """Within it each process of the program has so many megabytes, and what isn't done after so many seconds is cut, which is told as
    Sorry; 0 seconds are no limit."""
    limit_memory(memory)
    _held[:] = [memory]
    before = signal.signal(signal.SIGALRM, cut)
    signal.setitimer(signal.ITIMER_REAL, seconds)
    try:
        yield
        signal.setitimer(signal.ITIMER_REAL, 0)
    except Cut:
        raise Sorry(f'the run was cut after {seconds} s; --seconds {min(10 * seconds, MOST)} gives it more') from None
    finally:
        signal.setitimer(signal.ITIMER_REAL, 0)
        signal.signal(signal.SIGALRM, before)
        limit_memory(None)
        _held.clear()


def cut(*_: Any) -> None:
    """The time is over."""
    raise Cut


def of_memory() -> list[str]:
    """What is said of a fault for want of memory, if there was a limit."""
    return [f'hint: here a run may take {megabytes} MB; --memory {min(4 * megabytes, MOST)} gives it more' for megabytes in _held]
