"""Threads that begin, or that are refused."""
from __future__ import annotations

import errno
import threading
from typing import Callable

STACK = 1 << 23  # bytes of addresses that a thread's stack has, if nobody says how many
TELLER = 'teller'  # the name of one that tells how far the first thread is, and starts nothing


def want() -> None:
    """Asks for as much memory as a thread needs; OSError if there is none. Python waits for ever for a thread that can't begin for want
    of memory."""
    import mmap  # which takes longer to load than all of this module, and few tools have threads

    try:
        mmap.mmap(-1, 2 * (threading.stack_size() or STACK), mmap.MAP_PRIVATE).close()
    except OSError as error:
        raise refused(error.strerror) from None


def is_alone() -> bool:
    """Whether the first thread is the only one, but for tellers."""
    return all(each is threading.main_thread() or each.name == TELLER for each in threading.enumerate())


def begin(work: Callable[[], None], name: str | None = None) -> threading.Thread:
    """Has a thread of its own do some work; OSError if none can be had."""
    want()
    thread = threading.Thread(target=work, daemon=True, name=name)
    try:
        thread.start()
    except RuntimeError as error:
        raise refused(str(error)) from None
    return thread


def refused(why: str) -> OSError:
    """Why there is no thread."""
    return OSError(errno.ENOMEM, f"a thread can't be started: {why}")
