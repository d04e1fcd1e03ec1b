"""Messages as the Debug Adapter Protocol and the Language Server Protocol frame them: a header with the body's length, and a body of
JSON."""
from __future__ import annotations

import json
import os
import queue
import re
from typing import Any, Callable

from toolbox.threads import begin

LONGEST_BODY, LONGEST_HEADER = 1 << 23, 4096  # a source of the greatest length fits, all its characters escaped


class Broken:
    """What was read is no message, and why not."""

    def __init__(self, why: str) -> None:
        self.why = why


Read = dict[str, Any] | Broken | None


class Reader:
    """Messages from a file descriptor. Each `next` gives one, what is broken instead, or None at the end."""

    def __init__(self, handle: int) -> None:
        self._handle, self._kept, self._is_over = handle, b'', False

    def _more(self) -> bool:
        """Reads what is there; the end has nothing."""
        part = b'' if self._is_over else os.read(self._handle, 1 << 16)
        self._is_over = not part
        self._kept += part
        return bool(part)

    def _header(self) -> str | None:
        """The lines up to the blank one, or None at the end. Of one that is too long the beginning is dropped."""
        while b'\r\n\r\n' not in self._kept:
            if len(self._kept) > LONGEST_HEADER:
                self._kept = self._kept[-3:]
            if not self._more():
                return None
        header, _, self._kept = self._kept.partition(b'\r\n\r\n')
        return header.decode('ascii', 'replace')

    def _body(self, length: int) -> bytes | None:
        """So many bytes, or None where the end comes first. One that is too long is passed over, and empty."""
        left = length
        while length > LONGEST_BODY and left > len(self._kept):
            left, self._kept = left - len(self._kept), b''
            if not self._more():
                return None
        while left > len(self._kept):
            if not self._more():
                return None
        body, self._kept = self._kept[:left], self._kept[left:]
        return b'' if length > LONGEST_BODY else body

    def next(self) -> Read:
        """The next message."""
        header = self._header()
        if header is None:
            return None
        found = re.search(r'(?:^|\n)Content-Length: *(\d{1,12})\s*$', header, re.I | re.M)
        if not found:
            return Broken('a header has no line "Content-Length: N"')
        length = int(found[1])
        body = self._body(length)
        if body is None:
            return None
        if length > LONGEST_BODY:
            return Broken(f'a message has {length} bytes, and may have {LONGEST_BODY}')
        try:
            message = json.loads(body)
        except (ValueError, RecursionError):
            return Broken("a message's body is no JSON")
        return message if isinstance(message, dict) else Broken("a message's body is no JSON object")


def reading(handle: int) -> queue.Queue[Read]:
    """A queue that a thread fills with all messages up to the end."""
    found: queue.Queue[Read] = queue.Queue(maxsize=1000)

    def read() -> None:
        reader, message = Reader(handle), Broken('')
        while message is not None:
            try:
                message = reader.next()
            except OSError:
                message = None
            except MemoryError:
                found.put(Broken("a message can't be read: there is no memory for it"))
                message = None
            found.put(message)

    begin(read)
    return found


def writing(handle: int) -> Callable[[dict[str, Any]], None]:
    """What writes a message to a file descriptor."""

    def write(message: dict[str, Any]) -> None:
        body = json.dumps(message).encode()
        left = b'Content-Length: %d\r\n\r\n%b' % (len(body), body)
        while left:
            left = left[os.write(handle, left) :]

    return write
