"""The packets of gdb's remote protocol on one connection (gdb's manual, "Remote Protocol", "Overview")."""
from __future__ import annotations

import select
import socket

INTERRUPT = b'\x03'
MOST_BYTES = 1 << 16  # of a packet; what is longer is dropped
SECONDS_TO_WRITE = 60


class Gone(Exception):
    """The client has gone away, or doesn't read what it asked for."""


def framed(payload: str) -> bytes:
    """A packet. What is sent here has none of the signs that want an escape."""
    octets = payload.encode('ascii')
    return b'$%s#%02x' % (octets, sum(octets) % 256)


def unescaped(octets: bytes) -> bytes:
    """A packet's payload without its escapes."""
    first, *others = octets.split(b'}')
    return first + b''.join(bytes([part[0] ^ 0x20]) + part[1:] for part in others if part)


class Wire:
    """A client's requests, one at a time. What comes between packets and isn't an interrupt means nothing."""

    def __init__(self, connection: socket.socket) -> None:
        self._connection, self._held, self._sent = connection, b'', b''
        self._is_dropping, self.has_acknowledgements = False, True
        if connection.family == socket.AF_INET:  # an answer behind an acknowledgement would else wait for one of the client's
            connection.setsockopt(socket.IPPROTO_TCP, socket.TCP_NODELAY, 1)

    def _more(self) -> None:
        """Waits for the client's next bytes."""
        try:
            found = self._connection.recv(1 << 16)
        except OSError:
            found = b''
        if not found:
            raise Gone
        self._held += found

    def _write(self, octets: bytes) -> None:
        """Sends bytes."""
        before = self._connection.gettimeout()
        self._connection.settimeout(SECONDS_TO_WRITE)
        try:
            self._connection.sendall(octets)
        except OSError:
            raise Gone from None
        finally:
            self._connection.settimeout(before)

    def send(self, payload: str) -> None:
        """Sends a packet."""
        self._sent = framed(payload)
        self._write(self._sent)

    def receive(self) -> str:
        """The next request. An interrupt is none: what it would end has ended."""
        while True:
            start = self._held.find(b'$')
            if not self._is_dropping and b'-' in (self._held if start < 0 else self._held[:start]) and self.has_acknowledgements:
                self._write(self._sent)
            self._held = self._held[start:] if start >= 0 else self._held if self._is_dropping else b''
            end = self._held.find(b'#')
            if 0 <= end <= len(self._held) - 3:
                octets, digits = self._held[1:end], self._held[end + 1 : end + 3]
                self._held = self._held[end + 3 :]
                found = self._judged(octets, digits)
                if found is not None:
                    return found
                continue
            if end < 0 and len(self._held) > MOST_BYTES:
                self._held, self._is_dropping = b'$', True
            self._more()

    def _judged(self, octets: bytes, digits: bytes) -> str | None:
        """A packet's request, or nothing where it was too long or its sum is wrong."""
        is_right = not self._is_dropping and len(octets) <= MOST_BYTES and digits.lower() == b'%02x' % (sum(octets) % 256)
        self._is_dropping = False
        if self.has_acknowledgements:
            self._write(b'+' if is_right else b'-')
        return unescaped(octets).decode('latin-1') if is_right else None

    def is_interrupted(self) -> bool:
        """Whether the client has asked to end the run that is under way."""
        if select.select([self._connection], [], [], 0)[0]:
            self._more()
        found = INTERRUPT in self._held
        self._held = self._held.replace(INTERRUPT, b'')
        return found
