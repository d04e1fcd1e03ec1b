"""The door by which gdb comes in: a Unix socket in a room, to which no other user has a way, or a port, at which other users are sent
away. One client is served at a time; who comes meanwhile is sent away too."""
from __future__ import annotations

import collections
import os
import re
import select
import socket
import sys
import time

from toolbox.command import Sorry
from toolbox.gdb.wire import Gone, Wire

SECONDS_TO_SPEAK = 10
MOST_WAITING = 8
# What gdb takes for a socket's path: the kernel has room for so many bytes, and a colon would make it a host with a port.
PLAIN_PATH = re.compile(r'[\w./+-]{1,107}', re.ASCII)
# The kernel's tables of connections. In the second an address of the first kind stands behind these digits.
TABLE, SECOND_TABLE, MAPPED, ESTABLISHED = '/proc/net/tcp', '/proc/net/tcp6', '0000000000000000FFFF0000', '01'


class Door:
    """A listener, and who waits behind it."""

    def __init__(self, listener: socket.socket, target: str) -> None:
        self.listener, self.target = listener, target  # the latter as gdb's `target extended-remote` takes it
        self._waiting, self._told = collections.deque[socket.socket](), set[int | None]()

    def close(self) -> None:
        """Lets nobody in any more."""
        for connection in (self.listener, *self._waiting):
            connection.close()

    def next(self, gdb: int | None) -> socket.socket | None:
        """The next client; None once the process of a handle has ended."""
        while not self._waiting:
            ready = select.select([self.listener, *([] if gdb is None else [gdb])], [], [])[0]
            if gdb in ready:
                return None
            self.take(is_busy=False)
        return self._waiting.popleft()

    def take(self, is_busy: bool) -> None:
        """Lets in whoever stands before the door, or sends them away."""
        try:
            connection, _ = self.listener.accept()
        except OSError:
            return  # gone meanwhile
        if is_busy or len(self._waiting) >= MOST_WAITING or not self._is_users(connection):
            connection.close()
        else:
            self._waiting.append(connection)

    def _is_users(self, connection: socket.socket) -> bool:
        """Whether a connection is the user's own. Each other user is told of once."""
        user = None if connection.family == socket.AF_INET else os.geteuid()
        if connection.family == socket.AF_INET and (user := user_of(connection)) not in (os.geteuid(), *self._told):
            self._told.add(user)
            who = 'a client whose user is unknown' if user is None else f'another user of this machine, of number {user},'
            print(f'gdb: {who} was sent away', file=sys.stderr, flush=True)
        return user == os.geteuid()


def in_room(room: str) -> Door:
    """A door in a folder that no other user can enter. A longer path than a socket may have leads through an open handle of it, as other
    users can't go."""
    listener, path = socket.socket(socket.AF_UNIX), f'{room}/gdb'
    if not PLAIN_PATH.fullmatch(path):
        path = f'/proc/{os.getpid()}/fd/{os.open(room, os.O_PATH | os.O_DIRECTORY)}/gdb'
    listener.bind(path)
    return opened(listener, path)


def at_port(port: int) -> Door:
    """A door at a port of 127.0.0.1."""
    listener = socket.socket()
    try:
        listener.setsockopt(socket.SOL_SOCKET, socket.SO_REUSEADDR, 1)
        listener.bind(('127.0.0.1', port))
        with open(TABLE, 'rb'):
            pass  # without it nobody would be let in
        return opened(listener, f'127.0.0.1:{listener.getsockname()[1]}')
    except (OSError, OverflowError) as error:
        listener.close()
        raise Sorry(f"port {port} can't be served: {error}") from None


def opened(listener: socket.socket, target: str) -> Door:
    """A door with a listener that never waits for one who has gone."""
    listener.listen(MOST_WAITING)
    listener.setblocking(False)
    return Door(listener, target)


def user_of(connection: socket.socket) -> int | None:
    """The user whose connection within this machine it is, by the kernel's own table; None if it tells none, as of one that is ending."""
    try:
        ends = [f'{socket.inet_aton(host)[::-1].hex().upper()}:{port:04X}' for host, port in (connection.getpeername(), connection.getsockname())]
    except OSError:
        return None
    wanted = [*ends, ESTABLISHED], [*(f'{MAPPED}{end}' for end in ends), ESTABLISHED]
    rows = (line.split() for path in (TABLE, SECOND_TABLE) for line in lines_of(path))
    return next((int(row[7]) for row in rows if row[1:4] in wanted), None)


def lines_of(path: str) -> list[str]:
    """The lines of one of the kernel's tables; of one that isn't there none."""
    try:
        with open(path, encoding='ascii') as table:
            return table.readlines()
    except OSError:
        return []


class Heard(Wire):
    """A client's wire, beside which the door is watched. One that keeps silent is let go, and the next is served."""

    def __init__(self, connection: socket.socket, door: Door) -> None:
        super().__init__(connection)
        self._door, self.has_spoken, self._end = door, False, time.monotonic() + SECONDS_TO_SPEAK

    def receive(self) -> str:
        found = super().receive()
        self.has_spoken = True
        return found

    def is_interrupted(self) -> bool:
        found = super().is_interrupted()
        if select.select([self._door.listener], [], [], 0)[0]:
            self._door.take(is_busy=True)
        return found

    def _more(self) -> None:
        ready = list[socket.socket]()
        while self._connection not in ready:
            seconds = None if self.has_spoken else max(self._end - time.monotonic(), 0)
            ready = select.select([self._connection, self._door.listener], [], [], seconds)[0]
            if not ready:
                raise Gone
            if self._connection not in ready:  # else it may have gone, and the next is served
                self._door.take(is_busy=self.has_spoken)
        super()._more()
