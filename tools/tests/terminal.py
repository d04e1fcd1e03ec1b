"""A terminal of some rows and columns over a pty, in which a tool is started: what is typed goes to it, and what it draws is read as
a grid of signs with their attributes, as ECMA-48 and xterm's control sequences say."""
from __future__ import annotations

import codecs
import contextlib
import fcntl
import os
import pty
import re
import select
import signal
import struct
import termios
import time
from typing import Callable

from tests.support import SECONDS

BOLD, UNDERLINE, BLINK, REVERSE = 1, 4, 5, 7
SEQUENCE = re.compile(r'\x1b(?:\[([?>=]?)([\d;]*)([@-~])|[()][0-9A-B]|\][^\x07\x1b]*(?:\x07|\x1b\\)|[=>78M])')
UNFINISHED = re.compile(r'\x1b(?:\[[?>=]?[\d;]*|[()]|\][^\x07\x1b]*)?\Z')


class Grid:
    """What a terminal shows."""

    def __init__(self, rows: int, columns: int, charset: str) -> None:
        self.rows, self.columns = rows, columns
        self.cells = [self._blank() for _ in range(rows)]
        self.row = self.column = 0
        self.is_cursor_shown = True
        self._style, self._rest, self._decoder = frozenset[int](), '', codecs.getincrementaldecoder(charset)('replace')
        self.read = ''

    def _blank(self) -> list[tuple[str, frozenset[int]]]:
        return [(' ', frozenset[int]())] * self.columns

    def resized(self, rows: int, columns: int) -> None:
        """Another size: what it showed is drawn anew by the tool."""
        self.rows, self.columns = rows, columns
        self.cells = [self._blank() for _ in range(rows)]
        self.row, self.column = min(self.row, rows - 1), min(self.column, columns - 1)

    def lines(self) -> list[str]:
        """The rows, without blanks at their ends."""
        return [''.join(sign for sign, _ in row).rstrip() for row in self.cells]

    def style_at(self, row: int, column: int) -> frozenset[int]:
        """A cell's attributes, by their numbers in SGR."""
        return self.cells[row][column][1]

    def feed(self, octets: bytes) -> None:
        """Takes what the tool has written."""
        text = self._rest + self._decoder.decode(octets)
        self.read += text
        self._rest, at = '', 0
        while at < len(text):
            if text[at] != '\x1b':
                self._sign(text[at])
                at += 1
            elif found := SEQUENCE.match(text, at):
                self._do(found)
                at = found.end()
            elif UNFINISHED.match(text, at):
                self._rest = text[at:]
                return
            else:
                raise ValueError(f'unknown sequence {text[at:at + 20]!r}')

    def _sign(self, sign: str) -> None:
        if sign == '\r':
            self.column = 0
        elif sign == '\n':
            if self.row == self.rows - 1:
                self.cells = [*self.cells[1:], self._blank()]
            else:
                self.row += 1
        elif sign == '\b':
            self.column = max(0, self.column - 1)
        elif sign == '\t':
            self.column = min(self.columns - 1, self.column // 8 * 8 + 8)
        elif sign >= ' ':
            if self.column == self.columns:
                self._sign('\r')
                self._sign('\n')
            self.cells[self.row][self.column] = sign, self._style
            self.column += 1

    def _do(self, found: re.Match[str]) -> None:
        """A control sequence."""
        _, words, last = found.groups()
        if last is None:
            return
        numbers = [int(each or 0) for each in words.split(';')] if words else [0]
        one = max(1, numbers[0])
        column = min(self.column, self.columns - 1)
        if last == 'H':
            self.row = min(one, self.rows) - 1
            self.column = min(max(1, numbers[1] if len(numbers) > 1 else 1), self.columns) - 1
        elif last in 'AB':
            self.row = min(max(self.row + (-one if last == 'A' else one), 0), self.rows - 1)
        elif last in 'CD':
            self.column = min(max(column + (-one if last == 'D' else one), 0), self.columns - 1)
        elif last == 'G':
            self.column = min(one, self.columns) - 1
        elif last == 'd':
            self.row = min(one, self.rows) - 1
        elif last in 'JKX':
            self._erase(last, numbers[0], column)
        elif last in 'P@':
            row = self.cells[self.row]
            blank = self._blank()[:one]
            row[column:] = (row[column + one :] + blank) if last == 'P' else (blank + row[column:])[: self.columns - column]
        elif last == 'b':
            for _ in range(one):
                self._sign(self.cells[self.row][self.column - 1][0])
        elif last == 'm':
            for number in numbers:
                self._style = frozenset[int]() if number == 0 else self._style | {number}
        elif last in 'hl' and numbers == [25]:
            self.is_cursor_shown = last == 'h'

    def _erase(self, kind: str, number: int, column: int) -> None:
        """Erases in the row, or in the display."""
        row, blank = self.cells[self.row], self._blank()
        if kind == 'X':
            row[column : column + max(1, number)] = blank[: min(max(1, number), self.columns - column)]
        elif number == 0:
            row[column:] = blank[column:]
        elif number == 1:
            row[: column + 1] = blank[: column + 1]
        else:
            row[:] = blank
        if kind == 'J':
            gone = range(self.row + 1, self.rows) if number == 0 else range(self.row) if number == 1 else range(self.rows)
            for at in gone:
                self.cells[at] = self._blank()


class Terminal:
    """A tool in a terminal."""

    def __init__(self, words: list[str], rows: int = 30, columns: int = 90, charset: str = 'utf-8', **more: str) -> None:
        self.grid = Grid(rows, columns, charset)
        self.pid, self.handle = pty.fork()
        if self.pid == 0:
            self._set_size(0, rows, columns)
            os.execvpe(words[0], words, os.environ | {'TERM': 'xterm', 'LANG': 'C.UTF-8', 'LC_ALL': ''} | more)
        self.status: int | None = None

    def resize(self, rows: int, columns: int) -> None:
        """Another size, as a window's frame gives it."""
        self.grid.resized(rows, columns)
        self._set_size(self.handle, rows, columns)

    @staticmethod
    def _set_size(handle: int, rows: int, columns: int) -> None:
        fcntl.ioctl(handle, termios.TIOCSWINSZ, struct.pack('HHHH', rows, columns, 0, 0))

    def type(self, text: str) -> None:
        """Types signs, or what a terminal sends for other keys."""
        os.write(self.handle, text.encode('utf-8', 'surrogateescape'))

    def look(self, seconds: float = 0.05) -> bool:
        """Reads what has come; whether the tool is still there."""
        if self.status is not None:
            return False
        if select.select([self.handle], [], [], seconds)[0]:
            with contextlib.suppress(OSError):
                if octets := os.read(self.handle, 1 << 16):
                    self.grid.feed(octets)
                    return True
            self.status = os.waitstatus_to_exitcode(os.waitpid(self.pid, 0)[1])
        return self.status is None

    def until(self, holds: Callable[[Grid], object]) -> bool:
        """Waits until something is seen, and tells whether it is."""
        last = time.monotonic() + SECONDS
        while not holds(self.grid) and time.monotonic() < last:
            if not self.look():
                return bool(holds(self.grid))
        return bool(holds(self.grid))

    def ended(self) -> int:
        """Waits for the tool's end, and returns its status."""
        last = time.monotonic() + SECONDS
        while self.look() and time.monotonic() < last:
            pass
        if self.status is None:
            self.close()
        assert self.status is not None
        return self.status

    def hang_up(self) -> None:
        """The terminal is closed."""
        os.close(self.handle)
        self.handle = -1

    def close(self) -> None:
        """Ends it."""
        if self.status is None:
            os.kill(self.pid, signal.SIGKILL)
            self.status = os.waitstatus_to_exitcode(os.waitpid(self.pid, 0)[1])
        if self.handle >= 0:
            os.close(self.handle)
            self.handle = -1
