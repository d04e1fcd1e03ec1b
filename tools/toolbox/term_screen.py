"""The board's screen in a terminal's window: text memory from the adapter's start address on, with its attributes and cursor. It is
drawn where it has changed alone."""
from __future__ import annotations

import contextlib
import curses
import itertools
import unicodedata
from dataclasses import dataclass
from typing import Any

from toolbox.chips import Chips
from toolbox.command import Sorry
from toolbox.report import COLUMNS, ROWS
from toolbox.session_board import SessionBoard
from toolbox.text_memory import TEXT_MEMORY, WORDS, cell_of

# The character generator's signs (IBM PC Technical Reference, "Of Characters, Keystrokes, and Color").
GRAPHIC = ' \u263a\u263b\u2665\u2666\u2663\u2660\u2022\u25d8\u25cb\u25d9\u2642\u2640\u266a\u266b\u263c'
GRAPHIC += '\u25ba\u25c4\u2195\u203c\u00b6\u00a7\u25ac\u21a8\u2191\u2193\u2192\u2190\u221f\u2194\u25b2\u25bc'
SIGNS = GRAPHIC + bytes(range(0x20, 0x7F)).decode('ascii') + '\u2302' + bytes(range(0x80, 0xFF)).decode('cp437') + ' '
BLINKS, ROW = 0x80, 2 * COLUMNS  # an attribute's bit, and a row's bytes
PLAIN = {'HORIZONTAL': '-', 'VERTICAL': '|'}  # lines where a terminal has no line signs


@dataclass(frozen=True)
class Look:
    """What the adapter shows: the bytes of its 25 rows, and the cursor's row and column, if it is on the screen; and the processor's
    state."""

    octets: bytes
    cursor: tuple[int, int] | None
    state: str = 'running'


def look_at(board: SessionBoard) -> Look:
    """The board's screen now, by one question."""
    lines = board.many(f'dump {TEXT_MEMORY:X} {2 * WORDS}\nchips')
    count = 2 * WORDS // 16
    if len(lines) <= count or lines[count].startswith('fault'):
        raise Sorry(f'the board refuses to show its screen: {lines[-1]}')
    chips = Chips(lines[count:])
    adapter = chips.lines['adapter']
    start, cursor = int(adapter['start'], 16) % WORDS, int(adapter['cursor'], 16) % WORDS
    place = (cursor - start) % WORDS
    memory = bytes.fromhex(''.join([each[7:] for each in lines[:count]]))
    octets = (memory + memory)[2 * start : 2 * start + ROWS * ROW] if adapter['video'] == '1' else bytes(ROWS * ROW)
    return Look(octets, divmod(place, COLUMNS) if place < ROWS * COLUMNS else None, chips.state)


def shown(code: int, attribute: int) -> str:
    """The sign of a cell."""
    return SIGNS[code] if attribute & 0x77 else ' '


def style_of(attribute: int) -> int:
    """An attribute as curses has it."""
    cell = cell_of(' ', attribute)
    style = curses.A_BOLD if cell.is_bright else curses.A_NORMAL
    style |= curses.A_UNDERLINE if cell.is_underlined else 0
    style |= curses.A_REVERSE if cell.is_reverse else 0
    return style | (curses.A_BLINK if attribute & BLINKS and attribute & 0x77 else 0)


def pieces(row: bytes) -> list[tuple[str, int]]:
    """A row as stretches of one attribute."""
    found = list[tuple[str, int]]()
    for attribute, them in itertools.groupby(zip(row[::2], row[1::2]), lambda each: each[1]):
        found.append((''.join([shown(code, attribute) for code, _ in them]), attribute))
    return found


def plain(sign: str, charset: str) -> str:
    """A sign, or one like it if the terminal's character set hasn't it."""
    with contextlib.suppress(UnicodeEncodeError):
        sign.encode(charset)
        return sign
    name, (bare, *more) = unicodedata.name(sign, ''), unicodedata.normalize('NFKD', sign)
    if name.startswith('BOX DRAWINGS'):
        kinds = {mark for word, mark in PLAIN.items() if word in name and ' AND ' not in name}
        return kinds.pop() if kinds else '+'
    return '#' if 'BLOCK' in name or 'SHADE' in name else bare if bare.isascii() and all(map(unicodedata.combining, more)) else '.'


class Window:
    """The part of the screen that a terminal has room for, and below it a line of the tool's own, if there is room."""

    def __init__(self, window: Any, charset: str) -> None:
        self._window, self._signs = window, str.maketrans({each: plain(each, charset) for each in set(SIGNS)})
        self._rows, self._corner, self._line = list[bytes](), (0, 0), ''
        self.resized()

    def resized(self) -> None:
        """The terminal has another size: all is drawn anew."""
        self.height, self.width = self._window.getmaxyx()
        self._rows, self._line = [b''] * ROWS, ''
        self._window.erase()
        self._window.clearok(True)

    @property
    def has_room(self) -> bool:
        """Whether the whole screen is seen."""
        return self.height >= ROWS and self.width >= COLUMNS

    def draw(self, look: Look, line: str) -> None:
        """Draws what has changed, and the cursor. The line stands in the terminal's last row, also over one of the screen."""
        self._scroll(look)
        top, left = self._corner
        for row in range(min(ROWS, self.height - bool(line))):
            octets = look.octets[(top + row) * ROW : (top + row + 1) * ROW]
            if octets != self._rows[row]:
                self._rows[row] = octets
                self._draw_row(row, octets[2 * left : 2 * (left + self.width)])
        if line != self._line:
            self._line = line
            if line:
                self.write(self.height - 1, line)
        self._place_cursor(look.cursor)
        self._window.refresh()

    def _scroll(self, look: Look) -> None:
        """In a small terminal the part is seen in which the cursor is."""
        row, column = look.cursor or (0, 0)
        corner = max(0, min(row - self.height + 2, ROWS - self.height)), max(0, min(column - self.width + 2, COLUMNS - self.width))
        if corner != self._corner:
            self._corner, self._rows = corner, [b''] * ROWS

    def _draw_row(self, row: int, octets: bytes) -> None:
        """Draws a row of the part."""
        column = 0
        for text, attribute in pieces(octets):
            with contextlib.suppress(curses.error):  # as at the last cell, behind which there is no place for the cursor
                self._window.addstr(row, column, text.translate(self._signs), style_of(attribute))
            column += len(text)

    def _place_cursor(self, cursor: tuple[int, int] | None) -> None:
        """Puts the terminal's cursor where the board's is, if that is seen."""
        row, column = (cursor[0] - self._corner[0], cursor[1] - self._corner[1]) if cursor else (-1, -1)
        is_seen = 0 <= row < self.height and 0 <= column < self.width
        with contextlib.suppress(curses.error):  # some terminals have no cursor that can be hidden
            curses.curs_set(1 if is_seen else 0)
        if is_seen:
            with contextlib.suppress(curses.error):  # as where the terminal has become smaller just now
                self._window.move(row, column)

    def at(self, row: int, column: int) -> None:
        """Puts the terminal's cursor at a place of a line of the tool's own."""
        with contextlib.suppress(curses.error):
            curses.curs_set(1)
        with contextlib.suppress(curses.error):
            self._window.move(row, min(column, self.width - 1))
        self._window.refresh()

    def write(self, row: int, text: str, style: int = curses.A_DIM) -> None:
        """Writes a line of the tool's own over a row."""
        if not 0 <= row < self.height:
            return
        with contextlib.suppress(curses.error):
            self._window.move(row, 0)
            self._window.clrtoeol()
            self._window.addnstr(row, 0, text.translate(self._signs), self.width - 1, style)
        if row < ROWS:
            self._rows[row] = b'over'

    def page(self, lines: list[str]) -> None:
        """Shows lines in the screen's place; the next drawing has the screen again."""
        self._window.erase()
        for row, text in enumerate(lines[: self.height]):
            self.write(row, text, curses.A_NORMAL)
        self._rows, self._line = [b'over'] * ROWS, ''
        self._window.refresh()
