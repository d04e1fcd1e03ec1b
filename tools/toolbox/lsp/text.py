"""A document as the protocol has it: lines that end with LF, CR LF or CR, and places in them that count UTF-16 units."""
from __future__ import annotations

import functools
import re
from bisect import bisect_left, bisect_right
from dataclasses import dataclass
from typing import Any

from toolbox.lsp.asked import Unfit, number, want

END = re.compile(r'\r\n|\n|\r')
Fields = dict[str, Any]
Place = tuple[int, int]  # a line and a column in characters, both from 0


@functools.lru_cache(maxsize=1 << 12)
def wide(line: str) -> list[int]:
    """The columns of a line's characters that take two UTF-16 units."""
    return [] if line.isascii() else [at for at, sign in enumerate(line) if sign > '\uffff']


def units(line: str, column: int) -> int:
    """The column in UTF-16 units of one in characters."""
    return column if line.isascii() else column + bisect_left(wide(line), column)


def characters(line: str, column: int) -> int:
    """The column in characters of one in UTF-16 units; one past the end, or inside a character, is the next one before."""
    before = 0
    for at in wide(line):
        if column <= at + before:
            break
        if column == at + before + 1:
            return at
        before += 1
    return min(column - before, len(line))


@dataclass(frozen=True)
class Text:
    """A document's text, its lines without their ends, and where each begins."""

    whole: str
    lines: list[str]
    starts: list[int]

    @staticmethod
    def of(whole: str) -> Text:
        """A text by its characters."""
        ends = list(END.finditer(whole))
        starts = [0, *(end.end() for end in ends)]
        return Text(whole, [whole[a:b] for a, b in zip(starts, [*(end.start() for end in ends), len(whole)])], starts)

    def place(self, position: Any) -> Place:
        """A position of the protocol. One past the end of its line, or of the text, is that end."""
        line, column = number(position, 'line'), number(position, 'character')
        if line >= len(self.lines):
            return len(self.lines) - 1, len(self.lines[-1])
        return line, characters(self.lines[line], column)

    def position(self, line: int, column: int) -> Fields:
        """A place as the protocol has it."""
        return {'line': line, 'character': units(self.lines[line], column)}

    def range(self, line: int, first: int, last: int) -> Fields:
        """A stretch of a line."""
        return {'start': self.position(line, first), 'end': self.position(line, last)}

    def lines_range(self, first: int, last: int) -> Fields:
        """From the beginning of a line to the end of another."""
        return {'start': self.position(first, 0), 'end': self.position(last, len(self.lines[last]))}

    def offset(self, position: Any) -> int:
        """Where a position is in the whole text."""
        line, column = self.place(position)
        return self.starts[line] + column

    def changed(self, change: Any) -> Text:
        """The text after one of a client's changes."""
        new = want(change, 'text', str)
        if change.get('range') is None:
            return Text.of(new)
        span = want(change, 'range', dict)
        first, last = self.offset(span.get('start')), self.offset(span.get('end'))
        if last < first:
            raise Unfit('a range ends before it begins')
        return Text.of(self.whole[:first] + new + self.whole[last:])

    def line_of(self, program_line: int) -> int:
        """The line, from 0, of one that the program tells: it counts from 1, and by LF alone."""
        if '\r' not in self.whole:
            return min(program_line - 1, len(self.lines) - 1)
        at = 0
        for _ in range(program_line - 1):
            at = self.whole.find('\n', at) + 1
            if not at:
                return len(self.lines) - 1
        return bisect_right(self.starts, at) - 1
