"""The screen with its attributes: what each cell shows is the report's, and its attribute that of the word of text memory
which it shows."""
from __future__ import annotations

import functools
from typing import NamedTuple

from toolbox.chips import Chips
from toolbox.program import Files, ProbeSession
from toolbox.report import COLUMNS, Report

TEXT_MEMORY, WORDS = 0xB0000, 2048


class Cell(NamedTuple):
    """A cell as the display shows it (IBM PC Technical Reference, "IBM Monochrome Display and Parallel Printer Adapter")."""

    sign: str
    is_bright: bool = False
    is_underlined: bool = False
    is_reverse: bool = False


@functools.cache
def cell_of(sign: str, attribute: int) -> Cell:
    """A character with its attribute: bit 3 is bright, foreground 1 on black is underlined, 0 on 7 is reverse."""
    return Cell(sign, bool(attribute & 8), attribute & 0x77 == 1, attribute & 0x77 == 0x70)


def shown(memory: bytes, word: int) -> str:
    """The character that a word of text memory shows (docs/chips.md, "The text adapter")."""
    code, attribute = memory[2 * word], memory[2 * word + 1]
    if code == 0 or attribute & 0x77 == 0:
        return ' '
    return chr(code) if 0x20 <= code <= 0x7E else '.'


def start_of(chips: Chips) -> int | None:
    """The word of text memory that the adapter shows first, or None if it shows nothing."""
    adapter = chips.lines['adapter']
    return int(adapter['start'], 16) % WORDS if adapter['video'] == '1' else None


def cells_at(screen: list[str], memory: bytes = b'', start: int | None = None) -> list[list[Cell]]:
    """The screen's cells where the adapter starts at this word; without one no attributes are known."""
    if start is None:
        return [[Cell(sign) for sign in line] for line in screen]
    attributes = (memory + memory)[2 * start + 1 :: 2]
    return [[cell_of(sign, attributes[COLUMNS * row + column]) for column, sign in enumerate(line)] for row, line in enumerate(screen)]


def cells_of(files: Files, report: Report) -> list[list[Cell]]:
    """The cells at the report's clock, from a session's memory and adapter."""
    with ProbeSession(files) as session:
        session.go_to(report.clock)
        return cells_at(report.screen, session.dump(TEXT_MEMORY, 2 * WORDS), start_of(Chips(session.answers(['chips']))))
