"""A refused line in one line, in the form that compilers use and editors read: FILE:LINE: error: NAME: what to do; and what is
hardly meant of the others: FILE:LINE: warning: what it does."""
from __future__ import annotations

import re
from typing import Iterator

from toolbox.command import read_text
from toolbox.doubts import doubts
from toolbox.every import refused_lines
from toolbox.faults import Fault
from toolbox.hints import hint_of

TWICE_DEFINED = 6


def first_definition(lines: list[str], number: int) -> int | None:
    """The earlier line that defines what line `number` defines again."""
    name = re.match(r'\s*(?:SEGMENT\s+)?(\w+)', lines[number - 1], re.I)
    if not name:
        return None
    word = re.compile(rf'\s*(SEGMENT\s+)?{name[1]}\s*(:|\sEQU\b|\sAT\b)', re.I)
    return next((n for n, line in enumerate(lines[: number - 1], 1) if word.match(line)), None)


def what_to_do(lines: list[str], fault: Fault) -> str:
    """A hint by the line's look, else what the fault means."""
    text = lines[fault.line - 1] if fault.line and fault.line <= len(lines) else None
    advice = text is not None and hint_of(text, fault.number, lines) or fault.kind.meaning
    first = first_definition(lines, fault.line) if text is not None and fault.line and fault.number == TWICE_DEFINED else None
    return ' '.join((f'{advice}, first in line {first}' if first else advice).split())


def messages(path: str, is_told: bool = True) -> Iterator[tuple[int, str]]:
    """Each refused line of a source, with its message. A fault of the whole source stands at line 1."""
    lines = [line.rstrip('\r') for line in read_text(path).split('\n')]
    for fault, is_after in refused_lines(path, is_told):
        yield fault.line or 1, f'{fault.kind.name}: {what_to_do(lines, fault)}{judged(is_after)}'


def judged(is_after: bool) -> str:
    """What is said behind the message of a line that was judged without earlier ones."""
    return ' (where the refused lines above are blank)' if is_after else ''


def warnings(path: str, refused: set[int]) -> Iterator[tuple[int, str]]:
    """Each line of a source that the program takes, these being refused, and that is hardly meant."""
    lines = [line.rstrip('\r') for line in read_text(path).split('\n')]
    return ((doubt.line + 1, doubt.text) for doubt in doubts(lines) if doubt.line + 1 not in refused)
