"""What answers at a port, and what a byte that is written there says, after docs/machine.md and docs/chips.md."""
from __future__ import annotations

import functools
import re

from toolbox.command import read_text
from toolbox.lsp.instructions import table
from toolbox.program import TOP
from toolbox.tables import tables

LEVELS = 8
BITS = re.compile(r'\{(?:(\d)\.(\d)(?:\?([^}]*))?|([&|])(\w\w))\}')


@functools.cache
def ports() -> dict[int, str]:
    """Each port with its chip and register."""
    found = dict[int, str]()
    for numbers, what in table(read_text(f'{TOP}/docs/machine.md'), '|Port|'):
        them = [int(number.rstrip('h'), 16) for number in numbers.split(', ') if re.fullmatch(r'[0-9A-F]+h', number)]
        found.update(zip(them, registers_of(what, len(them))))
    return found


def registers_of(what: str, count: int) -> list[str]:
    """The page's words for so many ports as one for each."""
    if by_line := re.fullmatch(r'(.* = )(\d) and (\d)', what):
        return [by_line[1] + by_line[2], by_line[1] + by_line[3]]
    if named := re.fullmatch(r'(\w+?)s (\w, \w, \w) of (.*)', what):
        return [f'{named[1]} {letter} of {named[3]}' for letter in named[2].split(', ')]
    if listed := re.fullmatch(r'(.*): (.*)', what):
        return [f'{listed[1]}, {part}' for part in listed[2].split(', ')]
    return [{'its control register': 'control register of the parallel port'}.get(what, what)] * count


@functools.cache
def modes() -> dict[int, str]:
    """The timer's modes by their names."""
    return {int(row[0].partition(', ')[0]): row[0].partition(', ')[2] for row in table(read_text(f'{TOP}/docs/chips.md'), '|Mode|Counts while|')}


def name_after(before: list[tuple[int, int]]) -> str:
    """The name of a word at 21h: by the words that were written before, each with its port, the next of a sequence, or the mask."""
    first = next((at for at in reversed(range(len(before))) if before[at][0] == 0x20 and before[at][1] & 0x10), None)
    if first is None:
        return 'OCW1'
    word, place = before[first][1], sum(port == 0x21 for port, _ in before[first:])
    sequence = ['ICW2'] + ([] if word & 2 else ['ICW3']) + (['ICW4'] if word & 1 else [])
    return sequence[place] if place < len(sequence) else 'OCW1'


def said_by(text: str, byte: int) -> str:
    """A text of port_words.json for a byte: `{4.2}` is the number in two bits from bit 4 on, `{4.2?a|b|c|d}` what is so by it, `{&F8}` and
    `{|07}` what these bits make of it."""

    def said(found: re.Match[str]) -> str:
        first, count, choices, sign, mask = found.groups()
        if sign:
            return f'{byte & int(mask, 16) if sign == "&" else byte | int(mask, 16):02X}'
        number = byte >> int(first) & (1 << int(count)) - 1
        return modes()[number & 3 if number & 2 else number] if choices == '@modes' else choices.split('|')[number] if choices else str(number)

    levels = ' '.join(f'IR{level}' for level in range(LEVELS) if byte >> level & 1)
    return BITS.sub(said, text.replace('{levels}', levels or 'none'))


def written(port: int, byte: int, before: list[tuple[int, int]]) -> str:
    """What a byte says that is written to a port, or nothing."""
    words = tables('port_words').get(name_after(before) if port == 0x21 else f'{port:X}', [])
    for mask, value, head, *parts in words:
        if byte & int(mask, 16) == int(value, 16):
            rest = ', '.join(filter(None, (said_by(part, byte) for part in parts)))
            return said_by(head, byte) + (rest or 'nothing' if parts else '')
    return ''
