"""The table of instructions of docs/machine.md: each row's mnemonics, operands, bytes, clocks, effect and flags."""
from __future__ import annotations

import functools
import re
from dataclasses import dataclass, replace

from toolbox.command import read_text
from toolbox.program import TOP


@dataclass(frozen=True)
class Row:
    """One way to write an instruction: what the page has of it."""

    names: tuple[str, ...]
    operands: str
    octets: str
    clocks: str
    does: str
    flags: str

    @property
    def kinds(self) -> list[str]:
        """Its operands, parted."""
        return self.operands.split(',') if self.operands else []


def table(page: str, head: str) -> list[list[str]]:
    """The cells of a page's table whose first line begins so."""
    lines = page.partition(f'\n{head}')[2].partition('\n\n')[0].splitlines()[2:]
    return [line[1:-1].split('|') for line in lines]


def parted(cell: str, count: int) -> list[str]:
    """A cell's alternatives, so many; one that stands alone is that of all."""
    found = cell.split('; ')
    found = found if len(found) == count else cell.split(', ')
    return found if len(found) == count else [cell] * count


def expanded(row: Row, forms: list[list[str]], k: str) -> list[Row]:
    """A row of arithmetic or shift instructions as one for each form, with k in its place."""
    found = list[Row]()
    for operands, octets, clocks in forms:
        operands, _, those = operands.partition(': ')
        if operands.startswith('decoded') or those and row.names[0] not in those.split(', '):
            continue
        mine = re.search(rf', {row.names[0]} (.*)', clocks)
        first, _, memory = re.sub(r', [A-Z]+ .*', '', clocks).partition('; ')
        clocks = '; '.join(filter(None, (first, mine[1] if mine else memory)))
        octets = re.sub(r'([0-9A-F]{2})h\+8k', lambda match: f'{int(match[1], 16) + 8 * int(k):02X}h', octets)
        found.append(replace(row, operands=operands, octets=octets.replace('/k', f'/{k}'), clocks=clocks))
    return found


def jumps(row: Row, conditions: list[list[str]]) -> list[Row]:
    """The row of conditional jumps as one for each condition."""
    found = list[Row]()
    for cells in conditions:
        for name, does in (cells[:2], cells[2:]):
            number, _, names = name.partition(' ')
            opcode = 0x70 + int(number.rstrip('h'), 16)
            found.append(replace(row, names=tuple(names.split(', ')), octets=f'{opcode:02X}h rel8', does=f'jumps where {does}'))
    return found


@functools.cache
def rows() -> list[Row]:
    """All rows, each alternative of a line by itself, in the order of the page."""
    page = read_text(f'{TOP}/docs/machine.md')
    forms = {name: table(page, f'|{name}|') for name in ('arithmetic', 'shift')}
    found, does, flags, before = list[Row](), '', '', ''
    for names, operands, octets, clocks, what, changed in table(page, '|Mnemonic|'):
        does, flags = (what, changed) if names != before else (what or does, changed or flags)
        row, before = Row(tuple(names.split(', ')), operands, octets, clocks, does, flags), names
        if operands in forms:
            found += expanded(row, forms[operands], octets.removeprefix('k='))
        elif names == 'Jcc':
            found += jumps(row, table(page, '|c|'))
        else:
            found.append(row)
    return [one for row in found for one in alternatives(row)]


def alternatives(row: Row) -> list[Row]:
    """A line's alternatives, each with its bytes, and its mnemonic where each has its own."""
    given = row.operands.split('; ')
    count = len(given) if len(given) > 1 else len(row.names) if ', ' in row.octets and not row.operands else 1
    own = not row.operands and count > 1
    return [
        replace(row, names=(row.names[at],) if own else row.names, operands=given[at % len(given)], octets=octets)
        for at, octets in enumerate(parted(row.octets, count) if count > 1 else [row.octets])
    ]


@functools.cache
def by_name() -> dict[str, list[Row]]:
    """The rows by mnemonic."""
    found = dict[str, list[Row]]()
    for row in rows():
        for name in dict.fromkeys(full_name.partition(' ')[0] for full_name in row.names):
            found.setdefault(name, []).append(row)
    return found


def forms_of(name: str) -> list[Row]:
    """The rows of a mnemonic."""
    return by_name().get(name.upper(), [])
