"""What a register holds before a line, as far as the lines above it, with no label or jump between, put a constant there."""
from __future__ import annotations

from typing import Iterator

from toolbox.lsp.lines import Token
from toolbox.lsp.source import Source

HALVES = {'AX': ('AL', 'AH'), 'DX': ('DL', 'DH')}
LEAVING = ('CALL', 'INT', 'INT3', 'INTO', 'RET', 'RETF', 'IRET', 'JMP', 'HLT')
KEEPING = ('OUT', 'CMP', 'TEST', 'PUSH', 'NOP', 'CLI', 'STI', 'CLD', 'STD', 'CLC', 'STC', 'CMC')
MOST_LINES = 200
NO_OPERANDS_AX = ('CBW', 'CWD', 'AAA', 'AAS', 'AAM', 'AAD', 'DAA', 'DAS', 'LAHF', 'XLAT', 'LODSB', 'LODSW', 'MUL', 'IMUL', 'DIV', 'IDIV', 'POPF')


def above(source: Source, line: int) -> Iterator[int]:
    """The lines with a statement above a line, from the nearest one up, to a label or to what goes elsewhere."""
    for at in range(line, max(line - MOST_LINES, 0), -1):
        if source.lines[at].label:
            return
        parts = source.lines[at - 1]
        if parts.statement is None:
            continue
        if parts.does(*LEAVING) or parts.statement.kind == 'directive':
            return
        yield at - 1


def register_in(tokens: tuple[Token, ...]) -> str:
    """The register that an operand is, or nothing."""
    return tokens[0].key if len(tokens) == 1 and tokens[0].kind == 'register' else ''


def touches(first: str, register: str) -> bool:
    """Whether one of two registers is the other, or a half of it."""
    return first == register or register in HALVES.get(first, ()) or first in HALVES.get(register, ())


def held(source: Source, line: int, register: str) -> int | None:
    """The constant that a register holds before a line, or None if that isn't known."""
    for at in above(source, line):
        parts = source.lines[at]
        groups = parts.groups()
        if parts.does(*KEEPING) or not groups and not parts.does(*NO_OPERANDS_AX):
            continue
        first = register_in(groups[0]) if groups else ''
        if parts.does(*NO_OPERANDS_AX) or parts.does('XCHG') and touches(register_in(groups[-1]), register):
            return None
        if touches(first, register):
            value = source.value(groups[1]) if parts.does('MOV') and len(groups) == 2 else None
            if value is None or first != register and register not in HALVES.get(first, ()):
                return None
            value = value >> 8 if first != register and register.endswith('H') else value
            return value & (0xFF if register[1] in 'LH' else 0xFFFF)
    return None


def port_of(source: Source, line: int) -> int | None:
    """The port that a line's IN or OUT names, in its number or in DX."""
    parts, groups = source.lines[line], source.lines[line].groups()
    if not parts.does('IN', 'OUT') or len(groups) != 2:
        return None
    operand = groups[0] if parts.does('OUT') else groups[1]
    return held(source, line, 'DX') if register_in(operand) == 'DX' else source.value(operand)


def bytes_out(source: Source, line: int) -> list[tuple[int, int]]:
    """The ports and bytes that a line's OUT writes, where both are known: a word is two."""
    groups = source.lines[line].groups()
    port = port_of(source, line) if source.lines[line].does('OUT') else None
    register = register_in(groups[1]) if port is not None else ''
    value = held(source, line, register) if register in ('AL', 'AX') else None
    if port is None or value is None:
        return []
    return [(port, value & 0xFF)] + ([((port + 1) & 0xFFFF, value >> 8)] if register == 'AX' else [])


def bytes_before(source: Source, line: int) -> list[tuple[int, int]]:
    """The ports and bytes that the lines above write, in their order, as far as they are known."""
    return [pair for at in reversed(list(above(source, line))) if source.lines[at].does('OUT') for pair in bytes_out(source, at)]
