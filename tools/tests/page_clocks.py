"""What an instruction costs by either table of clocks, after docs/machine.md: which of the page's rows its bytes are of, and its parts."""
from __future__ import annotations

import functools
import re
from dataclasses import dataclass

from toolbox.lsp.instructions import Row, rows

PREFIXES = {0x26: 'ES:', 0x2E: 'CS:', 0x36: 'SS:', 0x3E: 'DS:', 0xF0: 'LOCK', 0xF2: 'REPNE', 0xF3: 'REP'}
REPEATS = (0xF2, 0xF3)
WAYS = {'+r': (1, 8), '+8s': (8, 4), '+n/8': (1, 8)}
BYTES = re.compile(r'([0-9A-F]{2})h(\+r|\+8s|\+n/8|)(?:,? /(\d|[rs]|\(n mod 8\)))?')
WORD, PREFIX, START, SHIFT, FAILED, ENTRY = 4, 2, 9, 4, 51, 5
ADDRESS = {'direct': 6, 'one register': 5, 'two registers': 7}
DISPLACEMENT = 4
MOST_COUNT = {'CL': 255, 'elements': 65535}
# Words of data in memory, by the operands a and b that are words there.
READ_ALONE, TWO_EACH = ('CMP', 'TEST', 'MOV', 'MUL', 'IMUL', 'DIV', 'IDIV', 'JMP'), ('XCHG',)
FIRST_TWICE = tuple('ADD ADC SUB SBB AND OR XOR INC DEC NEG NOT ROL ROR RCL RCR SHL SHR SAR'.split())
ONE_MORE = ('PUSH', 'POP', 'CALL')
FIXED = {'LES': 2, 'LDS': 2, 'PUSHF': 1, 'POPF': 1, 'RET': 1, 'RETF': 2, 'IRET': 3, 'INT': ENTRY, 'INT3': ENTRY}
FIXED |= {'MOVSW': 2, 'CMPSW': 2, 'STOSW': 1, 'LODSW': 1, 'SCASW': 1}


@dataclass(frozen=True)
class Instruction:
    """The bytes of an instruction: its prefixes, its row, and mod, reg, r/m if there is one."""

    prefixes: tuple[int, ...]
    row: Row
    place: int | None

    @property
    def is_memory(self) -> bool:
        """Whether r/m is memory."""
        return self.place is not None and self.place < 0xC0

    @property
    def is_repeated(self) -> bool:
        """Whether it is a string instruction under a repeat prefix."""
        return any(prefix in REPEATS for prefix in self.prefixes) and self.row.names[0][:4] in ('CMPS', 'LODS', 'MOVS', 'SCAS', 'STOS')


def has_place(row: Row) -> bool:
    """Whether a second byte mod, reg, r/m follows."""
    return '/' in row.octets.replace('+n/8', '')


@functools.cache
def by_opcode() -> dict[tuple[int, int | None], Row]:
    """The rows by opcode, and by the digit of the second byte if that names one."""
    found = dict[tuple[int, int | None], Row]()
    for row in rows():
        shape = BYTES.match(row.octets)
        assert shape, row
        step, count = WAYS.get(shape[2], (1, 1))
        for number in range(count):
            digit = int(shape[3]) if shape[3] and shape[3].isdigit() else None
            found.setdefault((int(shape[1], 16) + step * number, digit), row)
    return found


def instruction_of(octets: bytes) -> Instruction | None:
    """The instruction that these bytes begin with, or None."""
    at = 0
    while at < len(octets) and octets[at] in PREFIXES:
        at += 1
    prefixes, rest = tuple(octets[:at]), octets[at:]
    if not rest:
        return None
    place = rest[1] if len(rest) > 1 else None
    digit = place >> 3 & 7 if place is not None else None
    row = by_opcode().get((rest[0], digit)) or by_opcode().get((rest[0], None))
    return Instruction(prefixes, row, place if has_place(row) else None) if row else None


@dataclass(frozen=True)
class Cost:
    """The clocks of an instruction: parts that are always there, each with its reason; and what data decide: a number and what it is counted
    by; or what it must do for them to be these, and what it costs otherwise; or what a failed division adds."""

    parts: tuple[tuple[int, str], ...]
    each: tuple[int, str] | None = None
    otherwise: tuple[str, int] | None = None
    failed: int | None = None

    @property
    def fixed(self) -> int:
        """The parts' sum."""
        return sum(clocks for clocks, _ in self.parts)

    def __str__(self) -> str:
        if self.otherwise is not None:
            return f'{self.fixed} if it {self.otherwise[0]}, else {self.otherwise[1]}'
        text = f'{self.fixed}'
        if self.each:
            times, by = self.each
            text += f' + {times} × {by}, {self.fixed} to {self.fixed + times * MOST_COUNT[by]:,}'
        if len(self.parts) > 1:
            text += ' (' + ', '.join(f'{what} {clocks}' for clocks, what in self.parts) + ')'
        return text + (f'; {self.failed} more if it fails' if self.failed else '')


def address_parts(place: int) -> list[tuple[int, str]]:
    """What the address of mod and r/m costs."""
    mod, rm = place >> 6, place & 7
    kind = 'direct' if mod == 0 and rm == 6 else 'one register' if rm > 3 else 'two registers'
    return [(ADDRESS[kind], f'address by {kind}' if kind != 'direct' else 'direct address')] + ([(DISPLACEMENT, 'displacement')] if mod in (1, 2) else [])


def words_of(instruction: Instruction) -> int:
    """How many words of data a step, or an element of a repeat, reads and writes in memory."""
    name, kinds = instruction.row.names[0], instruction.row.kinds
    is_word = [kind == 'rm16' and instruction.is_memory or kind == '[n]' and 'AX' in kinds for kind in kinds] + [False, False]
    a, b = int(is_word[0]), int(is_word[1])
    if name in FIXED:
        return FIXED[name]
    if ' FAR' in name:
        return 2 * (kinds == ['m']) + 2 * (name == 'CALL FAR')
    if name in FIRST_TWICE or name in TWO_EACH:
        return 2 * a + (2 * b if name in TWO_EACH else b)
    return a + b if name in READ_ALONE else a + 1 if name in ONE_MORE else 0


def own_parts(instruction: Instruction) -> tuple[list[tuple[int, str]], str]:
    """The row's own clocks with those of an address, and the rest of what the page says of them."""
    register, _, memory = instruction.row.clocks.partition('; ')
    text = (memory or register) if instruction.is_memory else register
    number = re.match(r'\d+', text)
    assert number, instruction.row
    parts = [(int(number[0]), 'memory' if instruction.is_memory else 'itself')]
    return parts + (address_parts(instruction.place) if instruction.is_memory and instruction.place is not None else []), text


def cost_of(instruction: Instruction, is_second: bool) -> Cost:
    """What it costs by the first table, or by the second."""
    parts, text = own_parts(instruction)
    words = words_of(instruction) if is_second else 0
    before = [(PREFIX * len(instruction.prefixes), 'prefixes')] if instruction.prefixes else []
    if instruction.is_repeated:
        again = re.search(r'repeated (\d+)', text)
        element = (int(again[1]) if again else parts[0][0]) + WORD * words
        return Cost((*before, (START, 'start of the repeat')), (element, 'elements'))
    data = [(WORD * words, f'{words} word{"s" * (words > 1)} of data')] if words else []
    other = re.search(r'else (\d+)', text)
    if other:
        enters = instruction.row.names == ('INTO',)
        data = [(ENTRY * WORD, f'{ENTRY} words of data')] if is_second and enters else []
        return Cost((*before, *parts, *data), otherwise=('enters' if enters else 'jumps', int(other[1]) + sum(n for n, _ in before)))
    each = (SHIFT, 'CL') if '×CL' in text else None
    failed = FAILED + (ENTRY * WORD if is_second else 0) if instruction.row.names[0] in ('DIV', 'IDIV') else None
    return Cost((*before, *parts, *data), each, failed=failed)
