"""What MAME 0.251's processor is known to do otherwise than docs/machine.md, instruction by instruction: when, where it shows, and
a case that always shows it."""
from __future__ import annotations

from collections.abc import Callable
from typing import NamedTuple

from parts.outside.instructions import FLAGS, NAMES, NUMBERS, WINDOW, Case, Difference

EVERYWHERE = frozenset((*NAMES, *(f'FL:{flag}' for flag in FLAGS), 'mark', 'data', 'stack'))
HALVES = ('AL', 'CL', 'DL', 'BL', 'AH', 'CH', 'DH', 'BH')
BY_NUMBER = {number: name for name, number in NUMBERS.items()}


class Flaw(NamedTuple):
    """A flaw: the rule that it breaks, what may differ then, when, and a witness."""

    name: str
    why: str
    where: frozenset[str]
    holds: Callable[[Case], bool]
    witness: Case


def has(case: Case, flag: str) -> bool:
    """Whether a case begins with a flag set."""
    return bool(case.flags >> FLAGS[flag] & 1)


def register(case: Case, number: int, is_word: bool) -> int:
    """A register as the instruction finds it."""
    if is_word:
        name = BY_NUMBER[number]
        return case.stack if name == 'SP' else case.registers.get(name, 0)
    return case.registers.get(f'{HALVES[number][0]}X', 0) >> (8 if number > 3 else 0) & 0xFF


def operand(case: Case, is_word: bool) -> int:
    """What the addressing byte names."""
    if case.code[1] >= 0xC0:
        return register(case, case.code[1] & 7, is_word)
    at = (case.place or WINDOW) - WINDOW
    return int.from_bytes(case.data[at : at + (2 if is_word else 1)], 'little')


def signed(number: int, bits: int) -> int:
    """A number as one with a sign."""
    return number - (1 << bits) if number >> (bits - 1) & 1 else number


def low(case: Case) -> int:
    """AL."""
    return case.registers.get('AX', 0) & 0xFF


def carried_source(case: Case) -> tuple[int, int]:
    """Of ADC and SBB with CF set: the second operand, and how many bits it has. Of others nothing."""
    if case.name.split()[0] not in ('ADC', 'SBB') or not has(case, 'C'):
        return 0, 0
    opcode, bits = case.code[0], 16 if case.code[0] & 1 else 8
    if opcode in (0x81, 0x15, 0x1D):
        return int.from_bytes(case.code[-2:], 'little'), bits
    if opcode >= 0x80 or opcode & 7 > 3:
        return signed(case.code[-1], 8) & ((1 << bits) - 1), bits
    return operand(case, bits == 16) if opcode & 2 else register(case, case.code[1] >> 3 & 7, bits == 16), bits


def carries_a_digit(case: Case) -> bool:
    """Whether that operand and CF leave its low digit."""
    source, bits = carried_source(case)
    return bits > 0 and source & 15 == 15


def carries_a_sign(case: Case) -> bool:
    """Whether they leave the signed numbers."""
    source, bits = carried_source(case)
    return bits > 0 and source == (1 << (bits - 1)) - 1


def has_no_quotient(case: Case) -> bool:
    """Of IDIV: whether its quotient doesn't fit."""
    if case.name != 'IDIV':
        return False
    bits = 16 if case.code[0] & 1 else 8
    divisor = signed(operand(case, bits == 16), bits)
    high = case.registers.get('DX', 0) if bits == 16 else 0
    dividend = signed(high << 16 | case.registers.get('AX', 0), 2 * bits) if bits == 16 else signed(case.registers.get('AX', 0), 16)
    return divisor == 0 or abs(dividend) // abs(divisor) >> (bits - 1) > 0


def is_judged_by_zero(case: Case) -> bool:
    """Of IMUL: whether its high half is 0 or all ones, and the low half negative."""
    if case.name != 'IMUL':
        return False
    bits = 16 if case.code[0] & 1 else 8
    first = case.registers.get('AX', 0) & ((1 << bits) - 1)
    high, rest = divmod(signed(first, bits) * signed(operand(case, bits == 16), bits), 1 << bits)
    return high in (0, -1) and rest >> (bits - 1) == 1


def is_lost(case: Case) -> bool:
    """Whether an override comes before a repeat prefix, and no string instruction behind them."""
    overrides = [at for at, prefix in enumerate(case.prefixes) if prefix in (0x26, 0x2E, 0x36, 0x3E)]
    repeats = [at for at, prefix in enumerate(case.prefixes) if prefix in (0xF2, 0xF3)]
    return bool(overrides and repeats) and min(overrides) < max(repeats) and not case.name.startswith('string')


def subtracts_otherwise(case: Case) -> bool:
    """Of DAS: whether AL as it is found, judged by 99h, is another thing than what the first correction leaves, by 9Fh."""
    numbers = (*range(0x9A, 0xA0), *((*range(6), *range(0xA0, 0xA6)) if has(case, 'A') else ()))
    return case.name == 'DAS' and not has(case, 'C') and low(case) in numbers


def carries(case: Case) -> bool:
    """Of AAA and AAS: whether the correction of AL leaves its byte."""
    is_corrected = low(case) & 15 > 9 or has(case, 'A')
    return is_corrected and ((case.name == 'AAA' and low(case) > 0xF9) or (case.name == 'AAS' and low(case) < 6))


def with_flags(letters: str) -> int:
    """A flags word."""
    return sum(1 << FLAGS[letter] for letter in letters)


def witness(name: str, code: str, flags: str = '', prefixes: str = '', **registers: int) -> Case:
    """A case by hand, on registers of 0, with bytes A5h in the window; ES:BX leads there, DS:BX before it."""
    given = {each: 0 for each in NUMBERS if each != 'SP'} | {'BX': WINDOW - 32} | registers
    data = bytearray(b'\xa5' * WINDOW)
    return Case(name, bytes.fromhex(code), list(bytes.fromhex(prefixes)), given, with_flags(flags), 0x190, data, place=WINDOW)


def flaw(name: str, why: str, where: str, holds: Callable[[Case], bool], shown: Case) -> Flaw:
    """A flaw, with the places at which it shows as words."""
    return Flaw(name, why, frozenset(where.split()), holds, shown)


SUMS, ADJUSTMENTS, PRODUCTS = '"Sums and differences"', '"Adjustments"', '"Products and quotients"'
FLAWS = (
    flaw('AF of ADC and SBB', f"isn't set where the second operand ends in Fh and CF is set; {SUMS}", 'FL:A', carries_a_digit, witness('ADC', '14 0F', 'C')),
    flaw('OF of ADC and SBB', f'another where the second operand is the greatest and CF is set; {SUMS}', 'FL:O', carries_a_sign, witness('ADC', '14 7F', 'C')),
    flaw('opcode 82h', f'CF; {SUMS}', 'FL:C', lambda case: case.code[0] == 0x82, witness('ADD 82', '82 C0 FF', AX=0x80)),
    flaw(
        'IDIV',
        f'enters no interrupt 0 for a quotient that has no room; {PRODUCTS}',
        'AX DX mark stack',
        has_no_quotient,
        witness('IDIV', 'F6 F9', AX=200, CX=1),
    ),
    flaw(
        'CF and OF of IMUL',
        f"set exactly where the high half isn't 0; {PRODUCTS}: where it isn't the low half's sign",
        'FL:C FL:O',
        is_judged_by_zero,
        witness('IMUL', 'F6 E9', AX=0xFF, CX=1),
    ),
    flaw(
        'ZF of AAM',
        f'follows AX; {ADJUSTMENTS}: AL',
        'FL:Z',
        lambda case: case.name == 'AAM' and low(case) % 10 == 0 < low(case),
        witness('AAM', 'D4 0A', AX=20),
    ),
    flaw(
        'JL',
        'never jumps with ZF set; "c": where SF differs from OF',
        'mark',
        lambda case: case.code[0] == 0x7C and has(case, 'Z') and has(case, 'S') != has(case, 'O'),
        Case('jump 7C', b'\x7c', flags=with_flags('ZO'), stack=0x190, target='byte'),
    ),
    Flaw('lost override', 'one before a repeat prefix; "Prefixes": the last one counts', EVERYWHERE, is_lost, witness('MOV', '8A 07', prefixes='26 F3')),
    flaw('AH of AAA and AAS', f'changes once more where AL leaves its byte; {ADJUSTMENTS}: by 1', 'AX', carries, witness('AAA', '37', AX=0xFF)),
    flaw('PUSH SP by FFh', 'stores the old SP; "PUSH": the lowered one', 'stack', lambda case: case.code == b'\xff\xf4', witness('PUSH FF', 'FF F4')),
    flaw(
        'DAS',
        f'judges by 9Fh what its first correction leaves; {ADJUSTMENTS}: by 99h AL as it was found',
        'AX FL:C FL:S FL:P FL:Z',
        subtracts_otherwise,
        witness('DAS', '2F', AX=0x9A),
    ),
    flaw('ZF of MUL and IMUL', 'undefined in the manual', 'FL:Z', lambda case: case.name in ('MUL', 'IMUL'), witness('MUL', 'F6 E1')),
    flaw('AF of TEST', 'undefined in the manual', 'FL:A', lambda case: case.name == 'TEST', witness('TEST', 'F6 C0 00', 'A')),
    flaw(
        'OF of shifts by CL',
        'undefined in the manual above 1',
        'FL:O',
        lambda case: case.name.endswith('by CL') and case.registers.get('CX', 0) & 0xFF > 1,
        witness('SHL by CL', 'D2 E0', AX=0x40, CX=2),
    ),
    flaw(
        'OF of shifts by CL 1',
        'stays; "Shifts": that of the last single shift',
        'FL:O',
        lambda case: case.name.endswith('by CL') and case.registers.get('CX', 0) & 0xFF == 1,
        witness('SHL by CL', 'D2 E0', AX=0x40, CX=1),
    ),
)


def unexplained(difference: Difference, flaws: tuple[Flaw, ...]) -> frozenset[str]:
    """Where a case differs by none of these that holds for it."""
    known = (listed.where for listed in flaws if listed.holds(difference.case))
    return frozenset(difference.places).difference(*known)
