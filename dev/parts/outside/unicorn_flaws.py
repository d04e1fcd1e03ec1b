"""What Unicorn 2.0.1, which models a later processor, does otherwise than docs/machine.md, in the form of instruction_flaws."""
from __future__ import annotations

from parts.outside.instruction_flaws import ADJUSTMENTS, EVERYWHERE, PRODUCTS, carries, flaw, has, has_no_quotient, low, operand, signed, witness
from parts.outside.instructions import NUMBERS, Case

UNDEFINED = 'undefined in the manual'


def count(case: Case) -> int:
    """CL, of a shift by it; of others nothing."""
    return case.registers.get('CX', 0) & 0xFF if case.name.endswith('by CL') else 0


def has_least_quotient(case: Case) -> bool:
    """Of IDIV: whether the quotient is the least number with a sign."""
    if not has_no_quotient(case):
        return False
    bits = 16 if case.code[0] & 1 else 8
    divisor = signed(operand(case, bits == 16), bits)
    number = case.registers.get('AX', 0)
    dividend = signed(case.registers.get('DX', 0) << 16 | number, 32) if bits == 16 else signed(number, 16)
    return divisor != 0 and (dividend < 0) != (divisor < 0) and abs(dividend) // abs(divisor) == 1 << (bits - 1)


FLAWS = (
    flaw(
        'PUSH SP',
        'stores the old SP; "PUSH": the lowered one',
        'stack',
        lambda case: case.code in (b'\x54', b'\xff\xf4'),
        witness('PUSH 54', '54'),
    ),
    flaw('PUSHF', 'bits 12 to 15 stay as they were; "Flags word": they are set', 'stack', lambda case: case.code == b'\x9c', witness('PUSH 9C', '9C')),
    flaw('AH of AAA and AAS', f'changes once more where AL leaves its byte; {ADJUSTMENTS}: by 1', 'AX', carries, witness('AAA', '37', AX=0xFF)),
    flaw(
        'counts above 31',
        'are cut to five bits; "Shifts": all of CL counts',
        f'{" ".join(NUMBERS)} data FL:C FL:O FL:S FL:Z FL:P',
        lambda case: count(case) > 31,
        witness('SHL by CL', 'D3 E0', AX=1, CX=32),
    ),
    flaw(
        'IDIV',
        f'has the least number with a sign for a quotient; {PRODUCTS}: that enters interrupt 0',
        'AX DX mark stack',
        has_least_quotient,
        witness('IDIV', 'F6 F9', AX=0x10000 - 128, CX=1),
    ),
    flaw('ESC', 'is the 8087\'s; "ESC": changes no register or flag', ' '.join(EVERYWHERE), lambda case: case.name == 'ESC', witness('ESC', 'D9 3F', '', '26')),
    flaw(
        'flags of MUL and IMUL',
        UNDEFINED,
        'FL:S FL:Z FL:A FL:P',
        lambda case: case.name in ('MUL', 'IMUL'),
        witness('MUL', 'F6 E1', 'S'),
    ),
    flaw('flags of AAM and AAD', UNDEFINED, 'FL:O FL:A FL:C', lambda case: case.name in ('AAM', 'AAD'), witness('AAM', 'D4 0A', 'OAC')),
    flaw(
        'CF of DAS',
        f'set where the first correction falls below 0; {ADJUSTMENTS}: by AL as it was found, and 99h',
        'FL:C',
        lambda case: case.name == 'DAS' and has(case, 'A') and not has(case, 'C') and low(case) < 6,
        witness('DAS', '2F', 'A', AX=1),
    ),
    flaw('OF of DAA and DAS', UNDEFINED, 'FL:O', lambda case: case.name in ('DAA', 'DAS'), witness('DAA', '27', 'O')),
    flaw('AF of shifts', UNDEFINED, 'FL:A', lambda case: case.name[:3] in ('SHL', 'SHR', 'SAR'), witness('SHL by 1', 'D0 E0', 'A')),
    flaw('OF of shifts by CL', f'{UNDEFINED} above 1', 'FL:O', lambda case: count(case) > 1, witness('RCL by CL', 'D2 D0', AX=0x40, CX=2)),
)
