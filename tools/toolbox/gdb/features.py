"""What gdb is told of the registers (gdb's manual, "Target Descriptions"): the core of its i386, without which it takes none, and
behind it those of the 8086 that the core shows as addresses."""
from __future__ import annotations

from zebludor import FLAGS

CORE = ('eax', 'ecx', 'edx', 'ebx', 'esp', 'ebp', 'esi', 'edi', 'eip', 'eflags', 'cs', 'ss', 'ds', 'es', 'fs', 'gs')
FLOATS, CONTROLS = [f'st{number}' for number in range(8)], ('fctrl', 'fstat', 'ftag', 'fiseg', 'fioff', 'foseg', 'fooff', 'fop')
OWN = {'ip': 'IP', 'sp16': 'SP', 'bp16': 'BP'}  # their names in gdb
TYPES = {'esp': 'data_ptr', 'ebp': 'data_ptr', 'eip': 'code_ptr', 'eflags': 'i386_eflags'}
FIRST_FLOAT = len(CORE)
FIRST_CONTROL = FIRST_FLOAT + len(FLOATS)
FIRST_OWN = FIRST_CONTROL + len(CONTROLS)
CLOCK = FIRST_OWN + len(OWN)


UNKNOWN = 8 * 'x'
WORD_OF_FRAMES = FIRST_CONTROL + 1  # where the record of the present frame stands, for `cfi`


def register(name: str, bits: int, kind: str, more: str = '') -> str:
    """A register's element."""
    return f'<reg name="{name}" bitsize="{bits}" type="{kind}"{more}/>'


def description() -> str:
    """The whole of it."""
    flags = ''.join(f'<field name="{name}" start="{bit}" end="{bit}"/>' for name, bit in FLAGS.items())
    core = ''.join(register(name, 32, TYPES.get(name, 'int32')) for name in CORE)
    floats = ''.join(register(name, 80, 'i387_ext') for name in FLOATS) + ''.join(register(name, 32, 'int', ' group="float"') for name in CONTROLS)
    own = ''.join(register(name, 16, 'uint16') for name in OWN) + register('clock', 64, 'uint64')
    return (
        '<?xml version="1.0"?><!DOCTYPE target SYSTEM "gdb-target.dtd"><target version="1.0"><architecture>i8086</architecture>'
        f'<osabi>none</osabi><feature name="org.gnu.gdb.i386.core"><flags id="i386_eflags" size="4">{flags}</flags>{core}{floats}</feature>'
        f'<feature name="zebludor.8086">{own}</feature></target>'
    )


def without_value(number: int) -> str | None:
    """The answer for a register of gdb's that the 8086 hasn't, by its number; of others none."""
    if FIRST_FLOAT <= number < FIRST_CONTROL:
        return 20 * 'x'
    return UNKNOWN if len(CORE) - 2 <= number < FIRST_OWN else None
