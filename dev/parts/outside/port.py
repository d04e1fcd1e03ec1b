"""Random sequences on the parallel port, with the switches and the timer's OUT2 on its pins, and a model of it by the rules of
docs/chips.md, with what MAME does otherwise as switches."""
from __future__ import annotations

import random

from parts.outside import mame
from parts.outside.both import RESET, kept, out
from parts.outside.controller import PAUSE
from parts.outside.mame import Image
from parts.outside.sequences import Flaw, Kind

SW1, SW2 = 0x6D, 0x12  # MAME's own, and those of the run here
READS = kept(0x60) + kept(0x61) + kept(0x62)
BEGIN = ('mode 99', 'out 61 C0', 'out 61 40', 'timer B0')

FLAWS = (
    Flaw('lines high', "port B's lines are high before a mode word makes it an output; chips.md, \"Line of B\": they are 0", ('mode 9B',)),
    Flaw('cassette', 'bit 4 of port C is high, or with lines 0 and 3 of port B high OUT2; chips.md, "Pins": it is 0', ()),
    Flaw(
        'keyboard shift',
        'line 6 going low while line 7 is low shifts a 1 into the latch; chips.md, "The keyboard": only a key fills it',
        ('out 61 00', 'out 61 40'),
    ),
    Flaw(
        'trigger without a count',
        'a rise of the gate starts mode 1 before a count is written; chips.md, "Loading": only after a full count',
        ('out 61 40', 'timer B2', 'out 61 41'),
    ),
)


def mode(chance: random.Random) -> str:
    return f'mode {0x80 | chance.randrange(128) & 0x1B:02X}'


def bit(chance: random.Random) -> str:
    return f'bit {chance.randrange(16):02X}'


def write(chance: random.Random) -> str:
    value = chance.choice((0, 4, 0x80, 0x84, 8, 0x40, 0x41, chance.randrange(256)))
    return f'out {chance.choice((0x60, 0x61, 0x62)):02X} {value:02X}'


def timer(chance: random.Random) -> str:
    return f'timer {chance.choice((0xB0, 0xB4, 0xB2, 0xB8)):02X}'


MAKERS = (*(2 * (mode,)), *(2 * (bit,)), *(5 * (write,)), *(3 * (timer,)), *(7 * ('read',)))


def sequence(chance: random.Random) -> tuple[str, ...]:
    """Random operations."""
    made = [chance.choice(MAKERS) for _ in range(chance.randrange(3, 14))]
    return tuple(operation if isinstance(operation, str) else operation(chance) for operation in made)


def code_of(operation: str) -> bytes:
    """The instructions of an operation; `read` keeps all three ports."""
    kind, *words = operation.split()
    values = [int(digits, 16) for digits in words]
    if kind == 'read':
        return READS
    if kind == 'timer':
        return out(0x43, values[0]) + PAUSE
    return out(*values) if kind == 'out' else out(0x63, values[0])


def start() -> Image:
    """What stands before the sequences."""
    return mame.assembled('SEGMENT M AT 0F600h\ngo: MOV AX,2000h\n MOV ES,AX\n CLD\n CLI\n JMP FAR 0900h:0\nENDS\n' + RESET)


class Port:
    """The 8255A with what is at its pins."""

    def __init__(self, flaws: frozenset[str]) -> None:
        self.flaws = flaws
        self.inputs = {'a': True, 'b': True, 'upper': True, 'lower': True}
        self.latches, self.key = [0, 0, 0], 0
        self.timer_mode, self.is_out = 0, False
        self.lines = self.lines_of_b()

    def lines_of_b(self) -> int:
        """Port B's lines."""
        return (0xFF if 'lines high' in self.flaws else 0) if self.inputs['b'] else self.latches[1]

    def settle(self) -> None:
        """What follows a change of port B's lines: the timer's gate 2, and the keyboard's latch."""
        before, self.lines = self.lines, self.lines_of_b()
        if self.lines & ~before & 1 and self.timer_mode == 1 and 'trigger without a count' in self.flaws:
            self.is_out = False
        if before & ~self.lines & 0x40 and 'keyboard shift' in self.flaws:
            self.key = self.key >> 1 | 0x80
        if self.lines & 0x80:
            self.key = 0

    def does(self, operation: str) -> list[int]:
        """The bytes that an operation keeps."""
        kind, *words = operation.split()
        values = [int(digits, 16) for digits in words]
        if kind == 'read':
            return [self.port_a(), self.port_b(), self.port_c()]
        if kind == 'timer':
            self.timer_mode = values[0] >> 1 & 7
            self.is_out = self.timer_mode != 0
        elif kind == 'mode':
            self.inputs = {name: bool(values[0] & at) for name, at in (('a', 16), ('upper', 8), ('b', 2), ('lower', 1))}
            self.latches = [0, 0, 0]
        elif kind == 'bit':
            at = 1 << (values[0] >> 1 & 7)
            self.latches[2] = self.latches[2] & ~at | (at if values[0] & 1 else 0)
        else:
            self.latches[values[0] - 0x60] = values[1]
        self.settle()
        return []

    def port_a(self) -> int:
        """Its pins are the switches or the keyboard's latch."""
        return (SW1 if self.lines & 0x80 else self.key) if self.inputs['a'] else self.latches[0]

    def port_b(self) -> int:
        """Nothing is at its pins."""
        return 0 if self.inputs['b'] else self.latches[1]

    def port_c(self) -> int:
        """Each half is an input or an output."""
        lower = SW2 & 15 if self.lines & 4 else SW2 >> 4
        is_bit_4 = 'cassette' in self.flaws and (self.lines & 9 != 9 or self.is_out)
        upper = (0x20 if self.is_out else 0) | (0x10 if is_bit_4 else 0)
        return ((upper if self.inputs['upper'] else self.latches[2]) & 0xF0) | ((lower if self.inputs['lower'] else self.latches[2]) & 15)


def answers(operations: tuple[str, ...], flaws: frozenset[str]) -> bytes:
    """What the model answers."""
    chip = Port(flaws)
    return bytes(octet for operation in operations for octet in chip.does(operation))


KIND = Kind('port', BEGIN, ('read',), FLAWS, sequence, code_of, start, answers)
