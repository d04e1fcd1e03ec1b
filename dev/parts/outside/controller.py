"""Random sequences on the interrupt controller, whose one moving request is the timer's OUT0, and a model of it by the rules of
docs/chips.md with MAME's flaws as switches: without them it must answer as this board, with them as MAME."""
from __future__ import annotations

import random

from parts.outside import mame
from parts.outside.both import RESET, kept, out, with_bytes, word
from parts.outside.mame import Image
from parts.outside.sequences import Flaw, Kind

RESULTS, HANDLERS = 0x20000, 0x50000
PAUSE = b'\xb9\x08\x00\xe2\xfe'  # MOV CX,8; LOOP to itself
BEGIN = ('low', 'ICW 13 40 01', 'clean')
BOTH = 'IRR ISR IMR'
# PUSH AX; MOV AL,type; STOSB; MOV AL,EEh; STOSB; POP AX; PUSH BP; MOV BP,SP; AND WORD [BP+6],FDFFh; POP BP; IRET
HANDLER = '50 B0 {:02X} AA B0 EE AA 58 55 8B EC 81 66 06 FF FD 5D CF'
READS = out(0x20, 0x0A) + kept(0x20) + out(0x20, 0x0B) + kept(0x20) + kept(0x21)
CLEAN = 8 * out(0x20, 0x20) + out(0x20, 0) + out(0x20, 0x48) + out(0x20, 0x0A) + out(0x21, 0) + kept(0x20)[:2]
PLAIN = {'high': out(0x43, 0x14) + PAUSE, 'low': out(0x43, 0x10) + PAUSE, 'STI': b'\xfb\x90\x90\x90\xfa', 'read': kept(0x20), BOTH: READS, 'clean': CLEAN}

FLAWS = (
    Flaw('masked service', 'a read of the levels in service leaves out masked ones; chips.md, "Reads": it gives all', ('high', 'STI', 'mask FF')),
    Flaw('choice lost', 'OCW3 with bit 1 clear makes the next reads 0; chips.md, "OCW3": only 10 and 11 choose', ('high', 'OCW3 08', 'read')),
    Flaw(
        'choice kept', 'ICW1 leaves the levels in service chosen for reads; chips.md, "ICW1": it selects requests', ('OCW3 0B', 'ICW 13 40 01', 'high', 'read')
    ),
    Flaw('level forgotten', 'after ICW1 in level mode a line that is high asks no more; chips.md, "Asking": it does', ('high', 'ICW 1B 40 01')),
    Flaw('poll kept', 'a poll stays pending until the next OCW3; chips.md, "Reads": a read ends it', ('poll 0C', 'high', 'read')),
    Flaw(
        'slave on IR0',
        'where ICW3 names a slave on IR0 the vector is 0 and the rise stays, and special fully nested mode lets it in again; chips.md, "ICW3" and "ICW4": no effect',
        ('ICW 11 40 01 01', 'low', 'high', 'STI'),
    ),
)


def initialisation(chance: random.Random) -> str:
    """An ICW1 with what follows it; ICW4 always comes, and sets 8086 mode."""
    is_single, is_level = chance.random() < 0.7, chance.random() < 0.25
    words = [0x11 | is_single << 1 | is_level << 3 | chance.randrange(8) << 5 | chance.randrange(2) << 2, chance.randrange(256)]
    if not is_single:
        words.append(chance.randrange(256))
    words.append(1 | chance.choice((0, 0, 2)) | chance.choice((0, 0, 0, 0x10, 8, 12)))
    return 'ICW ' + ' '.join(f'{control:02X}' for control in words)


def mask(chance: random.Random) -> str:
    return f'mask {chance.choice((0, 0xFF, 1, 0xFE, chance.randrange(256))):02X}'


def ocw2(chance: random.Random) -> str:
    return f'OCW2 {chance.choice((0x20, 0x60, 0x61, 0xA0, 0xE0, 0xC0, 0xC7, 0x80, 0, 0x40, chance.randrange(256) & 0xE7)):02X}'


def ocw3(chance: random.Random) -> str:
    return f'OCW3 {8 | chance.choice((2, 3, 0, 0x60, 0x40, 0x62, 0x63, 0x20)):02X}'


def poll(chance: random.Random) -> str:
    return f'poll {0x0C | chance.choice((0, 0, 2, 3)):02X}'


MAKERS = (
    *(8 * ('high',)),
    *(4 * ('low',)),
    *(5 * ('STI',)),
    *(3 * (mask,)),
    *(4 * (ocw2,)),
    *(3 * (ocw3,)),
    *(2 * (poll,)),
    *(4 * (BOTH,)),
    initialisation,
    *(2 * ('read',)),
)


def sequence(chance: random.Random) -> tuple[str, ...]:
    """Random operations behind an initialisation."""
    made = [chance.choice(MAKERS) for _ in range(chance.randrange(4, 14))]
    first = [initialisation(chance)] if chance.random() < 0.5 else []
    return (*first, *(operation if isinstance(operation, str) else operation(chance) for operation in made))


def code_of(operation: str) -> bytes:
    """The instructions of an operation, which keep what it reads."""
    if operation in PLAIN:
        return PLAIN[operation]
    kind, *words = operation.split()
    values = [int(digits, 16) for digits in words]
    if kind == 'ICW':
        return out(0x20, values[0]) + b''.join(out(0x21, value) for value in values[1:])
    return out(0x21 if kind == 'mask' else 0x20, values[0]) + (kept(0x20) if kind == 'poll' else b'')


def start() -> Image:
    """What stands before the sequences: segments, and a handler for each interrupt, which keeps its type and interrupts no more."""
    image = mame.assembled(
        'SEGMENT M AT 0F600h\ngo: MOV AX,0\n MOV SS,AX\n MOV SP,8000h\n MOV AX,2000h\n MOV ES,AX\n CLD\n CLI\n JMP FAR 0900h:0\nENDS\n' + RESET
    )
    for kind in range(256):
        with_bytes(image, HANDLERS + 32 * kind, bytes.fromhex(HANDLER.format(kind)))
        with_bytes(image, 4 * kind, word(32 * kind) + word(HANDLERS >> 4))
    return image


class Controller:
    """IR0 of an 8259A. No other line moves, so no other level is ever in service, and priorities are never seen."""

    def __init__(self, flaws: frozenset[str]) -> None:
        self.flaws = flaws
        self.is_high = self.is_risen = self.is_level = self.is_served = self.is_automatic = self.is_special = self.is_nested = self.is_polled = False
        self.masked, self.vector, self.choice, self.slaves = 0, 0, 'requests', 0

    def asks(self) -> bool:
        """IR0 asks while it is high and, in edge mode, has risen since it was taken."""
        return self.is_high and (self.is_risen or (self.is_level and 'level forgotten' not in self.flaws))

    def takes(self) -> bool:
        """Whether IR0 is to be taken: nothing else comes before it but itself, in service."""
        return self.asks() and not self.masked & 1 and not (self.is_served and not (self.is_slave() and self.is_nested))

    def is_slave(self) -> bool:
        """Whether MAME takes IR0 for a slave's."""
        return 'slave on IR0' in self.flaws and bool(self.slaves & 1)

    def acknowledge(self) -> int:
        """The vector."""
        self.is_risen = self.is_risen and (self.is_slave() or (self.is_level and 'level forgotten' in self.flaws))
        self.is_served = not self.is_automatic
        return 0 if self.is_slave() else self.vector

    def line(self, is_high: bool) -> None:
        """IR0 takes a level."""
        self.is_risen = is_high and (self.is_risen or not self.is_high)
        self.is_high = is_high

    def initialise(self, values: list[int]) -> None:
        """ICW1 with all that follows it."""
        self.is_level = bool(values[0] & 8)
        self.is_served = self.is_risen = self.is_special = False
        if 'choice kept' not in self.flaws:
            self.choice, self.is_polled = 'requests', False
        self.masked, self.vector = 0, values[1] & 0xF8
        self.slaves = 0 if values[0] & 2 else values[2]
        self.is_automatic, self.is_nested = bool(values[-1] & 2), bool(values[-1] & 16)

    def command(self, value: int) -> None:
        """OCW2: only ends of interrupt are seen."""
        kind = value >> 5
        is_named = kind in (3, 7) and value & 7 == 0
        if is_named or (kind in (1, 5) and not (self.is_special and self.masked & 1)):
            self.is_served = False

    def choose(self, value: int) -> None:
        """OCW3."""
        if value & 0x40:
            self.is_special = bool(value & 0x20)
        self.is_polled = bool(value & 4)
        if value & 2:
            self.choice = 'service' if value & 1 else 'requests'
        elif 'choice lost' in self.flaws:
            self.choice = 'none'

    def read(self) -> int:
        """Port 20h."""
        if self.is_polled:
            takes = self.takes()
            self.is_polled = 'poll kept' in self.flaws
            if takes:
                self.acknowledge()
            return 0x80 if takes else 0
        if self.choice == 'service':
            return int(self.is_served and not ('masked service' in self.flaws and self.masked & 1))
        return int(self.choice == 'requests' and self.asks())

    def does(self, operation: str) -> list[int]:
        """The bytes that an operation keeps."""
        kind, *words = operation.split()
        values = [int(digits, 16) for digits in words if kind != 'IRR']
        if kind in ('high', 'low'):
            self.line(kind == 'high')
        elif kind == 'ICW':
            self.initialise(values)
        elif kind == 'mask':
            self.masked = values[0]
        elif kind == 'OCW2':
            self.command(values[0])
        elif kind in ('OCW3', 'poll'):
            self.choose(values[0])
        if kind == 'STI' and self.takes():
            return [self.acknowledge(), 0xEE]
        return [self.read()] if kind in ('read', 'poll') else self.reads() if kind == 'IRR' else []

    def reads(self) -> list[int]:
        """Requests, levels in service and the mask, by OCW3 0Ah and 0Bh."""
        self.choose(0x0A)
        requests = self.read()
        self.choose(0x0B)
        return [requests, self.read(), self.masked]


def answers(operations: tuple[str, ...], flaws: frozenset[str]) -> bytes:
    """What the model answers."""
    chip = Controller(flaws)
    return bytes(octet for operation in operations for octet in chip.does(operation))


KIND = Kind('controller', BEGIN, (BOTH,), FLAWS, sequence, code_of, start, answers)
