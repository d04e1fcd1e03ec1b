"""Random single instructions, each in a block of memory of its own: code that sets registers and flags, the instruction, code that
keeps them, and a window of data with the stack. Both sides run all blocks, and are compared byte by byte."""
from __future__ import annotations

import random
from collections.abc import Callable
from dataclasses import dataclass, field
from typing import NamedTuple

from parts.outside import both, mame
from parts.outside.both import RESET, with_bytes, word
from parts.outside.mame import Answer, Image
from toolbox.command import Sorry

BLOCK, FIRST, MOST = 512, 0x1000, 1250  # bytes of a block; where the first stands; so many have room
KEPT, MARK, WINDOW = 0xA0, 0xC0, 0x100  # of a block: registers, whether a transfer was made or an interrupt entered, data
NUMBERS = {'AX': 0, 'CX': 1, 'DX': 2, 'BX': 3, 'SP': 4, 'BP': 5, 'SI': 6, 'DI': 7}
NAMES = (*NUMBERS, 'ES', 'SS', 'DS', 'FL')
SEGMENTS = {'ES': (0, 2), 'CS': (1, 0), 'SS': (2, 3), 'DS': (3, 1)}  # number, and paragraphs behind the block's begin
BASES = (('BX', 'SI'), ('BX', 'DI'), ('BP', 'SI'), ('BP', 'DI'), ('SI',), ('DI',), ('BP',), ('BX',))
EDGES = (0, 1, 2, 0x7F, 0x80, 0xFF, 0x100, 0x7FFF, 0x8000, 0xFFFF, 0xFFFE, 0x8001, 0x0F, 0x10, 0x99, 0x9A)
FLAGS = {'C': 0, 'P': 2, 'A': 4, 'Z': 6, 'S': 7, 'T': 8, 'I': 9, 'D': 10, 'O': 11}
ARITHMETIC = ('ADD', 'OR', 'ADC', 'SBB', 'AND', 'SUB', 'XOR', 'CMP')
GROUP_3, SHIFTS = ('TEST', '', 'NOT', 'NEG', 'MUL', 'IMUL', 'DIV', 'IDIV'), ('ROL', 'ROR', 'RCL', 'RCR', 'SHL', 'SHR', '', 'SAR')
ADJUSTMENTS = {'DAA': '27', 'DAS': '2F', 'AAA': '37', 'AAS': '3F', 'AAM': 'D4 0A', 'AAD': 'D5 0A', 'CBW': '98', 'CWD': '99', 'SAHF': '9E', 'LAHF': '9F'}
STACK_END = 0x1F8  # of a block, for what keeps the registers
STEPS = 0x0100  # TF


@dataclass
class Case:
    """An instruction with what it finds. `near` and `far` say which target its code lacks."""

    name: str = ''
    code: bytes = b''
    prefixes: list[int] = field(default_factory=list)
    registers: dict[str, int] = field(default_factory=dict)
    flags: int = 0
    stack: int = 0
    data: bytearray = field(default_factory=lambda: bytearray(0x100))
    segment: str | None = None  # of an override
    target: str = ''  # `byte`, `word`, `far`, `stack`, `operand`, or none
    transfers: int = 0  # the digit of FFh
    place: int | None = None  # of its operand in the window


class Maker:
    """Makes cases by chance."""

    def __init__(self, chance: random.Random) -> None:
        self.chance, self.case = chance, Case()

    def number(self) -> int:
        """A word, often one at an edge."""
        return self.chance.choice(EDGES) if self.chance.random() < 0.3 else self.chance.randrange(0x10000)

    def place_in(self, segment: str, first: int = WINDOW, end: int = 0x17C) -> int:
        """An offset in a segment that lies in the window."""
        at = self.chance.randrange(first, end)
        self.case.place = at
        return at - 16 * SEGMENTS[segment][1]

    def operand(self, digit: int, is_memory: bool = False) -> bytes:
        """An addressing byte with its displacement; an operand in memory lies in the window."""
        if not is_memory and self.chance.random() < 0.35:
            return bytes([0xC0 | digit << 3 | self.chance.randrange(8)])
        mode, base = self.chance.randrange(3), self.chance.randrange(8)
        is_direct = mode == 0 and base == 6
        offset = self.place_in(self.case.segment or ('SS' if 'BP' in BASES[base] and not is_direct else 'DS'))
        if is_direct:
            return bytes([base | digit << 3]) + word(offset)
        displacement = 0 if mode == 0 else self.chance.randrange(-128, 128) if mode == 1 else self.chance.randrange(0x10000)
        first, *more = BASES[base]
        rest = (offset - displacement) & 0xFFFF
        if more:
            self.case.registers[first] = self.chance.randrange(0x10000)
            rest = (rest - self.case.registers[first]) & 0xFFFF
        self.case.registers[(more or [first])[0]] = rest
        octets = b'' if mode == 0 else bytes([displacement & 0xFF]) if mode == 1 else word(displacement)
        return bytes([mode << 6 | digit << 3 | base]) + octets

    def immediate(self, opcode: int) -> bytes:
        """A word for an odd opcode, else a byte."""
        return word(self.number()) if opcode & 1 else bytes([self.chance.randrange(0x100)])

    def made(self) -> Case:
        """A case."""
        chance = self.chance
        self.case = case = Case()
        case.registers = {register: self.number() for register in NUMBERS if register != 'SP'}
        case.stack = chance.randrange(0x1A0, 0x1E0) - 48
        case.flags = sum(1 << at for name, at in FLAGS.items() if name != 'T' and chance.random() < 0.5)
        case.data = bytearray(chance.randrange(0x100) for _ in range(0x100))
        case.segment = chance.choice((None, None, None, None, *SEGMENTS))
        if case.segment:
            case.prefixes = [0x26 | SEGMENTS[case.segment][0] << 3]
        make = chance.choice(MAKERS)
        case.name, case.code = make(self)
        if chance.random() < 0.05 and make not in (Maker.string, Maker.group_3):
            last = 0 if case.target else len(case.prefixes)  # a transfer by MAME's wrong segment would lead astray
            case.prefixes.insert(chance.randrange(last + 1), chance.choice((0xF2, 0xF3)))
        if chance.random() < 0.05:
            case.prefixes.insert(0, 0xF0)
        return case

    def arithmetic(self) -> tuple[str, bytes]:
        kind, form = self.chance.randrange(8), self.chance.randrange(6)
        opcode = 8 * kind + form
        return ARITHMETIC[kind], bytes([opcode]) + (self.operand(self.chance.randrange(8)) if form < 4 else self.immediate(opcode))

    def arithmetic_of_a_number(self) -> tuple[str, bytes]:
        kind, opcode = self.chance.randrange(8), self.chance.randrange(0x80, 0x84)
        return f'{ARITHMETIC[kind]} {opcode:02X}', bytes([opcode]) + self.operand(kind) + self.immediate(opcode if opcode < 0x82 else 0)

    def increment(self) -> tuple[str, bytes]:
        if self.chance.random() < 0.5:
            return 'INC or DEC', bytes([self.chance.randrange(0x40, 0x50)])
        return 'INC or DEC', bytes([self.chance.choice((0xFE, 0xFF))]) + self.operand(self.chance.randrange(2))

    def push(self) -> tuple[str, bytes]:
        opcode = self.chance.choice((*range(0x50, 0x58), 0x06, 0x0E, 0x16, 0x1E, 0x9C, 0xFF))
        return f'PUSH {opcode:02X}', bytes([opcode]) + (self.operand(6) if opcode == 0xFF else b'')

    def pop(self) -> tuple[str, bytes]:
        opcode = self.chance.choice((*range(0x58, 0x60), 0x07, 0x17, 0x1F, 0x9D, 0x8F))
        if opcode == 0x9D:
            self.on_the_stack(word(self.chance.randrange(0x10000) & ~STEPS))
        return f'POP {opcode:02X}', bytes([opcode]) + (self.operand(0) if opcode == 0x8F else b'')

    def on_the_stack(self, octets: bytes) -> None:
        """What a pop finds."""
        at = self.case.stack + 48 - WINDOW
        self.case.data[at : at + len(octets)] = octets

    def short_jump(self) -> tuple[str, bytes]:
        self.case.target = 'byte'
        opcode = self.chance.choice((*range(0x70, 0x80), 0xE0, 0xE1, 0xE2, 0xE3))
        if opcode >= 0xE0 and self.chance.random() < 0.5:
            self.case.registers['CX'] = self.chance.randrange(3)
        return f'jump {opcode:02X}', bytes([opcode])

    def test(self) -> tuple[str, bytes]:
        opcode = self.chance.choice((0x84, 0x85, 0xA8, 0xA9, 0xF6, 0xF7))
        operand = b'' if 0xA8 <= opcode <= 0xA9 else self.operand(self.chance.randrange(8) if opcode < 0x86 else 0)
        return 'TEST', bytes([opcode]) + operand + (self.immediate(opcode) if opcode > 0x85 else b'')

    def exchange(self) -> tuple[str, bytes]:
        opcode = self.chance.choice((0x86, 0x87, *range(0x90, 0x98)))
        return 'XCHG', bytes([opcode]) + (self.operand(self.chance.randrange(8)) if opcode < 0x90 else b'')

    def move(self) -> tuple[str, bytes]:
        opcode = self.chance.choice((*range(0x88, 0x8C), *range(0xA0, 0xA4), 0xC6, 0xC7, *range(0xB0, 0xC0)))
        if 0xA0 <= opcode < 0xA4:
            return 'MOV', bytes([opcode]) + word(self.place_in(self.case.segment or 'DS'))
        if opcode < 0xA0 or opcode >= 0xC0:
            operand = self.operand(self.chance.randrange(8) if opcode < 0xA0 else 0)
            return 'MOV', bytes([opcode]) + operand + (self.immediate(opcode) if opcode >= 0xC0 else b'')
        return 'MOV', bytes([opcode]) + self.immediate(opcode >> 3)

    def move_segment(self) -> tuple[str, bytes]:
        opcode = self.chance.choice((0x8C, 0x8E))
        return 'MOV of a segment', bytes([opcode]) + self.operand(self.chance.choice((0, 1, 2, 3) if opcode == 0x8C else (0, 2, 3)))

    def address(self) -> tuple[str, bytes]:
        return 'LEA, LES or LDS', bytes([self.chance.choice((0x8D, 0xC4, 0xC5))]) + self.operand(self.chance.randrange(8), is_memory=True)

    def group_3(self) -> tuple[str, bytes]:
        opcode, kind = self.chance.choice((0xF6, 0xF7)), self.chance.randrange(2, 8)
        code = bytes([opcode]) + self.operand(kind)
        if kind >= 6 and self.chance.random() < 0.5:
            self.case.registers['DX'] = self.chance.randrange(-200, 200) & 0xFFFF
            self.case.registers['AX'] = self.chance.randrange(-3000, 3000) & 0xFFFF
        return GROUP_3[kind], code

    def shift(self) -> tuple[str, bytes]:
        opcode, kind = self.chance.randrange(0xD0, 0xD4), self.chance.choice((0, 1, 2, 3, 4, 5, 7))
        count = self.chance.choice((self.chance.randrange(0x100), self.chance.randrange(20)))
        self.case.registers['CX'] = self.case.registers['CX'] & 0xFF00 | count
        return f'{SHIFTS[kind]} by {"1" if opcode < 0xD2 else "CL"}', bytes([opcode]) + self.operand(kind)

    def string(self) -> tuple[str, bytes]:
        opcode, repeat = self.chance.choice((*range(0xA4, 0xA8), *range(0xAA, 0xB0))), self.chance.choice((None, 0xF2, 0xF3))
        self.case.registers['SI'] = self.place_in(self.case.segment or 'DS', 0x120, 0x160) & 0xFFFF
        self.case.registers['DI'] = self.place_in('ES', 0x120, 0x160)
        if repeat:
            self.case.registers['CX'] = self.chance.randrange(9)
            self.case.prefixes.insert(0, repeat)
        return f'string {opcode:02X}', bytes([opcode])

    def adjustment(self) -> tuple[str, bytes]:
        name = self.chance.choice(tuple(ADJUSTMENTS))
        return name, bytes.fromhex(ADJUSTMENTS[name])

    def flag(self) -> tuple[str, bytes]:
        opcode = self.chance.choice((0xF5, 0xF8, 0xF9, 0xFA, 0xFB, 0xFC, 0xFD, 0x90, 0x9B))
        return f'flags {opcode:02X}', bytes([opcode])

    def transfer(self) -> tuple[str, bytes]:
        opcode = self.chance.choice((0xE8, 0xE9, 0xEB, 0x9A, 0xEA, 0xC2, 0xC3, 0xCA, 0xCB, 0xCF))
        self.case.target = {0xE8: 'word', 0xE9: 'word', 0xEB: 'byte', 0x9A: 'far', 0xEA: 'far'}.get(opcode, 'stack')
        return f'transfer {opcode:02X}', bytes([opcode]) + (word(self.chance.randrange(64)) if opcode in (0xC2, 0xCA) else b'')

    def indirect(self) -> tuple[str, bytes]:
        self.case.target, kind = 'operand', self.chance.randrange(2, 6)
        self.case.transfers = kind
        return f'FF /{kind}', b'\xff' + self.operand(kind, is_memory=True)

    def interrupt(self) -> tuple[str, bytes]:
        opcode = self.chance.choice((0xCC, 0xCD, 0xCE))
        return 'INT', bytes([opcode]) + (bytes([self.chance.randrange(0x100)]) if opcode == 0xCD else b'')

    def translate(self) -> tuple[str, bytes]:
        self.case.registers['BX'] = (self.place_in(self.case.segment or 'DS') - (self.case.registers['AX'] & 0xFF)) & 0xFFFF
        return 'XLAT', b'\xd7'

    def escape(self) -> tuple[str, bytes]:
        return 'ESC', bytes([self.chance.randrange(0xD8, 0xE0)]) + self.operand(self.chance.randrange(8))


MAKERS = (
    *(3 * (Maker.arithmetic,)),
    *(2 * (Maker.arithmetic_of_a_number,)),
    Maker.increment,
    Maker.push,
    Maker.pop,
    *(2 * (Maker.short_jump,)),
    Maker.test,
    Maker.exchange,
    Maker.move,
    Maker.move_segment,
    Maker.address,
    *(4 * (Maker.group_3,)),
    *(2 * (Maker.shift,)),
    *(2 * (Maker.string,)),
    *(2 * (Maker.adjustment,)),
    Maker.flag,
    Maker.transfer,
    Maker.indirect,
    Maker.interrupt,
    Maker.translate,
    Maker.escape,
)


def moved(register: str, number: int) -> bytes:
    """MOV register,number."""
    return bytes([0xB8 + NUMBERS[register]]) + word(number)


def segment_moved(name: str, paragraph: int) -> bytes:
    """MOV AX,paragraph; MOV segment,AX."""
    return moved('AX', paragraph) + bytes([0x8E, 0xC0 | SEGMENTS[name][0] << 3])


def begun(case: Case, paragraph: int) -> bytes:
    """What sets a case's segments, flags and registers."""
    code = b''.join(segment_moved(segment, paragraph + SEGMENTS[segment][1]) for segment in ('ES', 'SS', 'DS'))
    code += moved('SP', case.stack) + moved('AX', case.flags | 0xF002) + b'\x50\x9d'  # PUSH AX; POPF
    return code + b''.join(moved(register, number) for register, number in case.registers.items())


def ended(paragraph: int) -> bytes:
    """What keeps them, and goes on at the next block."""
    code = b'\xeb\x06\x2e\xc6\x06' + word(MARK) + b'\x01'  # JMP over the next; MOV BYTE CS:[MARK],1
    for at, name in enumerate(NAMES[:8]):
        code += b'\x2e\xa3' if name == 'AX' else b'\x2e\x89' + bytes([NUMBERS[name] << 3 | 6])
        code += word(KEPT + 2 * at)
    for at, name in enumerate(NAMES[8:11], 8):
        code += b'\x2e\x8c' + bytes([SEGMENTS[name][0] << 3 | 6]) + word(KEPT + 2 * at)
    code += segment_moved('SS', paragraph + SEGMENTS['SS'][1]) + moved('SP', STACK_END - 48)
    return code + b'\x9c\x58\x2e\xa3' + word(KEPT + 22) + b'\xfa\xea\0\0' + word(paragraph + BLOCK // 16)  # PUSHF; POP AX; ..; CLI; JMP FAR


def block_of(case: Case, paragraph: int) -> bytes:
    """A case's block: a transfer that is made goes to the instruction that sets the mark."""
    code = begun(case, paragraph)
    instruction = bytes(case.prefixes) + case.code
    fall = len(code) + len(instruction) + {'byte': 1, 'word': 2, 'far': 4}.get(case.target, 0)
    taken, data = fall + 2, bytearray(case.data)
    targets = {'byte': bytes([taken - fall]), 'word': word(taken - fall), 'far': word(taken) + word(paragraph)}
    where = {'stack': case.stack + 48, 'operand': case.place}.get(case.target)
    if where is not None:
        flags = word(int.from_bytes(data[where + 4 - WINDOW : where + 6 - WINDOW], 'little') & ~STEPS)
        octets = word(taken) + (word(paragraph) + flags if case.target == 'stack' else word(paragraph) if case.transfers in (3, 5) else b'')
        data[where - WINDOW : where - WINDOW + len(octets)] = octets
    code += instruction + targets.get(case.target, b'') + ended(paragraph)
    if len(code) > KEPT:
        raise ValueError(f'{case.name}: the code has {len(code)} bytes')
    return code.ljust(WINDOW, b'\0') + bytes(data)


def start() -> Image:
    """What stands before the blocks: every interrupt sets the mark to 2 and returns."""
    image = mame.assembled(
        'SEGMENT M AT 0F600h\ngo: MOV AX,0\n MOV SS,AX\n MOV SP,400h\n CLI\n MOV AL,13h\n OUT 20h,AL\n MOV AL,8\n OUT 21h,AL\n'
        ' MOV AL,1\n OUT 21h,AL\n MOV AL,0FFh\n OUT 21h,AL\n JMP FAR 0100h:0\nENDS\n'
        'SEGMENT H AT 0F700h\n MOV BYTE SS:[90h],2\n IRET\nENDS\n' + RESET
    )
    for kind in range(256):
        with_bytes(image, 4 * kind, word(0) + word(0xF700))
    return image


def image_of(cases: list[Case]) -> Image:
    """A program that runs so many cases, up to MOST."""
    image, at = start(), FIRST
    for case in cases:
        with_bytes(image, at, block_of(case, at >> 4))
        at += BLOCK
    image[at] = 0xF4
    return image


def place_of(at: int, case: Case) -> tuple[int, int]:
    """Of a case of an image: the address of its instruction, and the offset behind it in its block."""
    paragraph = (FIRST + BLOCK * at) >> 4
    first = len(begun(case, paragraph))
    return 16 * paragraph + first, first + len(case.prefixes) + len(case.code)


class Difference(NamedTuple):
    """A case of which both sides leave something else, and where: registers, `FL:` with a flag, `mark`, `data`, `stack`, `code`."""

    case: Case
    places: tuple[str, ...]
    here: bytes
    there: bytes


def registers_in(block: bytes) -> dict[str, int]:
    """What a block kept."""
    return {name: int.from_bytes(block[KEPT + 2 * at : KEPT + 2 * at + 2], 'little') for at, name in enumerate(NAMES)}


def places(here: bytes, there: bytes) -> tuple[str, ...]:
    """Where two blocks differ. The flags lie on the stack too, which tells nothing new."""
    mine, theirs = registers_in(here), registers_in(there)
    flags = mine['FL'] ^ theirs['FL']
    found = [register for register in NAMES[:-1] if mine[register] != theirs[register]] + [f'FL:{flag}' for flag, at in FLAGS.items() if flags >> at & 1]
    parts = {'mark': (MARK, MARK + 1), 'code': (0, KEPT), 'data': (WINDOW, 0x180), 'stack': (0x180, STACK_END - 2)}
    return (*found, *(name for name, (first, end) in parts.items() if here[first:end] != there[first:end]))


def differences(name: str, run_there: Callable[[Image, list[Case]], Answer], made: list[Case]) -> list[Difference]:
    """Where both sides differ. The other side's name is told if it goes astray."""
    found = list[Difference]()
    for first in range(0, len(made), MOST):
        some = made[first : first + MOST]
        image = image_of(some)
        here, there = both.run_here(image), run_there(image, some)
        if here.place != there.place:
            raise Sorry(f'{name} went astray: it halted at {there.place[0]:04X}:{there.place[1]:04X}')
        blocks = ((case, FIRST + BLOCK * at) for at, case in enumerate(some))
        pairs = ((case, here.ram[at : at + BLOCK], there.ram[at : at + BLOCK]) for case, at in blocks)
        found += [Difference(case, where, mine, theirs) for case, mine, theirs in pairs if (where := places(mine, theirs))]
    return found


def cases(seed: int, count: int) -> list[Case]:
    """Random cases of a seed."""
    maker = Maker(random.Random(f'instructions {seed}'))
    return [maker.made() for _ in range(count)]
