"""A model of a session of pcprobe in which the board is changed and goes back (docs/probe.md, "What set changes"), written apart from the
tools and the program. Its board runs NOP, HLT and the jump from reset alone, without interrupts, so that all its answers are known."""
from __future__ import annotations

import random
import re
from dataclasses import dataclass, field, replace

REGISTERS = 'AX BX CX DX SP BP SI DI CS DS ES SS IP FL'.split()
NOP, HLT, JUMP = 0x90, 0xF4, 0xEA
CLOCKS = {NOP: 3, HLT: 2, JUMP: 15}  # the 8086's manual
CODE, CODE_SIZE, HALTED_EACH = 0xF6000, 0x4000, 7
LAST_CLOCK, MOST_STOPS, MOST_LEVELS = 1 << 40, 16, 16
SOURCE = f"""SEGMENT MAIN AT 0F600h
start:  DB {CODE_SIZE // HALTED_EACH} DUP({NOP},{NOP},{NOP},{NOP},{NOP},{NOP},{HLT})
ENDS
SEGMENT RESET AT 0FFFFh
        JMP FAR start
ENDS
"""


def code_byte(address: int) -> int:
    """What the source places."""
    if 0xFFFF0 <= address < 0xFFFF5:
        return (JUMP, 0, 0, 0, 0xF6)[address - 0xFFFF0]
    at = address - CODE
    return (HLT if at % HALTED_EACH == HALTED_EACH - 1 else NOP) if 0 <= at < CODE_SIZE // HALTED_EACH * HALTED_EACH else -1


def has_cell(address: int) -> bool:
    """Whether a byte can be set: 64 KB of RAM, text memory, ROM."""
    return address < 0x10000 or 0xB0000 <= address < 0xB1000 or 0xF0000 <= address < 0x100000


@dataclass(frozen=True)
class Board:
    """The board at a clock: registers, clocks of the instruction to go, whether that has halted the processor, and bytes that were set."""

    clock: int = 0
    registers: tuple[int, ...] = tuple({'CS': 0xFFFF, 'FL': 0xF002}.get(name, 0) for name in REGISTERS)
    busy: int = 0
    halts: bool = False
    octets: tuple[tuple[int, int], ...] = ()

    def of(self, name: str) -> int:
        """A register."""
        return self.registers[REGISTERS.index(name)]

    def byte(self, address: int) -> int:
        """A byte of memory; RAM is 0 at first."""
        known = dict(self.octets).get(address, code_byte(address))
        return 0 if known < 0 and address < 0x10000 else known

    def with_register(self, name: str, word: int) -> Board:
        """A register is set. By CS and IP the processor runs on from there; of FL the nine flags are."""
        word = (word & 0x0FD5 | 0xF002) if name == 'FL' else word
        found = tuple(word if each == name else old for each, old in zip(REGISTERS, self.registers))
        return replace(self, registers=found, halts=self.halts and name not in ('CS', 'IP'))

    def with_byte(self, address: int, octet: int) -> Board:
        """A byte is set."""
        return replace(self, octets=tuple(sorted((dict(self.octets) | {address: octet}).items())))

    def next(self) -> Board:
        """A clock later. An instruction is made in its first clock."""
        if self.busy:
            return replace(self, clock=self.clock + 1, busy=self.busy - 1)
        if self.halts:
            return replace(self, clock=self.clock + 1)
        segment, offset = self.of('CS'), self.of('IP')
        what = self.byte((16 * segment + offset) % 0x100000)
        then = replace(self, clock=self.clock + 1, busy=CLOCKS[what] - 1, halts=what == HLT)
        names = {'CS': 0xF600, 'IP': 0} if what == JUMP else {'IP': offset + 1}
        return replace(then, registers=tuple(names.get(name, old) for name, old in zip(REGISTERS, self.registers)))


@dataclass
class Level:
    """A session from a first board on, with its keys."""

    boards: list[Board]
    keys: list[int]
    at: int = 0

    @property
    def now(self) -> Board:
        """Where it stands."""
        return self.board(self.at)

    def board(self, at: int) -> Board:
        """The board so many clocks after the first."""
        while len(self.boards) <= at:
            self.boards.append(self.boards[-1].next())
        return self.boards[at]


@dataclass
class Lab:
    """The whole session: stops, the levels before, and the present one."""

    level: Level = field(default_factory=lambda: Level([Board()], []))
    earlier: list[Level] = field(default_factory=list)
    stops: list[list[str]] = field(default_factory=list)

    def holds(self, stop: list[str], at: int) -> bool:
        """Whether a stop holds so many clocks after the first board."""
        board, first = self.level.board(at), self.level.boards[0].clock
        if stop[0] == 'break':
            return not board.busy and [int(each, 16) for each in stop[1].split(':')] == [board.of('CS'), board.of('IP')]
        if stop[0] == 'byte':
            return board.byte(int(stop[1], 16)) == int(stop[2], 16)
        if stop[0] == 'halted':
            return board.halts  # from the instruction's first clock on, in which it is made
        return stop[0] == 'when' and at > 0 and first + at in self.level.keys  # the processor writes nothing, so `changes` never holds

    def met(self, at: int) -> int:
        """The least number of those that hold."""
        return next((number for number, stop in enumerate(self.stops, 1) if self.holds(stop, at)), 0)

    def clock(self) -> str:
        """The answer that tells the clock."""
        return f'clock {self.level.now.clock}'

    def answer(self, line: str) -> str:
        """The answer to a line, of those that the model knows."""
        name, *words = line.split(' ')
        return getattr(self, f'do_{name}')(words)

    def do_set(self, words: list[str]) -> str:
        """Changes the board: 51 comes before 55."""
        place, values = words[0] if words else '', words[1:]
        if place in REGISTERS:
            if len(values) != 1 or not re.fullmatch('[0-9A-Fa-f]{1,4}', values[0]):
                return 'fault 51 BadCommand'
            board = self.level.now.with_register(place, int(values[0], 16))
        else:
            is_good = re.fullmatch('[0-9A-Fa-f]{1,5}', place) and all(re.fullmatch('[0-9A-Fa-f]{1,2}', one) for one in values)
            if not is_good or not 1 <= len(values) <= 16 or int(place, 16) + len(values) > 0x100000:
                return 'fault 51 BadCommand'
            places = range(int(place, 16), int(place, 16) + len(values))
            if not all(map(has_cell, places)):
                return 'fault 55 NoCell'
            board = self.level.now
            for at, octet in zip(places, values):
                board = board.with_byte(at, int(octet, 16))
        if not (self.earlier and self.level.at == 0):
            self.earlier = [*self.earlier, self.level][-MOST_LEVELS:]
        self.level = Level([board], list(self.level.keys))
        return self.clock()

    def do_undo(self, words: list[str]) -> str:
        """Back to where the level before stands."""
        if words:
            return 'fault 51 BadCommand'
        if not self.earlier:
            return 'fault 54 BeforeStart'
        self.level = self.earlier.pop()
        return self.clock()

    def do_go(self, words: list[str]) -> str:
        """On to a stop, at most so many clocks."""
        for _ in range(int(words[0])):
            self.level.at += 1
            if number := self.met(self.level.at):
                return f'stop {number} {self.clock()}'
        return self.clock()

    def do_step(self, _: list[str]) -> str:
        """On to where the processor is free."""
        self.level.at += 1
        while self.level.now.busy:
            self.level.at += 1
        return self.clock()

    def do_back(self, words: list[str]) -> str:
        """Back, never to before the level's first board."""
        if words == ['step']:
            return self.gone_back(lambda at: 0 if self.level.board(at).busy else 1, '')
        if words == ['stop']:
            return self.gone_back(self.met, 'stop {} ')
        if words == ['0']:
            return 'fault 51 BadCommand'
        if int(words[0]) > self.level.at:
            return 'fault 54 BeforeStart'
        self.level.at -= int(words[0])
        return self.clock()

    def gone_back(self, met: object, said: str) -> str:
        """Back to the last earlier clock of which something is so."""
        assert callable(met)
        for at in reversed(range(self.level.at)):
            if number := met(at):
                self.level.at = at
                return said.format(number) + self.clock()
        return 'fault 54 BeforeStart'

    def do_key(self, words: list[str]) -> str:
        """A key that comes later: 42, 33 and 34 in this order."""
        if not 1 <= len(words) <= 2 or not re.fullmatch('[0-9A-F]{1,2}', words[0]):
            return 'fault 51 BadCommand'
        code, now = int(words[0], 16), self.level.now.clock
        stamp = int(words[1]) if len(words) > 1 else now + 1
        if stamp > LAST_CLOCK:
            return 'fault 42 ClockLimit'
        if not 1 <= code % 0x80 <= 0x53:
            return 'fault 33 BadScan'
        if stamp <= now:
            return 'fault 34 StampsFall'
        self.level.keys.append(stamp)
        return f'key {code:02X} {stamp}'

    def do_regs(self, _: list[str]) -> str:
        """The registers."""
        pairs = [f'{name}={self.level.now.of(name):04X}' for name in ('AX BX CX DX SP BP SI DI CS DS ES SS IP FL').split()]
        return f'{" ".join(pairs[:8])}\n{" ".join(pairs[8:])}'

    def do_dump(self, words: list[str]) -> str:
        """Bytes, of one line."""
        first, count = int(words[0], 16), int(words[1])
        return f'{first:05X}: ' + ' '.join(f'{self.level.now.byte(at):02X}' for at in range(first, first + count))

    def stop(self, words: list[str]) -> str:
        """A stop more."""
        if len(self.stops) == MOST_STOPS:
            return 'fault 52 TooManyStops'
        self.stops.append(words)
        return f'stop {len(self.stops)}'

    def do_break(self, words: list[str]) -> str:
        """The processor is free at a place."""
        return self.stop(['break', *words])

    def do_byte(self, words: list[str]) -> str:
        """A byte has a value."""
        return self.stop(['byte', *words])

    def do_halted(self, words: list[str]) -> str:
        """The processor is halted."""
        return self.stop(['halted', *words])

    def do_when(self, words: list[str]) -> str:
        """A key came."""
        return self.stop(['when', *words])

    def do_changes(self, words: list[str]) -> str:
        """A byte has changed."""
        return self.stop(['changes', *words])


BAD = (
    'set|set AX|set AX 12345|set AX G|set AX 1 2|set AL 1|set ax 1|set QX 1|set FLAGS 1|set 100000 1|set FFFFF 1 2|set 500|set 500 100|set 500 1 G'
    '|set 500 ' + '1 ' * 16 + '1|set 10000 1|set AFFFF 1|set B1000 1|set EFFFF 1|set FFFE 1 2 3|set B0FFF 1 2|set EFFFF 1 2|set 10000 G|undo 1|back 0'
).split('|')


def line_of(dice: random.Random, board: Board) -> str:
    """A line of a session. CS and IP are set behind the jump alone, so that they lead to code."""
    kind = dice.choices(
        ('register', 'flags', 'place', 'byte', 'code', 'undo', 'go', 'step', 'back', 'key', 'regs', 'dump', 'stop', 'bad'),
        (8, 2, 6, 6, 4, 12, 14, 5, 12, 4, 10, 6, 3, 8),
    )[0]
    if kind == 'register':
        return f'set {dice.choice(REGISTERS[:8] + ["DS", "ES", "SS"])} {dice.randrange(0x10000):{dice.choice("Xx")}}'
    if kind == 'flags':
        return f'set FL {dice.randrange(0x10000) & 0xFCFF:X}'
    if kind == 'place' and board.of('CS') != 0xFFFF:
        return dice.choice((f'set IP {dice.randrange(0x1000):X}', f'set CS {dice.choice((0xF600, 0xF610)):X}'))
    if kind == 'byte':
        first, count = dice.choice((0x500, 0xFFF0, 0xB0000, 0xB0FF0, 0xF0000, 0xFFFF8 - 24)), dice.choice((1, 1, 2, 5, 16))
        return f'set {first + dice.randrange(17 - count):X} {" ".join(f"{dice.randrange(256):X}" for _ in range(count))}'
    if kind == 'code':
        return f'set {CODE + dice.randrange(0x1000):X} {dice.choice((NOP, HLT)):X}'
    if kind in ('undo', 'step', 'regs', 'place'):
        return kind.replace('place', 'regs')
    if kind == 'go':
        return f'go {dice.choice((0, 1, 1, 2, 5, 17, 60))}'
    if kind == 'back':
        return f'back {dice.choice(("step", "stop", "1", "2", "9", "40"))}'
    if kind == 'key':
        return dice.choice((f'key {dice.choice(("1E", "9E", "0", "54"))}', f'key 1E {dice.choice((0, 5, 40, 90, 150, LAST_CLOCK, LAST_CLOCK + 1))}'))
    if kind == 'dump':
        return f'dump {dice.choice((0x500, 0xFFF0, CODE, CODE + 0x40)):X} 16'
    if kind == 'stop':
        place = f'break F600:{dice.randrange(0x100):X}'
        return dice.choice((place, place, 'byte 500 41', 'byte F6006 90', 'halted', 'when keys', 'changes 500 16'))
    return dice.choice(BAD).strip()


def session_of(dice: random.Random, count: int) -> list[tuple[str, str]]:
    """The lines of a session, with their answers. Some have more changes than are kept, and then all ways back."""
    lab, found = Lab(), list[tuple[str, str]]()
    more = [line for number in range(20) for line in (f'set BX {number:X}', 'go 1')] + ['undo', 'regs'] * 18
    for at in range(count + (len(more) if dice.randrange(4) == 0 else 0)):
        line = line_of(dice, lab.level.now) if at < count else more[at - count]
        found.append((line, lab.answer(line)))
    return found
