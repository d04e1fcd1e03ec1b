"""What tools compute by themselves, held against the program's own answers at each clock of random programs."""
from __future__ import annotations

import random
import re
import unittest
from dataclasses import dataclass

from tests.support import ToolCase

from toolbox.events import first_start
from toolbox.listing import listing_of, physical
from toolbox.program import Files, ProbeSession
from toolbox.report import NANOSECONDS
from toolbox.runfile import DEFAULTS, text_of

CLOCKS, STEPS = 2500, 500
# Bytes of the stack, whose top is 00D00, those that strings reach, and some of ROM.
WATCHED = ((0xCF0, 16), (0xCFA, 6), (0xC00, 256), (0x400, 5), (0xCFC, 1), (0xF0000, 128))
HEAD = """SEGMENT MAIN AT 0F000h
start:  MOV AX,50h
        MOV SS,AX
        MOV SP,800h
        MOV AL,99h
        OUT 63h,AL
        MOV AL,13h
        OUT 20h,AL
        MOV AL,8
        OUT 21h,AL
        MOV AL,1
        OUT 21h,AL
        MOV AL,34h
        OUT 43h,AL
        MOV AL,{ticks}
        OUT 40h,AL
        MOV AL,0
        OUT 40h,AL
        STI
"""
TAIL = """        JMP again
tick:   PUSH AX
        MOV AL,20h
        OUT 20h,AL
        POP AX
        IRET
        NOP
soft:   {soft}
        IRET
ENDS
SEGMENT VECTORS AT 0
        ORG 4
        DW soft,SEG soft
        ORG 20h
        DW tick,SEG tick
        ORG 180h
        DW soft,SEG soft
ENDS
SEGMENT RESET AT 0FFFFh
first:  JMP FAR start
ENDS
"""
# A halt, also one that the single step ends at once, beside what moves the speaker, repeats and jumps.
DEEDS = (
    ('        HLT',),
    ('        CLI', '        INC BX', '        STI', '        HLT'),
    ('        MOV AX,0F302h', '        PUSH AX', '        POPF', '        HLT', '        MOV AX,0F202h', '        PUSH AX', '        POPF'),
    ('        INT 60h',),
    ('        MOV AL,2', '        OUT 61h,AL', '        MOV AL,0', '        OUT 61h,AL'),
    ('        MOV CX,5', '        MOV DI,400h', '        REP STOSB'),
    ('        TEST BX,1', '        JNZ $+3', '        NOP'),
)


def program(seed: int) -> str:
    """A program of such deeds, under a timer's interrupts."""
    dice = random.Random(seed)
    lines = ['again:  INC BX', *(line for _ in range(6) for line in dice.choice(DEEDS))]
    return HEAD.format(ticks=dice.randrange(60, 250)) + '\n'.join([*lines, '']) + TAIL.format(soft=dice.choice(('INC DX', 'HLT', 'NOP')))


@dataclass(frozen=True)
class Steps:
    """What single steps of a program show: the clock before the first of them and after each, the registers there, as lines, and the clocks
    after those in which a watched byte changed, which are the first ones of their steps."""

    clocks: list[int]
    registers: list[str]
    changes: list[int]


class Stepped(ToolCase):
    """Random programs, and their steps, which are made once for all tests."""

    kept: dict[tuple[int, int, int], Steps] = {}

    def program_files(self, seed: int) -> Files:
        """A program."""
        return Files(self.file('it.asm', program(seed)), self.file('it.json', text_of(DEFAULTS)))

    def steps(self, seed: int, address: int, count: int) -> Steps:
        """The program's first steps, for which so many bytes from an address on are watched."""
        if (seed, address, count) not in self.kept:
            looks = f'dump {address:X} {count}\nregs\n'
            answers = self.pcboard(*self.program_files(seed).words('debug'), given=f'go 0\n{looks}' + f'step\n{looks}' * STEPS).stdout
            found = re.findall(r'clock (\d+)\n(.*?)(AX=.*?\nCS=.*?)\n', answers, re.S)
            self.assertEqual(len(found), STEPS + 1)
            changes = [int(clock) + 1 for (clock, now, _), (_, then, _) in zip(found, found[1:]) if now != then]
            self.kept[seed, address, count] = Steps([int(clock) for clock, _, _ in found], [registers for _, _, registers in found], changes)
        return self.kept[seed, address, count]


UNKNOWN = -1  # the value of a signal that isn't known yet


class Held(ToolCase):
    """Some programs, of which the same things are asked in two ways."""

    def files(self, seed: int) -> Files:
        """A program, and a run of it."""
        return Files(self.file('it.asm', program(seed)), self.file('it.json', text_of(DEFAULTS | {'budget': CLOCKS})))

    def holding(self, files: Files, stop: str) -> list[int]:
        """Whether a stop holds, at each clock."""
        lines = self.pcboard(*files.words('debug'), given=f'{stop}\n' + 'go 1\n' * (CLOCKS - 1)).stdout.splitlines()[1:]
        self.assertEqual(len(lines), CLOCKS - 1)
        return [0, *(int(line.startswith('stop')) for line in lines)]

    def levels(self, text: str, name: str) -> list[int]:
        """A signal of a waveform, at each clock."""
        sign = next(declaration.split()[3] for declaration in text.splitlines() if declaration.startswith('$var') and declaration.split()[4] == name)
        found, level = list[int](), 0
        for line in text.partition('$dumpvars\n')[2].splitlines():
            if line.startswith('#'):
                found += [level] * (int(line.strip('#')) // NANOSECONDS - len(found))
            elif line[1:] == sign:
                level = UNKNOWN if line[0] == 'x' else int(line[0])
        return found

    def test_waveforms(self) -> None:
        """Halts and the speaker, from the run's beginning on and from its midst: at each clock what stops hold there."""
        halts = 0
        for seed in range(8):
            files, first = self.files(seed), 0 if seed % 2 else 700
            text, _ = self.called('trace', '--vcd', '-', '--from', str(first), files.file, files.run_file)
            for name, stop in (('halted', 'halted'), ('speaker', 'sound')):
                held = self.holding(files, stop)
                unseen = [UNKNOWN] * first if name == 'halted' else held[:first]
                self.assertEqual(self.levels(text, name), unseen + held[first:], (seed, name))
                halts += name == 'halted' and sum(a < b for a, b in zip(held, held[1:]))
        self.assertGreater(halts, 30)

    def words(self, text: str, name: str) -> list[int]:
        """A signal of many bits of a waveform, at each clock."""
        sign = next(each.split()[3] for each in text.splitlines() if each.startswith('$var') and each.split()[4] == name)
        found, value = list[int](), 0
        for line in text.partition('$dumpvars\n')[2].splitlines():
            if line.startswith('#'):
                found += [value] * (int(line.strip('#')) // NANOSECONDS - len(found))
            elif line.startswith('b') and line.split()[1] == sign:
                value = UNKNOWN if line.startswith('bx') else int(line.split()[0][1:], 2)
        return found

    def test_watched_memory(self) -> None:
        """A word of the stack, a byte that strings reach, and one of ROM: at each clock what memory holds."""
        changes = 0
        for seed in range(6):
            files, first = self.files(seed), 0 if seed % 2 else 700
            rom = physical(*(listing_of(files).label_of('tick') or (0, 0)))
            places = {'0050:07FA,word': (0xCFA, 2), '400': (0x400, 1), 'tick,byte': (rom, 1)}
            words = [word for each in places for word in ('--watch', each)]
            text, _ = self.called('trace', '--vcd', '-', '--from', str(first), *words, files.file, files.run_file)
            given = ''.join(f'dump {at:X} {size}\n' for at, size in places.values()) + 'go 1\n'
            rows = [each for each in self.pcboard(*files.words('debug'), given=given * CLOCKS).stdout.splitlines() if ':' in each]
            dumped = [int.from_bytes(bytes.fromhex(each.partition(':')[2]), 'little') for each in rows]
            for number, name in enumerate(places):
                held = dumped[number :: len(places)]
                self.assertEqual(self.words(text, name.partition(',')[0]), [UNKNOWN] * first + held[first:], (seed, name))
                changes += sum(a != b for a, b in zip(held, held[1:]))
        self.assertGreater(changes, 40)

    def began(self, files: Files) -> dict[tuple[int, int], int]:
        """The places at which instructions begin, each with the first clock of one, by single steps: the last line of the trail after a
        step is what the step began with."""
        answers = self.pcboard(*files.words('debug'), given='step\ntrail\n' * CLOCKS).stdout
        found, here = dict[tuple[int, int], int](), 0
        for answer in f'\n{answers}'.split('\nclock ')[1:]:
            there, *_, last = answer.splitlines()
            clock, place, what = last.split(maxsplit=2)
            segment, _, offset = place.partition(':')
            if int(clock) == here < CLOCKS and not what.startswith('entry'):
                found.setdefault((int(segment, 16), int(offset, 16)), here)
            here = int(there)
        self.assertGreaterEqual(here, CLOCKS)
        return found

    def test_what_ran(self) -> None:
        """Where an instruction first began, as tools/judge looks for it: as single steps meet it, at the reset's place too."""
        for seed in range(4):
            files = self.files(seed)
            began = self.began(files)
            lines = [line.address for line in listing_of(files).lines if line.address and line.address[0] > 0x50]
            dice = random.Random(seed)
            for place in [(0xFFFF, 0), *dice.sample(lines, 12)]:
                with ProbeSession(files) as session:
                    self.assertEqual(first_start(session, place, CLOCKS), began.get(place), (seed, place))


if __name__ == '__main__':
    unittest.main()
