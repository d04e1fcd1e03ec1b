"""tools/trace --calls: over random programs against single steps, and what it tells of programs by hand."""
from __future__ import annotations

import os
import random
import re
import signal
import subprocess
import sys
import unittest
from dataclasses import dataclass, field
from unittest import mock

from tests.support import EXAMPLES, MEASURED, RESET, SECONDS, TOP, ToolCase, children, processor_seconds, until

from toolbox.calls import Calls, Following
from toolbox.following import Tally
from toolbox.events import events
from toolbox.listing import physical
from toolbox.places import Event
from toolbox.program import Files, path
from toolbox.runfile import DEFAULTS, text_of
from zebludor import registers_of

CLOCKS = 3000
HEAD = """SEGMENT MAIN AT 0F000h
start:  MOV AX,50h
        MOV SS,AX
        MOV SP,{top}
        MOV AL,34h
        OUT 43h,AL
        MOV AL,{ticks}
        OUT 40h,AL
        MOV AL,0
        OUT 40h,AL
        MOV AL,99h
        OUT 63h,AL
        MOV AL,40h
        OUT 61h,AL
        MOV AL,13h
        OUT 20h,AL
        MOV AL,8
        OUT 21h,AL
        MOV AL,1
        OUT 21h,AL
        STI
"""
# Routines of all kinds: with a frame, with themselves, with bytes after the CALL, with no return, for far calls, with words to drop.
TAIL = """        JMP again
leaf:   PUSH AX
        POP AX
        RET
outer:  PUSH CX
        CALL leaf
        POP CX
        RET
depth:  DEC DX
        JZ $+5
        CALL depth
        RET
framed: PUSH BP
        MOV BP,SP
        SUB SP,{room}
        CALL leaf
        LEA SP,[BP]
        POP BP
        RET
inline: POP SI
        INC SI
        CALL leaf
        PUSH SI
        RET
leaves: POP BX
        JMP BX
remote: CALL leaf
        RETF
drops:  RET 2
tick:   PUSH AX
        {within}
        MOV AL,20h
        OUT 20h,AL
        POP AX
        IRET
key:    PUSH AX
        PUSH CX
        MOV CX,{slow}
        LOOP $
        IN AL,60h
        MOV AL,0C0h
        OUT 61h,AL
        MOV AL,40h
        OUT 61h,AL
        MOV AL,20h
        OUT 20h,AL
        POP CX
        POP AX
        IRET
soft:   INC DI
        IRET
flags:  RETF 2
ENDS
SEGMENT VECTORS AT 0
        DW soft,SEG soft,soft,SEG soft
        ORG 16
        DW soft,SEG soft
        ORG 20h
        DW tick,SEG tick,key,SEG key
        ORG 180h
        DW soft,SEG soft,flags,SEG flags
ENDS
SEGMENT RESET AT 0FFFFh
        JMP FAR start
ENDS
"""
DEEDS = (
    ('CALL leaf',),
    ('CALL outer',),
    ('MOV DX,{n}', 'CALL depth'),
    ('CALL framed',),
    ('CALL inline', 'NOP'),
    ('CALL leaves',),
    ('PUSH CS', 'CALL remote'),
    ('PUSH AX', 'CALL drops'),
    ('MOV BX,leaf', 'CALL BX'),
    ('INT 60h',),
    ('INT 61h',),
    ('MOV AL,127', 'INC AL', 'INTO', 'INTO'),
    ('MOV AX,0', 'MOV BL,{n}', 'DIV BL', 'MOV BL,0', 'DIV BL'),
    ('CLI', 'CALL leaf', 'STI'),
    ('PUSHF', 'CLI', 'INC AX', 'POPF'),
    ('HLT',),
    ('MOV AX,0F302h', 'PUSH AX', 'POPF', 'CALL leaf', 'MOV AX,0F202h', 'PUSH AX', 'POPF'),
    ('MOV AX,other', 'PUSH AX', 'RET', 'other:  INC AX'),
    ('PUSH AX', 'PUSH AX', 'ADD SP,4'),
    ('MOV CX,{n}', 'REP STOSB'),
    ('MOV AL,0FFh', 'OUT 21h,AL', 'MOV CX,30', 'LOOP $', 'MOV AL,0', 'OUT 21h,AL'),
    ('MOV AL,0Ch', 'OUT 20h,AL', 'IN AL,20h'),
)
UNLEVEL = (
    ('CALL lost', 'lost:   MOV SP,{top}'),
    ('SUB SP,6', 'CALL leaf', 'MOV SP,{top}'),
    ('MOV BX,sp2', 'MOV SS,CS:[BX]', 'CALL leaf', 'MOV AX,50h', 'MOV SS,AX', 'JMP SHORT $+4', 'sp2:    DW 60h'),
)


def program(seed: int) -> str:
    """A program of such deeds, one of them at most that drops what is on the stack, under the timer's and the keyboard's interrupts."""
    dice = random.Random(seed)
    values = {'n': dice.randrange(1, 6), 'top': f'{dice.choice((0x800, 0x400, 0)):X}h', 'ticks': dice.randrange(90, 255)}
    chosen = dice.sample(DEEDS, 6) + ([dice.choice(UNLEVEL)] if seed % 3 == 0 else [])
    dice.shuffle(chosen)
    lines = [each if ':' in each.partition(' ')[0] else f'        {each}' for deed in chosen for each in deed]
    tail = TAIL.format(room=dice.choice((2, 10, 40)), within=dice.choice(('NOP', 'STI', 'CALL leaf')), slow=dice.randrange(1, 30))
    return (HEAD + 'again:  INC DI\n' + '\n'.join(lines) + '\n').replace('{top}', values['top']).format(**values) + tail


@dataclass
class Call:
    """A call as single steps show it: the number of its event, what it reaches, and once it has returned the number of that event."""

    at: int
    type: int | None
    is_entry: bool
    target: tuple[int, int]
    place: int
    segment: int
    pointer: int
    returned: int | None = None
    has_left: bool = False


@dataclass
class Stepped:
    """A run by the debugger's trail, with the registers at each event and at the end."""

    events: list[Event]
    registers: list[dict[str, int]]
    end: int
    calls: list[Call] = field(default_factory=list)
    strays: int = 0

    def clock(self, number: int) -> int:
        """When an event begins; after the last one the run ends."""
        return self.events[number].clock if number < len(self.events) else self.end

    def follow(self) -> None:
        """Finds the calls, and where they return."""
        for number, event in enumerate(self.events):
            word, (before, after) = event.text.split()[-1 if event.entry is not None else 0], self.registers[number : number + 2]
            sunk = (before['SP'] - after['SP']) % 0x10000
            if word in ('RET', 'RETF', 'IRET'):
                top = physical(before['SS'], before['SP'])
                call = next((each for each in reversed(self.calls) if each.place == top and each.returned is None), None)
                self.strays += call is None
                if call:
                    call.returned = number
            elif event.text == 'JMP BX':
                call = next((each for each in reversed(self.calls) if each.returned is None and each.pointer == (before['SP'] - 2) % 0x10000), None)
                if call:
                    call.has_left = True
            elif event.entry is not None or word in ('CALL', 'INT') or word in ('INTO', 'DIV') and sunk == 6:
                type_ = event.entry if event.entry is not None else {'CALL': None, 'INTO': 4, 'DIV': 0}.get(word, event.octets[-1])
                place = physical(after['SS'], after['SP'])
                self.calls.append(Call(number, type_, event.entry is not None, (after['CS'], after['IP']), place, after['SS'], after['SP'] or 0x10000))

    def first(self, call: Call) -> int | None:
        """The number of the event at which its first instruction begins, if it does."""
        number = call.at + 1
        while number < len(self.events) and self.events[number].entry is not None:
            inner = next(each for each in self.calls if each.at == number)
            if inner.returned is None:
                return None
            number = inner.returned + 1
        is_there = number < len(self.events) and (self.events[number].segment, self.events[number].offset) == call.target
        return number if is_there else None

    def own(self, call: Call) -> int:
        """Its clocks, without those of the interrupts that came and went inside."""
        assert call.returned is not None
        clocks = set(range(self.clock(call.at), self.clock(call.returned)))
        for each in self.calls:
            if each.is_entry and each.returned is not None and call.at < each.at and each.returned < call.returned:
                clocks -= set(range(self.clock(each.at), self.clock(each.returned + 1)))
        return len(clocks)

    def stack(self, call: Call) -> int:
        """The bytes of stack that it used."""
        assert call.returned is not None
        at = self.registers[call.at]
        lows = [each['SP'] or 0x10000 for each in self.registers[call.at + 1 : call.returned + 1] if each['SS'] == call.segment]
        return (at['SP'] or 0x10000) - min(lows)

    def is_passed(self, call: Call) -> bool:
        """Whether it jumped back by a register, something was called from above its return address, or the stack is above it at the end."""
        last = self.registers[-1]
        later = any(each.segment == call.segment and each.pointer >= call.pointer for each in self.calls if each.at > call.at)
        return call.has_left or later or last['SS'] == call.segment and (last['SP'] or 0x10000) > call.pointer

    def expected(self) -> dict[object, list[object]]:
        """Of each that is reached what is told of it: all calls, the averaged clocks, with their stack, and those apart."""
        found = dict[object, list[object]]()
        for call in self.calls:
            key = call.type, call.is_entry, call.target
            calls, took, own, stack, otherwise, unended = found.setdefault(key, [0, [], [], 0, [], []])  # type: ignore[misc]
            begun = self.clock(call.at)
            if call.returned is None:
                (otherwise if self.is_passed(call) else unended).append(begun)
            else:
                took.append((call.returned, self.clock(call.returned) - begun, begun))
                own.append((call.returned, self.own(call), begun))
                stack = max(stack, self.stack(call))
            found[key] = [calls + 1, took, own, stack, otherwise, unended]
        return {key: [each[0], tally_of(each[1]), tally_of(each[2]), each[3], each[4], each[5]] for key, each in found.items()}

    def off(self) -> list[int]:
        """The clocks at which interrupts were turned on and off, in turn, from their being off at the beginning on."""
        flags = [each['FL'] >> 9 & 1 for each in self.registers]
        return [self.clock(number) for number, (a, b) in enumerate(zip(flags, flags[1:])) if a != b]


def tally_of(measured: object) -> list[int]:
    """How often, least, most, sum and the clock of the most, of what was measured in the order in which it ended."""
    found = sorted(measured)  # type: ignore[call-overload]
    values = [each[1] for each in found]
    return [len(values), min(values), max(values), sum(values), next(each[2] for each in found if each[1] == max(values))] if values else [0, 0, -1, 0, 0]


def listed(tally: Tally) -> list[int]:
    """A tally as such a list."""
    return [tally.times, tally.least, tally.most, tally.sum, tally.at]


class CallsCase(ToolCase):
    """A case that asks pcprobe."""

    def followed(self, files: Files, clocks: int, first: int = 0) -> Calls:
        """What a run comes to."""
        with Following(files, first) as following:
            for _ in following.run(clocks):
                pass
            return following.end()


class Steps(CallsCase):
    """Random programs, of which the same is asked in two ways."""

    def files(self, seed: int) -> Files:
        """A program, and a run of it."""
        dice = random.Random(-seed)
        keys = [[each, dice.choice((0x1E, 0x9E))] for each in sorted(dice.sample(range(300, CLOCKS), 6))]
        return Files(self.file('it.asm', program(seed)), self.file('it.json', text_of(DEFAULTS | {'ram': 128, 'budget': CLOCKS, 'keys': keys})))

    def stepped(self, files: Files) -> Stepped:
        """The run by single steps."""
        found = list(events(files, 0, CLOCKS))
        clocks = [*(each.clock for each in found), CLOCKS]
        given = ''.join(f'go {b - a}\nregs\n' for a, b in zip([0, *clocks], clocks))
        lines = [each for each in self.pcboard(*files.words('debug'), given=given).stdout.splitlines() if '=' in each]
        stepped = Stepped(found, [registers_of(lines[at : at + 2]) for at in range(0, len(lines), 2)], CLOCKS)
        self.assertEqual(len(stepped.registers), len(clocks))
        stepped.follow()
        return stepped

    def lines(self, stepped: Stepped, files: Files) -> list[list[object]]:
        """Of IR0 and IR1 the latencies, and how long those stood that fell before they were taken."""
        words = [path('pcprobe'), *files.words('')[1:]]
        shown = subprocess.run(words, input=f'signals {CLOCKS}\n', capture_output=True, text=True, check=True).stdout
        happens = [(int(each[0]), 0, each[1], int(each[2])) for each in map(str.split, shown.splitlines()) if each[1] in ('IR0', 'IR1')]
        for call in stepped.calls:
            if call.is_entry and call.type in (8, 9):
                happens.append((stepped.clock(call.at), 1, f'IR{call.type - 8}', stepped.first(call) or -1))
        for number, event in enumerate(stepped.events):
            if event.text.startswith('OUT 020h') and stepped.registers[number]['AX'] & 0x10:
                happens += [(event.clock, 2, each, 0) for each in ('IR0', 'IR1')]
            elif event.text.startswith('IN AL,020h') and stepped.registers[number + 1]['AX'] & 0xFE == 0x80:
                happens.append((event.clock, 2, f'IR{stepped.registers[number + 1]["AX"] & 1}', 0))
        return [self.fate(stepped, [each for each in sorted(happens) if each[2] == name]) for name in ('IR0', 'IR1')]

    def fate(self, stepped: Stepped, happens: list[tuple[int, int, str, int]]) -> list[object]:
        """Of one line: 0 is its level, 1 an entry with the number of the handler's first event, 2 that its rise is forgotten."""
        waits, taken, fell = None, list[tuple[int, int, int]](), list[tuple[int, int, int]]()
        for clock, kind, _, value in happens:
            if kind == 0:
                if waits is not None and not value:
                    fell.append((len(fell), clock - waits, clock))
                waits = clock if value else None
            else:
                if kind == 1 and waits is not None and value >= 0:
                    taken.append((value, stepped.clock(value) - waits, waits))
                waits = None
        return [tally_of(taken), tally_of(fell), min((clock for *_, clock in fell), default=0)]

    def test_random_programs(self) -> None:
        """A hundred of them: calls, stack, interrupts inside, latencies, and stretches with interrupts off."""
        seen = dict[str, int]()
        for seed in range(100):
            files = self.files(seed)
            stepped, calls = self.stepped(files), self.followed(files, CLOCKS)
            shown = {
                key: [each.calls, listed(each.took), listed(each.own), each.stack, sorted(each.otherwise), sorted(each.unended)]
                for key, each in calls.routines.items()
            }
            self.assertEqual(shown, stepped.expected(), seed)
            lines = calls.requests.lines[:2]
            self.assertEqual([[listed(each.taken), listed(each.fell), each.fell.first] for each in lines], self.lines(stepped, files), seed)
            self.off(stepped, calls, seed)
            for name, count in self.counted(stepped, calls).items():
                seen[name] = seen.get(name, 0) + count
        self.assertGreater(min(seen.values()), 20, seen)

    def off(self, stepped: Stepped, calls: Calls, seed: int) -> None:
        """Compares the stretches with interrupts off."""
        first, *turns = stepped.off()
        stretches = [(b - a, -a, b) for a, b in zip(turns[::2], turns[1::2])]
        longest = max(stretches, default=None)
        shown = calls.off
        self.assertEqual(shown.first and shown.first[0], first, seed)
        self.assertEqual(shown.longest and shown.longest[:2], longest and (-longest[1], longest[2]), seed)
        self.assertEqual(shown.since and shown.since[0], turns[-1] if len(turns) % 2 else None, seed)

    def counted(self, stepped: Stepped, calls: Calls) -> dict[str, int]:
        """How often what is hard was there."""
        self.assertEqual(calls.strays, stepped.strays)
        routines, done = calls.routines.values(), [each for each in stepped.calls if each.returned is not None and each.type is None]
        return {
            'apart': sum(len(each.otherwise) for each in routines),
            'under way': sum(len(each.unended) for each in routines),
            'interrupted': sum(each.took.sum != each.own.sum for each in routines),
            'recursive': sum(a.target == b.target and a.at < b.at < (a.returned or 0) for a in done for b in done),
            'strays': stepped.strays,
            'fell': sum(each.fell.times for each in calls.requests.lines),
        }


# A handler that follows the division which it serves, a routine that begins with an interrupt, and one that drops its address.
AFTER = """        MOV AX,50h
        MOV SS,AX
        MOV SP,800h
        MOV AX,0
        MOV BL,0
        DIV BL
serves: CALL leaves
        CLI
        HLT
leaves: POP AX
        JMP AX
ENDS
SEGMENT VECTORS AT 0
        DW serves,SEG serves
"""


# Opcodes and operands that call, return and move SP, before any bytes at all.
MOVING = bytes.fromhex('E8C3C2CBCACF9ACDCCCE5058545C559C9D8F17161F0644 4CBCFF8E81838BE489C4EC FBFAF6F7D49487')


class AnyBytes(CallsCase):
    """Programs of bytes by chance: SP is where the instructions bring it."""

    def test_the_stack_at_the_end(self) -> None:
        moved = 0
        for seed in range(40):
            dice = random.Random(seed)
            octets = [dice.choice(MOVING) if dice.random() < 0.7 else dice.randrange(256) for _ in range(320)]
            rows = '\n'.join(f' DB {",".join(map(str, octets[at : at + 16]))}' for at in range(0, 320, 16))
            source = self.file(f'{seed}.asm', f'SEGMENT M AT 50h\nstart: MOV SP,800h\n{rows}\n{RESET}')
            files = Files(source, self.file('it.json', text_of(DEFAULTS | {'budget': 4000})))
            shown = self.pcboard(*files.words('debug'), given='go 4000\nregs\n').stdout.splitlines()
            registers, stack = registers_of(shown[1:3]), self.followed(files, 4000).stack
            self.assertEqual((stack.segment, stack.level % 0x10000), (registers['SS'], registers['SP']), seed)
            moved += registers['SP'] not in (0, 0x800)
        self.assertGreater(moved, 25)

    def test_pieces(self) -> None:
        """However long the pieces are, the same comes out."""
        files = Files(f'{EXAMPLES}/nested.asm', f'{EXAMPLES}/nested.json')
        whole = self.followed(files, 9000)
        for clocks in (1, 61, 500):
            with mock.patch('toolbox.calls.PIECE', clocks):
                pieces = self.followed(files, 3000 if clocks == 1 else 9000)
            wanted = self.followed(files, 3000) if clocks == 1 else whole
            self.assertEqual((pieces.routines, pieces.requests.lines, pieces.off), (wanted.routines, wanted.requests.lines, wanted.off), clocks)


class Told(CallsCase):
    """What the tool prints."""

    def test_a_terminal(self) -> None:
        """The finding's numbers: getc takes 48 to 378 clocks with the key's handler in it, the tick 229 to 237."""
        files = f'{EXAMPLES}/terminal/terminal.asm', f'{EXAMPLES}/terminal/terminal.json'
        out, _ = self.called('trace', '--calls', *files)
        rows = {each[0]: each for each in map(str.split, out.splitlines()) if each}
        self.assertEqual(rows['getc'][2:4] + rows['getc'][5:7] + rows['getc'][8:], ['48', '378', '48', '106', '20450', '14'])
        self.assertEqual(rows['tick'][4:6], ['229', '237'])
        self.assertEqual(rows['09'][:4], ['09', 'IR1', '2', '61'])
        self.assertRegex(out, r'interrupts off for 403 clocks at most: from 20000, the entry of interrupt 09, to 20403, line \d+ \(IRET\)\n$')

    def test_what_is_told_apart(self) -> None:
        files = self.program(AFTER, 400)
        out, _ = self.called('trace', '--calls', *files)
        self.assertIn('serves (INT 00): not left yet at the end once', out)
        self.assertIn('leaves: left otherwise than by its return once, and not averaged; first called at', out)
        self.assertIn('interrupts off from the beginning to the end', out)
        out, _ = self.called('trace', '--calls', f'{EXAMPLES}/poll.asm', f'{EXAMPLES}/poll.json')
        self.assertIn('IR1: fell again before it was taken 4 times, first at 1033; it had stood for 30 to 49 clocks\n', out)

    def test_from_the_midst_of_a_run(self) -> None:
        """The same calls are counted, and requests that rose before aren't averaged."""
        files = Files(f'{EXAMPLES}/nested.asm', f'{EXAMPLES}/nested.json')
        whole, late = self.followed(files, 9000), self.followed(files, 9000, 6000)
        begun = [each.clock for each in events(files, 6000, 9000) if each.entry == 8]
        self.assertEqual(sum(each.calls for key, each in late.routines.items() if key[0] == 8), len(begun))
        self.assertEqual(late.requests.base, whole.requests.base)

    def test_an_interrupt_tells_what_ran_until_then(self) -> None:
        """The tables are those of a run that ends at the clock that is told."""
        source, run = self.program('        MOV SP,8000h\nagain:  CALL leaf\n        JMP again\nleaf:   INC AX\n        RET', 1 << 38)
        with subprocess.Popen(
            [sys.executable, '-S', f'{TOP}/tools/trace', '--calls', source, run],
            stdout=subprocess.PIPE,
            stderr=subprocess.PIPE,
            text=True,
            start_new_session=True,
        ) as process:
            self.assertTrue(until(lambda: children(process.pid)) and until(lambda: processor_seconds(process.pid) > 1))
            os.killpg(process.pid, signal.SIGINT)
            out, err = process.communicate(timeout=SECONDS)
        ended = re.search(r'^trace: ended at clock (\d+) of \d+; the tables are of the run up to there$', err, re.M)
        self.assertTrue(process.returncode == 130 and ended, err)
        self.assertEqual(out, self.called('trace', '--calls', '--to', ended[1] if ended else '', source, run)[0])


class Speed(CallsCase):
    """How long it takes."""

    def test_ten_million_clocks(self) -> None:
        """A program of C with interrupts off, the tool and what it starts."""
        files = f'{TOP}/bench/programs/sort.hex', f'{TOP}/bench/programs/run.json'
        done = subprocess.run(
            [sys.executable, '-c', MEASURED, sys.executable, '-S', f'{TOP}/tools/trace', '--calls', '--to', '10000000', *files],
            capture_output=True,
            text=True,
            check=True,
        )
        self.assert_within(float(done.stderr.split()[0]), 3)


if __name__ == '__main__':
    unittest.main()
