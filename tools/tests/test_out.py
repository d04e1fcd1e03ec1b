"""Out of a routine: it ends where single steps would, whatever calls, interrupts and values of BP are on the way, and soon."""
from __future__ import annotations

import os
import random
import time
import unittest

from tests.support import ToolCase, children, processor_seconds
from tests.test_calls import Stepped

from toolbox.dap.board import Machine
from toolbox.events import events
from toolbox.listing import listing_of
from toolbox.program import Files, ProbeSession, Session
from toolbox.report import registers_of
from toolbox.runfile import DEFAULTS, text_of
from toolbox.session_board import Paused, break_at

BUDGET, ROUTINES = 60_000, 5
HEAD = """SEGMENT MAIN AT 0F000h
start:  MOV AX,100h
        MOV SS,AX
        MOV SP,800h
        MOV AL,13h
        OUT 20h,AL
        MOV AL,8
        OUT 21h,AL
        MOV AL,1
        OUT 21h,AL
        MOV AL,34h
        OUT 43h,AL
        MOV AL,{ticks}
        OUT 40h,AL
        MOV AL,0
        OUT 40h,AL
        STI
again:  MOV DX,{fuel}
        CALL r0
        JMP SHORT again
tick:   PUSH AX
        MOV AX,3
wai:    DEC AX
        JNZ wai
        MOV AL,20h
        OUT 20h,AL
        POP AX
        IRET
soft:   PUSH CX
        MOV CX,{soft}
swait:  LOOP swait
        POP CX
        IRET
"""
TAIL = """ENDS
SEGMENT OTHER AT 0F800h
away:   PUSH BP
        MOV BP,{bp}
        MOV CX,{away}
awa:    LOOP awa
        POP BP
        RETF
ENDS
SEGMENT VECTORS AT 0
        ORG 20h
        DW tick,SEG tick
        ORG 180h
        DW soft,SEG soft
ENDS
SEGMENT RESET AT 0FFFFh
        JMP FAR start
ENDS
"""
DELAY = """SEGMENT MAIN AT 0F000h
start:  MOV SP,400h
        CALL delay
        HLT
delay:  MOV CX,0
w1:     LOOP w1
        RET
ENDS
SEGMENT RESET AT 0FFFFh
        JMP FAR start
ENDS
"""


def routine(number: int, dice: random.Random) -> str:
    """A routine that pushes, loops, and calls others and itself as long as DX lasts."""
    lines = [f'r{number}:']
    pushed = [dice.choice(('AX', 'BX', 'SI', 'BP', 'CX')) for _ in range(dice.randrange(4))]
    lines += [f'        PUSH {register}' for register in pushed]
    for part in range(dice.randrange(2, 5)):
        kind = dice.randrange(6)
        if kind == 0:
            lines += [f'        MOV CX,{dice.choice((1, 7, 300, 900))}', f'l{number}a{part}: LOOP l{number}a{part}']
        elif kind == 1:
            lines.append(f'        MOV BP,{dice.choice(("SP", dice.randrange(0x700, 0x810), dice.randrange(0x10000)))}')
        elif kind == 2:
            lines.append('        INT 60h')
        elif kind == 3:
            lines.append('        CALL FAR away')
        else:
            lines += [
                '        TEST DX,DX',
                f'        JZ e{number}a{part}',
                '        DEC DX',
                f'        CALL r{dice.randrange(ROUTINES)}',
                f'e{number}a{part}: INC DI',
            ]
    lines += [f'        POP {register}' for register in reversed(pushed)]
    return '\n'.join([*lines, '        RET', ''])


def program(seed: int) -> str:
    """A program of routines that call each other, under a timer's interrupts."""
    dice = random.Random(seed)
    numbers = {
        'ticks': dice.choice((80, 200)),
        'fuel': dice.randrange(3, 30),
        'soft': dice.choice((1, 400)),
        'bp': dice.randrange(0x10000),
        'away': dice.choice((2, 500)),
    }
    return HEAD.format(**numbers) + ''.join(routine(number, dice) for number in range(ROUTINES)) + TAIL.format(**numbers)


def stepped_of(machine: Machine, budget: int) -> Stepped:
    """The run of a board's files by single steps, with its calls."""
    found = list(events(machine.files, 0, budget))
    with ProbeSession(machine.files) as session:
        lines = session.registers_at([*(each.clock for each in found), budget]).decode('ascii').splitlines()
    stepped = Stepped(found, [registers_of(lines[at + 1 : at + 3]) for at in range(0, len(lines), 3)], budget)
    stepped.follow()
    return stepped


def end_of(stepped: Stepped, clock: int) -> tuple[int, str]:
    """Where the routine that runs at a clock has returned: the innermost call whose return address lies on the stack."""
    is_open = (each for each in reversed(stepped.calls) if stepped.clock(each.at) < clock)
    call = next((each for each in is_open if each.returned is None or stepped.clock(each.returned) >= clock), None)
    return (stepped.end, 'far') if call is None or call.returned is None else (stepped.clock(call.returned + 1), 'returned')


class Out(ToolCase):
    """Against steps, and against the clock."""

    def machine(self, source: str, budget: int) -> Machine:
        """A board of a source."""
        files = Files(self.file('it.asm', source), self.file('it.json', text_of(DEFAULTS | {'budget': budget})))
        made = Machine(files, listing_of(files), budget, lambda: None)
        self.addCleanup(made.close)
        return made

    def test_it_ends_where_steps_do(self) -> None:
        """Twelve programs, 24 clocks each, from the midst of whatever runs there."""
        how = dict[str, int]()
        for seed in range(12):
            machine, dice = self.machine(program(seed), BUDGET), random.Random(-seed)
            stepped = stepped_of(machine, BUDGET)
            for _ in range(24):
                clock = dice.randrange(400, BUDGET - 20_000)
                machine.go_to(clock)
                machine.out()
                wanted = end_of(stepped, clock)
                self.assertEqual((min(machine.clock, BUDGET), machine.why), wanted, (seed, clock))  # a step may end behind the budget
                how[machine.why] = how.get(machine.why, 0) + 1
        self.assertGreater(how['returned'], 200, how)

    def test_a_stop_on_the_way(self) -> None:
        """It is met first, also where the routine would return to it later."""
        machine = self.machine(DELAY, 2_000_000)
        machine.go_to(200)
        for label in ('w1', 'delay'):
            stop = break_at(machine.listing.labels[label])
            self.assertEqual((machine.to_stops(machine.out, {stop}), machine.why), ((stop, 'stop') if label == 'w1' else (None, 'returned')), label)

    def test_a_long_loop(self) -> None:
        """From within a LOOP of 65,536 rounds it takes at most half a second of the processors, over such a call too; so does finish."""

        def spent() -> float:
            return time.process_time() + sum(os.times()[2:4]) + sum(map(processor_seconds, children(os.getpid())))

        machine = self.machine(DELAY, 2_000_000)
        with Session(machine.files) as session:
            session.stop('break F000:0006')
            session.go(2_000_000)
            end = session.clock
        for move in (machine.out, machine.next):
            machine.go_to(0)
            machine.run({break_at(machine.listing.labels['w1']) if move == machine.out else 'break F000:3'}, 1000)
            before = spent()
            move()
            self.assert_within(spent() - before, 0.5)
            self.assertEqual(machine.clock, end)
        before = spent()
        out, _ = self.tool('dbg', machine.files.file, machine.files.run_file, given='to 200\nfinish\n')
        self.assertIn(f'clock {end}', out)
        self.assert_within(spent() - before, 1.5)  # with the start of Python, the assembly and the listing

    def test_it_can_be_paused(self) -> None:
        """Between the pieces of a way."""
        start = 'SEGMENT MAIN AT 0F000h\nstart:  MOV SP,0FFF0h\n{}ENDS\nSEGMENT RESET AT 0FFFFh\n        JMP FAR start\nENDS\n'
        deep = '        MOV CX,20000\n        CALL deep\n        JMP SHORT start\ndeep:   DEC CX\n        JZ over\nagain:  CALL deep\nover:   RET\n'
        for body, way in (('again:  MOV SP,0\n        JMP SHORT start\n', 'out'), (deep, 'next')):
            machine, left = self.machine(start.format(body), 100_000_000), [8]
            machine.run([break_at(machine.listing.labels['again'])], 1000)

            def poll(left: list[int] = left) -> None:
                left[0] -= 1
                if not left[0]:
                    raise Paused('paused')

            machine.poll = poll
            with self.assertRaises(Paused):
                getattr(machine, way)()
            self.assertLess(machine.clock, 500_000, way)

    def test_what_ends_it_before(self) -> None:
        """A jam, a halt for good and the budget: there, and it is said, by tools/dbg too."""
        for deed, why, sentence in (
            ('DB 0FFh,0FFh', 'jammed', 'the processor has jammed'),
            ('CLI\n        HLT', 'halted for good', 'halted with interrupts off'),
            ('JMP SHORT w1', 'far', 'up to the end of the run'),
        ):
            for rounds in (3, 9000):
                machine = self.machine(DELAY.replace('CX,0', f'CX,{rounds}').replace('        RET', f'        {deed}'), 400_000)
                machine.go_to(60)
                machine.out()
                self.assertEqual(machine.why, why, deed)
                label = machine.listing.label_before(*machine.place())
                if why == 'far':
                    self.assertEqual(machine.clock, 400_000)
                else:
                    self.assertEqual((label[:4], machine.clock < 200_000), ('w1+2' if why == 'jammed' else 'w1+4', True), deed)
                out, _ = self.called('dbg', machine.files.file, machine.files.run_file, given='to 60\nfinish\n')
                self.assertIn(f"it didn't return{':' if why != 'far' else ''} {sentence}", out)
                self.assertIn(f'clock {machine.clock}', out)


if __name__ == '__main__':
    unittest.main()
