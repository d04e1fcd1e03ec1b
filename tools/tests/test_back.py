"""Sessions of `pcboard debug` that go back, under each timer and clock table, held against sessions that go forward alone,
from power-on."""
from __future__ import annotations

import itertools
import json
import re
from typing import Iterator

from tests.support import ToolCase, example

EXAMPLES = ('readback', 'tone', 'nested')  # a counter that is read back, the speaker, keys and the timer's interrupts
CHOICES = [{'timer': timer, 'clocks': clocks} for timer, clocks in itertools.product(('8253', '8254'), ('C1', 'C2'))]
STOP = {'readback': 'break F600:0089', 'tone': 'sound', 'nested': 'halted'}
LAST, SHOWN = 1500, 'regs\nscreen\ntrail\ndump 400 16\ndump B0000 160\n'


class Back(ToolCase):
    """What a session shows after it has gone back."""

    def session(self, words: list[str], commands: str) -> list[str]:
        ran = self.pcboard('debug', *words, given=commands)
        self.assertEqual((ran.returncode, ran.stderr), (0, ''))
        return ran.stdout.splitlines()

    def each_case(self) -> Iterator[tuple[list[str], str]]:
        """The words of each session, with its stop."""
        for name, choice in itertools.product(EXAMPLES, CHOICES):
            source, run = example(name)
            with open(run, encoding='utf-8') as file:
                fields = json.load(file) | choice | {'version': 2}
            with self.subTest(name=name, **choice):
                yield [source, self.file('it.json', json.dumps(fields))], STOP[name]

    def held_at(self, words: list[str], stop: str) -> list[int]:
        """The clocks from 1 to the last at which a stop holds, found clock by clock. At 0 none of these holds."""
        lines = self.session(words, f'{stop}\n' + 'go 1\n' * LAST)
        return [int(line.rpartition(' ')[2]) for line in lines[1:] if line.startswith('stop')]

    def free_at(self, words: list[str]) -> list[int]:
        """The clocks up to the last at which the processor is free, found step by step."""
        lines = self.session(words, 'step\n' * LAST)
        return [0, *(clock for clock in (int(line.removeprefix('clock ')) for line in lines) if clock <= LAST)]

    def test_to_a_stop_and_to_a_boundary(self) -> None:
        for words, stop in self.each_case():
            held, free = self.held_at(words, stop), self.free_at(words)
            self.assertTrue(held)
            for now in range(1, LAST, 208):
                answer = self.session(words, f'{stop}\n' + 'go 1\n' * now + 'back stop\n')[-1]
                at = max((clock for clock in held if clock < now), default=None)
                self.assertEqual(answer, f'stop 1 clock {at}' if at else 'fault 54 BeforeStart')
                answer = self.session(words, f'go {now}\nback step\n')[-1]
                self.assertEqual(answer, f'clock {max(clock for clock in free if clock < now)}')

    def test_by_clocks(self) -> None:
        for words, _ in self.each_case():
            for now, back in ((LAST, 1), (LAST, 555), (500, 499), (400, 37), (333, 333)):
                gone = self.session(words, f'go {now}\nback {back}\n{SHOWN}')
                self.assertEqual(gone[1], f'clock {now - back}')
                self.assertEqual(gone[2:], self.session(words, f'go {now - back}\n{SHOWN}')[1:])
                again = self.session(words, f'go {now}\nback {back}\ngo {back}\n{SHOWN}')
                self.assertEqual(again[2:], self.session(words, f'go {now}\n{SHOWN}'))

    def test_forth_and_back(self) -> None:
        for words, stop in self.each_case():
            commands = f'{stop}\ngo 400\ngo 400\nback 11\nstep\nback stop\nback step\ngo 5\nback 3\ngo 40\nback stop\nstep\n'
            lines = self.session(words, commands + SHOWN)
            clock = int(re.fullmatch(r'clock (\d+)', lines[11])[1])
            self.assertEqual(lines[12:], self.session(words, f'go {clock}\n{SHOWN}')[1:])
