"""Changes of registers and memory in the probe's session, over the built program: by a model of its own, and by rows of the page."""
from __future__ import annotations

import random
import unittest

from tests import what_if
from tests.support import STORED, ToolCase, example

from toolbox.program import run

SESSIONS, LINES = 60, 70


class Rows(ToolCase):
    """Sessions whose answers stand in a file."""

    def held(self, name: str, files: tuple[str, str]) -> None:
        """The lines that begin with > are given, the others are the answers."""
        with open(f'{STORED}/{name}.rows', encoding='ascii') as file:
            rows = file.read().splitlines()
        given = '\n'.join(row[2:] for row in rows if row.startswith('> ')) + '\n'
        ran = run(['--', *files], given.encode(), 'pcprobe')
        self.assertEqual((ran.status, [line.rstrip() for line in ran.out.splitlines()]), (0, [row for row in rows if not row.startswith('> ')]), ran.err)

    def test_ticks(self) -> None:
        """Of a program with interrupts: levels, ways back, a busy processor, a prefix that is gone, flags, refusals, stops that stay."""
        self.held('what_if_ticks', example('ticks'))

    def test_repeat(self) -> None:
        """Of a repeat, a halt and a jam: CX in between, and CS:IP, by which they end; keys, and more changes than are kept."""
        files = f'{STORED}/what_if_repeat.asm', self.file('run', '{"version":1,"ram":64,"sw1":0,"sw2":0,"budget":100000,"keys":[]}')
        self.held('what_if_repeat', files)


class Model(ToolCase):
    """Random sessions."""

    def test_the_model_itself(self) -> None:
        """By the 8086's manual a jump between segments takes 15 clocks, NOP 3 and HLT 2; the first HLT is the seventh byte,
        and is made in its first clock."""
        lab = what_if.Lab()
        lines = ('halted', 'go 100', 'set IP 0', 'go 1', 'back 1', 'back 1', 'undo', 'undo')
        answers = ('stop 1', 'stop 1 clock 34', 'clock 34', 'clock 35', 'clock 34', 'fault 54 BeforeStart', 'clock 34', 'fault 54 BeforeStart')
        self.assertEqual(tuple(map(lab.answer, lines)), answers)

    def test_sessions(self) -> None:
        """They differ in nothing."""
        files = self.file('it.asm', what_if.SOURCE), self.file('run', '{"version":1,"ram":64,"sw1":0,"sw2":0,"budget":100000,"keys":[]}')
        kinds = set[str]()
        for seed in range(SESSIONS):
            wanted = what_if.session_of(random.Random(seed), LINES)
            lines = [line for line, _ in wanted]
            ran = run(['--', *files], ('\n'.join(lines) + '\n').encode(), 'pcprobe')
            self.assertEqual(ran.status, 0, ran.err)
            left = ran.out.splitlines()
            for at, (line, answer) in enumerate(wanted):
                count = answer.count('\n') + 1
                found, left = '\n'.join(left[:count]), left[count:]
                self.assertEqual(found, answer, (seed, at, line, lines[:at]))
                kinds.add(f'{line.split()[0]} {answer.split()[0]} {answer.split()[1] if answer.startswith("fault") else ""}'.strip())
            self.assertEqual(left, [])
        for each in ('set clock', 'set fault 51', 'set fault 55', 'undo clock', 'undo fault 54', 'undo fault 51', 'go stop', 'back fault 54', 'key fault 34'):
            self.assertIn(each, kinds)


if __name__ == '__main__':
    unittest.main()
