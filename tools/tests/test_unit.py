"""Routines that are called by python/zebludor.py, and the example in examples/unit."""
from __future__ import annotations

import importlib.util
import re
import resource
import subprocess
import sys
import unittest

from tests.support import EXAMPLES, TOP, ToolCase, not_run, slower

sys.path.insert(0, f'{TOP}/python')
from zebludor import Fault, NotReturned, Session, Unfit  # noqa: E402  pylint: disable=wrong-import-position

UNIT = f'{EXAMPLES}/unit'
SECONDS = 5  # of processor, for a sixteenth of all values of AX, and to begin two sessions
SOURCE = """SEGMENT MAIN AT 0F600h
start:  MOV AX,0
        MOV SS,AX
        MOV SP,400h
here:   HLT
double: MOV BX,AX
        ADD AX,BX
        RET
adds:   PUSH BP
        MOV BP,SP
        MOV AX,[BP+4]
        ADD AX,[BP+6]
        MOV [500h],AX
        POP BP
        RET 4
away:   INC CX
        RETF
trap:   ADD AL,3
        STC
        IRET
never:  JMP SHORT never
copy:   MOV AL,[510h]
        MOV [511h],AL
        RET
twice:  DEC CX
        JNZ twice
        RET
ENDS
SEGMENT DATA AT 0
        ORG 600h
count:  DW 5
ENDS
SEGMENT RESET AT 0FFFFh
        JMP FAR start
ENDS
"""


class Changes(ToolCase):
    """What a session sets and undoes."""

    def session(self) -> Session:
        """One that stands at the halt, at clock 25."""
        found = Session(SOURCE, probe=True)
        self.addCleanup(found.close)
        found.stop_at('here')
        found.go(1000)
        return found

    def test_set_and_undo(self) -> None:
        session = self.session()
        before = session.registers
        for place, value in (('AX', 0x1234), ('BL', -1), ('ZF', 1), ('FL', 0xF0D7), ('CF', 0), (0x700, bytes(range(40))), (0x500, 7)):
            session.set(place, value)
        session.set('count', 0x1234, 2)
        now = session.registers
        self.assertEqual((now['AX'], now['BX'], now['FL'], session.word('count')), (0x1234, 0xFF, 0xF0D6, 0x1234))
        self.assertEqual((session.dump(0x700, 40), session.byte(0x500)), (bytes(range(40)), 7))
        for place, value in (('AX', 70000), ('AL', 256), (0x500, 256)):
            self.assertRaises(ValueError, session.set, place, value)
        for place, value in ((0xA0000, 1), (0xFFF8, bytes(20))):
            with self.assertRaisesRegex(Fault, '55 NoCell'):
                session.set(place, value)
        self.assertRaises(Unfit, session.set, 'nope', 1)
        self.assertEqual(session.dump(0xFFF8, 8), bytes(8))
        session.go(10)
        session.set('DX', 1)
        session.undo()
        self.assertEqual((session.clock, session.registers['DX']), (35, 0))
        with self.assertRaisesRegex(Fault, '54 BeforeStart'):
            session.back(11)
        session.undo()
        self.assertEqual((session.clock, session.registers, session.word('count')), (25, before, 5))
        with self.assertRaisesRegex(Fault, '54 BeforeStart'):
            session.undo()
        with Session(SOURCE) as other:
            for ask in (lambda: other.set('AX', 1), other.undo, lambda: other.call('double')):
                self.assertRaisesRegex(Unfit, 'probe=True', ask)

    def test_calls(self) -> None:
        """By the 8086's manual MOV takes 2 clocks between registers, ADD 3, and RET 8."""
        session = self.session()
        before = session.registers
        found = session.call('double', ax=0x1234)
        self.assertEqual((found.registers['AX'], found.registers['BX'], found.registers['SP'], found.clocks, found.memory), (0x2468, 0x1234, 0x400, 13, {}))
        found = session.call('adds', stack=[5, 700], bp=9)
        self.assertEqual((found.registers['AX'], found.registers['SP'], found.registers['BP']), (705, 0x400, 9))
        self.assertEqual({at: octet for at, octet in found.memory.items() if at >= 0x400}, {0x500: 705 % 256, 0x501: 2})
        self.assertEqual(session.call('away', returns='far', cx=0xFFFF).registers['CX'], 0)
        found = session.call('trap', returns='iret', ax=0x905)
        self.assertEqual((found.registers['AX'], found.registers['FL'] & 1, found.registers['SP']), (0x908, 0, 0x400))
        self.assertEqual(session.call('copy', memory={0x510: 7, 0x511: b'\1\2'}).memory, {0x511: 7})
        self.assertEqual(session.call('twice', cx=100).registers['CX'], 0)
        with self.assertRaisesRegex(NotReturned, 'within 5,000 clocks'):
            session.call('never', most=5000)
        for wrong in ({'qx': 1}, {'ax': 1 << 16}, {'returns': 'back'}):
            self.assertRaises(ValueError, session.call, 'double', **wrong)
        with self.assertRaisesRegex(Fault, '55 NoCell'):
            session.call('copy', memory={0xA0000: 1})
        self.assertEqual((session.clock, session.registers, session.dump(0x3F0, 16), session.byte(0x510)), (25, before, bytes(16), 0))

    def test_what_was_set_before(self) -> None:
        """At the clock of a call stays, with keys that were typed; so does a level before, and other stops are passed."""
        session = self.session()
        session.go(5)
        session.set('DX', 1)
        session.go(5)
        session.set('CX', 2)
        session.key(0x1E, 500)
        session.stop_at('double')
        session.stop_at(0xF600, 0xFFFF)  # where near calls return to
        for number in range(3):
            self.assertEqual(session.call('double', ax=number).registers['AX'], 2 * number)
        self.assertEqual((session.clock, session.registers['CX'], session.registers['DX']), (35, 2, 1))
        self.assertEqual([(each.clock, each.value) for each in session.events(600, 'keys')], [(500, 0x1E)])
        session.undo()
        self.assertEqual((session.clock, session.registers['CX'], session.events(600, 'keys')), (35, 0, []))
        session.undo()
        self.assertEqual((session.clock, session.registers['DX']), (30, 0))

    def test_a_routine_called_often(self) -> None:
        """Each call is of the board as it stood: what one got isn't the next one's."""
        session = self.session()
        with session.routine('adds', with_memory=True) as adds, self.assertRaises(ZeroDivisionError):
            self.assertEqual(adds(stack=[1, 2], bx=7, memory={0x700: 9}).registers['AX'], 3)
            self.assertEqual(session.byte(0x700), 9)
            found = adds(stack=[3])
            self.assertEqual((found.registers['AX'], found.registers['BX'], session.byte(0x700)), (3, 0, 0))
            with self.assertRaisesRegex(Fault, '55 NoCell'):
                adds(stack=[3], memory={0xFFFE: b'\1\2\3'})
            self.assertEqual((session.dump(0xFFFE, 2), adds(stack=[4, 5]).registers['AX']), (bytes(2), 9))
            raise ZeroDivisionError
        self.assertEqual((session.clock, session.registers['BX'], session.byte(0x500)), (25, 0, 0))


class Example(ToolCase):
    """examples/unit."""

    def test_each_sixteenth_value(self) -> None:
        """Without pytest, in so many seconds of processor at most. The file itself tries all, which takes sixteen times as long."""
        called = 'import test_root; test_root.test_each_number(16); test_root.test_what_it_leaves(); print("right")'
        before = resource.getrusage(resource.RUSAGE_CHILDREN)
        done = subprocess.run([sys.executable, '-c', called], capture_output=True, text=True, check=False, cwd=UNIT)
        after = resource.getrusage(resource.RUSAGE_CHILDREN)
        self.assertEqual((done.returncode, done.stdout), (0, 'right\n'), done.stderr)
        spent = after.ru_utime + after.ru_stime - before.ru_utime - before.ru_stime
        self.assertLess(spent, SECONDS * slower())

    def test_pytest(self) -> None:
        if importlib.util.find_spec('pytest') is None:
            not_run('examples/unit by pytest; apt install python3-pytest')
            return
        done = subprocess.run([sys.executable, '-m', 'pytest', '-q', '-p', 'no:cacheprovider', UNIT], capture_output=True, text=True, check=False)
        self.assertIn('2 passed', done.stdout + done.stderr)

    def test_a_wrong_routine(self) -> None:
        """One that takes a square as too large that is the number itself fails at the first square."""
        for name in ('root.asm', 'test_root.py'):
            with open(f'{UNIT}/{name}', encoding='utf-8') as file:
                self.file(name, re.sub(r'\bJA over', 'JAE over', file.read()).replace("str(HERE.parent.parent / 'python')", f'{TOP!r} + "/python"'))
        done = subprocess.run([sys.executable, f'{self.room}/test_root.py'], capture_output=True, text=True, check=False)
        self.assertIn('AssertionError: AX = 1\n', done.stderr)
        self.assertEqual(done.returncode, 1)


if __name__ == '__main__':
    unittest.main()
