"""Changes of the board that tools/dbg, tools/gdb, editors and the desk share: made anew where a session is begun anew, and undone."""
from __future__ import annotations

import random
import unittest
from typing import Any
from unittest import mock

from tests.support import ToolCase, example

from toolbox import edits, way_back
from toolbox.command import Sorry
from toolbox.conditions import Asked
from toolbox.dap.board import Machine
from toolbox.listing import listing_of
from toolbox.program import Files
from toolbox.session_board import Paused, SessionBoard

END, CODE, IDLE, TICK, HLT_PLACE = 100_000, 0xF6058, 'break F600:56', 'break F600:58', 0xF6055
CALLS = '        MOV SP,400h\n        CALL one\n        HLT\none:    CALL two\n        RET\ntwo:    NOP\n        MOV CX,9\nagain:  LOOP again\n        RET'


class Changed(ToolCase):
    """Of `ticks`."""

    def setUp(self) -> None:
        super().setUp()
        self.files = Files(example('ticks')[0], self.file('run', '{"version":1,"ram":64,"sw1":0,"sw2":0,"budget":100000,"keys":[]}'))
        self.board = SessionBoard(self.files, END)
        self.addCleanup(self.board.close)

    def seen(self, board: SessionBoard) -> list[Any]:
        """All that is shown of a board."""
        shown = [board.clock, *(board.many(command) for command in ('regs', 'chips', 'trail', 'screen')), board.dump(0x400, 16), board.dump(CODE, 10)]
        return [*shown, [line for line in board.log(board.clock + 700, 'starts keys writes')]]

    def test_begun_anew(self) -> None:
        """At forty places of a random session it shows what it showed, and goes on so; undone it is as if nothing had been set."""
        dice = random.Random(98)
        for _ in range(60):
            self.deed(dice)
            here, now = self.board.mark(), self.seen(self.board)
            self.board.return_to(here)
            with self.subTest(here):
                self.board.begin_anew()
                self.assertEqual(self.seen(self.board), now)
                self.board.return_to(here)
                if self.board.clock > 20_000:
                    self.board.go_to(dice.randrange(1000))
        while self.board.changes.deeds:
            self.board.undo()
        other = SessionBoard(self.board.files, END)
        self.addCleanup(other.close)
        other.go_to(self.board.clock)
        self.assertEqual(self.seen(other), self.seen(self.board))

    def deed(self, dice: random.Random) -> None:
        """A change, a key, a way, or an undo."""
        what = dice.randrange(7)
        if what == 0:
            self.board.set_register(dice.choice(('AX', 'BX', 'DI')), dice.randrange(0x10000))
        elif what == 1:
            self.board.set_bytes(dice.choice((0x400, CODE + 3, 0xB0002)), dice.randbytes(dice.choice((1, 2))))
        elif what == 2:
            self.board.type(dice.choice((0x1E, 0x9E)), self.board.clock + dice.randrange(1, 900))
        elif what == 3 and self.board.changes.deeds:
            self.board.undo()
        elif what == 4:
            self.board.go_to(max(0, self.board.clock - dice.randrange(500)))
        else:
            self.board.go_to(self.board.clock + dice.randrange(900))

    def test_ways_back(self) -> None:
        """One to before a change undoes it and tells so, one that leads to nothing leaves it."""
        board = self.board
        board.go_to(1100)
        board.set_register('BX', 7)
        board.set_register('CX', 9)
        board.go_to(2000)
        board.set_bytes(0x400, b'\x05')
        self.assertEqual((board.back_to([TICK]), board.clock, board.undone), (TICK, 1797, ['clock 2000: undone: 400 05']))
        mark = board.mark()
        self.assertEqual((board.back_to(['byte 400 77']), board.clock, board.registers()['BX']), (None, 0, 0))
        board.return_to(mark)
        self.assertEqual((board.clock, board.registers()['BX'], board.registers()['CX']), (1797, 7, 9))
        board.undone.clear()
        board.go_to(1099)
        self.assertEqual((board.registers()['BX'], board.undone), (0xFFFF, ['clock 1100: undone: BX 7, CX 9']))
        self.assertRaises(Sorry, board.undo)
        board.go_to(1100)
        board.set_register('BX', 7)
        self.assertTrue(board.step_back())
        self.assertEqual((board.clock, board.registers()['BX']), (1099, 0xFFFF))  # in a halt the processor is free

    def test_what_a_stop_has_seen_at_a_change(self) -> None:
        """No clock led there."""
        self.board.go_to(1010)
        self.assertNotEqual(self.board.happened('writes'), [])
        self.board.set_register('BX', 7)
        self.assertEqual((self.board.happened('writes'), self.board.clock), ([], 1010))

    def test_more_than_are_kept(self) -> None:
        for number in range(20):
            self.board.set_register('BX', number)
            self.board.go_to(self.board.clock + 10)
        for number in reversed(range(20)):
            self.board.undo()
            self.assertEqual(self.board.clock, 10 * number)
        self.assertEqual((self.board.registers()['BX'], self.board.changes.deeds), (0, []))

    def test_all_bytes_or_none(self) -> None:
        """Those before the first without a cell are put back, and no change is left."""
        board = self.board
        board.set_bytes(0xFFF0, b'\x11' * 16)
        board.go_to(5)
        self.assertRaisesRegex(Sorry, 'no byte can be set there', board.set_bytes, 0xFFE0, b'\x22' * 40)
        self.assertEqual((board.dump(0xFFE0, 32), len(board.changes.deeds)), (bytes(16) + b'\x11' * 16, 1))
        board.set_register('BX', 1)
        self.assertRaises(Sorry, board.set_bytes, 0xFFE0, b'\x22' * 40)
        self.assertEqual((board.dump(0xFFE0, 32), board.registers()['BX']), (bytes(16) + b'\x11' * 16, 1))
        for address, octets in ((0xFFFFF, b'\1\2'), (-1, b'\1'), (0x500, b'')):
            self.assertRaises(Sorry, board.set_bytes, address, octets)
        board.set_bytes(0x1000, bytes(range(256)) * 8)
        self.assertEqual(board.dump(0x1000, 2048), bytes(range(256)) * 8)

    def test_rom_may_change(self) -> None:
        """Where a halt was there is none, and the place behind it is one."""
        self.board.go_to(1100)
        self.assertTrue(self.board.is_halted and self.board._is_behind_a_halt())
        self.board.set_bytes(HLT_PLACE, b'\x90')
        self.board.go_to(1600)
        self.assertEqual(self.board.run([IDLE], END), IDLE)
        self.assertFalse(self.board._is_behind_a_halt())

    def test_paused_on_a_way_back(self) -> None:
        """The session that takes its place is changed, too."""

        def poll() -> None:
            raise Paused('paused')

        self.board.go_to(1000)
        self.board.set_register('BX', 7)
        self.board.type(0x1E, 2000)
        self.board.go_to(3000)
        self.board.set_bytes(0x400, b'\x05')
        self.board.go_to(50_000)
        self.board.want(['byte 500 77'])
        self.board.poll = poll
        with mock.patch.object(way_back, 'SHORT_WAIT', 0), mock.patch.object(way_back, 'POLLED_EACH', 0):
            deeds = list(self.board.changes.deeds)
            for _ in range(20):
                try:
                    self.board.back_to(['byte 500 77'])
                except Paused:
                    break
        if self.board.changes.deeds == deeds and self.board.clock > 3000:
            self.assertEqual((self.board.registers()['BX'], self.board.dump(0x400, 1)), (7, b'\x05'))

    def test_hits_are_counted_anew(self) -> None:
        """The fifth time of a place is another, once the run is."""
        self.board.asked = {TICK: [Asked(count=lambda hits: hits == 5)]}
        self.assertEqual((self.board.run([TICK], END), self.board.clock), (TICK, 2597))
        self.board.go_to(1500)
        self.board.set_register('FL', self.board.registers()['FL'] & ~0x200)  # no tick comes any more
        self.assertIsNone(self.board.run([TICK], END))
        self.board.go_to(5000)
        self.assertIsNone(self.board.back_to([TICK]))
        self.assertEqual((self.board.run([TICK], END), self.board.clock), (TICK, 2597))


class Called(ToolCase):
    """Of a program with calls."""

    def test_callers(self) -> None:
        """They are known behind a change of what isn't the stack's place, and not behind one that is."""
        source, run = self.program(CALLS)
        files = Files(source, run)
        machine = Machine(files, listing_of(files), END)
        self.addCleanup(machine.close)
        machine.run(['break F000:C'], END)
        callers = machine.callers()
        self.assertEqual(len(callers), 2)
        machine.set_register('CX', 5)
        self.assertEqual(machine.callers(), callers)
        machine.step()
        machine.set_bytes(0x500, b'\1')
        self.assertEqual(machine.callers(), callers)
        machine.out()
        self.assertEqual((machine.why, len(machine.callers())), ('returned', 1))
        machine.set_register('SP', 0x300)
        self.assertEqual(machine.callers(), [None])
        machine.undo()
        self.assertEqual(len(machine.callers()), 1)


class Said(ToolCase):
    """What people say."""

    def test_assignments(self) -> None:
        source, run = self.program('        HLT\ncount:  DW 5\nbytes:  DB 1,2,3')
        files = Files(source, run)
        board, listing = SessionBoard(files, END), listing_of(files)
        self.addCleanup(board.close)
        for text, wanted in (
            ('AX = 5', 'AX = 00005h (5)'),
            ('ah=-1', 'AH = 0FFh (255)'),
            ('BX = AX + 1', 'BX = 0FF06h (65286)'),
            ('CF = 1', 'CF = 001h (1)'),
            ('[count] = 1234h', 'F0001: 34 12'),
            ('BYTE [count+1] = 7', 'F0002: 07'),
            ("[bytes] = 'A', 42h, 3", 'F0003: 41 42 03'),
            ('WORD [bytes] = 1, 2', 'F0003: 01 00 02 00'),
            ('[B0000] = 41h', 'B0000: 41'),
            ('BYTE ES:[BX+2] = 3', '0FF08: 03'),
        ):
            self.assertEqual(edits.assign(board, listing, text), wanted)
        self.assertEqual((board.registers()['AX'], board.registers()['FL'] & 1, board.dump(0xF0001, 6).hex()), (0xFF05, 1, '340701000200'))
        for text in (
            'AX =',
            '= 5',
            'AX = 1, 2',
            'AX = 70000',
            'AL = 256',
            'CF = 2',
            'QX = 1',
            '[nope] = 1',
            '[bytes] = 256',
            'count = 1',
            '[A0000] = 1',
            '5 = 5',
        ):
            with self.subTest(text):
                self.assertRaises(Sorry, edits.assign, board, listing, text)


if __name__ == '__main__':
    unittest.main()
