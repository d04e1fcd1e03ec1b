"""The board that tools/dbg, tools/gdb, editors and the desk share: stops that come and go, held against sessions that have these alone."""
from __future__ import annotations

import random
import unittest

from tests.support import ToolCase, example

from toolbox.program import Files, Session
from toolbox.session_board import SessionBoard

END = 6000
# The place behind the HLT, at which the processor stands in each halt, is left out: a board passes it there.
STOPS = ('break F600:58', 'break F600:5D', 'break F600:61', 'byte B0000 31', 'byte B0000 33', 'byte B0002 0', 'halted', 'break F600:54')
BEHIND = 'break F600:56'


class Shared(ToolCase):
    """Each way ends where a session of its own ends."""

    def setUp(self) -> None:
        super().setUp()
        self.files = Files(*example('ticks'))
        self.board = SessionBoard(self.files, END)
        self.addCleanup(self.board.close)

    def direct(self, stops: list[str], here: int, command: str) -> tuple[str, int]:
        """What answers a command in a session that has come to a clock without stops, and where it stands then."""
        with Session(self.files) as session:
            session.go_to(here)
            for stop in stops:
                session.stop(stop)
            answer = session.one(command).split()
            return stops[int(answer[1]) - 1] if answer[0] == 'stop' else '', session.clock

    def test_stops_come_and_go(self) -> None:
        """Others are wanted at each of eighty moves; a clock is gone to past all of them."""
        dice, ends = random.Random(5150), set[str]()
        for move in range(80):
            wanted, here = dice.sample(STOPS, dice.randrange(1, 5)), self.board.clock
            is_back = here == END or dice.randrange(2) == 0
            met, command = (self.board.back_to(wanted), 'back stop') if is_back else (self.board.run(wanted, END), f'go {END - here}')
            stop, clock = self.direct(wanted, here, command)
            self.assertEqual((met is None, self.board.clock), (not stop, clock if stop else 0 if is_back else END), (move, wanted, here))
            if met:  # of those that hold at a clock, whichever was set first is told
                self.assertEqual((met, clock), self.direct([met], here, command), (move, wanted))
            ends.add(met or 'none')
            if dice.randrange(3) == 0:
                self.board.go_to(goal := dice.randrange(END))
                self.assertEqual(self.board.clock, goal)
        self.assertGreaterEqual(len(ends), 6, ends)

    def test_the_place_behind_a_halt(self) -> None:
        """It is met once the handler has returned, and not at each clock of the halt; so too on the way back."""
        clocks = list[int]()
        while self.board.run([BEHIND], END):
            clocks.append(self.board.clock)
            self.assertIn('IRET', self.board.trail()[-1].text)
        self.assertGreater(len(clocks), 5)
        back = list[int]()
        while self.board.back_to([BEHIND]):
            back.append(self.board.clock)
        self.assertEqual(back[::-1], clocks)

    def test_a_stop_within_a_halt(self) -> None:
        """Of the stops that aren't places, each counts there: here the byte that a session meets first in a halt."""
        self.board.run([BEHIND], END)
        here = self.board.clock
        self.assertEqual(self.board.run([BEHIND, 'halted'], END), 'halted')
        self.assertEqual(self.board.clock, self.direct(['halted'], here, f'go {END}')[1])


if __name__ == '__main__':
    unittest.main()
