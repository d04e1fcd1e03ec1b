"""What a stop asks besides its place: a condition, a count of hits, and what it logs instead of stopping. A count is of the clock: of
the run from its beginning up to there, so that it is one number forth and back."""
from __future__ import annotations

import contextlib
import operator
import re
from bisect import bisect_right
from dataclasses import dataclass, field
from typing import Callable

from toolbox.command import Sorry
from toolbox.session_board import SessionBoard

COMPARISONS: dict[str, Callable[[int, int], bool]] = {
    '=': operator.eq,
    '==': operator.eq,
    '!=': operator.ne,
    '<>': operator.ne,
    '<': operator.lt,
    '<=': operator.le,
    '>': operator.gt,
    '>=': operator.ge,
}
COUNTS = COMPARISONS | {'': operator.eq, '%': lambda hits, every: hits % every == 0}


def count_of(text: str) -> Callable[[int], bool]:
    """A hit condition, as `5` (the fifth hit alone), `>= 5`, or `% 5` for each fifth."""
    found = re.fullmatch(r'\s*(==?|>=?|<=?|%|)\s*(\d{1,18})\s*', text)
    if not found or int(found[2]) == 0 and found[1] == '%':
        raise Sorry(f'{text} is no count of hits: 5, >= 5, or % 5 for each fifth')
    compare, number = COUNTS[found[1]], int(found[2])
    return lambda hits: compare(hits, number)


@dataclass
class Asked:
    """What one breakpoint asks. Of its hits, at which its condition holds, the clocks are known up to one."""

    holds: Callable[[SessionBoard], bool] | None = None
    count: Callable[[int], bool] | None = None
    log: Callable[[SessionBoard], None] | None = None
    hits: list[int] = field(default_factory=list)
    until: int = 0

    def is_met(self, board: SessionBoard, stop: str, since: int | None) -> bool:
        """Whether the board, which has come to this stop, is to stop there. Since a clock it has been met whenever it held; without
        one it goes back, and nothing is logged."""
        if self.holds and not self.holds(board):
            return False
        if self.count and not self.count(self._number(board, stop, since)):
            return False
        if self.log and since is not None:
            self.log(board)
        return self.log is None

    def _number(self, board: SessionBoard, stop: str, since: int | None) -> int:
        """How many hits there were up to here, with this one."""
        if since is not None and board.clock > self.until >= since:
            self.hits.append(board.clock)
            self.until = board.clock
        elif board.clock > self.until:
            self._look(board, stop)
        return bisect_right(self.hits, board.clock)

    def _look(self, board: SessionBoard, stop: str) -> None:
        """Looks for the hits that aren't known yet, up to where the board stands, by another board."""
        found = list[int]()
        with contextlib.closing(SessionBoard(board.files, board.budget, board.poll)) as other:
            other.stand_as(board, self.until)

            def on(end: int) -> None:
                while other.run([stop], end):
                    if self.holds is None or self.holds(other):
                        found.append(other.clock)

            other.stand_as(board, go=on)
        self.hits, self.until = self.hits + found, board.clock

    def forget_after(self, clock: int) -> None:
        """Of later clocks nothing is known: the board was changed at this one."""
        self.hits, self.until = self.hits[: bisect_right(self.hits, clock)], min(self.until, clock)
