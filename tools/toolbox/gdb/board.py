"""The board as gdb sees it: how its runs end, and the stops that `monitor` sets beside its breakpoints and watchpoints."""
from __future__ import annotations

from dataclasses import dataclass
from typing import Iterable

from toolbox.followed import FollowedBoard
from toolbox.program import LAST_CLOCK, Files
from toolbox.session_board import Paused
from toolbox.watches import changed, watched_by


@dataclass(frozen=True)
class Met:
    """How a run ended: `break`, `watch` (then the address that changed), `stop` (its number among those of `monitor`), `budget`, `begin`,
    `interrupt` or `woken`."""

    how: str
    number: int = 0


class Board(FollowedBoard):
    """A board with two kinds of stops: those of `monitor`, which stay, and gdb's watchpoints and breakpoints, which are other ones at
    each run. In each session those of `monitor` come first: of the stops that hold at a clock the debugger tells the first."""

    def __init__(self, files: Files, budget: int) -> None:
        super().__init__(files, min(budget, LAST_CLOCK))
        self.named = list[str]()

    def name(self, command: str) -> str:
        """Adds a stop of `monitor`, and returns its answer."""
        if self._stops != self.named:
            self.begin_anew(self.named)
        answer = self.answer(command)
        if not answer.startswith('fault'):
            self.named.append(command)
            self._stops.append(command)
        return answer

    def _met(self, stop: str | None, otherwise: str) -> Met:
        """A stop that was met, or how a run without one ended."""
        if stop in self.named:
            return Met('stop', self.named.index(stop) + 1)
        if stop and watched_by(stop):
            return Met('watch', changed(self, stop)[0].address)
        return Met('break' if stop else otherwise)

    def go(self, breaks: list[str], last: int | None = None) -> Met:
        """Goes on to a stop, at most to the budget's end or to a clock."""
        try:
            return self._met(self.run([*self.named, *breaks], self.budget if last is None else min(last, LAST_CLOCK)), 'budget')
        except Paused:
            return Met('interrupt')

    def back(self, breaks: list[str]) -> Met:
        """Goes back to the last earlier clock at which a stop held, or to the first clock. Of a watched byte to before its change: gdb
        compares what stands there, so that one in the clock that led to here counts too."""
        try:
            met = self._undone(filter(watched_by, breaks)) or self._met(self.back_to([*self.named, *breaks]), 'begin')
        except Paused:
            return Met('interrupt')
        if met.how == 'watch':
            self.one('back 1')
        return met

    def _undone(self, watches: Iterable[str]) -> Met | None:
        """A change of a watched byte in the clock that led to here, of one that is wanted."""
        seen = ((watch, changed(self, watch)) for watch in watches)
        return next((Met('watch', found[0].address) for watch, found in seen if found and self.is_met(watch)), None)

    def recover(self) -> None:
        """Behind a client that has gone: from a way back that nobody ends any more, the board is begun anew where it was."""
        self.poll = lambda: None
        if not self._session.is_idle:
            self.begin_anew(self.named)

    def wake(self, breaks: list[str]) -> Met:
        """From within a halt to where the interrupt that ends it has been entered, at most to a stop or to the budget's end."""
        wanted = [*self.named, *breaks]
        try:
            self.want(wanted)
            met = self._met(self.leave_halt(wanted, self.budget), 'budget' if self.clock >= self.budget else 'woken')
        except Paused:
            return Met('interrupt')
        if met.how == 'woken':
            self.one('step')
        return met
