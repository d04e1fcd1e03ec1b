"""A board whose calls are followed, as the probe's lines tell them: what has called what runs where it stands."""
from __future__ import annotations

import copy
import re

from toolbox.following import Follower, Frame, Mark, Marks, Start, State, states_in
from toolbox.forms import Far
from toolbox.served_board import ServedBoard

STACKED = 'starts entries'  # what calls and returns are followed by
LOOKED_BACK = 100_000  # clocks in which calls that are under way are looked for
MOST_PIECE = 1 << 20  # clocks that are followed at once


class FollowedBoard(ServedBoard):
    """A board that knows the calls under way, as far as the last clocks tell them."""

    def _forget(self, is_other: bool = True) -> None:
        super()._forget(is_other)
        if is_other:
            self._known: tuple[int, Follower | None] = (-1, None)  # the calls under way at a clock
            self.is_whole, self._reader = False, Marks()  # whether they were followed from power-on on
            self._bases = dict[int, 'tuple[Follower, bool] | None']()  # by a change's clock the calls under way, and whether these are all

    def _are_others(self) -> None:
        super()._are_others()
        self._known = (-1, None)

    def _make(self, command: str) -> None:
        """A change leaves the calls that are under way, unless it is one of the stack's place."""
        base, is_known = self._bases.get(self.clock), self.clock in self._bases and self.clock == self.changes.first
        if re.match('set S[PS] ', command):
            base = None
        elif command.startswith('set') and not is_known:
            base = copy.deepcopy(self.follower()), self.is_whole
        super()._make(command)
        if command.startswith('set'):
            self._bases[self.clock] = base

    def _beginning(self) -> Follower:
        """A follower from here on."""
        now = self.registers()
        return Follower(State(now['SS'], now['SP'], now['FL'], (now['CS'], now['IP'])))

    def _marks(self, lines: list[bytes]) -> list[Mark]:
        """The marks of lines that tell what led to here, with the registers that their bytes don't tell."""
        marks = self._reader.of(lines) + self._reader.rest()
        if asking := [mark for mark in marks if mark.asks_for_stack()]:
            here = self.clock
            self.go_to(asking[0].clock + 1)
            octets = self._talk(lambda: self._session.registers_at([mark.clock + 1 for mark in asking], here))
            for mark, state in zip(asking, states_in(octets)):
                mark.state = state
        return marks

    def _follow(self, follower: Follower, end: int) -> None:
        """Follows the calls up to a clock, to which the board goes past all stops."""
        for mark in self._marks(self.lines(end - self.clock, STACKED)):
            follower.follow(mark)

    def follower(self) -> Follower:
        """The calls under way, as the last clocks before this one tell them, or from power-on on."""
        here, first = self.clock, self.changes.first
        known, follower = self._known if 0 <= here - self._known[0] <= MOST_PIECE and self._known[0] >= first else (-1, None)
        if follower is None:
            known = max(first, here - LOOKED_BACK)
            base = self._bases.get(first) if known == first else None
            follower, self.is_whole = copy.deepcopy(base) if base else (None, not known)
        self.go_to(known)
        follower = follower or self._beginning()
        self._follow(follower, here)
        self._known = here, follower
        return follower

    def callers(self) -> list[Far | None]:
        """The places to which the present routine and those above it return; None at the end, if calls before those
        aren't known."""
        found: list[Far | None] = [self._caller(frame) for frame in reversed(self.follower().nest)]
        return found if self.is_whole else [*found, None]

    def _caller(self, frame: Frame) -> Far:
        """Where a call returns to: as its address stands on the stack, or behind it, if the routine has taken that."""
        octets = self.dump(frame.place, 4)
        offset, segment = int.from_bytes(octets[:2], 'little'), int.from_bytes(octets[2:], 'little')
        if isinstance(frame.what, Start):
            segment = segment if frame.pushed > 2 else frame.what.place[0]
            offset = (frame.what.place[1] + len(frame.what.form.octets)) % 0x10000 if frame.is_lifted else offset
        return segment, offset
