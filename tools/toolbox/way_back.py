"""A way back to a stop that can be ended soon. The session that is on it can't be but with its process: so while a long one is under
way, a spare session goes to the same clock, and takes its place."""
from __future__ import annotations

import time
from typing import Callable, TypeVar

from toolbox.changes import Changes
from toolbox.program import Files, Session

SHORT_WAIT, POLLED_EACH = 0.5, 0.1  # seconds of a way back
GIVEN_STILL = 1  # seconds in which a spare session may still come to the clock
FIRST_PIECE, MOST_PIECE = 1 << 20, 1 << 28  # clocks; the most are half a second's, if the processor is busy
LEAST_SECONDS, MOST_SECONDS = 0.05, 0.2  # of a run's piece
S = TypeVar('S', bound=Session)


def paced(piece: int, seconds: float) -> int:
    """How many clocks a run's next piece has, after one that took so long."""
    return min(piece * 2, MOST_PIECE) if seconds < LEAST_SECONDS else max(1, piece // 2) if seconds > MOST_SECONDS else piece


class Spare:
    """A session that goes to a clock by pieces, beside other work, and is changed as another was."""

    def __init__(self, session: Session, clock: int, changes: Changes) -> None:
        self.session, self.clock, self._piece = session, clock, FIRST_PIECE
        self._left, self.changes = list(changes.deeds), Changes()
        self._begin()

    def _begin(self) -> None:
        """Makes the changes of here, and begins the next piece."""
        while self._left and self._left[0][0] == self.session.clock:
            clock, command = self._left.pop(0)
            self.session.unrefused(self.session.one(command))
            self.changes.take(clock, command)
        end, self._begun = self._left[0][0] if self._left else self.clock, time.monotonic()
        if self.session.clock < end:
            self.session.begin(f'go {min(self._piece, end - self.session.clock)}')

    def has_come(self, seconds: float) -> bool:
        """Whether it stands there. Else it goes on for so many seconds at most, with the next piece where one is over."""
        if not self.session.is_idle and self.session.is_answered(seconds):
            self.session.rest()
            self._piece = paced(self._piece, time.monotonic() - self._begun)
            if self.session.clock < self.clock or self._left:
                self._begin()
        return self.session.clock == self.clock and self.session.is_idle

    def end(self, is_ended: Callable[[], bool]) -> None:
        """Goes on for a short time, and stops where it has come to by then."""
        last = time.monotonic() + GIVEN_STILL
        while not self.has_come(POLLED_EACH) and time.monotonic() < last:
            is_ended()
        if not self.session.is_idle:
            self.session.rest()


def last_stop(session: S, files: Files, changes: Changes, is_ended: Callable[[], bool]) -> tuple[S, str, Changes]:
    """The answer to `back stop`, with its session and its changes. Where it is ended before, none, with another session, without stops:
    at the same clock, or on the way there where it is far."""
    here = session.clock
    session.begin('back stop')
    if session.is_answered(SHORT_WAIT):
        return session, session.rest(), changes
    other = type(session)(files)
    try:
        spare = Spare(other, here, changes)
        while not session.is_answered(POLLED_EACH):
            spare.has_come(0)
            if is_ended():
                session.close()
                spare.end(is_ended)
                return other, '', spare.changes
        other.close()
        return session, session.rest(), changes
    except BaseException:
        other.close()
        raise
