"""The board that tools/term shows: it goes on at a board's pace or as fast as it goes, and keys are typed meanwhile."""
from __future__ import annotations

import time
from typing import Callable

from toolbox.command import Sorry, write_text
from toolbox.dap.board import Machine
from toolbox.listing import Listing
from toolbox.places import operation_of
from toolbox.program import LAST_CLOCK, Files
from toolbox.runfile import read_run_file, text_of
from toolbox.scancodes import Stroke, stamped
from toolbox.session_board import MOST_STOPS

HERTZ = 4_772_727
TICK = 1 / 30  # seconds from one look at the screen to the next
MOST_BEHIND = 0.25  # seconds; a machine that is slower lets the board fall behind
FIRST_PIECE, MOST_PIECE = 1 << 17, 1 << 28  # clocks of a tick of a fast run
OVER = {'jammed': 'the processor has jammed', 'halted for good': 'halted with interrupts off'}
BUSY = 0.9  # of a fast run's tick
MOST_HALTED = 1 << 24  # of a board that halts now and then: a hundred times its pace, so that it isn't soon at the last clock


class Live(Machine):
    """A board that runs by ticks. `stops` are the debugger's commands for those that end a run; `typing` is the first clock at which
    a key may come, how many clocks it is held, and how many lie between two."""

    def __init__(self, files: Files, listing: Listing, typing: tuple[int, int, int], poll: Callable[[], None]) -> None:
        super().__init__(files, listing, LAST_CLOCK, poll)
        self.stops, self.is_fast, self.typed = list[str](), False, 0
        self._first, self._hold, self._gap = typing
        self._last, self._fast_piece, self.is_quiet = 0, FIRST_PIECE, False
        self.start()

    def start(self) -> None:
        """A board's pace, and the keys that are typed, go on from here."""
        self._from, self._since = self.clock, time.monotonic()
        self._last = min(self._last, self.clock)

    def press(self, stroke: Stroke) -> None:
        """Types a stroke from the next clock on, behind what was typed before."""
        keys = stamped([stroke], max(self.clock + 1, self._last + self._gap, self._first), self._hold, 0)
        self.type_all(keys)
        self._last = keys[-1][0]

    def type(self, code: int, clock: int | None = None) -> int:
        """Types a key, and counts it."""
        stamp = super().type(code, clock)
        self.typed += 1
        return stamp

    def tick(self) -> str | None:
        """Goes on for a tick, at most to a stop, which is returned. A fast run waits as a board does while nothing begins: halted for a
        key, it would be at the last clock else before one comes."""
        if self.clock >= LAST_CLOCK:
            raise Sorry('no run goes beyond clock 2^40')
        if not self.is_fast:
            return self.run(self.stops, self._due())
        before, begun = self.trail(), time.monotonic()
        met = self.run(self.stops, self._due() if self.is_quiet else min(self.clock + self._fast_piece, LAST_CLOCK))
        if not self.is_quiet:
            self._pace_fast(time.monotonic() - begun)
        self.is_quiet = self.trail()[-1:] == before[-1:]
        return met

    def _pace_fast(self, seconds: float) -> None:
        """How long the next tick of a fast run is, after one that took so many seconds."""
        is_halting = any(operation_of(each.text) == 'HLT' for each in self.trail())
        factor = min(max(BUSY * TICK / max(seconds, 1e-6), 0.5), 2.0)
        self._fast_piece = min(int(self._fast_piece * factor), MOST_HALTED if is_halting else MOST_PIECE)
        self._from, self._since = self.clock, time.monotonic()

    def _due(self) -> int:
        """The clock at which a real board would be."""
        due = self._from + int((time.monotonic() - self._since) * HERTZ)
        if due > self.clock + MOST_BEHIND * HERTZ:
            due = self.clock + int(MOST_BEHIND * HERTZ)
            self._from, self._since = due, time.monotonic()
        return min(max(due, self.clock), LAST_CLOCK)

    def add_stop(self, stop: str) -> None:
        """Adds a stop."""
        if stop in self.stops:
            raise Sorry('that stop is there already')
        if len(self.stops) >= MOST_STOPS - 1:  # one is left for the place behind a call
            raise Sorry(f'{MOST_STOPS - 1} stops are the most; clear one')
        self.want([*self.stops, stop])
        self.stops.append(stop)

    def drop_stops(self, gone: list[str]) -> None:
        """Removes stops. A session begun anew runs to where this one stands."""
        kept = [each for each in self.stops if each not in gone]
        self.begin_anew(kept)
        self.stops = kept

    def drop_later(self) -> int:
        """Takes the keys out that are still to come, and returns how many there were. A session begun anew runs to where this one stands."""
        files = self.files
        fields = read_run_file(files.run_file)
        kept = [each for each in fields['keys'] if each[0] <= self.clock]
        count = len(fields['keys']) - len(kept)
        if count:
            write_text(f'{files.run_file}~', text_of(fields | {'keys': kept}))
            self.begin_anew(self.stops, files=files._replace(run_file=f'{files.run_file}~'))
        return count

    def back_by(self, times: int) -> None:
        """Goes back by so many instructions, iterations or entries."""
        for _ in range(times):
            self.back()
            self.poll()

    def over_text(self, state: str) -> str:
        """Why nothing more will happen, in words, of a processor in this state; or nothing."""
        return (self.ending() or OVER[state]) if state in OVER else ''

    def place_text(self) -> str:
        """Where the board stands: clock, place, label and source line."""
        ending = f'{self.ending()}, ' if self.ending() else ''
        return f'clock {self.clock:,}: {ending}{self.listing.place_text(*self.place())}'
