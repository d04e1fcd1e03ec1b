"""A board on which a program with services may run: where that begins, how it has ended, and which instructions are its own."""
from __future__ import annotations

import struct
from functools import cached_property

from toolbox.listing import physical
from toolbox.loading import BLOCK, SECTOR
from toolbox.places import Event, event_of
from toolbox.services import SIGNATURE, SIGNED, Served, left_at, ram_end_of
from toolbox.session_board import SessionBoard, break_at
from toolbox.walk import SERVICES, Part

TRAIL = 32  # events
LOOKED_BACK = 100_000, 3_000_000, 30_000_000  # clocks in which own instructions are sought; a wait for a key has few


class ServedBoard(SessionBoard):
    """A board that knows the services in its ROM. Without them every instruction is the program's own."""

    @cached_property
    def ram_end(self) -> int:
        """RAM's end, if the services stand in ROM, else 0."""
        return ram_end_of(self._files) if self.dump(SIGNED, len(SIGNATURE)) == SIGNATURE else 0

    def left(self) -> Served | None:
        """What the services have left here, or None."""
        return left_at(self.dump, self.ram_end) if self.ram_end else None

    def ending(self) -> str:
        """How the program has ended, in words, or nothing."""
        left = self.left()
        return left.ending if left else ''

    @property
    def is_served_here(self) -> bool:
        """Whether the processor is in the services."""
        return bool(self.ram_end) and physical(*self.place()) >= SERVICES

    @property
    def is_own(self) -> bool:
        """Whether the processor is in the program's own instructions, or that has ended."""
        return not self.is_served_here or bool(self.ending())

    @property
    def is_before(self) -> bool:
        """Whether the services haven't begun the program yet."""
        return self.is_served_here and not ((left := self.left()) and left.phase)

    def first_stop(self) -> str:
        """The stop at which the program begins."""
        offset, segment = struct.unpack('<HH', self.dump(BLOCK + 2, 4))
        return break_at((0, SECTOR) if offset == segment == 0xFFFF else (segment, offset))

    def own_trail(self) -> list[Event]:
        """The last instruction starts without those of the services, as far as the last clocks tell them, and such entries as `trail`
        has; before the program begins there is none."""
        found = self.trail()
        own = [event for event in found if event.address < SERVICES] if self.ram_end else found
        here = self.clock
        for number, span in enumerate(LOOKED_BACK if len(own) < len(found) else ()):
            if len(own) == TRAIL or number and own:
                break
            self.go_to(max(self.changes.first, here - span))
            events = Part.of(self.lines(here - self.clock, 'starts')).events
            clocks = [event.clock for event in events if event.address < SERVICES][-TRAIL:]
            self.go_to(clocks[0] + 1 if clocks else here)
            rest = self._talk(lambda began=clocks: self._session.latest_at([clock + 1 for clock in began], here))  # type: ignore[misc]
            own = [event_of(b'%d %s' % pair) for pair in zip(clocks, rest)]
        return own
