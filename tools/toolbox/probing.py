"""What pcprobe tells of a run (docs/probe.md): where its clocks went, by `counts`, and its wires' changes, by `signals`."""
from __future__ import annotations

import itertools
from typing import Iterator

from toolbox.places import Event, event_of
from toolbox.program import Files, ProbeSession

PIECE = 20_000_000  # clocks that are made at once: an interrupt is seen behind them
FIRST = 10_000
LISTED = 200  # instructions that are listed at once


class Counting(ProbeSession):
    """A session that counts a run piece by piece: of each name the times and clocks so far."""

    def __init__(self, files: Files) -> None:
        super().__init__(files)
        self.clock, self.sums, self._latest = 0, dict[str, list[int]](), ''

    def run(self, first: int, end: int) -> Iterator[int]:
        """Counts the clocks from the first on and before the end, and tells how far it has come."""
        self.answers([f'go {first}'])
        self.clock = first
        while self.clock < end:
            clocks = min(PIECE, end - self.clock)
            lines = self.answers([f'counts {clocks}', 'trail'])
            size = lines.index(f'clock {self.clock + clocks}')
            self._add(lines[:size], lines[size + 1 :])
            self.clock += clocks
            yield self.clock

    def _add(self, lines: list[str], trail: list[str]) -> None:
        """Adds a piece's counts. The clocks before its first beginning are those of what began last."""
        before = int(lines[0].split()[1])
        if self._latest:
            self.sums[self._latest][1] += before
        for line in lines[1:]:
            name, times, clocks = line.rsplit(' ', 2)
            row = self.sums.setdefault(name, [0, 0])
            row[0] += int(times)
            row[1] += int(clocks)
        if len(lines) > 1:
            _, place, *what = trail[-1].split(' ', 3)
            self._latest = ' '.join(what[:2]) if what[0] == 'entry' else place

    def events(self) -> Iterator[tuple[Event, int, int]]:
        """What began, with its times and clocks: the instructions that stand there now, and entries."""
        places = [place for place in self.sums if not place.startswith('entry')]
        for at in range(0, len(places), LISTED):
            for line in self.answers([f'list {place} 1' for place in places[at : at + LISTED]]):
                event = event_of(f'0 {line}')
                yield event, *self.sums[f'{event.segment:04X}:{event.offset:04X}']
        for name in itertools.filterfalse(set(places).__contains__, self.sums):
            yield event_of(f'0 0000:0000 {name}'), *self.sums[name]


def wire_changes(files: Files, end: int) -> Iterator[tuple[int, str, int]]:
    """The wires' changes in their order, of pieces each ten times as long as the one before, up to PIECE. Behind a piece stands
    its clock, with no name."""
    clock, piece = 0, FIRST
    with ProbeSession(files) as probe:
        while clock < end:
            clocks = min(piece, end - clock)
            for line in probe.answers([f'signals {clocks}'])[:-1]:
                at, wire, level = line.split()
                yield int(at), wire, int(level)
            clock, piece = clock + clocks, min(10 * piece, PIECE)
            yield clock, '', 0
