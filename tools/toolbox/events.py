"""All that began in a run, as lines of the trail, which holds the last 32 alone: by pcprobe's `events`, which has them all."""
from __future__ import annotations

from typing import Iterable, Iterator

from toolbox.following import begin_in
from toolbox.forms import Far
from toolbox.places import Event, event_of
from toolbox.program import Files, ProbeSession
from toolbox.report import registers_of

PIECE = 1 << 18  # clocks that are asked for at once
LONGEST = 1 << 30
FIRST_LOOK = 64  # clocks in which some instruction begins, unless the processor is halted


def events(files: Files, first: int, end: int) -> Iterator[Event]:
    """The events of the clocks from the first on and before the end, the oldest first."""
    return events_of(parts(files, first, end))


def events_of(found: Iterable[list[bytes]]) -> Iterator[Event]:
    """The events that parts of the trail tell."""
    return (event_of(line) for part in found for line in part)


def parts(files: Files, first: int, end: int) -> Iterator[list[bytes]]:
    """The trail's lines of the clocks from the first on and before the end, in parts, the oldest first. What `events` doesn't tell,
    an instruction's text and where an interrupt is entered, is that of the trail behind it, of an instruction once."""
    known = dict[bytes, bytes]()
    with ProbeSession(files) as session, ProbeSession(files) as behind:
        session.go_to(first)
        while session.clock < end:
            lines, new = session.lines(min(PIECE, end - session.clock), 'starts entries'), dict[bytes, int]()
            keys = list(map(key_of, lines))
            for key, line in zip(keys, lines):
                if key not in known:
                    new.setdefault(key, clock_of(line) + 1)
            known |= zip(new, behind.latest_at(list(new.values())))
            if lines:
                yield [b'%d %s' % (clock_of(line), known[key]) for key, line in zip(keys, lines)]
            for key in keys:
                if not key.startswith(b' '):
                    del known[key]


def key_of(line: bytes) -> bytes:
    """What lines have in common of which the trail tells the same: of an instruction all behind the clock, of an entry all."""
    rest = line[line.index(b' ') :]
    return line if rest.startswith(b' entry') else rest


def clock_of(line: bytes) -> int:
    """The clock of a trail's line."""
    return int(line[: line.index(b' ')])


def first_start(session: ProbeSession, place: Far, end: int) -> int | None:
    """The clock, from the present one on and before an end, at which the instruction at a place first begins: the session goes to
    where the processor is free there, and looks what begins, in a halt or an interrupt's entry up to where something does."""
    session.stop('break {:X}:{:X}'.format(*place))
    length = FIRST_LOOK
    while session.clock < end:
        lines = session.lines(min(length, end - session.clock), 'starts entries states')
        found = begin_in(lines, place)
        if found is not None:
            return found
        length = 1 if lines else min(2 * length, LONGEST)
        # a stop is met at later clocks alone, and the place may be reached at this one
        if lines and not stands_at(session, place) and not session.go(end - session.clock).startswith('stop'):
            break
    return None


def stands_at(session: ProbeSession, place: Far) -> bool:
    """Whether CS:IP leads to a place."""
    registers = registers_of(session.answers(['regs']))
    return (registers['CS'], registers['IP']) == place
