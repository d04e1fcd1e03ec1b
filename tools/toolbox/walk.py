"""A run at its end, and what happened in its first clocks and its last ones, as `events` of pcprobe tells it."""
from __future__ import annotations

import re
from bisect import bisect_right
from functools import cached_property
from typing import Any, Iterator, NamedTuple

from zebludor import Happening, happening_of

from toolbox.asking import Raw, Told, ask
from toolbox.command import handed_on
from toolbox.forms import PREFIXES, form_of, learn
from toolbox.intel_hex import image_of
from toolbox.listing import Line, Listing, code_of, physical
from toolbox.places import Event, event_of, line_at
from toolbox.program import Files, ProbeSession, answer_of
from toolbox.report import A_SECOND, Report, registers_of
from toolbox.tables import tables

FIRST, LAST = 50_000, 5_000  # the clocks that are looked at
REACH = 100_000_000  # so many clocks are made again, and of a longer run all
MOST_STARTS, SAMPLE = 3_000_000, 1_000_000  # if about so few instructions begin after them, by those that do in so many clocks
OFTEN = 64  # so many times an instruction is looked at
LONG, LONGEST = 1000, 2_000_000  # no instruction takes so many clocks, and no repeated one
WAKES = 0x300  # IF and TF
ROM, SERVICES = 0xF0000, 0xF6000
TEXT, COLOUR = range(0xB0000, 0xB1000), range(0xB8000, 0xC0000)
DATA = ('DB', 'DW', 'DD')


def statement_of(line: Line | None) -> str:
    """The first word of a line's statement."""
    found = re.match(r'\s*(?:\w+\s*:(?!\s*\[))?\s*(?:(?:LOCK|REPN?[EZ]?|[ECSD]S:)\s*)*(\w+)', code_of(line.said), re.I) if line else None
    return found[1].upper() if found else ''


def opcode(event: Event) -> int:
    """The first byte of an instruction behind its prefixes; of an entry, or a jam, -1."""
    return next((octet for octet in event.octets if octet not in PREFIXES), -1) if event.entry is None else -1


def done_by(event: Event) -> str:
    """What an instruction does, by the word of `forms`; an entry is as INT."""
    return 'enter' if event.entry is not None else form_of(event.octets).does


def has_pushed(event: Event) -> bool:
    """Whether what has written somewhere has pushed: by PUSH, CALL, INT, as an entry, or as one that INTO or a division entered."""
    return event.entry is not None or form_of(event.octets).pushes


class Part:
    """What happened in some clocks without a gap: what began, and which of it wrote where, and read which port."""

    def __init__(self) -> None:
        self.events = list[Event]()
        self.writes = list[tuple[int, int, int]]()  # which event, where, and what
        self.reads = list[tuple[int, int, int]]()  # so too, from which port

    @staticmethod
    def of(lines: list[bytes]) -> Part:
        """What these lines of `events` tell."""
        part, known = Part(), dict[bytes, Happening]()
        for line in lines:
            clock, _, rest = line.partition(b' ')
            what = known.get(rest) or known.setdefault(rest, happening_of(line.decode('ascii')))
            if what.what == 'start':
                part.events.append(Event(int(clock), *what.place, what.value, '', None))
            elif what.what == 'entry':
                part.events.append(Event(int(clock), 0, 0, b'', '', what.value))
            elif what.what == 'write':
                part.writes.append((len(part.events) - 1, what.place, what.value))
            elif what.what == 'in':
                part.reads.append((len(part.events) - 1, what.place, what.value))
        learn(what.value for what in known.values() if what.what == 'start')
        return part


class State(NamedTuple):
    """A run at its end: report, trail, the source's lines, RAM's end. One with services is looked at from where its program begins. Of its
    two sessions one stands at the end, and one goes about without stops."""

    report: Report
    files: Files
    session: ProbeSession
    free: ProbeSession
    listing: Listing
    trail: list[Event]
    ram_end: int = 0
    mark: int = 0  # where the services note that the program runs
    is_ended: bool = False  # whether they have ended it


class Run(State):
    """Such a run, and what is found of it, each when it is asked for."""

    def tell(self, name: str, event: Event | None = None, **values: Any) -> list[Told]:
        """A sentence; of an event with its clock, its place, and its beginning in `trail` and `events`."""
        if event:
            place, octets = f'{event.segment:04X}:{event.offset:04X}', event.octets.hex().upper()
            values = {'at': event.clock, 'after': event.clock + 1, 'place': self.place(event), 'where': f'{place} {octets}'.strip()} | values
            values.setdefault('what', f'start {place}' if event.entry is None else f'entry {event.entry:02X}')
            if event.entry is not None:
                values['where'] = Raw(rf'\S+ entry {event.entry:02X}')
        return ask(self.files, name, {'clock': self.report.clock, 'second': A_SECOND} | values)

    def meets(self, condition: str, since: int = 0) -> bool:
        """Whether a stop is met after a clock."""
        with ProbeSession(self.files) as session:
            session.go_to(since)
            return session.meets(condition, self.report.clock - since)

    @cached_property
    def parts(self) -> list[Part]:
        """What happened in the first clocks and in the last ones, each without a gap."""
        kinds, found = f'starts entries ports writes={min(self.ram_end, TEXT.start):X}-FFFFF', list[Part]()
        rest = self.end - self.begun
        found.append(Part.of(self.at(self.begun).lines(rest if rest <= FIRST + LAST else FIRST, kinds)))
        if self.free.clock < self.end:
            found.append(Part.of(self.at(self.end - LAST).lines(LAST, kinds)))
        return found

    @cached_property
    def begun(self) -> int:
        """The clock at which the program began: 0, or when the services had."""
        if not self.mark:
            return 0
        with ProbeSession(self.files) as session:
            session.stop(f'byte {self.mark:X} 1')
            session.go(self.end)
            return session.clock

    @property
    def is_whole(self) -> bool:
        """Whether all of the run was looked at."""
        return len(self.parts) == 1

    @cached_property
    def steps(self) -> list[tuple[Event, Event]]:
        """Each event with the one behind it, as it came first; at the end of a run that has jammed, with what it jammed at."""
        found = dict[tuple[object, ...], tuple[Event, Event]]()
        for part in self.parts:
            for pair in zip(part.events, part.events[1:]):
                found.setdefault((pair[0][1:], pair[1][1:]), pair)
        if self.report.state == 'jammed' and self.trail:
            segment, offset = self.report.registers['CS'], self.report.registers['IP']
            jam = Event(self.report.clock, segment, offset, self.session.dump(physical(segment, offset), 6), '', None)
            return [*found.values(), (self.trail[-1], jam)]
        return list(found.values())

    @cached_property
    def end(self) -> int:
        """A clock behind which nothing begins: the report's, or one soon after the last event, if nothing has come since."""
        last = self.trail[-1] if self.trail else None
        return min(self.report.clock, last.clock + (LONGEST if 'REP' in last.text else LONG) if last else 0)

    @cached_property
    def all_firsts(self) -> dict[tuple[object, ...], Event]:
        """Whatever began as it began first, as far as the run is looked at."""
        found = dict[tuple[object, ...], Event]()
        for part in self.parts:
            for event in part.events:
                found.setdefault(event[1:], event)
        return found

    @cached_property
    def firsts(self) -> list[Event]:
        """Each instruction of the source's lines as it began first."""
        return [event for event in self.all_firsts.values() if event.entry is None and self.is_own(event) and line_at(self.listing, event)]

    def at(self, clock: int) -> ProbeSession:
        """The session that has no stops, at a clock."""
        self.free.go_to(clock)
        return self.free

    def registers(self, clock: int) -> dict[str, int]:
        """The registers at a clock."""
        return registers_of(self.at(clock).answers(['regs']))

    def trail_at(self, clock: int) -> list[Event]:
        """The trail at a clock."""
        return [event_of(line) for line in self.at(clock).answers(['trail'])]

    def registers_often(self, event: Event) -> Iterator[dict[str, int]]:
        """The registers that an instruction found, its first times."""
        clocks = [one.clock for part in self.parts for one in part.events if one[1:] == event[1:]]
        return map(self.registers, clocks[:OFTEN])

    @cached_property
    def image(self) -> set[int]:
        """The addresses of the program's bytes."""
        if self.files.is_hex:
            return {at for first, part in self.listing.parts.items() for at in range(first, first + len(part))}
        return set(image_of(answer_of(['asm', '--', handed_on(self.files.file)])))

    def has(self, address: int) -> bool:
        """Whether the program has a byte at an address."""
        return self.listing.has(address) or address in self.image

    def is_own(self, event: Event) -> bool:
        """Whether an instruction isn't one of the services."""
        return not (self.mark and event.address >= SERVICES)

    @cached_property
    def _starts(self) -> list[int]:
        return sorted(self.listing.at)

    def line_over(self, address: int) -> Line | None:
        """The last line whose bytes begin at an address or before it."""
        found = bisect_right(self._starts, address)
        return self.listing.at[self._starts[found - 1]] if found else None

    def place(self, event: Event) -> str:
        """Where an event was, with its source line, or what it did."""
        line = line_at(self.listing, event)
        name = f'{event.segment:04X}:{event.offset:04X}'
        if event.entry is not None:
            return f'interrupt {event.entry:02X}'
        if line and self.is_own(event):
            return f'line {line.number} ({code_of(line.text).strip()}), {name}'
        row = [event] if event.text or not event.octets else self.trail_at(event.clock + 1)[-1:]
        return f'{name} ({row[0].text})' if row and row[0].text and row[0].clock == event.clock else name

    def region(self, address: int) -> str:
        """What is wrong with writing at an address: nothing, or a clause."""
        above = 'above RAM' if self.ram_end <= address < TEXT.start else 'nothing' if address >= TEXT.stop else ''
        kind = 'rom' if address >= ROM else 'colour' if address in COLOUR else above
        return str(tables('clauses')['wrong'][kind]).format(end=self.ram_end - 1) if kind else ''


def is_for_good(report: Report) -> bool:
    """Whether the processor has halted, and nothing wakes it."""
    return report.state == 'halted' and not report.registers['FL'] & WAKES


def is_short(session: ProbeSession, clock: int, reach: int) -> bool:
    """Whether a run up to a clock may be made again: it has no more than `reach` clocks, or waits most of what comes behind them."""
    if clock <= reach:
        return True
    session.go_to(min(reach, clock - SAMPLE))
    starts = sum(int(row.split()[-2]) for row in session.happenings(f'counts {SAMPLE}')[1:-1])
    return starts * (clock - reach) // SAMPLE <= MOST_STARTS


def go_to_end(session: ProbeSession, report: Report) -> int | None:
    """Takes a session to a run's end, and returns the first clock at which it was at 0000:0000 where 00 00 stands, if there is one."""
    session.stop('break 0:0')
    answer = session.go(report.clock)
    was = session.clock if answer.startswith('stop') and session.dump(0, 2) == b'\0\0' else None
    if session.clock < report.clock:  # past the stop, which a processor that has jammed there meets at each clock
        session.lines(report.clock - session.clock, 'keys')
    return was
