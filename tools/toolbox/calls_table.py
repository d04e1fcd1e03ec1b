"""The tables of a run's calls and interrupts, as tools/trace prints them."""
from __future__ import annotations

from dataclasses import dataclass
from typing import Any, Iterator

from toolbox.calls import Calls, Routine
from toolbox.following import Entry, Line, Start, Tally, What
from toolbox.forms import Far
from toolbox.listing import Listing, code_of, physical

Key = tuple['int | None', bool, Far]
SHORT = {'return': 'IRET', 'enter': 'INT', 'may-enter': 'divide error or INTO'}
NUMBERS = f'{"least":>9} {"most":>9} {"mean":>11}'
SINGLE_STEP = 1


def numbers(tally: Tally) -> str:
    """The least, the most and the mean, or that there is none."""
    if not tally.times:
        return f'{"-":>9} {"-":>9} {"-":>11}'
    return f'{tally.least:>9} {tally.most:>9} {tally.sum / tally.times:>11.1f}'


def times(count: int) -> str:
    """How often."""
    return f'{count:,} times' if count != 1 else 'once'


def tally_fields(tally: Tally | None) -> dict[str, Any] | None:
    """What was measured as JSON has it, if anything was."""
    if not tally or not tally.times:
        return None
    return {'times': tally.times, 'least': tally.least, 'most': tally.most, 'sum': tally.sum, 'at': tally.at}


def service_fields(tally: Tally | None) -> dict[str, Any] | None:
    """The longest service, if one has ended."""
    return {'clocks': tally.most, 'at': tally.at} if tally and tally.times else None


def request_fields(line: Line) -> dict[str, Any]:
    """What became of a line's requests, as JSON has it."""
    counts = {'unseen': line.unseen, 'polled': line.polled, 'forgotten': line.forgotten}
    return {'latency': tally_fields(line.taken), 'fell': tally_fields(line.fell), 'waits': line.waits} | counts


@dataclass
class CallsTable:
    """What a run's calls came to, as text."""

    listing: Listing
    calls: Calls

    def lines(self) -> Iterator[str]:
        """All of it."""
        yield from self._routines()
        yield ''
        yield from self._interrupts()
        yield ''
        yield from self._off()

    def fields(self) -> dict[str, Any]:
        """The same as JSON has it."""
        lines, requests = self.calls.requests.lines, self.calls.requests
        served = self._served()
        keys = sorted({*served, *((True, requests.base + level) for level, line in enumerate(lines) if line.has_come)})
        return {
            'routines': [self._routine(*each) for each in sorted(self.calls.routines.items(), key=lambda each: (-each[1].took.sum, self.name(each[0])))],
            'strays': self.calls.strays,
            'interrupts': [{'type': type_, 'is_entry': is_entry, 'service': service_fields(served.get((is_entry, type_)))} for is_entry, type_ in keys],
            'requests': [{'line': f'IR{level}', **request_fields(line)} for level, line in enumerate(lines) if line.has_come],
            'off': self._off_fields(),
        }

    def _routine(self, key: Key, row: Routine) -> dict[str, Any]:
        """A routine as JSON has it."""
        type_, is_entry, far = key
        what = {'name': self.name(key), 'place': '%04X:%04X' % far, 'type': type_, 'is_entry': is_entry}
        figures = {'clocks': tally_fields(row.took), 'own': tally_fields(row.own), 'stack': row.stack if row.took.times else None}
        return what | {'times': row.calls} | figures | {'otherwise': row.otherwise, 'unended': row.unended}

    def _off_fields(self) -> dict[str, Any]:
        """How long interrupts were off, as JSON has it."""
        off, longest = self.calls.off, None
        if off.longest:
            begun, end, by, until = off.longest
            longest = {'begun': begun, 'end': end, 'by': self.place(by), 'until': self.place(until)}
        return {'first': off.first[0] if off.first else None, 'longest': longest, 'since': off.since[0] if off.since else None}

    def name(self, key: Key) -> str:
        """What a routine is called: by its label, else its place, with the interrupt that it serves."""
        type_, is_entry, far = key
        label = self.listing.label_before(*far) or '%04X:%04X' % far
        return label if type_ is None else f'{label} ({"interrupt" if is_entry else "INT"} {type_:02X})'

    def _routines(self) -> Iterator[str]:
        """A line for each routine, the dearest first, and what isn't averaged."""
        rows = sorted(self.calls.routines.items(), key=lambda each: (-each[1].took.sum, self.name(each[0])))
        yield f'{"":<24} {"":>9} {"clocks":>31}   {"without interrupts":>31}'
        yield f'{"routine":<24} {"times":>9} {NUMBERS}   {NUMBERS} {"most at":>12} {"stack":>6}'
        for key, row in rows:
            took = row.took
            at, stack = (str(took.at), str(row.stack)) if took.times else ('-', '-')
            yield f'{self.name(key):<24} {row.calls:>9} {numbers(took)}   {numbers(row.own)} {at:>12} {stack:>6}'
        for key, row in rows:
            yield from self._apart(self.name(key), row)
        if self.calls.strays:
            yield f'a return took an address that no call had put there {times(self.calls.strays)}'

    @staticmethod
    def _apart(name: str, row: Routine) -> Iterator[str]:
        """The calls that haven't returned, which aren't averaged."""
        if row.otherwise:
            yield f'{name}: left otherwise than by its return {times(len(row.otherwise))}, and not averaged; first called at {min(row.otherwise)}'
        if row.unended:
            yield f'{name}: not left yet at the end {times(len(row.unended))}, and not averaged; first called at {min(row.unended)}'

    def _served(self) -> dict[tuple[bool, int], Tally]:
        """The longest services of each type."""
        served = dict[tuple[bool, int], Tally]()
        for (type_, is_entry, _), row in self.calls.routines.items():
            if type_ is not None:
                longest = served.setdefault((is_entry, type_), Tally())
                if row.took.times:
                    longest.add(row.took.most, row.took.at)
        return served

    def _interrupts(self) -> Iterator[str]:
        """A line for each type: its latency, and its longest service."""
        requests, served = self.calls.requests, self._served()
        lines = {(True, requests.base + level): line for level, line in enumerate(requests.lines) if line.has_come}
        yield f'{"":<16} {"latency, in clocks":>41} {"":>12} {"longest":>9}'
        yield f'{"interrupt":<16} {"taken":>9} {NUMBERS} {"most at":>12} {"service":>9} {"at":>12}'
        for key in sorted({*served, *lines}):
            line, service = lines.get(key, Line()), served.get(key, Tally())
            at = str(line.taken.at) if line.taken.times else '-'
            served_at = (str(service.most), str(service.at)) if service.times else ('-', '-')
            name = self._line_name(key, key in lines)
            yield f'{name:<16} {line.taken.times:>9} {numbers(line.taken)} {at:>12} {served_at[0]:>9} {served_at[1]:>12}'
        for level, line in enumerate(requests.lines):
            yield from self._fate(f'IR{level}', line)

    def _line_name(self, key: tuple[bool, int], is_line: bool) -> str:
        """What an interrupt is: its type, and what asks for it."""
        is_entry, type_ = key
        if is_line:
            return f'{type_:02X} IR{type_ - self.calls.requests.base}'
        return f'{type_:02X} {"INT" if not is_entry else "single step" if type_ == SINGLE_STEP else ""}'.rstrip()

    @staticmethod
    def _fate(name: str, line: Line) -> Iterator[str]:
        """What became of requests that weren't simply taken."""
        if line.fell.times:
            stood = f'{line.fell.least} to {line.fell.most}' if line.fell.least < line.fell.most else line.fell.most
            yield f'{name}: fell again before it was taken {times(line.fell.times)}, first at {line.fell.first}; it had stood for {stood} clocks'
        if line.unseen:
            yield f'{name}: entered without a rise in these clocks {times(line.unseen)}'
        if line.polled:
            yield f'{name}: taken by a poll {times(line.polled)}'
        if line.forgotten:
            yield f'{name}: forgotten as the controller was initialised {times(line.forgotten)}'
        if line.waits is not None:
            yield f'{name}: a request waits at the end, since {line.waits}'

    def _off(self) -> Iterator[str]:
        """How long interrupts were off."""
        off = self.calls.off
        if off.first:
            yield f'interrupts off from the beginning up to {off.first[0]}, {self.place(off.first[1])}'
        if off.longest:
            begun, end, by, until = off.longest
            yield f'interrupts off for {end - begun} clocks at most: from {begun}, {self.place(by)}, to {end}, {self.place(until)}'
        if off.since:
            begun, what = off.since
            yield f'interrupts off at the end, since {begun}, {self.place(what)}' if what else 'interrupts off from the beginning to the end'

    def place(self, what: What) -> str:
        """What turned interrupts off or on, with its line or its place."""
        if isinstance(what, Entry):
            return f'the entry of interrupt {what.type:02X}'
        assert isinstance(what, Start)
        line = self.listing.at.get(physical(*what.place))
        octets = what.form.octets
        if line and octets[:8] == line.shown[: len(octets)]:
            return f'line {line.number} ({code_of(line.text).strip()})'
        label = self.listing.label_before(*what.place)
        name = SHORT.get(what.form.does) or ('POPF' if what.form.sp else ('CLI', 'STI')[octets[-1] & 1])
        return f'{name} at %04X:%04X{f" ({label})" if label else ""}' % what.place
