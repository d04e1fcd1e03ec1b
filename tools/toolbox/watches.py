"""Stops on what happens, which the probe has (docs/probe.md): where bytes change, where they are written, and where something of other
kinds happens; and what one has seen."""
from __future__ import annotations

import re
from dataclasses import dataclass
from typing import TYPE_CHECKING, Callable

from toolbox.command import Sorry
from toolbox.data_labels import SIZES, kind_in
from toolbox.following import writer_in
from toolbox.listing import Listing, physical
from toolbox.places import address_of, far_of, number_of, said, told_of

if TYPE_CHECKING:
    from toolbox.session_board import SessionBoard

MEMORY, MOST_WATCHED = 1 << 20, 1 << 16
KINDS = ('starts', 'entries', 'writes', 'ports', 'states', 'keys', 'wires')
NO_READS = "reads aren't watched, only changes and writes"


def watch_of(address: int, length: int = 1, is_each_write: bool = False) -> str:
    """The stop at which one of so many bytes differs from the clock before, or at which one is written, also as it stands there. Bytes that
    memory hasn't are refused."""
    if not 1 <= length <= MOST_WATCHED or address + length > MEMORY:
        raise Sorry(f'{length} bytes from {address:05X} on: 1 to {MOST_WATCHED} can be watched, up to FFFFF')
    return f'when writes={address:X}-{address + length - 1:X}' if is_each_write else f'changes {address:X} {length}'


def watched_by(stop: str) -> range:
    """The bytes that a stop watches; none of another stop."""
    if found := re.fullmatch(r'changes (\w+)(?: (\d+))?', stop):
        first = int(found[1], 16)
        return range(first, first + int(found[2] or 1))
    found = re.fullmatch(r'when writes=(\w+)-(\w+)', stop)
    return range(int(found[1], 16), int(found[2], 16) + 1) if found else range(0)


def value_size(listing: Listing, address: int) -> int:
    """How many bytes a value has that begins at an address: as its variable's type or its line's DB, DW or DD says, else one."""
    if datum := listing.datum_at(address):
        return datum.size
    line = listing.at.get(address)
    return SIZES.get(kind_in(line.said) or '', 1) if line else 1


def kind_of(text: str, address: Callable[[str], int]) -> str:
    """A kind as the probe takes it, of one in whose range of writes places stand, and in whose range of ports their numbers."""
    name, sign, places = text.partition('=')
    if name not in KINDS or sign and name not in ('writes', 'ports'):
        raise Sorry(f'{text} is none of {", ".join(KINDS)}; writes=FIRST-LAST and ports=FIRST-LAST are some of them')
    if not sign:
        return text
    first, _, last = places.partition('-')
    begin, end = (address(place) if name == 'writes' else number_of(place, 0xFFFF) for place in (first, last or first))
    if begin > end:
        raise Sorry(f'{text}: {begin:X} comes after {end:X}, and a range begins with its lowest')
    return f'{name}={begin:X}-{end:X}'


def command_of(board: SessionBoard, listing: Listing, text: str) -> str:
    """A command of the debugger in which places stand as people say them, as the program takes it. What it takes itself stays."""
    name, *words = text.split()

    def address(place: str) -> int:
        return address_of(listing, said(board.registers(), place))

    if name == 'break' and len(words) == 1:
        return 'break %X:%X' % far_of(listing, said(board.registers(), words[0]))
    if name == 'when' and words:
        return ' '.join(['when', *(kind_of(each, address) for each in words)])
    if name in ('byte', 'dump', 'changes') and words and not re.fullmatch('[0-9A-Fa-f]{1,5}', words[0]):
        return ' '.join([name, f'{address(words[0]):X}', *words[1:]])
    return text


@dataclass(frozen=True)
class Written:
    """A byte that was written: its address, what stood there, what was written, and what stands there now."""

    address: int
    before: int
    value: int
    after: int

    def in_words(self, labels: dict[int, str]) -> str:
        """In words."""
        name = ' '.join(filter(None, (f'{self.address:05X}', labels.get(self.address, ''))))
        if self.before != self.after:
            return f'{name} was {self.before:02X}, is {self.after:02X}'
        return f'{name} is {self.after:02X}, as before' + ('' if self.value == self.after else f': {self.value:02X} is not taken there')


def written(board: SessionBoard, places: range) -> list[Written]:
    """The bytes among these that were written in the clock that led to the present one, in the order of their addresses."""
    values = {int(line.split()[2], 16): int(line.split()[3], 16) for line in board.happened(f'writes={places[0]:X}-{places[-1]:X}')}
    after = {at: board.dump(at, 1)[0] for at in values}
    if values:
        board.one('back 1')
        before = {at: board.dump(at, 1)[0] for at in values}
        board.one('go 1')
    return [Written(at, before[at], values[at], after[at]) for at in sorted(values)]


def changed(board: SessionBoard, stop: str) -> list[Written]:
    """What a stop that watches bytes has seen in the clock that led to the present one; nothing if it doesn't hold."""
    places = watched_by(stop)
    found = written(board, places) if places else []
    return found if stop.startswith('when') else [each for each in found if each.before != each.after]


def what_was_seen(board: SessionBoard, listing: Listing, stop: str) -> str:
    """What a stop has seen that holds here, and of a write what did it. Of a stop of another kind nothing."""
    if not watched_by(stop):
        return ', '.join(board.happened(stop.removeprefix('when '))) if stop.startswith('when ') else ''
    labels = {physical(*place): name for name, place in listing.labels.items()}
    what, last = ', '.join(each.in_words(labels) for each in changed(board, stop)), writer_in(board.trail())
    return f'{what}: clock {last.clock}, {" ".join(told_of(listing, last).split())}' if what and last else what


def happening_text(listing: Listing, line: str) -> str:
    """A line of the probe's events, with the label and the source line of its address."""
    clock, what, *words = line.split()
    if what == 'start':
        place = int(words[0][:4], 16), int(words[0][5:], 16)
        source = listing.line_from(physical(*place))
        words += [listing.label_before(*place), f'| {listing.source_text(source)}' if source else '']
    elif what == 'write':
        words += [name for name, place in listing.labels.items() if physical(*place) == int(words[0], 16)]
    return ' '.join([f'{clock:>9}', what, *filter(None, words)])
