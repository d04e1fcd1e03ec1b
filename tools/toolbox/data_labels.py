"""A program's own data: its labels of DB, DW and DD, how long they are, and what memory holds there. What other assemblers' listings tell
of theirs, `nasm_data` and `c_data` read."""
from __future__ import annotations

import re
from dataclasses import dataclass
from itertools import takewhile
from typing import Any, Callable

from toolbox.listing import Line, Listing, code_of, label_in, own_name, physical

SIZES = {'DB': 1, 'DW': 2, 'DD': 4}
SIGNED = ('int', 'short', 'long', 'signed char')  # types of C
# So many bytes of a label are shown; of how many more there are the page tells.
MOST_BYTES = 1024
MEMORY = 1 << 20


@dataclass(frozen=True)
class Datum:
    """A label of data: its name, line, statement, address and length in bytes; of C also the name of its elements' type, how many there
    are in each dimension, and its source."""

    name: str
    line: int
    kind: str
    place: tuple[int, int]
    length: int
    said: str = ''
    sizes: tuple[int, ...] = ()
    source: str = ''

    @property
    def size(self) -> int:
        """The bytes of a value."""
        return SIZES[self.kind]

    @property
    def dimensions(self) -> tuple[int, ...]:
        """How many values it has in each dimension; none of a single one."""
        count = self.length // self.size
        return self.sizes if self.said else (count,) if count > 1 else ()

    def places(self) -> range:
        """Its bytes."""
        return range(physical(*self.place), physical(*self.place) + self.length)


def kind_in(text: str) -> str | None:
    """DB, DW or DD of a line, with a label or without; of another line None."""
    found = re.match(r'\s*(?:[A-Za-z_]\w*\s*:)?\s*(DB|DW|DD)\b', code_of(text), re.I)
    return found[1].upper() if found else None


def is_code(line: Line) -> bool:
    """Whether a line places an instruction, and no data."""
    return line.address is not None and kind_in(line.said) is None


def is_empty(text: str) -> bool:
    """Whether a line places nothing but may have a label."""
    return re.fullmatch(r'\s*(?:[A-Za-z_]\w*\s*:)?\s*', code_of(text)) is not None


def goes_on(text: str, kind: str) -> bool:
    """Whether a line may belong to the data of a statement of this kind before it."""
    return not label_in(text) and (kind_in(text) == kind or is_empty(text))


def data_of(listing: Listing, image: dict[int, int]) -> list[Datum]:
    """The labels of data in the order of the source. A label's data are its statement and those of its kind behind it, up to the next label or
    another statement."""
    found, labelled, lines = list[Datum](), list[str](), listing.rows or listing.lines
    starts = {physical(*line.address) for line in lines if line.address}
    for at, line in enumerate(lines):
        name = label_in(line.said)
        if name:
            labelled.append(own_name(name) if line.dialect else name)
        kind = kind_in(line.said)
        if kind and line.address and labelled:
            length = length_at(lines, at, kind, image, starts)
            if length and not length % SIZES[kind]:
                found += [Datum(label, line.number, kind, line.address, length, source=line.source) for label in labelled]
        if kind or not is_empty(line.said):
            labelled.clear()
    return found


def length_at(lines: list[Line], at: int, kind: str, image: dict[int, int], starts: set[int]) -> int:
    """How many bytes a statement's data have with those of its kind behind it: up to where no byte stands, or another line begins."""
    more = takewhile(lambda one: goes_on(one.said, kind), map(lines.__getitem__, range(at + 1, len(lines))))
    begin, *rest = (physical(*one.address) for one in (lines[at], *more) if one.address)
    own, places = {begin, *rest}, ((begin + place) % MEMORY for place in range(len(image) + 1))
    return next(length for length, place in enumerate(places) if place not in image or place in starts and place not in own)


def values_of(data: list[Datum], dump: Callable[[int, int], bytes]) -> list[dict[str, Any]]:
    """The labels with what memory holds there."""
    return [
        {
            'name': datum.name,
            'line': datum.line,
            'kind': datum.kind,
            'place': '%04X:%04X' % datum.place,
            'length': datum.length,
            'bytes': dump(physical(*datum.place), min(datum.length, MOST_BYTES)).hex(),
        }
        for datum in data
    ]


def in_one_piece(data: list[Datum]) -> list[Datum]:
    """Those whose bytes stand one behind the other: not over the end of a segment, or of memory."""
    return [one for one in data if one.place[1] + one.length <= 0x10000 and one.places().stop <= MEMORY]
