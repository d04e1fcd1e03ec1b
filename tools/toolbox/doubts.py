"""Lines that the program takes and that are hardly meant as they stand. Each kind has a name, by which it is turned off in an editor."""
from __future__ import annotations

import re
from typing import Iterator, NamedTuple, Sequence

from toolbox.listing import code_of, label_in
from toolbox.tables import tables

# What a line looks like whose first group is hardly meant, and what may be: {0} is the group, {1} in upper case, {2} its number. A name
# in a byte register counts if it is a label; the numbers of INT are those of textbooks' calls, which are hexadecimal.
LOOKS = tables('clauses')['doubts']
NAMES = tuple(LOOKS)


class Doubt(NamedTuple):
    """A warning: its name, its line and columns, from 0, and what the line does and what may be meant."""

    name: str
    line: int
    first: int
    last: int
    text: str


def doubts(lines: Sequence[str]) -> Iterator[Doubt]:
    """Each line of a source that is hardly meant."""
    coded = [(number, code) for number, line in enumerate(lines) if line for code in [code_of(line)] if code]
    labels = {label.upper() for label in (label_in(code) for _, code in coded) if label}
    for number, code in coded:
        for name, (look, text) in LOOKS.items():
            found = re.fullmatch(look, code, re.I)
            if found and (name != 'offset-in-byte' or found[1].upper() in labels):
                value = int(found[1]) if found[1].isdecimal() else 0
                yield Doubt(name, number, *found.span(1), text.format(found[1], found[1].upper(), value))
                break
