"""What each fault means, in the words of the sources' own texts, which the program doesn't print."""
from __future__ import annotations

import re
from typing import NamedTuple

from toolbox.tables import tables


class Kind(NamedTuple):
    """A fault's name, whose it is, and what it means; and what it means of a key that is typed, and of a change that is made."""

    name: str
    of: str
    meaning: str
    typed: str = ''
    changed: str = ''


KINDS: dict[int, Kind] = {int(number): Kind(**row) for number, row in tables('faults').items()}


class Fault(NamedTuple):
    """A fault that the program told."""

    number: int
    line: int | None

    @property
    def kind(self) -> Kind:
        """What faults of this number are."""
        return KINDS[self.number]


def fault_in(text: str) -> Fault | None:
    """The first fault that a text tells, if it tells one."""
    for number, name, line in re.findall(r'^fault (\d+) (\w+)(?: line (\d+))?(?: clock \d+)?\s*$', text, re.M):
        kind = KINDS.get(int(number))
        if kind and kind.name == name:
            return Fault(int(number), int(line) if line else None)
    return None
