"""What the program says of one text: its refused lines, one after another, and of what is left its listing, labels and bytes. It is asked
when an answer is wanted, and an answer is never that of another text."""
from __future__ import annotations

import os
from dataclasses import dataclass
from functools import cached_property
from typing import Callable

from toolbox import services
from toolbox.command import Sorry
from toolbox.every import Copy, refused_in
from toolbox.faults import Fault
from toolbox.intel_hex import image_of
from toolbox.listing import ADDRESS_COLUMNS, line_of, physical, probed
from toolbox.lsp.source import Source
from toolbox.program import given_text

MOST_REFUSED, MOST_SECONDS, LONGEST_INSTRUCTION = 101, 1.0, 15


def used() -> float:
    """The processor time of this process and of the programs that it has run, in seconds."""
    return sum(os.times()[:4])


def plain(whole: str) -> str:
    """A text as the program is handed it."""
    return whole.encode('utf-8', 'surrogatepass').decode('utf-8', 'surrogateescape')


@dataclass(frozen=True)
class Placed:
    """Where a line's bytes stand, and their beginning, as the listing shows it."""

    address: tuple[int, int]
    shown: bytes
    has_more: bool

    def __str__(self) -> str:
        return f'{self.address[0]:04X}:{self.address[1]:04X} {self.shown.hex().upper()}{".." if self.has_more else ""}'


class Answers:
    """The program's answers to a source. While it asks for several of them, it lets `poll` look whether they are wanted still."""

    def __init__(self, source: Source, poll: Callable[[], None]) -> None:
        self.source, self._poll, self.copy = source, poll, Copy(plain(source.text.whole))
        self.refused = list[tuple[Fault, bool]]()
        self.is_over, self.is_known, self.broken = False, False, ''
        self._more, self._spent = refused_in(self.copy), 0.0

    def step(self) -> None:
        """Looks for one more refused line. A hundred after the first are the most, and a second is the longest."""
        begun = used()
        try:
            refusal = next(self._more, self)
        except Sorry as sorry:
            self.is_over, self.broken = True, str(sorry)
            return
        if isinstance(refusal, Answers):
            self.is_over = self.is_known = True
            return
        if refusal:
            self.refused.append(refusal)
        self._spent += used() - begun if len(self.refused) > 1 or not refusal else 0.0
        self.is_over = len(self.refused) >= MOST_REFUSED or self._spent > MOST_SECONDS or bool(refusal and refusal[0].line is None)

    def finish(self) -> None:
        """Looks for all of them."""
        while not self.is_over:
            self._poll()
            self.step()

    @cached_property
    def lines(self) -> list[str]:
        """The text's lines as the program counts them."""
        return [line.rstrip('\r') for line in self.source.text.whole.split('\n')]

    def accepts(self, line: int, new: str) -> bool:
        """Whether a refused line, from 0, isn't refused any more if this stands in its place, and no other line either."""
        self.finish()
        if not self.is_known:
            return False
        lines = self.copy.text.split('\n')
        at = next(number for number in range(len(lines)) if self.source.text.line_of(number + 1) == line)
        return given_text(['asm', '--list'], plain('\n'.join([*lines[:at], new, *lines[at + 1 :]]))).status == 0

    @property
    def is_whole(self) -> bool:
        """Whether no line is refused."""
        self.finish()
        return self.is_known and not self.refused

    @cached_property
    def listed(self) -> str:
        """The listing of the text without its refused lines; nothing if these aren't all known."""
        self.finish()
        ran = given_text(['asm', '--list'], self.copy.text) if self.is_known else None
        return '' if ran is None or ran.status else ran.out

    @property
    def is_served(self) -> bool:
        """Whether it is a source with services, as the tools take it."""
        calls = any(line.does('INT') for line in self.source.lines)
        return calls and self.is_whole and services.is_one(self.image, lambda: self.listed)

    @cached_property
    def rows(self) -> dict[int, Placed]:
        """The lines that place bytes, by their number from 0, of the text without its refused lines; none if these aren't all known."""
        rows = self.listed.split('\n')[:-1]
        found = ((line_of(number, row), '+' in row[:ADDRESS_COLUMNS]) for number, row in enumerate(rows, 1))
        return {self.source.text.line_of(line.number): Placed(line.address, line.shown, more) for line, more in found if line.address}

    @cached_property
    def labels(self) -> dict[str, tuple[int, int]]:
        """Segment and offset of each label, by its name in upper case, of the text without its refused lines."""
        self.finish()
        gone = {self.source.text.line_of(fault.line) for fault, _ in self.refused if fault.line}
        names = [label.name.key for label in self.source.labels() if label.line not in gone]
        return probed(self.copy.text, names) if names and self.is_known else {}

    @cached_property
    def image(self) -> dict[int, int]:
        """The bytes by physical address."""
        self.finish()
        return image_of(given_text(['asm'], self.copy.text).out) if self.is_known else {}

    def has(self, address: int) -> bool:
        """Whether a line places a byte at a physical address."""
        spans = ((physical(*placed.address), len(placed.shown), placed.has_more) for placed in self.rows.values())
        return any(first <= address and (more and address in self.image or address < first + count) for first, count, more in spans)

    def octets(self, line: int) -> bytes:
        """A line's bytes, or if it has more than its row shows, as many as an instruction may have."""
        row = self.rows.get(line)
        if row is None or not row.has_more:
            return row.shown if row else b''
        segment, offset = row.address
        return bytes(self.image.get(physical(segment, (offset + at) % 0x10000), 0) for at in range(LONGEST_INSTRUCTION))
