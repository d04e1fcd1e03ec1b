"""Every refused line of a source. The program tells the first alone; so a copy is made in which that line is blank, or has
only what others need of it, and asked about again, until none is refused."""
from __future__ import annotations

import contextlib
import re
from typing import Callable, Iterator

from toolbox.command import Sorry, read_bytes, waiting
from toolbox.faults import Fault, fault_in
from toolbox.hints import STATEMENTS, WORDS
from toolbox.listing import code_of, label_in
from toolbox.program import given_text, refusal

NO_SEGMENT, SHORT_OF_A_LINE = 11, (8, 9, 10, 12)
DEFINING = re.compile(r'EQU|D[BWDQT]|RES[BWDQ]|PROC|LABEL|MACRO|SEGMENT|STRUC|TIMES', re.I)
OPENING = re.compile(r'\s*(\w+\s*:\s*)?SEGMENT\b', re.I)


def stand_ins(line: str) -> list[str]:
    """What may stand for a refused line, so that the lines behind it are judged as they would be: itself without its comment, or a byte
    order mark, if these alone aren't ASCII; its label, or nothing."""
    plain = code_of(line).removeprefix('\ufeff')
    if not line.isascii() and plain.isascii():
        return [plain, '']
    label, code = label_in(line), code_of(line)
    data = re.match(r'\s*([A-Za-z_]\w*)\s+(D[BWD]|PROC|LABEL)\b', code, re.I)
    name = label or (data and data[1])
    return [f'{name}:', ''] if name else ['']


def names_of(line: str) -> set[str]:
    """The names that a line is likely meant to define, in upper case."""
    code = code_of(line)
    label = label_in(line)
    found = re.match(r'\s*(?:%\s*(?:define|assign)|SEGMENT)\s+([A-Za-z_]\w*)', code, re.I)
    plain = re.match(r'\s*([A-Za-z_]\w*)\s*(?:=|\s(\w+))', code)
    if plain and (plain[2] is None or DEFINING.fullmatch(plain[2]) or plain[2].upper() in STATEMENTS):
        found = found or (None if plain[1].upper() in STATEMENTS | WORDS else plain)
    return {name.upper() for name in (label, found and found[1]) if name}


def uses(line: str, names: set[str]) -> bool:
    """Whether a line has one of these names outside quotes."""
    return any(word.upper() in names for word in re.findall(r'[A-Za-z_]\w*', re.sub(r"'[^']*'", '', code_of(line))))


class Copy:
    """A copy of a source, some lines of which are blank."""

    def __init__(self, text: str) -> None:
        self.lines, self.lost = text.split('\n'), set[str]()

    @property
    def text(self) -> str:
        """What it is now."""
        return '\n'.join(self.lines)

    def fault(self) -> Fault | None:
        """The copy's first fault. A listing is made faster than Intel HEX."""
        ran = given_text(['asm', '--list'], self.text)
        fault = fault_in(ran.err)
        if ran.status and fault is None:
            raise Sorry(refusal(ran.status, ran.err))
        return fault

    def take_out(self, fault: Fault) -> Fault | None:
        """Puts something harmless for the fault's line, and returns the next fault."""
        assert fault.line
        at, line = fault.line - 1, self.lines[fault.line - 1]
        for stand_in in stand_ins(line):
            if stand_in == line.strip():
                continue
            self.lines[at] = stand_in
            found = self.fault()
            if found is None or found.line != fault.line:
                break
        if not self.lines[at]:
            self.lost |= names_of(line)
        return found

    def take_out_to_the_next_segment(self, fault: Fault) -> Fault | None:
        """Blanks all lines from one that lacks a segment to the next that opens one. Their names are lost."""
        assert fault.line
        for at in range(fault.line - 1, len(self.lines)):
            if at > fault.line - 1 and OPENING.match(self.lines[at]):
                break
            self.lost |= names_of(self.lines[at])
            self.lines[at] = ''
        return self.fault()


def refused_in(copy: Copy, say: Callable[[str], None] = lambda _: None) -> Iterator[tuple[Fault, bool] | None]:
    """The refused lines of a source, and of each whether it was judged without the earlier ones, which then may be why it
    doesn't fit its place. A line that uses a name whose own line is refused isn't judged, and None. The copy is at the end
    what is left of the source; `say` is told how far it is."""
    opened, is_after = True, False
    fault = copy.fault()
    while fault is not None:
        if fault.line is None:
            yield fault, is_after
            return
        line = copy.lines[fault.line - 1]
        follows = uses(line, copy.lost) or fault.number == NO_SEGMENT and not opened
        yield None if follows else (fault, is_after and fault.number in SHORT_OF_A_LINE)
        is_after = True
        opened = opened and not OPENING.match(line)
        if fault.number == NO_SEGMENT:
            fault, opened = copy.take_out_to_the_next_segment(fault), True
        else:
            fault = copy.take_out(fault)
        say(f'at line {fault.line}' if fault else 'at the end')


def refused_lines(path: str, is_told: bool = True) -> Iterator[tuple[Fault, bool]]:
    """Those of a file. How far it is, is told on standard error."""
    tells = waiting(f'why: asking about the lines of {path}') if is_told else contextlib.nullcontext(lambda _: None)
    copy = Copy(read_bytes(path).decode('utf-8', 'surrogateescape'))
    with tells as say:
        yield from filter(None, refused_in(copy, say))
