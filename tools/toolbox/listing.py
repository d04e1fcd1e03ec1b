"""Where a source's lines and labels stand, as the program's listing tells it."""
from __future__ import annotations

import os
import re
from functools import cached_property
from typing import TYPE_CHECKING, Any, Callable, Iterable, Iterator, NamedTuple

from toolbox.command import Sorry, handed_on, read_bytes, read_text
from toolbox.intel_hex import MEMORY, image_of, parts_of
from toolbox.program import Files, answer_of, given_text

if TYPE_CHECKING:
    from toolbox.data_labels import Datum

ADDRESS_COLUMNS = 28
PLACED = re.compile(r'([0-9A-F]{4}):([0-9A-F]{4}) ((?:[0-9A-F]{2})*)\+? ')
PROBE_NAME = 'PROBE_OF_LABELS'
DIALECT = re.compile(rb'^[ \t]*(?:\w+[ \t]*:[ \t]*)?SEGMENT[ \t]+\w+[ \t]+AT\b', re.I | re.M)  # no other assembler's
REMADE = re.compile(r'_([A-P])([A-P])')


def physical(segment: int, offset: int) -> int:
    """The 20-bit address of an offset in a segment."""
    return (16 * segment + offset) % MEMORY


class Line(NamedTuple):
    """A line of a source that places bytes, or none (then its address is None). Of Intel HEX it names its file: by the full path, or
    by a bare name if no file has that text. Of a source of MASM it has what the line is in the dialect."""

    number: int
    text: str
    address: tuple[int, int] | None
    shown: bytes
    source: str = ''
    dialect: str = ''

    @property
    def said(self) -> str:
        """What the line says in the dialect."""
        return self.dialect or self.text


class Parts(NamedTuple):
    """A source's lines, by physical address too, and its labels. Intel HEX has parts of memory that it fills, by where they begin.
    It has lines if its symbols' file is a listing, and by a map with listings beside it those of several files, in `modules`."""

    lines: list[Line]
    at: dict[int, Line]
    labels: dict[str, tuple[int, int]]
    parts: dict[int, bytes]
    reserved: set[str]  # labels of data, by a symbols' file that tells them from those of code
    absent: set[str]  # labels of sections without bytes, of which nothing says where they stand
    files: dict[str, list[Line]]  # of Intel HEX the lines of each file, from its first on
    modules: dict[int, Line]  # of several files those that place bytes, by physical address
    rows: list[Line]  # of a source of MASM what becomes of it, in the order of the dialect's lines
    read_data: Callable[[], list[Datum]] = list
    read_constants: Callable[[], dict[str, int]] = dict
    read_image: Callable[[], dict[int, int]] | None = None  # the program's bytes, if the lines are those of the dialect


class Listing(Parts):
    """A listing, of which nothing is known but what is said."""

    def __new__(cls, *said: Any, **named: Any) -> Listing:
        empty = dict(lines=[], at={}, labels={}, parts={}, reserved=set(), absent=set(), files={}, modules={}, rows=[])
        return super().__new__(cls, **empty | dict(zip(Parts._fields, said)) | named)

    @cached_property
    def data(self) -> list[Datum]:
        """The labels of data of which the source tells how long they are, and whose bytes stand one behind the other."""
        from toolbox.data_labels import data_of, in_one_piece  # which stands on this module, as what reads data does

        return in_one_piece(data_of(self, self.read_image()) if self.read_image else self.read_data())

    @cached_property
    def constants(self) -> dict[str, int]:
        """EQU's names with their values, as far as the source tells them."""
        from toolbox.nasm_data import constants_among

        return constants_among(line.text for line in self.lines) if self.read_image and not self.rows else self.read_constants()

    def datum_at(self, address: int) -> Datum | None:
        """The label of data that begins at a physical address; of several the one that has the most bytes."""
        them = [one for one in self.data if physical(*one.place) == address]
        return max(them, key=lambda one: one.length, default=None)

    @cached_property
    def coded(self) -> list[tuple[Line, str]]:
        """The lines that say more than a comment, each with what stands before its comment."""
        return [(line, code) for line in self.lines if line.text for code in [code_of(line.text)] if code]

    def of_file(self, source: str) -> list[Line]:
        """The lines of a file, or of the program's own source."""
        return self.files.get(source, self.lines)

    def line_from(self, address: int) -> Line | None:
        """The line whose bytes, or a part of them, begin at a physical address."""
        return self.at.get(address) or self.modules.get(address)

    def source_text(self, line: Line) -> str:
        """A line beside a place: of one source without its comment, of several with its file."""
        return f'{os.path.basename(line.source)}:{line.number}: {line.text.strip()}' if self.modules else f'{line.number}: {code_of(line.text).strip()}'

    def place_text(self, segment: int, offset: int) -> str:
        """An address with its label and source line."""
        label, line = self.label_before(segment, offset), self.line_from(physical(segment, offset))
        source = f'| {self.source_text(line)}' if line else ''
        return ' '.join(filter(None, (f'{segment:04X}:{offset:04X}', label, source)))

    def has(self, address: int) -> bool:
        """Whether a line begins at a physical address, or Intel HEX has a byte there."""
        return address in self.at or any(first <= address < first + len(part) for first, part in self.parts.items())

    def label_before(self, segment: int, offset: int) -> str:
        """`label` or `label+N` for an address: the nearest label at or before it in the same paragraph, or nothing."""
        best = max(((at, name) for name, (para, at) in self.labels.items() if para == segment and at <= offset), key=lambda pair: pair[0], default=None)
        if best is None:
            return ''
        return best[1] if best[0] == offset else f'{best[1]}+{offset - best[0]:X}'

    def label_of(self, name: str) -> tuple[int, int] | None:
        """A label's segment and offset; upper and lower case are one."""
        if name.lower() in map(str.lower, self.absent):
            raise Sorry(f'{name} is not in the image: --symbols FILE,ram=PARAGRAPH tells where its section stands')
        return next((at for label, at in self.labels.items() if label.lower() == name.lower()), None)


def code_of(line: str) -> str:
    """A line without its comment; a `;` in quotes is none."""
    if "'" not in line:
        return line.partition(';')[0].rstrip()
    kept, quote = '', False
    for sign in line:
        if sign == ';' and not quote:
            break
        quote ^= sign == "'"
        kept += sign
    return kept.rstrip()


def label_in(line: str) -> str | None:
    """The label that a line defines, or none. A segment's prefix is no label."""
    found = re.match(r'\s*([A-Za-z_]\w*)\s*:', code_of(line)) if ':' in line else None
    return found[1] if found and found[1].upper() not in ('ES', 'CS', 'SS', 'DS') else None


def own_name(written: str) -> str:
    """A name of a source of MASM as its user has it: pcmasm writes M_.. what the dialect can't have."""
    if not written.startswith('M_'):
        return written
    return REMADE.sub(lambda found: chr(16 * (ord(found[1]) - 65) + ord(found[2]) - 65), written[2:])


def line_of(number: int, row: str, own: str | None = None) -> Line:
    """A row of the listing, with the line as its writer has it, if that is told."""
    found = PLACED.match(row) if row[4:5] == ':' else None
    text = row[ADDRESS_COLUMNS:] if own is None else own
    if not found:
        return Line(number, text, None, b'')
    return Line(number, text, (int(found[1], 16), int(found[2], 16)), bytes.fromhex(found[3]))


def at_places(lines: Iterable[Line]) -> dict[int, Line]:
    """The lines that place bytes, by physical address; of several at one place the first."""
    found = dict[int, Line]()
    for line in lines:
        if line.address:
            found.setdefault(physical(*line.address), line)
    return found


def label_row(name: str, place: tuple[int, int]) -> str:
    """A label's row in a file of symbols."""
    return f'{place[0]:04X}:{place[1]:04X} {name}'


def placed_labels(lines: Iterable[Line]) -> Iterator[tuple[str, tuple[int, int]]]:
    """The labels that lines of the dialect define, each with the place of the next byte."""
    waiting = list[str]()
    for line in lines:
        label = label_in(line.text)
        waiting += [label] if label else []
        if line.address:
            yield from zip(waiting, [line.address] * len(waiting))
            waiting = []


def probed(source: str, names: list[str]) -> dict[str, tuple[int, int]]:
    """The labels' addresses, which no listing has. So the program is asked: it lists a copy of the source that ends with
    a segment of far pointers to them, in a place where the source has nothing."""
    text = ''.join(f'        DW {name},SEG {name}\n' for name in names)
    for paragraph in (0x9000, 0x8000, 0x7000, 0x6000):
        for closing in ('', 'ENDS\n'):  # most sources close their last segment by themselves
            ran = given_text(['asm', '--list'], f'{source}\n{closing}SEGMENT {PROBE_NAME} AT {paragraph:05X}h\n{text}')
            if ran.status == 0:
                rows = [line_of(0, row).shown for row in ran.out.splitlines()[-len(names) :]]
                return {name: (int.from_bytes(row[2:4], 'little'), int.from_bytes(row[:2], 'little')) for name, row in zip(names, rows)}
    return {}


def listing_of(files: Files) -> Listing:
    """The listing of a source; of Intel HEX, which has no lines, that of its symbols' file, or an empty one."""
    if files.is_hex:
        from toolbox.symbols import symbols_of  # which stands on this module

        image = image_of(read_text(files.file))
        return (symbols_of(files.symbols, image, files.source) if files.symbols else Listing())._replace(parts=parts_of(image))
    if files.symbols:
        raise Sorry(f'{files.file} is a source, which has its own labels; --symbols goes with --hex')
    rows = answer_of(['asm', '--list', '--', handed_on(files.file)]).split('\n')[:-1]
    lines = [line_of(number, row) for number, row in enumerate(rows, 1)]
    found = Listing(lines, at_places(lines))
    names = [name for name in map(label_in, (each.text for each in lines if ':' in each.text)) if name]
    if names:
        found.labels.update(probed(read_bytes(files.file).decode('utf-8', 'surrogateescape'), names))
    return found._replace(read_image=lambda: image_of(answer_of(['asm', '--', handed_on(files.file)])))
