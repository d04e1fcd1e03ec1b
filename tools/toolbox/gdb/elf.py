"""A listing's labels and lines as an ELF file with DWARF 3, by which gdb knows them: addresses are physical ones, and the code
is the board's (the file has none). Made by hand, so that no assembler has to be there."""
from __future__ import annotations

import os
import struct
from dataclasses import dataclass, field

from toolbox.forms import LONGEST_CALL, ends_of, ends_with_call, form_of, learn
from toolbox.gdb.cfi import behind_prologue, counted, frames_of, memory_of, sleb, uleb
from toolbox.gdb.frames import MEMORY, NOWHERE
from toolbox.gdb.variables import SHAPES, variables_of
from toolbox.listing import Line, Listing, physical

MACHINE, EXECUTABLE, PROGBITS, SYMTAB, STRTAB, NOBITS = 3, 2, 1, 2, 3, 8
# Of a file by GNU's compilers from 4.5 on gdb takes the rules for callers also at a RET, where it else expects 32 bits.
PRODUCER = b'GNU Zebludor 4.5\x00'
PROLOGUE_ROOM = 32
OVERFLOW = 4  # the type that INTO enters
CALLER = 'unknown caller'  # no label has a blank in it
ASSEMBLER = 0x8001  # DW_LANG_Mips_Assembler, the language of all assemblers in DWARF 3


def runs_of(listing: Listing) -> list[list[tuple[int, Line]]]:
    """The lines that place bytes, by address, in runs of which each line ends where the next begins."""
    runs: list[list[tuple[int, Line]]] = []
    end = -1
    for address, line in sorted([*listing.at.items(), *listing.modules.items()], key=lambda pair: pair[0]):
        if not line.shown:
            continue
        # The listing shows a long line's first bytes alone; it reaches to the next line of its segment.
        before = runs[-1][-1][1] if runs else None
        is_long = before is not None and len(before.shown) >= 8 and before.address and line.address and before.address[0] == line.address[0]
        is_next = before is not None and address == end or is_long
        if not is_next:
            runs.append([])
        runs[-1].append((address, line))
        end = address + len(line.shown)
    return runs


def end_of(run: list[tuple[int, Line]]) -> int:
    """Where a run of lines ends."""
    return run[-1][0] + len(run[-1][1].shown)


def entries_of(listing: Listing) -> set[int]:
    """Where routines of C, whose lines have several instructions, have set up their frames."""
    memory = memory_of(listing)
    places = {physical(*place) for place in listing.labels.values()} & listing.modules.keys()
    octets = {first: bytes(memory.get(address, 0) for address in range(first, min(first + PROLOGUE_ROOM, MEMORY))) for first in places}
    return {first + place for first, them in octets.items() for place in behind_prologue(them)}


def steps_of(run: list[tuple[int, Line]], files: list[str], entries: set[int]) -> bytes:
    """The program of line numbers for a run: the address, file and number of each line that isn't the one before, or at which gdb has an
    entry, and where the last one ends."""
    program, address, number, source = b'\x00\x05\x02' + struct.pack('<I', run[0][0]), run[0][0], 1, files[0]
    for here, line in run:
        if here > run[0][0] and (line.number, line.source) == (number, source) and here not in entries:
            continue
        program += b'' if line.source == source else b'\x04' + uleb(files.index(line.source) + 1)
        program += b'\x02' + uleb(here - address) + b'\x03' + sleb(line.number - number) + b'\x01'
        address, number, source = here, line.number, line.source
    return program + b'\x02' + uleb(end_of(run) - address) + b'\x00\x01\x01'


def lines_of(listing: Listing, paths: dict[str, str]) -> bytes:
    """`.debug_line`. The first file is the unit's own, by its name in the unit's folder."""
    lengths = bytes([0, 1, 1, 1, 1, 0, 0, 0, 1, 0, 0, 1])  # how many operands each standard step has
    names = [path if number else os.path.basename(path) for number, path in enumerate(paths.values())]
    files = b'\x00' + b''.join(name.encode('utf-8', 'surrogateescape') + b'\x00\x00\x00\x00' for name in names) + b'\x00'
    header = bytes([1, 1, 0xFB, 14, 13]) + lengths + files
    # Without any line gdb would leave out the unit: so of Intel HEX with labels alone the last byte of memory has one.
    runs = runs_of(listing) or [[(MEMORY - 1, Line(1, '', None, b'\x00', next(iter(paths))))]]
    entries = entries_of(listing) if listing.modules else set[int]()
    program = b''.join(steps_of(run, list(paths), entries) for run in runs)
    return counted(struct.pack('<HI', 3, len(header)) + header + program)


def unit_of(path: str, extents: dict[str, tuple[int, int]], listing: Listing, files: list[str]) -> tuple[bytes, bytes]:
    """`.debug_abbrev` and `.debug_info`: one unit, the source, over all of memory, and in it the variables, and the other labels as routines:
    by these gdb tells a call from a step where neither frame has a caller."""
    forms = ((0x03, 0x08), (0x1B, 0x08), (0x25, 0x08), (0x13, 0x05), (0x10, 0x06), (0x11, 0x01), (0x12, 0x01))
    of_routines = ((0x03, 0x08), (0x11, 0x01), (0x12, 0x01))
    shapes = [(1, 0x11, 1, forms), (2, 0x2E, 0, of_routines), *SHAPES]
    abbreviation = b''.join(bytes([*shape[:3], *(one for pair in shape[3] for one in pair), 0, 0]) for shape in shapes) + b'\x00'
    folder, name = (part.encode('utf-8', 'surrogateescape') + b'\x00' for part in os.path.split(path))
    unit = b'\x01' + name + folder + PRODUCER + struct.pack('<HIII', ASSEMBLER, 0, 0, MEMORY)
    data = {one.name for one in listing.data} | without_bytes(listing)
    code = ((label, place) for label, place in extents.items() if place[0] < place[1] and label not in data)
    routines = b''.join(b'\x02' + label.encode() + b'\x00' + struct.pack('<II', *place) for label, place in code)
    head = struct.pack('<HIB', 3, 0, 4) + unit
    variables = variables_of(4 + len(head), files, listing.data, {name: one for name, one in listing.constants.items() if name not in extents})
    return abbreviation, counted(head + variables + routines + b'\x00')


@dataclass
class Table:
    """Names, each with its place."""

    octets: bytes = b'\x00'
    places: dict[str, int] = field(default_factory=dict)

    def place(self, name: str) -> int:
        """Where a name stands."""
        if name not in self.places:
            self.places[name] = len(self.octets)
            self.octets += name.encode() + b'\x00'
        return self.places[name]


def is_call(octets: bytes) -> bool:
    """Whether a line's bytes are a CALL, INT or INTO and nothing more."""
    form = form_of(octets)
    return form.octets == octets and (form.calls or form.type == OVERFLOW)


def places_behind_calls(listing: Listing) -> set[int]:
    """Where calls return to. Of Intel HEX, which doesn't tell where an instruction begins, these are the labels before which one
    may stand."""
    before = dict[int, bytes]()
    for first, octets in listing.parts.items():
        for label in listing.labels.values():
            at = physical(*label) - first
            if at <= len(octets):
                before[first + at] = octets[max(at - LONGEST_CALL, 0) : max(at, 0)]
    learn([*(line.shown for line in listing.at.values()), *(end for octets in before.values() for end in ends_of(octets))])
    found = {address + len(line.shown) for address, line in listing.at.items() if is_call(line.shown)}
    return found | {address for address, octets in before.items() if ends_with_call(octets)}


def extents_of(listing: Listing) -> dict[str, tuple[int, int]]:
    """Each label's address and end, which is the next one or the end of its run or part; one behind all bytes has a size of 1, for
    gdb would take it for all that follows. One behind a CALL has none, and the one before reaches over it: where a call returns to
    gdb wants to find the routine that made it."""
    behind, places = places_behind_calls(listing), {name: physical(*at) for name, at in listing.labels.items()}
    parts = [(run[0][0], end_of(run)) for run in runs_of(listing)] + [(first, first + len(octets)) for first, octets in listing.parts.items()]
    ends = sorted({*places.values(), *(end for _, end in parts)} - behind)

    def end(address: int) -> int:
        if address in behind:
            return address
        is_in_part = any(first <= address < last for first, last in parts)
        return next((bound for bound in ends if bound > address), address) if is_in_part else address + 1

    return {name: (address, end(address)) for name, address in sorted(places.items(), key=lambda pair: pair[1])}


def without_bytes(listing: Listing) -> set[str]:
    """Labels of room for data at places that Intel HEX doesn't fill: no code stands there, whatever their type."""
    return {name for name in listing.reserved if name in listing.labels and not listing.has(physical(*listing.labels[name]))}


def symbols_of(extents: dict[str, tuple[int, int]]) -> tuple[bytes, bytes]:
    """`.symtab` and `.strtab`. All labels are as those of code, for what is data may be that, too: so one can stop there."""
    names, rows = Table(), bytes(16)
    for name, (address, end) in (extents | {CALLER: (MEMORY, NOWHERE + 1)}).items():
        rows += struct.pack('<IIIBBH', names.place(name), address, end - address, 0x12, 0, 1)
    return rows, names.octets


@dataclass(frozen=True)
class Section:
    """A section of the file. One that is linked has the names of its rows in the section of that number."""

    name: str
    kind: int
    octets: bytes = b''
    flags: int = 0
    size: int = 0
    link: int = 0
    first_global: int = 0
    row: int = 0


def elf_of(listing: Listing, paths: dict[str, str]) -> bytes:
    """The file's bytes. Sources, as lines name them, stand at these full paths, of which the first is the unit's."""
    extents = extents_of(listing)
    abbreviation, unit = unit_of(next(iter(paths.values())), extents, listing, list(paths))
    symbols, names = symbols_of(extents)
    sections = [
        Section('.text', NOBITS, flags=6, size=NOWHERE + 1),
        Section('.debug_abbrev', PROGBITS, abbreviation),
        Section('.debug_info', PROGBITS, unit),
        Section('.debug_line', PROGBITS, lines_of(listing, paths)),
        Section('.debug_frame', PROGBITS, frames_of(listing, sorted(set(extents.values())))),
        Section('.symtab', SYMTAB, symbols, link=7, first_global=1, row=16),
        Section('.strtab', STRTAB, names),
    ]
    table = Table()
    rows, body = bytes(40), b''
    for section in [*sections, Section('.shstrtab', STRTAB)]:
        place = table.place(section.name)
        octets = table.octets if section.name == '.shstrtab' else section.octets
        rows += struct.pack(
            '<10I', place, section.kind, section.flags, 0, 52 + len(body), section.size or len(octets), section.link, section.first_global, 1, section.row
        )
        body += octets
    count = len(sections) + 2
    head = b'\x7fELF\x01\x01\x01' + bytes(9) + struct.pack('<HHIIIIIHHHHHH', EXECUTABLE, MACHINE, 1, 0, 0, 52 + len(body), 0, 52, 32, 0, 40, count, count - 1)
    return head + body + rows
