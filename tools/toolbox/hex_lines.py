"""Of which files the lines of Intel HEX are; those of sources of MASM; and those of C and of as86's assembler, which ld86's map of names
tells together with as86's listings of its modules."""
from __future__ import annotations

import os
import re
from dataclasses import replace
from functools import partial

from toolbox.command import Sorry, read_text
from toolbox.c_data import FILE, LINE, Row, data_in, in_sections
from toolbox.data_labels import Datum
from toolbox.listing import ADDRESS_COLUMNS, Line, Listing, at_places, line_of

MOST_LINES = 1 << 20  # of a source that a listing tells
SOURCES = ('.asm', '.nasm', '.s', '.inc')
# Of a source of MASM: file, line, row of the dialect's listing, the file's own line.
PLACED = re.compile(r'([^\n]*?):(\d+):\t([^\t\n]*)\t(.*)')
OF_LD86 = re.compile(r' *(\S+) +(\S+) +([0-9A-Fa-f]) +([0-9A-Fa-f]{8})')  # module, name, its part (0 is code), address
ROW = re.compile(r'\d{5} ([0-9A-F]{4}|    ) (.{36}) ?(.*)')  # of as86: offset, bytes, text


def filled(lines: list[Line]) -> list[Line]:
    """A file's lines from its first on, those that no listing has blank."""
    known = {one.number: one for one in lines}
    if max(known, default=0) > MOST_LINES:
        raise Sorry(f'a listing has the line {max(known):,}, and {MOST_LINES:,} are the most')
    return [known.get(number, Line(number, '', None, b'', lines[0].source)) for number in range(1, max(known, default=0) + 1)]


def source_beside(path: str, lines: list[Line]) -> str:
    """The source of NASM's listing, if a file of the listing's name beside it has these lines; else its likely name."""
    stem = os.path.splitext(os.path.abspath(path))[0]
    for ending in SOURCES:
        if os.path.isfile(stem + ending) and is_of(stem + ending, lines):
            return stem + ending
    return os.path.basename(stem) + SOURCES[0]


def is_of(path: str, lines: list[Line]) -> bool:
    """Whether a file has these lines."""
    own = read_text(path).replace('\r', '').split('\n')
    return all(one.number <= len(own) and own[one.number - 1].split() == one.text.split() for one in lines)


def with_source(found: Listing, path: str, source: str | None = None) -> Listing:
    """A listing with the file that its lines are of: the source that is told, else one beside it."""
    source = source or source_beside(path, found.lines)
    lines = filled([one._replace(source=source) for one in found.lines])
    return found._replace(lines=lines, at={where: one._replace(source=source) for where, one in found.at.items()}, files={source: lines})


def of_places(rows: list[str], found: Listing) -> Listing:
    """The lines of a source of MASM and of what it includes, by rows of the dialect's listing behind their places, with these labels. A
    line of which nothing comes has an empty row; the source stands first."""
    placed = ((row, line_of(int(row[2]), row[3], row[4])) for row in filter(None, map(PLACED.fullmatch, rows)))
    lines = [line._replace(source=row[1], dialect=row[3][ADDRESS_COLUMNS:]) for row, line in placed]
    files = by_files(lines)
    first = next(iter(files), '')
    at, modules = (at_places(line for line in lines if (line.source == first) == is_first) for is_first in (True, False))
    return Listing(files.get(first, []), at, found.labels, files=files, modules=modules, rows=[line for line in lines if line.dialect])


def by_files(lines: list[Line]) -> dict[str, list[Line]]:
    """The lines of each file from its first on; of several of one number the first that places bytes, if one does."""
    files = dict[str, dict[int, Line]]()
    for line in lines:
        known = files.setdefault(line.source, {}).get(line.number)
        if known is None or line.address and not known.address:
            files[line.source][line.number] = line
    return {source: filled(list(them.values())) for source, them in files.items()}


def with_modules(found: Listing, path: str, rows: list[str]) -> Listing:
    """A map of ld86's with the lines of its modules, as far as their listings stand beside it: main.lst of main."""
    modules, places = dict[str, dict[str, int]](), dict[str, set[str]]()
    for module, label, part, address in (one.groups() for one in map(OF_LD86.match, rows) if one):
        places.setdefault(label, set()).add(address)
        if part == '0' and label in found.labels:
            modules.setdefault(module, {})[label] = found.labels[label][1]
    folder = os.path.dirname(os.path.abspath(path))
    segment = next((found.labels[label][0] for them in modules.values() for label in them), 0)
    pairs = [(os.path.join(folder, f'{name}.lst'), labels) for name, labels in modules.items()]
    texts = {listing: read_text(listing) for listing, _ in pairs if os.path.isfile(listing)}
    listings = {listing: [one.groups() for one in map(ROW.match, text.split('\n')) if one] for listing, text in texts.items()}
    lines = [line for listing, labels in pairs if listing in listings for line in of_module(listing, listings[listing], labels, segment)]
    own = {source: them for source, them in by_files(lines).items() if any(one.address for one in them)}
    sure = {label: found.labels[label] for label, them in places.items() if len(them) == 1 and label in found.labels}
    return found._replace(modules=at_places(lines), files=own, read_data=lambda: variables_of(listings, sure))


def variables_of(listings: dict[str, list[Row]], places: dict[str, tuple[int, int]]) -> list[Datum]:
    """The variables of C of modules, of those whose names stand for one place alone and are declared in one way."""
    found = [one for path, rows in listings.items() for one in data_in(rows, partial(named, path), places)]
    ways = dict[str, set[Datum]]()
    for one in found:
        ways.setdefault(one.name, set()).add(replace(one, line=0, source=''))
    return list({one.name: one for one in found if len(ways[one.name]) == 1}.values())


def of_module(path: str, rows: list[Row], labels: dict[str, int], segment: int) -> list[Line]:
    """The lines of a module by as86's listing: of C, whose lines stand in it as comments, those of C; else the assembler's. A row of
    code belongs to the line of C above it. Offsets are counted from the module's first byte, which its labels tell."""
    base = base_of(rows, labels)
    is_c = any((match := LINE.match(text)) and FILE.match(match[2]) for _, _, text in rows)
    found, now = list[Line](), Line(0, '', None, b'', named(path, os.path.basename(os.path.splitext(path)[0]) + '.s'))
    for number, (section, offset, octets, text) in enumerate(in_sections(rows), 1):
        match = LINE.match(text)
        begins = FILE.match(match[2]) if match else None
        if begins:
            now = Line(int(begins[1]), '', None, b'', named(path, begins[2]))
        elif match or not is_c:
            now = Line(int(match[1]) if match else number, (match[2] if match else text).rstrip(), None, b'', now.source)
            found.append(now)
        first = octets.split()[:1]
        if base is not None and section == 'text' and offset.strip() and first and re.fullmatch('([0-9A-F]{2})+', first[0]):
            found.append(now._replace(address=(segment, (base + int(offset, 16)) % 0x10000), shown=bytes.fromhex(first[0])))
    return found


def base_of(rows: list[Row], labels: dict[str, int]) -> int | None:
    """Where a module's code begins, by a label that both the listing and the map have."""
    for section, offset, value, text in in_sections(rows):
        label, match = text.partition(':')[0], re.fullmatch(' *([0-9A-F]{8})>? *', value)
        if section == 'text' and label in labels and (match or offset.strip()):
            return (labels[label] - int(match[1] if match else offset, 16)) % 0x10000
    return None


def named(listing: str, name: str) -> str:
    """A source's full path, if it is there; else its name."""
    path = os.path.join(os.path.dirname(os.path.abspath(listing)), name)
    return path if os.path.isfile(path) else os.path.basename(name)


def text_of_lines(lines: list[Line]) -> str:
    """A file's text, as far as its listing has it."""
    return ''.join(f'{one.text}\n' for one in lines)
