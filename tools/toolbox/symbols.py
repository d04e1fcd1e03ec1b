"""Labels and source lines of a program given as Intel HEX, from what its assembler wrote beside it: a listing or a map file of
NASM's, or the listing of `pcboard asm --list`; or labels alone, as nm or ld86 prints them, or a person writes them. Each line is held
against the program's bytes."""
from __future__ import annotations

import os
import re
from itertools import takewhile

from toolbox import nasm_data
from toolbox.command import Sorry, read_text
from toolbox.hex_lines import PLACED, of_places, with_modules, with_source
from toolbox.intel_hex import MEMORY
from toolbox.listing import Line, Listing, at_places, line_of, physical, placed_labels
from toolbox.nasm_data import Statement

RAM = r'(?:,ram=([0-9A-Fa-f]{1,4}))?'
PLACE = rf'(?:@([0-9A-Fa-f]{{1,4}})(?::([0-9A-Fa-f]{{1,4}}))?)?{RAM}$'
WHERE = 'FILE@SEGMENT or FILE@SEGMENT:OFFSET tells where its first byte stands; it is F000:0000 where nothing is said'
OURS = r'(?:[0-9A-F]{4}:[0-9A-F]{4} [0-9A-F]*\+? +| {20,}|$)'
NASM_SYMBOL = re.compile(r' *([0-9A-F]+) +([0-9A-F]+)  (\S+)$')
FAR_LABEL = re.compile(r'([0-9A-Fa-f]{1,4}):([0-9A-Fa-f]{1,4}) +(\S+)')
FLAT_LABEL = re.compile(
    r'(?P<nm>[0-9A-Fa-f]+) (?P<type>[A-Za-z]) (?P<of_nm>\S+)|' r'\S+ +(?P<of_ld86>\S+) +(?P<part>[0-9A-Fa-f]) +(?P<ld86>[0-9A-Fa-f]{8})(?![^\n]* a\b)( .*)?'
)


def path_of(given: str) -> str:
    """The path of such a file, without the places of its first byte and of what has none: as much of it as is a file's name."""
    without_ram = re.sub(RAM + '$', '', given)
    return next((path for path in (given, without_ram) if os.path.exists(path)), re.sub(PLACE, '', given))


def symbols_of(given: str, image: dict[int, int], source: str | None = None) -> Listing:
    """The lines and labels of such a file, which are those of a source, if it is told."""
    path = path_of(given)
    place = re.search(PLACE, given[len(path) :])
    assert place
    far, ram = (int(place[1] or 'F000', 16), int(place[2] or '0', 16)), int(place[3], 16) if place[3] else None
    rows = read_text(path).removesuffix('\n').replace('\r', '').split('\n')
    filled = [row for row in rows if row]
    if any(row.startswith('- NASM Map file') for row in filled[:1]):
        found = of_a_map(rows, far, ram)
    elif filled and re.match(PLACED, filled[0]):
        found = of_places(filled, of_labels([row for row in filled if FAR_LABEL.fullmatch(row)], None, None))
    elif filled and all(re.match(r' *\d{1,7} ', row) for row in filled):
        found = with_source(of_nasm(filled, far, ram), path)
        places = found.labels
        found = found._replace(read_data=lambda: nasm_data.data_in(filled, places), read_constants=lambda: nasm_data.constants_in(filled))
    elif filled and re.match(OURS, filled[0]) and all(re.match(OURS, row) or FAR_LABEL.fullmatch(row) for row in filled):
        found = with_source(of_ours(rows), path, source)
    else:
        found = with_modules(of_labels(filled, far if place[1] else None, ram), path, filled)
    if not found.lines and not found.labels and not found.absent:
        raise Sorry(
            f'{path} is no NASM listing or map file (nasm -l FILE, [map all FILE]), no listing of pcboard asm --list, '
            'and has no labels as nm or ld86 -M prints them, or in lines SEGMENT:OFFSET NAME'
        )
    check(path, found, image)
    return finished(found, image)


def of_ours(rows: list[str]) -> Listing:
    """A listing of the board's own assembler, behind whose rows may stand labels as a person writes them. A label stands at the next
    byte."""
    more = list(takewhile(FAR_LABEL.fullmatch, reversed(rows)))
    found = Listing([line_of(number, row) for number, row in enumerate(rows[: len(rows) - len(more)], 1)])
    found.labels.update(placed_labels(found.lines))
    found.labels.update(of_labels(more[::-1], None, None).labels)
    return found


def of_nasm(rows: list[str], far: tuple[int, int], ram: int | None) -> Listing:
    """A listing of NASM's. Labels wait for their place: the next row's, or, where a section ends, the end of the last one."""
    found, waiting, before, end = Listing(), list[str](), Statement(), None
    for one in (*nasm_data.statements(rows), Statement(section=-1)):
        if one.section != before.section:
            stand(found, waiting, None if before.is_structure else end, before.is_structure)
        if one.number and (not found.lines or found.lines[-1].number != one.number):
            found.lines.append(Line(one.number, one.code, None, b''))
        waiting += one.labels
        if one.begin is not None:
            found.reserved.update(waiting if one.is_reserved else ())
            in_ram = None if ram is None or one.is_structure else (ram, one.begin)
            at = in_ram if one.is_reserved else (far[0], (far[1] + one.begin) % 0x10000)
            stand(found, waiting, at, one.is_structure)
            end = (at[0], at[1] + one.size) if at else None
            give_rows(found, [] if one.is_reserved else one.rows, far)
        before = one
    return found


def stand(found: Listing, names: list[str], at: tuple[int, int] | None, is_structure: bool) -> None:
    """Labels stand here, or, without a place, nowhere in the image. A structure's are no places."""
    if at:
        found.labels.update(dict.fromkeys(names, at))
    elif not is_structure:
        found.absent.update(names)
    names.clear()


def give_rows(found: Listing, rows: list[tuple[int, bytes]], far: tuple[int, int]) -> None:
    """The last line has these rows, and stands where the first of them does."""
    for offset, octets in rows:
        at = far[0], (far[1] + offset) % 0x10000
        line = found.lines[-1]._replace(address=at, shown=octets)
        found.at.setdefault(physical(*at), line)
        found.lines[-1] = found.lines[-1] if found.lines[-1].address else line


def of_a_map(rows: list[str], far: tuple[int, int], ram: int | None) -> Listing:
    """A map file of NASM's, which has labels alone. Its numbers count ORG in, so only the segment is added; those of a section without
    bytes are counted from its beginning."""
    found = Listing()
    starts = {
        nobits[2]: int(nobits[1], 16) for nobits in (re.match(r' *([0-9A-F]+) +[0-9A-F]+ +[0-9A-F]+ +[0-9A-F]+  nobits +(\S+)', row) for row in rows) if nobits
    }
    section = ''
    for row in rows:
        section = heading[1] if (heading := re.match(r'---- Section (\S+) -', row)) else section
        if symbol := NASM_SYMBOL.match(row):
            offset, start = int(symbol[2], 16), starts.get(section)
            if start is None:
                found.labels[symbol[3]] = far[0], offset % 0x10000
            elif ram is None:
                found.absent.add(symbol[3])
            else:
                found.labels[symbol[3]] = ram, (offset - start) % 0x10000
                found.reserved.add(symbol[3])
    return found


def of_labels(rows: list[str], far: tuple[int, int] | None, ram: int | None) -> Listing:
    """Lines `SEGMENT:OFFSET NAME`; nm's, `ADDRESS TYPE NAME`; and those of ld86 by -M, `MODULE NAME SEGMENT ADDRESS FLAGS`. Their
    addresses are physical ones, taken by the multiple of 1000h below; or where the first byte is told, offsets from there, of code; and
    of data from the beginning of RAM, if that is told."""
    found = Listing()
    for row in map(str.strip, rows):
        if label := FAR_LABEL.fullmatch(row):
            found.labels[label[3]] = int(label[1], 16), int(label[2], 16)
        elif flat := FLAT_LABEL.fullmatch(row):
            address, name = int(flat['nm'] or flat['ld86'], 16), flat['of_nm'] or flat['of_ld86']
            is_code = (flat['type'] or flat['part']) in ('T', 't', '0')
            found.reserved.update(set() if is_code else {name})
            if far and is_code:
                found.labels[name] = far[0], (far[1] + address) % 0x10000
            elif far and ram is None:
                found.absent.add(name)
            elif far:
                found.labels[name] = ram or 0, address % 0x10000
            elif not far and address < MEMORY:
                found.labels[name] = address >> 16 << 12, address & 0xFFFF
    return found


def check(path: str, found: Listing, image: dict[int, int]) -> None:
    """Each line's bytes are the program's, or the file is of another one, or stands elsewhere."""
    for line in (*found.lines, *found.at.values(), *found.modules.values()):
        if line.address and any(image.get(physical(line.address[0], line.address[1] + place)) != octet for place, octet in enumerate(line.shown)):
            name = line.source if found.modules else path
            raise Sorry(f'{name}, line {line.number}: at {line.address[0]:04X}:{line.address[1]:04X} the program has other bytes. {WHERE}')
    if found.labels and not any(physical(*place) in image for place in found.labels.values()):
        raise Sorry(f'{path}: the program has no byte at any of its labels. {WHERE}')


def finished(found: Listing, image: dict[int, int]) -> Listing:
    """The lines with the program's own bytes, by their addresses too."""

    def as_loaded(line: Line) -> Line:
        if line.address is None:
            return line
        first = physical(*line.address)
        return line._replace(shown=bytes(image[address % MEMORY] for address in takewhile(lambda address: address % MEMORY in image, range(first, first + 8))))

    files = {source: list(map(as_loaded, lines)) for source, lines in found.files.items()}
    lines = next(iter(files.values())) if found.lines else []
    at = at_places(lines) | {where: as_loaded(source_line) for where, source_line in found.at.items()}
    modules = {where: as_loaded(source_line) for where, source_line in found.modules.items()}
    whole = found._replace(lines=lines, at=at, files=files, modules=modules, rows=list(map(as_loaded, found.rows)))
    return whole._replace(read_image=lambda: image) if whole.rows or found.read_data is list and lines else whole
