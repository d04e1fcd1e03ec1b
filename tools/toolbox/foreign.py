"""Sources that aren't of the board's own dialect, and what becomes of them: of MASM, TASM and emu8086, which pcmasm translates, line by
line; and those of NASM and C, of which nasm and bcc make a .COM program. Each face takes them by `guests`, and knows the lines and names
of the user's own text by the rows that stand in the file of symbols."""
from __future__ import annotations

import functools
import os
import re
import tempfile
from typing import TYPE_CHECKING, Iterator, NamedTuple

from toolbox import reading
from toolbox.command import Sorry, Unreadable, read_bytes
from toolbox.guests import Refused, Remark
from toolbox.listing import label_row, line_of, own_name, placed_labels
from toolbox.program import TOP, given_text, run

if TYPE_CHECKING:
    from toolbox.loading import Loaded

MADE = re.compile(r'[.?]+\d+')  # a label that pcmasm makes, of @@, of LOCAL, or of $
OWN = f'{TOP}/services/masm'  # what programs may include that their own folder hasn't
MOST_INCLUDED = 64
PLACE = re.compile(r'([^\n]*):(\d+):[ \t](.*)')
WANTED = re.compile(r'includes (.*), which isn\'t given')


class Translation(NamedTuple):
    """A source in the dialect: its lines, and the path and the number of the user's line that each of them is made of.
    `texts` has the lines of the user's texts by their paths, the source's first."""

    lines: list[str]
    places: list[tuple[str, int]]
    texts: dict[str, list[str]]
    notes: list[Remark]

    @property
    def text(self) -> str:
        """What pcboard takes."""
        return ''.join(f'{line}\n' for line in self.lines)

    def own(self, path: str, number: int) -> str:
        """A line of the user's."""
        lines = self.texts.get(path, [])
        return lines[number - 1] if 1 <= number <= len(lines) else ''

    def refused(self) -> Iterator[Remark]:
        """The lines that pcboard refuses, each once, as the user's that they are made of."""
        from toolbox.every import Copy, refused_in  # of which most sources need nothing
        from toolbox.messages import what_to_do

        known = set[tuple[str, int]]()
        for fault, _ in filter(None, refused_in(Copy(self.text))):
            number = fault.line or 1
            place, written = self.places[number - 1], self.lines[number - 1].strip()
            why = f"(fault {fault.number}, {fault.kind.name}, of the dialect's line {written})"
            if place not in known:
                known.add(place)
                yield Remark(*place, self.own(*place), f'{what_to_do(self.lines, fault)} {why}')

    def rows(self, rows: list[str]) -> list[str]:
        """The rows of a file of symbols: the source's lines of which nothing comes, each row of a listing behind its
        place, and the labels of the listing with the names that the user has."""
        source, placed = next(iter(self.texts)), set(self.places)
        blank = [(source, number) for number in range(1, len(self.texts[source]) + 1) if (source, number) not in placed]
        pairs = [*((place, '') for place in blank), *zip(self.places, rows)]
        labels = ((own_name(label), at) for label, at in placed_labels(line_of(0, row) for row in rows))
        lines = [f'{os.path.abspath(place[0])}:{place[1]}:\t{row}\t{self.own(*place)}' for place, row in pairs]
        return lines + [label_row(name, at) for name, at in labels if not MADE.fullmatch(name)]


def included(source: str, name: str, home: str) -> tuple[str, bytes]:
    """The path and the bytes of a file that a source includes, by its name alone in any cases: from a folder, or ours.
    No link is followed, and no device read."""
    if os.path.basename(name) != name or '\\' in name or ':' in name or name in ('', '.', '..'):
        raise Sorry(f'{source} includes {name}; what it includes is named without folders, and stands beside it')
    for folder in (home, OWN):
        names = sorted(os.listdir(folder), key=lambda each: (each != name, each))
        there = next((each for each in names if each.lower() == name.lower()), None)
        if there:
            return read_within(source, folder, there)
    ours = ', '.join(sorted(os.listdir(OWN)))
    raise Sorry(f"{source} includes {name}, which isn't beside it; of our own there is {ours}")


def read_within(source: str, folder: str, name: str) -> tuple[str, bytes]:
    """A file of a folder, which isn't the source itself."""
    path = os.path.join(folder, name)
    try:
        if os.path.exists(source) and os.path.samefile(path, source):
            raise Sorry(f'{source} includes itself')
        with reading.inside(folder) as handle:
            return path, reading.read_whole(path if handle is None else name, within=handle)
    except OSError as error:
        raise Unreadable(f"{source} includes {name}, which can't be read: {error.strerror}") from None


def translation_of(path: str, octets: bytes | None = None) -> Translation:
    """The translation of a file, or of a text that would stand at its path. Refused tells why there is none. It
    includes what stands beside it, and what is ours."""
    octets = read_bytes(path) if octets is None else octets
    texts = dict[str, bytes]()
    while isinstance(found := made_of(path, octets, tuple(texts.items())), str):
        if len(texts) == MOST_INCLUDED:
            raise Sorry(f'{path} includes more than {MOST_INCLUDED} files')
        there, text = included(path, found, os.path.dirname(path) or '.')
        texts[there] = text
    return found


@functools.lru_cache(4)
def made_of(path: str, octets: bytes, texts: tuple[tuple[str, bytes], ...]) -> Translation | str:
    """The translation of a text that includes these by their names, or the name of one that it includes besides."""
    names = {'stdin': path} | {os.path.basename(there): there for there, _ in texts}
    given = ['--map', '--masm', '/dev/stdin']
    with tempfile.TemporaryDirectory(prefix='zebludor-') as room:
        for there, text in texts:
            given.append(os.path.join(room, os.path.basename(there)))
            with open(given[-1], 'wb') as file:
                file.write(text)
        ran = run(given, octets, 'pcmasm')
    found = Translation([], [], {there: lines_of(text) for there, text in ((path, octets), *texts)}, [])
    found.notes.extend(Remark(where, number, found.own(where, number), words) for where, number, words in places_in(ran.err, names))
    if not ran.status:
        for where, number, line in places_in(ran.out, names):
            found.lines.append(line)
            found.places.append((where, number))
        return found
    if wanted := WANTED.fullmatch(found.notes[0].words) if found.notes else None:
        return wanted[1]
    raise Refused(found.notes) if found.notes else Sorry(f'{path}: {ran.err.strip() or "pcmasm ends without a word"}')


def places_in(answer: str, names: dict[str, str]) -> Iterator[tuple[str, int, str]]:
    """What pcmasm answers of lines: the path, the number and the words, by the paths of the names that it knows."""
    for row in filter(None, map(PLACE.fullmatch, answer.splitlines())):
        yield names.get(row[1], row[1]), int(row[2]), row[3]


def lines_of(octets: bytes) -> list[str]:
    """A text's lines, as a person wrote them."""
    return [reading.text_of(line.rstrip(b'\r')) for line in octets.split(b'\n')]


def refused(path: str, octets: bytes) -> Iterator[Remark]:
    """The refused lines of a source of MASM: those that pcmasm refuses, else those that pcboard refuses of the
    translation."""
    try:
        yield from translation_of(path, octets).refused()
    except Refused as refusal:
        yield from refusal.remarks


def complaints(path: str, octets: bytes) -> Iterator[tuple[int | None, str]]:
    """The lines of a text that are refused, and why; what has no line of it is without one, and all of it is told."""
    try:
        yield from ((one.number, one.words) if one.path == path else (None, ' '.join(one.sentences)) for one in refused(path, octets))
    except Sorry as sorry:
        yield None, str(sorry)


def rows_of(source: str, path: str, found: Loaded) -> list[str]:
    """The rows of a file of symbols by NASM's listing of a source, or by bcc's map, if it fits: lines and labels are counted from where the
    program begins, but for an .EXE program, of which it doesn't tell where its parts stand. A name of C has a `_` before it there."""
    from toolbox.symbols import symbols_of  # which takes long to load, and few programs need

    place, is_c = found.rows[0].split()[0], path.endswith('.map')
    try:
        listing = symbols_of(f'{path}@{place[:4] if is_c else place}', found.image)
    except Sorry:
        return found.rows
    own = [line for line in listing.modules.values() if os.path.basename(line.source) == os.path.basename(source)]
    placed = sorted([*listing.at.values(), *own], key=lambda line: (line.number, line.address))
    rows = [f'{label_row(line.shown.hex().upper(), line.address)} ' for line in placed if line.address]
    made = Translation([], [(source, line.number) for line in placed], {source: lines_of(read_bytes(source))}, [])
    names = {name.removeprefix('_') if listing.modules else name: place for name, place in listing.labels.items()}
    return [*made.rows(rows), *(label_row(name, at) for name, at in names.items()), *found.rows[1:]]


def rows_of_line(number: int, path: str, octets: bytes) -> list[str]:
    """The rows of the dialect's listing that come of a line of a text; none, if a line is refused."""
    try:
        translation = translation_of(path, octets)
        rows = given_text(['asm', '--list'], translation.text).out.split('\n')[:-1]
    except Sorry:
        return []
    return [row for place, row in zip(translation.places, rows) if place == (path, number)]
