"""The services of services/, calls of BIOS and DOS as a program in the board's ROM: their bytes and labels, and what they left in
their RAM, which is the upper 64 KB: what the program wrote by DOS, and from offset FC00h on how it ended."""
from __future__ import annotations

import contextlib
import functools
import re
import struct
from typing import Callable, Iterator, NamedTuple

from toolbox import reading
from toolbox.command import Sorry
from toolbox.intel_hex import image_of
from toolbox.listing import line_of, placed_labels
from toolbox.program import TOP, Files, Session, answer_of, run
from toolbox.runfile import read_run_file
from toolbox.tables import tables

LEAST_RAM, MOST_RAM, SPAN = 144, 640, 0x10000
KEPT = 0xFC00  # so many bytes of what was written; behind them stands the rest
OVER = 0xFE00, 6  # where every end of a program goes by, and how long its notes then take
CLOCKS_OF_AN_END = 1000
MARK, SIGNED, SIGNATURE = 0x5A53, 0xFE009, b'services of Zebludor'
# The interrupts by whose calls a source is known as one with services, and a row of the listing that calls one.
CALL = re.compile(r'^.{10}CD(10|16|20|21) .*?\s(?:\w+\s*:\s*)?INT\s', re.I | re.M)
RESET = 0xFFFF0  # where the processor begins
# The first key of typed text, how long a key is held, and from a key up to the next one down: the services begin first.
TYPING = 200_000, 20_000, 80_000
LIST = 0x200, 24, struct.Struct('<BxHHHH')  # behind the state: how many calls, and each
ENDS, UNSERVED, FUNCTIONS = (tables('clauses')[name] for name in ('ends', 'unserved', 'functions'))


def is_served(path: str) -> bool | None:
    """Whether a source is one with services: it calls INT 10h, 16h, 20h or 21h, and places no byte at FFFF:0000, where the processor
    would begin. None if it can't be read, or is refused."""
    try:
        if not re.search(rb'\bINT\b', reading.read_whole(path), re.I):
            return False
    except OSError:
        return None
    made = run(['asm', '--', path])
    if made.status:
        return None
    return is_one(image_of(made.out), lambda: answer_of(['asm', '--list', '--', path]))


def is_one(image: dict[int, int], listed: Callable[[], str]) -> bool:
    """Whether bytes and the listing are those of a source with services."""
    return RESET not in image and CALL.search(listed()) is not None


@functools.cache
def hex_of(name: str) -> str:
    """`bios` or `dos` as Intel HEX."""
    return answer_of(['asm', '--', f'{TOP}/services/{name}.asm'])


@functools.cache
def bytes_of(name: str) -> dict[int, int]:
    """Its bytes, by their addresses."""
    return image_of(hex_of(name))


@functools.cache
def labels_of(name: str) -> dict[str, tuple[int, int]]:
    """Where its labels stand. They have its own name before them: a program may have the same ones."""
    rows = answer_of(['asm', '--list', '--', f'{TOP}/services/{name}.asm']).split('\n')[:-1]
    return {f'{name}_{label}': place for label, place in placed_labels(line_of(0, row) for row in rows)}


def address_of(label: str) -> tuple[int, int]:
    """Where a label of the services stands, such as `dos_write_text`."""
    return labels_of(label.partition('_')[0])[label]


def waits_for_key(registers: dict[str, int]) -> bool:
    """Whether INT 16h waits, by these registers."""
    (segment, first), (_, end) = address_of('bios_wait_key'), address_of('bios_has_key')
    return registers['CS'] == segment and first <= registers['IP'] < end


class Call(NamedTuple):
    """A call that wasn't served: its interrupt, AX, where its return leads, and how often it was made from there."""

    number: int
    ax: int
    offset: int
    segment: int
    times: int

    @property
    def name(self) -> str:
        """Its interrupt and its function."""
        return 'INT 3' if self.number == 3 else f'INT {self.number:02X}h function {self.ax >> 8:02X}h'

    @property
    def why(self) -> str:
        """What there is in its place."""
        kinds = [kind for kind, functions in FUNCTIONS.items() if self.number == 0x21 and self.ax >> 8 in functions]
        return str(UNSERVED[(*kinds, 'INT 3' if self.number == 3 else 'other')[0]])

    def said(self, place_of: Callable[[tuple[int, int]], str]) -> str:
        """The place where its INT stands, or INT3 of one byte, and how often it was called."""
        place = place_of((self.segment, self.offset - 2 & 0xFFFF))
        return f'{place} ({self.times:,} times)' if self.times > 1 else place


class Served(NamedTuple):
    """What the services left at a clock: whether the program runs (phase 1) or has ended (2), how, with which exit code
    and when; how many bytes it wrote, and those that were kept; how many calls weren't served, and the first 24 of
    other places or functions; how many keys found the buffer full; the paragraph of the disk of files, or 0."""

    phase: int
    how: int
    code: int
    clock: int | None
    written: int
    output: bytes
    notes: int
    lost: int
    disk: int = 0
    calls: tuple[Call, ...] = ()

    @property
    def ending(self) -> str:
        """How the program ended, or nothing."""
        ending: str = ENDS.get(f'{self.how:02X}', ENDS['other'])
        return ending.format(code=self.code, how=self.how) if self.phase == 2 else ''

    @property
    def text(self) -> str:
        """What it wrote, with line feeds alone for line ends."""
        return self.output.decode('cp437').replace('\r\n', '\n')

    def whole(self) -> bytes:
        """All that it wrote, or a sentence where it was too much to keep."""
        if self.written > KEPT:
            raise Sorry(f'the program wrote {self.written:,} bytes, and the services keep the first {KEPT:,}')
        return self.output

    def remarks(self, place_of: Callable[[tuple[int, int]], str]) -> list[str]:
        """What a person has to know besides, as sentences: of each call that wasn't served all places."""
        them = dict[str, list[Call]]()
        for call in self.calls:
            them.setdefault(call.name, []).append(call)
        places = {name: ' and '.join(call.said(place_of) for call in calls) for name, calls in them.items()}
        found = [f'{name}, called {places[name]}, {calls[0].why}' for name, calls in them.items()]
        more = self.notes - sum(call.times for call in self.calls)
        if self.calls and more > 0:
            found.append(UNSERVED['more'].format(count=f'{more:,}', listed=len(self.calls)))
        if self.lost:
            found.append(UNSERVED['keys'].format(count=self.lost))
        return found


def served_of(files: Files, clock: int) -> Served | None:
    """What the services left at a clock, or None where they aren't in the program, or haven't begun."""
    with at_the_end(files, clock) as (_, served):
        return served


@contextlib.contextmanager
def at_the_end(files: Files, clock: int) -> Iterator[tuple[Session, Served | None]]:
    """A session at a clock, and what the services left there."""
    with Session(files) as session:
        session.stop(f'break {OVER[0]:X}:{OVER[1]:X}')
        ended = session.clock if session.go(clock).startswith('stop') else None
        if ended is not None:
            session.go(min(CLOCKS_OF_AN_END, clock - ended))
        yield session, left_at(session.dump, ram_end_of(files), ended)


def ram_end_of(files: Files) -> int:
    """Where RAM ends, as the run file says; 0 if it says nothing of that."""
    ram = read_run_file(files.run_file).get('ram')
    return 1024 * ram if isinstance(ram, int) else 0


def mark_of(ram_end: int) -> int:
    """Where the services note that the program runs, or how it ended (the phase)."""
    return ram_end - SPAN + KEPT + 2


def left_at(dump: Callable[[int, int], bytes], ram_end: int, ended: int | None = None) -> Served | None:
    """What the services left in a board's memory, of a program that ended at a clock, or None where they aren't in ROM, or haven't begun."""
    base = ram_end - SPAN
    if not 1024 * LEAST_RAM <= ram_end <= 1024 * MOST_RAM or dump(SIGNED, len(SIGNATURE)) != SIGNATURE:
        return None
    state = dump(base + KEPT, 0x30)
    mark, phase, how, code, written, notes, *first, lost, paragraph = struct.unpack('<HHBBI6H24xH', state)
    if mark != MARK:
        return None
    output = dump(base, min(written, KEPT)) if written else b''
    listed = dump(base + KEPT + LIST[0], LIST[1] * LIST[2].size) if notes else b''
    calls = [call for call in map(Call._make, LIST[2].iter_unpack(listed)) if call.times]
    if notes and not calls:  # an image of earlier services, which have no list
        calls = [Call(*first, notes)]
    clock = ended if phase == 2 else None
    return Served(phase, how, code, clock, written, output, notes, lost, paragraph, tuple(calls))
