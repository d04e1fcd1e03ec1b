"""Bytes and words of memory as signals of a waveform, by the probe's log of writes."""
from __future__ import annotations

import itertools
import re
from dataclasses import dataclass
from typing import Iterator

from toolbox.command import Sorry
from toolbox.data_labels import kind_in
from toolbox.listing import Listing
from toolbox.places import address_of
from toolbox.program import Files, ProbeSession
from toolbox.runfile import read_run_file
from toolbox.vcd import Changes
from toolbox.watches import watch_of

PIECE = 1_000_000  # clocks
MOST = 16  # kinds that the probe takes at once
TEXT_MEMORY = range(0xB0000, 0xB1000)


@dataclass(frozen=True)
class Watched:
    """A signal's name, and the bytes that it has, the low one first."""

    name: str
    places: range

    @property
    def width(self) -> int:
        """Its bits."""
        return 8 * len(self.places)


def watched_of(listing: Listing, text: str) -> Watched:
    """What is named: a place, with `,byte` or `,word`; else a word if its line is of DW, and a byte."""
    place, _, size = text.partition(',')
    if size not in ('', 'byte', 'word'):
        raise Sorry(f'--watch {text}: write PLACE, PLACE,byte or PLACE,word')
    address = address_of(listing, place)
    line = listing.at.get(address)
    is_word = size == 'word' or not size and line is not None and kind_in(line.said) == 'DW'
    watch_of(address, 1 + is_word)
    return Watched(re.sub(r'\s', '_', place), range(address, address + 1 + is_word))


def watched_in(listing: Listing, texts: list[str]) -> list[Watched]:
    """All that are named."""
    if len(texts) > MOST:
        raise Sorry(f'--watch: {MOST} at most, and these are {len(texts)}')
    return [watched_of(listing, each) for each in texts]


class Watching:
    """A run's changes of what is watched. Its signals have the numbers from `first_signal` on."""

    def __init__(self, files: Files, watched: list[Watched], first_signal: int) -> None:
        self._session = ProbeSession(files)
        self._watched, self._first_signal = watched, first_signal
        self._ram = range(1024 * int(read_run_file(files.run_file)['ram']))
        self._octets: dict[int, int] = {}

    def _values(self) -> Changes:
        """All values."""
        values = (sum(self._octets[at] << 8 * place for place, at in enumerate(each.places)) for each in self._watched)
        return tuple(enumerate(values, self._first_signal))

    def changes(self, first: int, end: int) -> Iterator[tuple[int, Changes | None]]:
        """The values at the first clock, and at each clock at which one is written; after a piece its clock, with none."""
        with self._session as session:
            session.go_to(first)
            for at in sorted({at for each in self._watched for at in each.places}):
                self._octets[at] = int(session.answers([f'dump {at:X} 1'])[0].split()[1], 16)
            yield first, self._values()
            kinds = ' '.join(f'writes={each.places[0]:X}-{each.places[-1]:X}' for each in self._watched)
            while session.clock < end:
                lines = session.lines(min(PIECE, end - session.clock), kinds)
                for clock, group in itertools.groupby(map(bytes.split, lines), key=lambda each: int(each[0])):
                    for _, _, address, value in group:
                        self._write(int(address, 16), int(value, 16))
                    yield clock + 1, self._values()
                yield session.clock, None

    def _write(self, address: int, value: int) -> None:
        """The processor writes a byte, which RAM and text memory take."""
        if address in self._ram or address in TEXT_MEMORY:
            self._octets[address] = value
