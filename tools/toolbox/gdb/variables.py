"""Variables and constants as DWARF 3 has them, with types of as many bytes as the source gives their values; what a near pointer leads to
depends on a segment, so it is a number with a pointer's name, and gdb doesn't follow it."""
from __future__ import annotations

import struct
from typing import Iterable, Sequence

from toolbox.data_labels import Datum
from toolbox.gdb.cfi import expression, sleb, uleb

BASE, ARRAY, RANGE, VARIABLE, CONSTANT = 3, 4, 5, 6, 7
NAME, KIND, SIZE, ENCODING, TYPE, BOUND, EXTERNAL, FILE, LINE, PLACE, VALUE = 0x03, 0x24, 0x0B, 0x3E, 0x49, 0x2F, 0x3F, 0x3A, 0x3B, 0x02, 0x1C
STRING, BYTE, WORDS, REFERENCE, FLAG, NUMBER, BLOCK, SIGNED = 0x08, 0x0B, 0x06, 0x13, 0x0C, 0x0F, 0x0A, 0x0D
# Each shape's number, tag, whether it has parts, and its fields with their forms.
SHAPES = (
    (BASE, 0x24, 0, ((NAME, STRING), (SIZE, BYTE), (ENCODING, BYTE))),
    (ARRAY, 0x01, 1, ((TYPE, REFERENCE),)),
    (RANGE, 0x21, 0, ((BOUND, WORDS),)),
    (VARIABLE, 0x34, 0, ((NAME, STRING), (TYPE, REFERENCE), (EXTERNAL, FLAG), (FILE, NUMBER), (LINE, NUMBER), (PLACE, BLOCK))),
    (CONSTANT, 0x34, 0, ((NAME, STRING), (TYPE, REFERENCE), (VALUE, SIGNED))),
)
NAMES = {'DB': 'unsigned char', 'DW': 'unsigned short', 'DD': 'unsigned long'}  # of what an assembler gives no other
SIGNS = {'int': 5, 'short': 5, 'long': 5, 'signed char': 6, 'char': 8, 'unsigned char': 8}  # numbers without a sign are 7
ADDRESS, LARGE = 3, 1 << 31


class Variables:
    """The entries of the unit, which stand from a place of it on: types first, each once."""

    def __init__(self, begin: int, files: Sequence[str]) -> None:
        self._begin, self._files, self.octets = begin, files, b''
        self._types = dict[tuple[str, int, tuple[int, ...]], bytes]()

    def _base(self, name: str, size: int) -> bytes:
        """Where a type of numbers stands."""
        return self._known((name, size, ()), bytes([BASE]) + name.encode() + b'\x00' + bytes([size, SIGNS.get(name, 7)]))

    def _array(self, name: str, size: int, counts: tuple[int, ...]) -> bytes:
        """Where an array's type stands."""
        element = self._base(name, size)
        bounds = b''.join(bytes([RANGE]) + struct.pack('<I', count - 1) for count in counts)
        return self._known((name, size, counts), bytes([ARRAY]) + element + bounds + b'\x00')

    def _known(self, key: tuple[str, int, tuple[int, ...]], entry: bytes) -> bytes:
        """A reference to an entry that is there once."""
        if key not in self._types:
            self._types[key] = struct.pack('<I', self._begin + len(self.octets))
            self.octets += entry
        return self._types[key]

    def add(self, datum: Datum) -> None:
        """A variable."""
        name, counts = datum.said or NAMES[datum.kind], datum.dimensions
        of = self._array(name, datum.size, counts) if counts else self._base(name, datum.size)
        file = self._files.index(datum.source) + 1 if datum.source in self._files else 1
        place = expression(bytes([ADDRESS]), struct.pack('<I', datum.places()[0]))
        self.octets += bytes([VARIABLE]) + text_of(datum.name) + of + b'\x01' + uleb(file) + uleb(datum.line) + place

    def add_constant(self, name: str, value: int) -> None:
        """A name of a number."""
        of = self._base('unsigned int' if value >= LARGE else 'int', 4)
        self.octets += bytes([CONSTANT]) + text_of(name) + of + sleb(value)


def text_of(name: str) -> bytes:
    """A name with its end."""
    return name.encode('utf-8', 'surrogateescape') + b'\x00'


def variables_of(begin: int, files: Sequence[str], data: Iterable[Datum], constants: dict[str, int]) -> bytes:
    """The entries of these variables and constants."""
    made = Variables(begin, files)
    for datum in data:
        made.add(datum)
    for name, value in constants.items():
        made.add_constant(name, value)
    return made.octets
