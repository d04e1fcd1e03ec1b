"""What an editor asks about: expressions of registers, labels, numbers and memory, and disassembly from what ran."""
from __future__ import annotations

import itertools
import re
from dataclasses import dataclass

from toolbox.command import Sorry
from toolbox.conditions import COMPARISONS
from toolbox.dap.board import Machine
from toolbox.data_labels import is_code
from toolbox.listing import Line, Listing, code_of, label_in, physical
from toolbox.places import address_of, check_bracketed, check_segment, far_of, is_address, said, value_number
from toolbox.report import FLAGS, HALVES, value_in
from toolbox.session_board import NONE, SessionBoard

TOKEN = re.compile(r"\s*(\w+|'[^']'|&&|\|\||[=!<>]=|<>|[-+*:\[\]()=<>!&])", re.A)
LONGEST_INSTRUCTION, LONGEST, LISTED_AT_ONCE = 8, 16, 64  # an instruction has at most seven prefixes and six bytes more


@dataclass(frozen=True)
class Value:
    """A number, of a byte or a word where it has a size, and the physical address that it is or was read from."""

    number: int
    size: int = 2
    address: int | None = None

    def places(self) -> range:
        """Its bytes in memory; none of a number that was read from none."""
        return range(0) if self.address is None else range(self.address, self.address + self.size)

    def shown(self) -> str:
        """As the dialect writes it, and in decimal."""
        number = self.number % (1 << 8 * self.size) if self.number >= 0 or self.size < 4 else self.number
        sign = f" '{chr(number)}'" if self.size == 1 and 32 <= number < 127 else ''
        return f'{number:0{2 * self.size + 1}X}h ({number}){sign}'


def truth(is_so: bool) -> Value:
    """What a comparison gives: 1 or 0."""
    return Value(int(is_so), 1)


class Expression:
    """An expression, read from its beginning on: sums and products of registers, flags, labels, numbers, and memory as
    BYTE [..], WORD [..], ES:[..]; comparisons of them without signs, as bytes or words; and these joined by AND, OR and NOT."""

    def __init__(self, board: SessionBoard, listing: Listing, text: str) -> None:
        self.board, self.listing, self.text, self.registers = board, listing, text, board.registers()
        self.words, at = list[str](), 0
        while text[at:].strip():
            found = TOKEN.match(text, at)
            if not found:
                raise Sorry(f'{text[at:].strip()[:40]} is no part of an expression')
            self.words.append(found[1])
            at = found.end()
        if not self.words or len(self.words) > 200:
            raise Sorry('an expression has 1 to 200 words')

    def value(self) -> Value:
        """The whole expression's value."""
        found = self._either()
        if self.words:
            raise Sorry(f'{self.words[0]} is one word too many')
        return found

    def holds(self) -> bool:
        """Whether it is true: not 0."""
        return self.value().number != 0

    def _either(self) -> Value:
        found = self._both()
        while self._take('||', 'OR'):
            right = self._both()
            found = truth(bool(found.number or right.number))
        return found

    def _both(self) -> Value:
        found = self._comparison()
        while self._take('&&', 'AND'):
            right = self._comparison()
            found = truth(bool(found.number and right.number))
        return found

    def _comparison(self) -> Value:
        if self._take('!', 'NOT'):
            return truth(not self._comparison().number)
        found = self._sum()
        if sign := self._take(*COMPARISONS):
            right = self._sum()
            most = 1 << 8 * max(found.size, right.size)
            found = truth(COMPARISONS[sign](found.number % most, right.number % most))
        return found

    def _take(self, *wanted: str) -> str:
        """The next word, if it is one of these."""
        return self.words.pop(0) if self.words and self.words[0].upper() in wanted else ''

    def _sum(self) -> Value:
        found = self._product()
        while sign := self._take('+', '-'):
            right = self._product()
            found = Value(found.number + (right.number if sign == '+' else -right.number), max(found.size, right.size))
        return found

    def _product(self) -> Value:
        found = self._term()
        while sign := self._take('*', '&'):
            right = self._term()
            found = Value(found.number * right.number if sign == '*' else found.number & right.number, max(found.size, right.size))
        return found

    def _term(self) -> Value:
        if self._take('-'):
            return Value(-self._term().number)
        if self._take('('):
            found = self._either()
            self._close(')')
            return found
        size = {'BYTE': 1, 'WORD': 2}.get(self._take('BYTE', 'WORD').upper(), 0)
        if self.words[:1] == ['[']:
            return self._memory(None, size or 1)
        word, found = ''.join(self.words[:1]), self._name()
        if not size and self.words[:1] != [':']:
            return found
        check_segment(word)
        return self._memory(found.number, size or 1)

    def _close(self, sign: str) -> None:
        if not self._take(sign):
            raise Sorry(f'{self.text}: a {sign} is missing')

    def _memory(self, segment: int | None, size: int) -> Value:
        """What stands in memory; without a segment in that of DS, or with BP in that of SS."""
        if segment is not None:
            self._close(':')
        if not self._take('['):
            raise Sorry(f'{self.text}: memory is written BYTE [..] or WORD ES:[..]')
        words = list(itertools.takewhile(lambda word: word not in '[]', self.words))
        inside = ''.join(words)
        if segment is None and is_address(inside) and not self.listing.label_of(inside):
            del self.words[: len(words)]
            self._close(']')
            address = address_of(self.listing, said(self.registers, inside))
            return self._read([(address + n) % (1 << 20) for n in range(size)])
        check_bracketed(inside, segment is not None)
        is_stack = 'BP' in [word.upper() for word in self.words]
        offset = self._sum().number % 0x10000
        self._close(']')
        segment = self.registers['SS' if is_stack else 'DS'] if segment is None else segment % 0x10000
        return self._read([physical(segment, (offset + n) % 0x10000) for n in range(size)])

    def _read(self, places: list[int]) -> Value:
        """The number that some bytes hold, the low one first."""
        octets = b''.join(self.board.dump(place, 1) for place in places)
        return Value(int.from_bytes(octets, 'little'), len(places), places[0])

    def _name(self) -> Value:
        """A register, flag, label or number."""
        word = self.words.pop(0) if self.words else ''
        upper = word.upper()
        if upper in self.registers:
            return Value(self.registers[upper])
        if upper in (*HALVES, *FLAGS):
            return Value(value_in(self.registers, upper), 1)
        if upper == 'SEG' and self.words:
            return Value(far_of(self.listing, self.words.pop(0))[0])
        if word[:1].isdigit():
            number = value_number(word)
            return Value(number, 2 if number < 0x10000 else 4)
        if len(word) == 3 and word[0] == "'":
            return Value(ord(word[1]), 1)
        label = self.listing.label_of(word)
        if label is None and word in self.listing.constants:
            number = self.listing.constants[word]
            return Value(number, 2 if -0x8000 <= number < 0x10000 else 4)
        if label is None:
            raise Sorry(f'{word or self.text} is no register, flag, label or number')
        return Value(label[1], 2, physical(*label))


@dataclass(frozen=True)
class Row:
    """A row of disassembly: bytes at an address, their text, and the source line that placed them."""

    address: int
    octets: bytes
    text: str
    line: Line | None


class Disassembly:
    """Instructions of memory, as far as the trail told their texts, the source has them, or pcprobe lists them; else bytes."""

    def __init__(self, machine: Machine) -> None:
        self.machine, self.memory, self.listed = machine, dict[int, int](), dict[int, Row]()

    def _octets(self, address: int, count: int) -> bytes:
        """Bytes of memory, each read once."""
        if not 0 <= address < 1 << 20:
            return b''
        if any(place not in self.memory for place in range(address, min(address + count, 1 << 20))):
            base = max(0, address - 256)
            self.memory.update(enumerate(self.machine.dump(base, 1024), base))
        return bytes(self.memory[place] for place in range(address, min(address + count, 1 << 20)))

    def at(self, address: int) -> Row:
        """The row that begins at an address."""
        line, event = self.machine.listing.line_from(address), self.machine.known.get(address)
        if event and self._octets(address, len(event.octets)) == event.octets:
            text = event.text
            same = line is not None and line.shown[: len(event.octets)] == event.octets[:8]
            return Row(address, event.octets, text, line if line and same else None)
        if line and line.shown and not line.source and is_code(line) and self._octets(address, len(line.shown)) == line.shown:
            label, code = label_in(line.text), code_of(line.text).strip()
            return Row(address, line.shown, code.partition(':')[2].strip() if label else code, line)
        octets = self._octets(address, 1)
        return Row(address, octets, f'DB 0{octets[0]:02X}h' if octets else '', None)

    def row(self, address: int) -> Row:
        """The row that begins at an address, of those that follow each other: with pcprobe's text if nothing else tells one."""
        found = self.at(address)
        if not found.text.startswith('DB '):
            return found
        if address not in self.listed:
            segment = self.machine.registers()['CS']
            if not 0 <= address - 16 * segment < 0x10000 - LISTED_AT_ONCE * LONGEST:
                segment = address >> 4 & 0xF000
            for offset, octets, text in self.machine.listed((segment, address - 16 * segment), LISTED_AT_ONCE):
                self.listed[physical(segment, offset)] = Row(physical(segment, offset), octets, text, self.machine.listing.line_from(physical(segment, offset)))
        listed = self.listed.get(address, found)
        return found if listed.text == NONE else listed

    def before(self, address: int) -> Row:
        """The row that ends where this address begins."""
        for length in range(LONGEST_INSTRUCTION, 0, -1):
            row = self.at(address - length)
            if len(row.octets) == length and length > 1 or length == 1:
                return row
        return self.at(address - 1)

    def rows(self, address: int, first: int, count: int) -> list[Row]:
        """So many rows from the one that stands `first` rows behind the address on, or before it."""
        at, found = address, list[Row]()
        for _ in range(max(0, -first)):
            at = self.before(at).address
        for _ in range(max(0, first)):
            at += len(self.at(at).octets) or 1
        while len(found) < count:
            row = self.row(at)
            found.append(row)
            at += len(row.octets) or 1
        return found
