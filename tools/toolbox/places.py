"""Numbers and places as a person says them to any tool (docs/debugger.md#numbers-and-places): labels, source lines, segment:offset and
physical addresses; and events of the trail."""
from __future__ import annotations

import argparse
import os
import re

from zebludor import LAST_CLOCK, REGISTERS, Event, event_of

from toolbox.command import Sorry
from toolbox.listing import Line, Listing, physical

__all__ = ['event_of']  # what is handed on of zebludor.py
PREFIXES = ('ES:', 'CS:', 'SS:', 'DS:', 'LOCK', 'REP', 'REPNE')


def operation_of(text: str) -> str:
    """An instruction's mnemonic, without its prefixes."""
    return next((word for word in text.split() if word not in PREFIXES), '')


def is_repeated(text: str) -> bool:
    """Whether an instruction repeats itself."""
    return bool({'REP', 'REPNE'} & set(text.split()[:-1]))


def line_at(listing: Listing, event: Event) -> Line | None:
    """The source line that placed an event's instruction, or none: also where other bytes stand there by now."""
    line = listing.at.get(event.address)
    if line is None or event.entry is not None:
        return line
    return line if event.octets[:8] == line.shown[: len(event.octets)] else None


def told_of(listing: Listing, event: Event) -> str:
    """A line of the trail, with label and source line, and without its clock."""
    label, line = listing.label_before(event.segment, event.offset), line_at(listing, event) or listing.modules.get(event.address)
    what = f'interrupt {event.entry:02X}' if event.entry is not None else event.text
    source = f'| {listing.source_text(line)}' if line and event.entry is None else ''
    return f'{event.segment:04X}:{event.offset:04X} {label:<12} {what:<28} {source}'.rstrip()


def event_text(listing: Listing, event: Event) -> str:
    """It with its clock."""
    return f'{event.clock:>9} {told_of(listing, event)}'


def dialect(number: int) -> str:
    """A number as a source writes it in hexadecimal."""
    digits = f'{number:X}'
    return f'{"" if digits[0].isdigit() else "0"}{digits}h'


def is_decimal(word: str) -> bool:
    """Whether a word has decimal digits alone, and so says no base."""
    return re.fullmatch('[0-9]+', word) is not None


def two_ways(word: str, decimal: str, hexadecimal: str) -> Sorry:
    """Why a number that says no base isn't taken."""
    return Sorry(f'{word} is read two ways: in decimal it is {decimal}, in hexadecimal {hexadecimal}; write one of these')


def value_number(word: str) -> int:
    """A number where a source could stand: decimal, unless it says its base as the dialect or C does."""
    if re.fullmatch('0x[0-9A-F]+', word, re.I):
        return int(word, 16)
    if re.fullmatch('[0-9][0-9A-F]*H', word, re.I):
        return int(word[:-1], 16)
    if re.fullmatch('[01]+B', word, re.I):
        return int(word[:-1], 2)
    if not is_decimal(word):
        hint = f': in hexadecimal it is {dialect(int(word, 16))}' if re.fullmatch('[0-9A-F]+', word, re.I) else ''
        raise Sorry(f'{word} is no number{hint or "; 40, 28h and 0x28 are some"}')
    if word[0] == '0' and int(word) != int(word, 16):
        raise two_ways(word, str(int(word)), dialect(int(word, 16)))
    return int(word)


def count_of(text: str, what: str = 'number', least: int = 0, most: int = LAST_CLOCK) -> int:
    """A count, a clock or a run file's field: decimal, and commas may stand in it, unless it says its base."""
    plain = re.sub('[,_]', '', text)
    try:
        number = value_number(plain)
    except Sorry as sorry:
        if is_decimal(plain):
            raise
        raise Sorry(f'{text} is no {what}: a decimal number from {least} on') from sorry
    if not least <= number <= most:
        raise Sorry(f'{text} is no {what}: a decimal number from {least} on' + (f' to {most:,}' if number > most else ''))
    return number


def option_of(text: str) -> int:
    """A count or clock as an option's value."""
    try:
        return count_of(text)
    except Sorry as sorry:
        raise argparse.ArgumentTypeError(str(sorry)) from None


def pointed_out(text: str) -> str:
    """What the decimal numbers of an expression are in hexadecimal, of which somebody may have thought."""
    them = [word for word in dict.fromkeys(re.findall(r"\w+|'.'", text)) if is_decimal(word) and int(word) > 9]
    return ', '.join(f'{word} is {dialect(int(word))}' for word in them)


def check_bracketed(text: str, has_segment: bool) -> None:
    """Refuses what stands in brackets, after a segment or without one, if as an operand of the dialect it is one place, and as an address
    of a command another."""
    words = re.findall(r'\w+', text)
    if ':' in text or {word.upper() for word in words} & set(REGISTERS):
        return
    word = next((word for word in words if is_decimal(word) and int(word) > 9), '')
    is_alone = not has_segment and len(words) == 1 and re.fullmatch(r'(0x)?[0-9]\w*', text.strip()) is not None
    if is_alone and is_address(text.strip()):
        return
    if is_alone:
        operand, address = value_number(words[0]) if not word else int(word), number_of(words[0])
        far = f'{dialect(address >> 4 & 0xF000)}:[{dialect(address & 0xFFFF)}]' if address > 0xFFFF else f'0:[{dialect(address)}]'
        raise Sorry(f'[{text.strip()}] is read two ways: in a source it is DS:[{dialect(operand)}], as an address {far}; write one of these')
    if word:
        raise two_ways(word, dialect(int(word)), dialect(int(word, 16)))


def is_address(text: str) -> bool:
    """Whether what stands in brackets is an address as in commands, which no operand of a source is: SEGMENT:OFFSET, five hexadecimal
    digits with a letter among them, or a number above FFFFh that says its base."""
    if ':' in text:
        return True
    plain = re.sub(r'^0x|h$', '', text, flags=re.I)
    is_based = plain != text and text[:1].isdigit()
    return re.fullmatch('[0-9A-F]{1,6}', plain, re.I) is not None and (int(plain, 16) > 0xFFFF if is_based else len(text) == 5 and not is_decimal(text))


def check_segment(word: str) -> None:
    """Refuses a segment's number that says no base: a place has it in hexadecimal."""
    if is_decimal(word) and int(word) > 9:
        raise two_ways(word, dialect(int(word)), dialect(int(word, 16)))


def said(registers: dict[str, int], place: str) -> str:
    """A place in which registers stand for their values, as ES:DI."""
    left, colon, right = place.partition(':')
    if colon and {left.upper(), right.upper()} & registers.keys():
        return ':'.join(f'{registers[name.upper()]:X}' if name.upper() in registers else name for name in (left, right))
    return place


def number_of(text: str, most: int = 0xFFFFF) -> int:
    """A hexadecimal number as a user writes it: 0B8h, B8, 0xB8."""
    plain = re.sub(r'^0x|h$', '', text, flags=re.I)
    if not re.fullmatch(r'[0-9A-Fa-f]+', plain) or int(plain, 16) > most:
        raise Sorry(f'{text} is no hexadecimal number up to {most:X}, and no label')
    return int(plain, 16)


def hexadecimal(text: str, most: int = 0xFFFF) -> int | None:
    """The number that a text is, if it is one up to the most."""
    try:
        return number_of(text, most)
    except Sorry:
        return None


def far_of(listing: Listing, text: str) -> tuple[int, int]:
    """Segment and offset of a place: a label, label+N, :LINE of the source, FILE.C:LINE of one of several, or SEGMENT:OFFSET."""
    if found := re.fullmatch(r'(|[^:]+\.[^:]+):(\d+)', text):
        return of_line(listing, int(found[2]), found[1])
    if ':' in text:
        segment, _, offset = text.partition(':')
        return number_of(segment, 0xFFFF), number_of(offset, 0xFFFF)
    name, _, more = text.partition('+')
    label = listing.label_of(name)
    if label is None:
        raise Sorry(f'{text} is no label of the source; write a label, label+N, :LINE or SEGMENT:OFFSET')
    return label[0], (label[1] + (number_of(more, 0xFFFF) if more else 0)) % 0x10000


def of_line(listing: Listing, number: int, name: str = '') -> tuple[int, int]:
    """Where the first bytes of a source line, or of the next one that places some, stand."""
    source = next((path for path in listing.files if name and os.path.basename(path) == name), '')
    if name and not source:
        raise Sorry(f'no lines of {name} are known; those are of {", ".join(map(os.path.basename, listing.files)) or "none"}')
    found = next((line.address for line in listing.of_file(source)[max(0, number - 1) :] if line.address), None)
    if number < 1 or found is None:
        raise Sorry(f'no line of the source from {number} on places bytes')
    return found


def far_of_address(listing: Listing, address: int, segment: int) -> tuple[int, int, bool]:
    """The CS:IP by which an address is most likely come to, and whether the source says so: that of its line or label, else by the
    present CS if it reaches so far, else by the multiple of 1000h below."""
    known = [line.address for line in (listing.line_from(address),) if line and line.address]
    known += [place for place in listing.labels.values() if physical(*place) == address]
    if known:
        return *known[0], True
    offset = (address - 16 * segment) % (1 << 20)
    return (segment, offset, False) if offset < 0x10000 else (address >> 4 & 0xF000, address & 0xFFFF, False)


def address_of(listing: Listing, text: str) -> int:
    """The physical address of a place: as for `far_of`, or a hexadecimal number."""
    if ':' in text or listing.label_of(text.partition('+')[0]):
        return physical(*far_of(listing, text))
    return number_of(text)
