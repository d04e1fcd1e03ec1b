"""What variables, expressions and places hold, as tools/dbg prints it and an editor shows it."""
from __future__ import annotations

import re

from toolbox.command import Sorry
from toolbox.dap.values import Expression, Value
from toolbox.data_labels import MOST_BYTES, SIGNED, Datum
from toolbox.listing import Listing, physical
from toolbox.places import address_of, far_of
from toolbox.session_board import SessionBoard
from toolbox.watches import value_size

MOST_SHOWN, FIRST_SHOWN = 40, 8  # signs of a text, values of an array


def type_of(datum: Datum) -> str:
    """A variable's type: as C has it, or the statement, and how many values there are."""
    return (datum.said or datum.kind) + ''.join(f'[{count}]' for count in datum.dimensions)


def values_of(board: SessionBoard, datum: Datum) -> list[Value]:
    """What memory holds of a variable, as far as it is shown."""
    size, first = datum.size, physical(*datum.place)
    octets = board.dump(first, min(datum.length, MOST_BYTES))
    is_signed = datum.said in SIGNED
    values = (int.from_bytes(octets[at : at + size], 'little', signed=is_signed) for at in range(0, len(octets) - size + 1, size))
    return [Value(number, size, first + at * size) for at, number in enumerate(values)]


def shown(value: Value) -> str:
    """One value: its bits, and the number that they are, with its sign if its type has one."""
    bits = value.number % (1 << 8 * value.size)
    return Value(bits, value.size).shown() if value.number == bits else f'{bits:0{2 * value.size + 1}X}h ({value.number})'


def all_shown(datum: Datum, values: list[Value]) -> str:
    """Several values: how they begin, and of bytes their text."""
    bits = [value.number % (1 << 8 * value.size) for value in values]
    text = ' '.join(f'{one:0{2 * datum.size}X}' for one in bits[:FIRST_SHOWN]) + (' ..' if len(bits) > FIRST_SHOWN else '')
    if datum.kind != 'DB':
        return text
    return f"{text}  '" + ''.join(chr(one) if 32 <= one < 127 else '.' for one in bits[:MOST_SHOWN]) + "'"


def variable_in(listing: Listing, text: str) -> tuple[Datum, int | None] | None:
    """The variable that a text names, or one of its values, as `list[2]`; by its own letters, else by any."""
    found = re.fullmatch(r'(.*?)(?:\s*\[\s*(\d{1,6})\s*\])?', text)
    assert found
    them = [one for one in listing.data if one.name.lower() == found[1].lower()]
    datum = next((one for one in them if one.name == found[1]), them[0] if len(them) == 1 else None)
    return (datum, int(found[2]) if found[2] else None) if datum else None


def printed(board: SessionBoard, listing: Listing, text: str, said: str) -> str:
    """What `print` tells: of a variable its place, type and value; of another label or a place what stands there; else the value of an
    expression. `said` is the text with what registers hold in a place."""
    if named := variable_in(listing, text):
        return variable_text(board, *named)
    if text.upper() not in board.registers() and (listing.label_of(text.partition('+')[0]) or ':' in text and '[' not in text):
        return place_text(board, listing, said)
    try:
        return Expression(board, listing, text).value().shown()
    except Sorry as sorry:
        try:
            return place_text(board, listing, said)
        except Sorry:
            raise sorry from None


def variable_text(board: SessionBoard, datum: Datum, index: int | None) -> str:
    """A variable, or one of its values."""
    values, first = values_of(board, datum), physical(*datum.place)
    count = datum.length // datum.size
    if index is not None:
        if index >= count:
            raise Sorry(f'{datum.name} has {count:,} values, from {datum.name}[0] on')
        at = Datum(datum.name, datum.line, datum.kind, (first // 16, first % 16 + index * datum.size), datum.size, datum.said)
        return f'{first + index * datum.size:05X} {datum.name}[{index}], {type_of(at)}, {sized(datum.size)}: {shown(values_of(board, at)[0])}'
    what = shown(values[0]) if count == 1 else all_shown(datum, values)
    return f'{first:05X} {datum.name}, {type_of(datum)}, {sized(datum.length)}: {what}'


def sized(count: int) -> str:
    """So many bytes."""
    return f'{count:,} byte{"s" if count > 1 else ""}'


def place_text(board: SessionBoard, listing: Listing, place: str) -> str:
    """A place with the value that stands there."""
    address = address_of(listing, place)
    size = value_size(listing, address)
    octets = board.dump(address, size)
    if len(octets) < size:
        raise Sorry(f'{place}: no memory is there')
    is_far = ':' in place or listing.label_of(place.partition('+')[0])
    name = listing.label_before(*far_of(listing, place)) if is_far else ''
    return f'{" ".join(filter(None, (f"{address:05X}", name)))}, {sized(size)}: {Value(int.from_bytes(octets, "little"), size).shown()}'
