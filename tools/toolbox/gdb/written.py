"""What gdb writes: registers by their numbers, and memory."""
from __future__ import annotations

import re
from typing import Mapping

from toolbox.command import Sorry
from toolbox.edits import bytes_of, set_register
from toolbox.listing import Listing
from toolbox.places import far_of_address
from toolbox.session_board import MEMORY, SessionBoard

HEX = '[0-9a-fA-F]'


def written_register(text: str) -> tuple[int, int]:
    """The number and the value of a `P` packet."""
    found = re.fullmatch(f'({HEX}{{1,4}})=((?:{HEX}{{2}}){{2,8}})', text)
    if not found:
        raise Sorry('no register is written so')
    return int(found[1], 16), int.from_bytes(bytes.fromhex(found[2]), 'little')


def write_register(board: SessionBoard, listing: Listing, name: str, value: int, segment: str = '') -> None:
    """A register gets a value; one that points into a segment the offset of an address. Where an address is that code goes on from, CS is
    the one by which the source, or else the present code, comes to it."""
    if not segment:
        set_register(board, name, value)
        return
    if name == 'IP':
        before = board.registers()['CS']
        code, offset, _ = far_of_address(listing, value, before)
        if code != before:
            set_register(board, 'CS', code)
        set_register(board, 'IP', offset)
        return
    offset = (value - 16 * board.registers()[segment]) % MEMORY
    bytes_of(offset, 2)
    set_register(board, name, offset)


def differing(text: str, now: Mapping[int, int], count: int) -> dict[int, int]:
    """Of the first registers of a `G` packet those that aren't as they are."""
    fields = [text[8 * number : 8 * number + 8] for number in range(count)]
    if not all(re.fullmatch(f'{HEX}{{8}}', field) for field in fields):
        raise Sorry('no registers are written so')
    values = {number: int.from_bytes(bytes.fromhex(field), 'little') for number, field in enumerate(fields)}
    return {number: value for number, value in values.items() if value != now[number]}


def write_memory(board: SessionBoard, request: str) -> None:
    """What an `M` or an `X` packet writes."""
    found = re.fullmatch(f'[MX]({HEX}{{1,16}}),({HEX}{{1,8}}):(.*)', request, re.S)
    if not found:
        raise Sorry('no memory is written so')
    try:
        octets = found[3].encode('latin-1') if request[0] == 'X' else bytes.fromhex(found[3])
    except ValueError:
        raise Sorry('no memory is written so') from None
    if len(octets) != int(found[2], 16):
        raise Sorry('no memory is written so')
    if octets:
        board.set_bytes(int(found[1], 16), octets)
