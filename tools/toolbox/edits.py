"""Changes of registers and memory as people and debuggers say them, made of a board as it stands: what tools/dbg, gdb, editors and the
desk have of `set`."""
from __future__ import annotations

import re
from dataclasses import dataclass
from toolbox.command import Sorry
from toolbox.dap.values import Expression, Value
from toolbox.listing import Listing
from toolbox.places import address_of, check_bracketed, is_address, said
from toolbox.report import FLAGS, HALVES
from toolbox.session_board import SessionBoard
from toolbox.watches import value_size

SIZES = {'BYTE': 1, 'WORD': 2}
PLACE = re.compile(r'(?:(BYTE|WORD)\s*)?\[([^\[\]]*)\]', re.I)
COMMA = re.compile(r",(?=(?:[^']*'[^']*')*[^']*$)")  # none of a sign's


@dataclass(frozen=True)
class Target:
    """What gets a value: a register, a half of one or a flag by its name; else bytes from an address on, so many for each value."""

    register: str = ''
    address: int = 0
    size: int = 1


def bytes_of(number: int, size: int) -> bytes:
    """A number of so many bytes as memory has it, with a sign or without."""
    if not -(1 << 8 * size - 1) <= number < 1 << 8 * size:
        raise Sorry(f'{number} is no number of {8 * size} bits')
    return (number % (1 << 8 * size)).to_bytes(size, 'little')


def set_register(board: SessionBoard, name: str, number: int) -> None:
    """A register, a half of one or a flag gets a number."""
    registers, upper = board.registers(), name.upper()
    if upper in HALVES:
        whole, shift = HALVES[upper]
        number = registers[whole] & ~(0xFF << shift) | bytes_of(number, 1)[0] << shift
    elif upper in FLAGS:
        if number not in (0, 1):
            raise Sorry(f'{upper} is a flag: 0 or 1')
        whole, number = 'FL', registers['FL'] & ~(1 << FLAGS[upper]) | number << FLAGS[upper]
    else:
        whole = upper
    board.set_register(whole, int.from_bytes(bytes_of(number, 2), 'little'))


def set_target(board: SessionBoard, target: Target, numbers: list[int]) -> str:
    """A register gets a number, or bytes get several; what stands there now, in words."""
    if not target.register:
        octets = b''.join(bytes_of(number, target.size) for number in numbers)
        board.set_bytes(target.address, octets)
        return f'{target.address:05X}: {octets.hex(" ").upper()}'
    if len(numbers) > 1:
        raise Sorry(f'{target.register} takes one value')
    set_register(board, target.register, numbers[0])
    return f'{target.register} = {Expression(board, Listing(), target.register).value().shown()}'


def values_of(board: SessionBoard, listing: Listing, text: str) -> list[Value]:
    """The values of expressions between commas."""
    return [Expression(board, listing, part).value() for part in COMMA.split(text)]


def as_said(text: str) -> str:
    """A value as it is shown, as one is said: `B000h`, or `0B0h (176) '.'`."""
    shown = re.fullmatch(r"\s*([0-9A-F]{2,9}h)(\s.*)?", text)
    return f'0{shown[1]}' if shown else text


def assign(board: SessionBoard, listing: Listing, text: str) -> str:
    """What `AX = 5`, `[tick] = 90h` and `WORD [count] = 1, 2, 3` say is done; what stands there now, in words. In brackets a place
    stands as in other commands, or what registers lead to; each value has as many bytes as one of the label, unless BYTE or WORD
    says it."""
    left, _, right = (part.strip() for part in text.partition('='))
    if not left or not right:
        raise Sorry('use: AX = 5, or [PLACE] = 90h')
    numbers = [value.number for value in values_of(board, listing, right)]
    found = PLACE.fullmatch(left)
    address = _address(board, listing, found[2].strip()) if found else None
    if found and address is not None:
        target = Target(address=address, size=SIZES[found[1].upper()] if found[1] else value_size(listing, address))
    else:
        target = target_of(board, listing, left)
    return set_target(board, target, numbers)


def target_of(board: SessionBoard, listing: Listing, text: str) -> Target:
    """What an expression names that can be set: a register, a half of one, a flag, or memory."""
    if text.upper() in (*board.registers(), *HALVES, *FLAGS):
        return Target(register=text.upper())
    value = Expression(board, listing, text).value()
    if value.address is None or '[' not in text:
        raise Sorry(f'{text} is no register, and no place: AX = 5, or [PLACE] = 90h')
    return Target(address=value.address, size=value.size)


def _address(board: SessionBoard, listing: Listing, text: str) -> int | None:
    """The address of a place in brackets, or None of what isn't one. What could be two is refused."""
    if not is_address(text):
        check_bracketed(text, False)
    try:
        return address_of(listing, said(board.registers(), text))
    except Sorry:
        return None
