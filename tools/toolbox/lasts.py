"""`last [write] PLACE [BYTES]`, as tools/dbg, gdb's monitor and an editor's console have it: back to where bytes had changed last, or were
written; and which bytes a place has that is named without their number."""
from __future__ import annotations

import contextlib
from typing import Callable

from toolbox.command import Sorry
from toolbox.listing import Listing
from toolbox.places import address_of
from toolbox.session_board import SessionBoard
from toolbox.watches import value_size, watch_of, what_was_seen

USE = 'last [write] PLACE [BYTES]'


def bytes_at(listing: Listing, place: str, address: int) -> int:
    """How many bytes are meant by a place: all of a variable's; else those of the value that begins there, or one."""
    named = next((one for one in listing.data if one.name.lower() == place.lower()), None) or listing.datum_at(address)
    return named.length if named else value_size(listing, address)


def watched(listing: Listing, place: str, address: int, count: int | None, is_each_write: bool = False) -> tuple[str, str]:
    """A stop on the bytes that are meant by a place, and what it is called."""
    count = bytes_at(listing, place, address) if count is None else count
    name = f' ({place})' if place.upper() != f'{address:05X}' else ''
    return watch_of(address, count, is_each_write), f'watch {address:05X} {count}{name}{" --writes" if is_each_write else ""}'


def back_where(board: SessionBoard, stop: str) -> bool:
    """Goes back to the last earlier clock at which a stop held that needn't be one of the board's; whether there was one."""
    with contextlib.closing(SessionBoard(board.files, board.budget, board.poll)) as other:
        other.stand_as(board)
        is_found, clock, undone = other.back_to([stop]) is not None, other.clock, len(other.undone)
    if is_found:
        board.undo_changes(undone)
        board.go_to(clock)
    return is_found


def last_of(board: SessionBoard, listing: Listing, words: list[str], said: Callable[[str], str] = str) -> str:
    """Goes back to where the words behind `last` lead, and tells what was there, and what did it; or refuses, and stays."""
    is_each_write = words[:1] == ['write']
    place, *length = words[is_each_write:] or ['']
    if not place or len(length) > 1 or length and not length[0].isdecimal():
        raise Sorry(f'use: {USE}')
    stop, _ = watched(listing, place, address_of(listing, said(place)), int(length[0]) if length else None, is_each_write)
    if not back_where(board, stop):
        raise Sorry(f'nothing {"was written" if is_each_write else "changed"} there before this clock')
    return f'clock {board.clock}: {what_was_seen(board, listing, stop)}'
