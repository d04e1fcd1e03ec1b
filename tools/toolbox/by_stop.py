"""Which clocks of a key lead to a place: what one session answers to `moments`, without a run of its own for each clock."""
from __future__ import annotations

import contextlib
from dataclasses import dataclass

from toolbox.listing import listing_of
from toolbox.moments import Key, Pair
from toolbox.places import far_of
from toolbox.program import Files
from toolbox.session_board import Moments, SessionBoard, break_at

ANY = [*range(0x01, 0x54), *range(0x81, 0xD4)]  # the codes that keys send


@dataclass(frozen=True)
class Led:
    """Keys with which all runs end alike, and how they end."""

    codes: list[int]
    moments: list[Moments]


def led(files: Files, place: str, codes: list[int], key: Key, pair: Pair | None, budget: int) -> list[Led]:
    """How runs of the budget's clocks end, with each of these codes at each of the key's clocks: at the place, or without it. Codes with
    the same answer are joined."""
    found: list[Led] = []
    second = (pair.code, pair.after) if pair else None
    with contextlib.closing(SessionBoard(files, budget)) as board:
        stops = [break_at(far_of(listing_of(files), place))]
        for code in codes:
            answer = list(board.moments(code, key.values[0], key.values[-1], budget, stops, second))
            same = next((each for each in found if each.moments == answer), None)
            if same:
                same.codes.append(code)
            else:
                found.append(Led([code], answer))
    return found


def codes_text(codes: list[int]) -> str:
    """Codes, of neighbours the first and the last: `01-53 81-D3`."""
    rows: list[list[int]] = []
    for code in codes:
        if rows and rows[-1][-1] == code - 1:
            rows[-1].append(code)
        else:
            rows.append([code])
    return ' '.join(f'{row[0]:02X}' + (f'-{row[-1]:02X}' if row[1:] else '') for row in rows)
