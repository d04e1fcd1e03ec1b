"""Where gdb finds the caller: by the calls that were followed up to where the board stands."""
from __future__ import annotations

import re
import struct
from dataclasses import dataclass

from toolbox.followed import FollowedBoard
from toolbox.forms import Far, signed
from toolbox.listing import physical

RECORDS, RECORD, MOST_FRAMES = 0xF0000000, 16, 64  # where records stand, beyond memory, and a record's bytes
NOWHERE, MEMORY = 0x100010, 0x100000  # the former: where a caller goes on that nothing shows, within a routine beyond memory
TOP = 0x10000  # where the stack of a routine ends whose call isn't known


@dataclass(frozen=True)
class Frame:
    """What the rules of `cfi` ask of a frame: how far from its SP its stack ends; how far from there its caller's SP
    is, and the place to which it returns, if that is known."""

    end: int
    back_by: int
    place: Far | None


class Frames:
    """What gdb takes for one frame is told by where its stack ends: at the routine's return address, if its call is
    known. Where it isn't any more, behind a return that comes long after, gdb is told the end that it was told
    before."""

    def __init__(self) -> None:
        self.returns = dict[int, Far]()  # of the addresses that calls were told to return to, their CS:IP
        self._ends = dict[tuple[Far, int], int]()  # by the place and SP to which one returns, where its stack ends

    def records(self, board: FollowedBoard) -> bytes:
        """The present frame and those above it, as far as they are known, as they stand in memory for gdb: the first is
        for frames of which nothing is known."""
        frames = [Frame(0, 0, None), *self.frames(board)]
        rows = ((one.end, one.back_by, *((physical(*one.place), RECORD * (at + 1)) if one.place else (NOWHERE, 0))) for at, one in enumerate(frames))
        return b''.join(struct.pack('<iiII', *row) for row in rows)

    def frames(self, board: FollowedBoard) -> list[Frame]:
        """The present frame and those above it, up to the last whose caller isn't known."""
        stack, place, found = board.registers()['SP'], board.place(), list[Frame]()
        nest, last = board.follower().nest, board.trail()[-1:]
        taken = re.fullmatch('RETF? ([0-9A-F]+)h', last[0].text) if last else None
        if not nest:
            return [Frame(self._end(place, stack, int(taken[1], 16) if taken else 0), 0, None)]
        for frame, back in zip(nest[: -MOST_FRAMES - 1 : -1], board.callers()):
            assert back
            self._ends[place, stack] = frame.level % TOP
            found.append(Frame(signed(frame.level - stack), signed(frame.level - stack) + frame.pushed, back))
            self.returns[physical(*back)] = back
            place, stack = back, (frame.level + frame.pushed) % 0x10000
        return [*found, Frame(self._end(place, stack), 0, None)]

    def _end(self, place: Far, stack: int, taken: int = 0) -> int:
        """How far from SP a stack ends whose routine's call isn't known, behind a return that took so many bytes of
        arguments."""
        known = self._ends.setdefault((place, (stack - taken) % TOP), TOP)
        return known - stack if known == TOP else signed(known - stack)
