"""Sequences of operations on a chip: the bytes that both sides keep of each, held against a model."""
from __future__ import annotations

import random
from collections.abc import Callable
from typing import NamedTuple

from parts.outside import both
from parts.outside.both import with_bytes, word
from parts.outside.mame import Image

SLOT, RESULTS, CODE, SIZE = 64, 0x20000, 0x9000, 0xF000  # bytes of a sequence's answers; where they stand; the code, and its room
MOST = 60  # answers of a sequence


class Flaw(NamedTuple):
    """What MAME 0.251 does otherwise: a name, the rule that it breaks, and operations that always show it."""

    name: str
    why: str
    witness: tuple[str, ...]


class Kind(NamedTuple):
    """Sequences of a kind: what stands before and behind each, the known flaws, and how one is made, coded, begun and answered."""

    name: str
    begin: tuple[str, ...]
    end: tuple[str, ...]
    flaws: tuple[Flaw, ...]
    make: Callable[[random.Random], tuple[str, ...]]
    code: Callable[[str], bytes]
    start: Callable[[], Image]
    answers: Callable[[tuple[str, ...], frozenset[str]], bytes]


class Difference(NamedTuple):
    """A sequence of which a side answers otherwise than the model."""

    side: str
    operations: tuple[str, ...]
    wanted: bytes
    came: bytes


def sequences(kind: Kind, seed: int, count: int) -> list[tuple[str, ...]]:
    """The flaws' witnesses, and so many random sequences of a seed."""
    chance = random.Random(f'{kind.name} {seed}')
    made = [flaw.witness for flaw in kind.flaws]
    while len(made) < len(kind.flaws) + count:
        operations = kind.make(chance)
        if len(kind.answers((*kind.begin, *operations, *kind.end), frozenset())) <= MOST:
            made.append(operations)
    return [(*kind.begin, *middle, *kind.end) for middle in made]


def images(kind: Kind, made: list[tuple[str, ...]]) -> list[tuple[Image, int]]:
    """Programs that make all sequences, as many in each as have room, with their numbers."""
    found, code, count = list[tuple[Image, int]](), b'', 0

    def ended() -> None:
        image = kind.start()
        with_bytes(image, CODE, code + b'\xf4')
        found.append((image, count))

    for operations in made:
        more = b'\xbf' + word(SLOT * count) + b''.join(map(kind.code, operations))  # MOV DI,place
        if len(code) + len(more) >= SIZE or SLOT * (count + 1) > 0x10000:
            ended()
            more = b'\xbf\0\0' + more[3:]
            code, count = b'', 0
        code, count = code + more, count + 1
    ended()
    return found


def differences(kind: Kind, program: str, made: list[tuple[str, ...]]) -> list[Difference]:
    """Where this board answers otherwise than the model, or MAME otherwise than the model with all flaws."""
    found, at, all_flaws = list[Difference](), 0, frozenset(flaw.name for flaw in kind.flaws)
    for image, count in images(kind, made):
        sides = (('here', frozenset[str](), both.run_here(image, sw1=0x6D, sw2=0x12).ram), ('MAME', all_flaws, both.run_there(program, image).ram))
        for number, operations in enumerate(made[at : at + count]):
            for side, flaws, ram in sides:
                wanted = kind.answers(operations, flaws).ljust(SLOT, b'\0')
                came = ram[RESULTS + SLOT * number : RESULTS + SLOT * (number + 1)]
                if came != wanted:
                    found.append(Difference(side, operations, wanted.rstrip(b'\0'), came.rstrip(b'\0')))
        at += count
    return found
