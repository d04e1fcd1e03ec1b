"""Typed text as scan codes of the IBM PC's keyboard of 83 keys (IBM PC Technical Reference, "Keyboard"), US layout."""
from __future__ import annotations

import re
from typing import NamedTuple

from toolbox.command import Sorry
from toolbox.tables import tables

UP = 0x80
# The first key of typed text, how long a key is held, and from a key up to the next one down, for a program that begins at once.
BARE = 2000, 500, 1500
# The signs of the four rows, plain and with shift, from a code on; and keys by their names.
ROWS, NAMED = tables('keys')['rows'], tables('keys')['named']
SIGNS = {sign: (row + place, False) for row, plain, _ in ROWS for place, sign in enumerate(plain)}
SIGNS |= {sign: (row + place, True) for row, _, shifted in ROWS for place, sign in enumerate(shifted)}
SIGNS |= {' ': (0x39, False), '\n': (0x1C, False), '\t': (0x0F, False)}


class Stroke(NamedTuple):
    """Keys that go down in their order and come up in the contrary one; or a pause of so many clocks."""

    codes: tuple[int, ...] = ()
    pause: int = 0


def names() -> dict[int, str]:
    """Each key's name: its sign without shift, or its name."""
    found = {code: name for name, code in NAMED.items()}
    return found | {code: sign for sign, (code, shifted) in SIGNS.items() if not shifted and sign > ' '}


def stroke_of(sign: str, is_plain: bool) -> Stroke:
    """A typed character; where it is plain, without the shift that it needs."""
    if sign not in SIGNS:
        raise Sorry(f'no key types {sign!r}')
    code, is_shifted = SIGNS[sign]
    return Stroke((NAMED['shift'], code) if is_shifted and not is_plain else (code,))


def named_stroke(text: str) -> Stroke:
    """What stands in braces: a key by name, keys held together (ctrl+c), or wait N."""
    wait = re.fullmatch(r'wait (\d+)', text)
    if wait:
        return Stroke(pause=int(wait[1]))
    codes: list[int] = []
    for name in text.split('+'):
        if name.lower() in NAMED:
            codes.append(NAMED[name.lower()])
        elif len(name) == 1 and name in SIGNS:
            codes.append(SIGNS[name][0])
        else:
            raise Sorry(f'{{{text}}} is neither a key, nor keys joined by +, nor wait CLOCKS; the keys are {", ".join(NAMED)}')
    return Stroke(tuple(codes))


def strokes_of(text: str, is_plain: bool = False) -> list[Stroke]:
    """A typed text; `{{` types a brace."""
    parts = re.findall(r'\{\{|\{[^{}]*\}|\}\}|.', text, re.S)
    found: list[Stroke] = []
    for part in parts:
        if part in ('{{', '}}'):
            found.append(stroke_of(part[0], is_plain))
        elif len(part) > 1:
            found.append(named_stroke(part[1:-1]))
        elif part in '{}':
            raise Sorry(f'a {part} stands alone: write {part}{part} for the sign, and {{enter}} for a key')
        else:
            found.append(stroke_of(part, is_plain))
    return found


def stamped(strokes: list[Stroke], first: int, hold: int, gap: int) -> list[tuple[int, int]]:
    """The codes with their clocks: a stroke's keys are held for `hold` clocks, `gap` lies between two strokes, and one
    clock in which a code reaches the keyboard lies between two codes of a stroke."""
    keys: list[tuple[int, int]] = []
    clock = first
    for stroke in strokes:
        if not stroke.codes:
            clock += stroke.pause
            continue
        keys += [(clock + place, code) for place, code in enumerate(stroke.codes)]
        clock += len(stroke.codes) - 1 + hold
        keys += [(clock + place, code + UP) for place, code in enumerate(reversed(stroke.codes))]
        clock += len(stroke.codes) - 1 + gap
    return keys
