"""The command `key CODE|SIGN [CLOCK]`, as tools/dbg, tools/term, gdb's `monitor` and an editor's console have it."""
from __future__ import annotations

import re

from toolbox.command import Sorry
from toolbox.places import count_of
from toolbox.runfile import read_run_file
from toolbox.scancodes import NAMED, UP, Stroke, named_stroke, names, stamped, stroke_of
from toolbox.session_board import SessionBoard

HOLD = 500  # clocks from a sign's key down to its key up, as tools/keys has them
USE = 'key CODE [CLOCK], or key SIGN [CLOCK]'


def type_words(board: SessionBoard, words: list[str]) -> str:
    """Types what the words behind `key` say, and tells when each code comes. CODE is a scan code of two hexadecimal digits; SIGN one
    sign, or names as enter, f1, ctrl+c. CLOCK is when it goes down: without it, the next one."""
    if not 1 <= len(words) <= 2:
        raise Sorry(f'use: {USE}')
    what, first = words[0], count_of(words[1], 'clock', most=1 << 64) if words[1:] else None
    stroke = stroke_of_word(what)
    if stroke is None:
        typed = [(board.type(int(what, 16), first), int(what, 16))]
    else:
        typed = board.type_all(stamped([stroke], board.clock + 1 if first is None else first, HOLD, 0))
    return 'key ' + ', '.join(f'{code:02X} at clock {stamp}' for stamp, code in typed)


def stroke_of_word(text: str) -> Stroke | None:
    """What a sign, or a key by its name, types; of a scan code nothing."""
    if re.fullmatch('[0-9A-Fa-f]{2}', text) and text.lower() not in NAMED:
        return None
    try:
        return stroke_of(text, False) if len(text) == 1 else named_stroke(text)
    except Sorry:
        raise Sorry(f'{text} is no key: a scan code of two hexadecimal digits, one sign, or names as enter, f1, ctrl+c') from None


def code_of_word(text: str) -> int:
    """The scan code that a word says, or that a sign's key sends as it goes down."""
    stroke = stroke_of_word(text)
    if stroke is None:
        return int(text, 16)
    if len(stroke.codes) != 1:
        raise Sorry(f'{text} is not one key: a scan code, a sign without shift, or a name as enter')
    return stroke.codes[0]


def key_lines(board: SessionBoard) -> list[str]:
    """The run's keys, typed ones too: stamp, code, name, down or up."""
    known = names()
    keys = sorted([*map(tuple, read_run_file(board.files.run_file)['keys']), *board.changes.keys()], key=lambda key: key[0])
    return [f'{stamp:>12} {code:02X} {known.get(code % UP, "?")} {"up" if code >= UP else "down"}' for stamp, code in keys]
