"""What is typed at a terminal, as strokes of the board's keyboard: a terminal tells signs and no releases."""
from __future__ import annotations

import curses

from toolbox.scancodes import SIGNS, Stroke, named_stroke, stroke_of

PROMPT, ESCAPE = '\x1d', '\x1b'  # Ctrl+], and Escape, which also comes before a sign that is typed with Alt
CONTROLS = {'\r': 'enter', '\n': 'enter', '\t': 'tab', '\x7f': 'backspace', '\b': 'backspace', ESCAPE: 'esc'}
CONTROLS |= {'\0': 'ctrl+2', '\x1c': 'ctrl+\\', '\x1e': 'ctrl+6', '\x1f': 'ctrl+-'}
CONTROLS |= {chr(each): f'ctrl+{chr(each + 0x60)}' for each in range(1, 27) if chr(each) not in CONTROLS}
FUNCTIONS = {
    curses.KEY_UP: 'up',
    curses.KEY_DOWN: 'down',
    curses.KEY_LEFT: 'left',
    curses.KEY_RIGHT: 'right',
    curses.KEY_HOME: 'home',
    curses.KEY_END: 'end',
    curses.KEY_PPAGE: 'pgup',
    curses.KEY_NPAGE: 'pgdn',
    curses.KEY_IC: 'ins',
    curses.KEY_DC: 'del',
    curses.KEY_BACKSPACE: 'backspace',
    curses.KEY_ENTER: 'enter',
    curses.KEY_BTAB: 'shift+tab',
    curses.KEY_SLEFT: 'shift+left',
    curses.KEY_SRIGHT: 'shift+right',
    curses.KEY_SHOME: 'shift+home',
    curses.KEY_SEND: 'shift+end',
    **{curses.KEY_F0 + each: f'f{each}' for each in range(1, 11)},
    **{curses.KEY_F0 + 12 + each: f'shift+f{each}' for each in range(1, 11)},  # as xterm and the Linux console number them
}


def name_of_key(key: str | int) -> str | None:
    """A key's name, as tools/keys has it in braces; of a sign, and of what the board's keyboard hasn't, none."""
    return FUNCTIONS.get(key) if isinstance(key, int) else CONTROLS.get(key)


def stroke_of_key(key: str | int, is_alt: bool = False) -> Stroke | None:
    """What a key of the terminal types, with Alt if that is held; None of what the board's keyboard hasn't."""
    name = name_of_key(key)
    if name is None and key not in SIGNS:
        return None
    stroke = stroke_of(str(key), False) if name is None else named_stroke(name)
    return Stroke((*named_stroke('alt').codes, *stroke.codes)) if is_alt else stroke


def strokes_of_keys(keys: list[str | int]) -> tuple[list[Stroke], list[str]]:
    """What keys type that have come together, and those that type nothing. Escape with a sign at once behind it is Alt."""
    found, odd, place = list[Stroke](), list[str](), 0
    while place < len(keys):
        is_alt = keys[place] == ESCAPE and place + 1 < len(keys) and keys[place + 1] != ESCAPE
        place += is_alt
        stroke = stroke_of_key(keys[place], is_alt)
        if stroke:
            found.append(stroke)
        else:
            odd.append(str(keys[place]) if isinstance(keys[place], str) else 'that')
        place += 1
    return found, odd
