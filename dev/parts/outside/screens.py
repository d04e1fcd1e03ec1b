"""The examples on MAME's 5150 with its monochrome card, and whether it shows what their reports show."""
from __future__ import annotations

import glob
import os
from typing import Any

from zebludor import TOP, assemble, run

from parts.outside import mame
from toolbox.command import read_text
from toolbox.runfile import read_run_file

# What MAME can't show as it is, and why.
EXCEPTIONS = {
    'hello': "its ROM stands at F000:0000, where MAME's 5150 has none, and it sets no card up",
    'readback': 'it reads an 8254 back, and a 5150 has an 8253',
    'ticks': 'after STI and HLT with a request MAME sleeps up to the next edge, so it counts a tick less',
}


def names() -> list[str]:
    """The examples that are sources."""
    found = glob.glob(f'{TOP}/examples/*.asm') + glob.glob(f'{TOP}/examples/moments/*.asm')
    return sorted(os.path.relpath(path, f'{TOP}/examples')[:-4] for path in found)


def fields_of(name: str) -> dict[str, Any]:
    """An example's run file; those of a folder share one."""
    path = f'{TOP}/examples/{name}.json'
    return read_run_file(path if os.path.exists(path) else glob.glob(f'{os.path.dirname(path)}/*.json')[0])


def compared(program: str, name: str) -> tuple[bool, str]:
    """Whether both show the same at the end of an example's budget, and a line that tells it. Keys are left out on both sides,
    since MAME has no keyboard for them."""
    if name in EXCEPTIONS:
        return True, f'{name}: not compared: {EXCEPTIONS[name]}'
    fields = fields_of(name)
    source = read_text(f'{TOP}/examples/{name}.asm')
    wanted = run(source, **(fields | {'keys': []})).screen
    shown = mame.run(program, mame.image_of(assemble(source)), fields['budget'] / mame.HERTZ, halts=False, has_screen=True).screen
    note = ', without its keys' if fields['keys'] else ''
    if list(shown) == wanted:
        return True, f'{name}: alike{note}' + (', and blank' if not ''.join(wanted).strip() else '')
    row = next((n for n, line in enumerate(wanted) if list(shown[n : n + 1]) != [line]), 0)
    return False, f"{name}: line {row + 1} is '{wanted[row].rstrip()}' here and '{''.join(shown[row : row + 1]).rstrip()}' there{note}"
