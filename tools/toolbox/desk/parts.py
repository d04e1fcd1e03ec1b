"""What tools/desk serves: the page, its modules, those of its engine, the library that this calls, and the tables that it reads."""
from __future__ import annotations

import hashlib
import json
import os
import re
from typing import Any

from zebludor import TOP

from toolbox.command import Sorry, named, read_bytes, read_text
from toolbox.crates import Crates
from toolbox.foreign import OWN
from toolbox.runfile import DEFAULTS
from toolbox.sources import sum_of_sources
from toolbox.tables import tables

Fields = dict[str, Any]
PAGE, WEB = f'{os.path.dirname(os.path.realpath(__file__))}/page', f'{TOP}/web'
ENGINE = f'{WEB}/desk'
LIBRARY, CRATE = 'zebludor.wasm', 'zebludor_program'
# Where the library is, if $ZEBLUDOR_WASM names none: built here, or stored.
PLACES = (f'{TOP}/crates/zebludor_program/out/wasm', f'{TOP}/stored')
STYLES = '<link rel="stylesheet" href="desk.css">'
ALONE = 'local.js'  # which a page without a server has in the place of the page's served.js
TABLES = ('clauses', 'faults', 'hints', 'keys', 'port_words', 'sentences', 'services')
LACKING = f'there is no {LIBRARY} of the present sources, by which the page runs the board; dev/build zebludor_program --target wasm makes it'


def engine_data() -> Fields:
    """What the engine has of the repository: tables that both languages read, and what sources of MASM may include of ours."""
    ours = {name: read_text(f'{OWN}/{name}') for name in sorted(os.listdir(OWN))}
    return {name: tables(name) for name in TABLES} | tables('instructions') | {'defaults': DEFAULTS, 'includes': ours}


def library() -> bytes:
    """The library for WebAssembly."""
    path = os.environ.get('ZEBLUDOR_WASM')
    found = read_bytes(path) if path else next(filter(None, map(library_in, PLACES)), None)
    if found is None:
        raise Sorry(LACKING)
    return found


def library_in(folder: str) -> bytes | None:
    """The library in a folder, if PROVED beside it tells of these bytes, made of the present sources; a release has none."""
    path, beside = f'{folder}/{LIBRARY}', f'{folder}/PROVED'
    if not (os.path.isfile(path) and os.path.isfile(beside)):
        return None
    made, octets = re.search(rf'^made {LIBRARY} (\S+) sources (\S+)$', read_text(beside), re.M), read_bytes(path)
    if not made or hashlib.sha256(octets).hexdigest() != made[1]:
        return None
    is_own = not os.path.isfile(f'{TOP}/crates.txt') or sum_of_sources(Crates().below(CRATE)) == made[2]
    return octets if is_own else None


def page() -> str:
    """The page, with its styles in it, so that its policy can name their sum."""
    text, styles = (named(read_text(f'{PAGE}/{name}')) for name in ('desk.html', 'desk.css'))
    return text.replace(STYLES, f'<style>\n{styles}</style>', 1)


def modules() -> dict[str, str]:
    """The modules of the page and its engine, by the names under which they are served: as they name one another."""
    own = {name: f'{PAGE}/{name}' for name in sorted(os.listdir(PAGE)) if name.endswith('.js')}
    engine = {f'desk/{name}': f'{ENGINE}/{name}' for name in sorted(os.listdir(ENGINE)) if name != ALONE}
    below = {name: f'{WEB}/{name}' for name in ('origin.mjs', 'zebludor.mjs')}
    return {name: named(read_text(path)) for name, path in (own | engine | below).items()}


def others() -> dict[str, tuple[str, bytes]]:
    """What the engine is told first: the library and the tables."""
    return {LIBRARY: ('application/wasm', library()), 'has.json': ('application/json', json.dumps(engine_data()).encode())}
