"""The desk as one page that needs no server: its modules as one classic script, since a page of a file loads no others, with the engine for a
Worker, the library and what the page has of the repository, packed, as text in it."""
from __future__ import annotations

import base64
import gzip
import hashlib
import os
import re
from typing import Iterator

from toolbox import proved
from toolbox.command import Sorry, named, read_bytes, read_text
from toolbox.desk.parts import page as whole_page
from toolbox.program import TOP

PAGE, ENGINE = f'{TOP}/tools/toolbox/desk/page', f'{TOP}/web/desk'
IMPORT = re.compile(r"^import (?:\{([^}]*)\} from )?'(\.[^']+)';\n", re.M)
EXPORT = re.compile(r'^export (?=(?:async )?(?:function|class|const|let)\b)', re.M)
EXPORTED = re.compile(r'^export (?:async )?(?:function\*?|class|const|let) (\w+)', re.M)
PASSED_ON = re.compile(r'^export \{([^}]*)\};\n', re.M)
MODULE = '<script type="module" src="main.js"></script>'


def text_at(path: str) -> str:
    """A module's text."""
    return named(read_text(path))


def imported(path: str, instead: dict[str, str]) -> Iterator[tuple[str, list[str]]]:
    """What a module imports: the paths, and the names from there."""
    for names, there in IMPORT.findall(text_at(path)):
        whole = os.path.normpath(os.path.join(os.path.dirname(path), there))
        yield instead.get(whole, whole), [name.strip() for name in names.split(',') if name.strip()]


def in_order(path: str, instead: dict[str, str], found: list[str] | None = None, begun: set[str] | None = None) -> list[str]:
    """The modules that a module stands on, and itself after them, in the order in which they begin."""
    found, begun = [] if found is None else found, set[str]() if begun is None else begun
    begun.add(path)
    for there, _ in imported(path, instead):
        if there not in begun:
            in_order(there, instead, found, begun)
    found.append(path)
    return found


def plain(path: str) -> str:
    """A module's text without its imports and exports."""
    return PASSED_ON.sub('', EXPORT.sub('', IMPORT.sub('', text_at(path)))).strip()


def in_one_scope(path: str, instead: dict[str, str]) -> str:
    """Modules that import each other in circles, and variables that change: all their names differ, so they share a scope."""
    whole = '\n'.join(plain(each) for each in in_order(path, instead))
    return f"(() => {{\n'use strict';\n{whole}\n}})();\n"


def in_scopes(path: str) -> str:
    """Modules without circles, each in a scope of its own, from which it gives what it exports."""
    order = in_order(path, {})
    number = {each: f'module_{n}' for n, each in enumerate(order)}
    parts, given = list[str](), dict[str, list[str]]()
    for each in order:
        text = text_at(each)
        names = given[each] = EXPORTED.findall(text) + [name.strip() for names in PASSED_ON.findall(text) for name in names.split(',')]
        for there, them in imported(each, {}):
            assert set(them) <= set(given[there]), (each, there)  # of a statement with several names only the first is found
        taken = ''.join(f'const {{{", ".join(them)}}} = {number[there]};\n' for there, them in imported(each, {}) if them)
        parts.append(f'const {number[each]} = (() => {{\n{taken}{plain(each)}\nreturn {{{", ".join(names)}}};\n}})();')
    return "'use strict';\n" + '\n'.join(parts) + '\n'


def library() -> bytes:
    """The library for WebAssembly, which was built here or is stored."""
    path = proved.library_file('zebludor.wasm')
    if not path:
        raise Sorry('there is no zebludor.wasm of the present sources; dev/build zebludor_program --target wasm makes it')
    return read_bytes(path)


def packed(octets: bytes) -> str:
    """Bytes as gzip makes them shorter, as text."""
    return base64.b64encode(gzip.compress(octets, 9, mtime=0)).decode()


def sum_of(text: str) -> str:
    """A text's sum, as a policy has it."""
    return f"'sha256-{base64.b64encode(hashlib.sha256(text.encode()).digest()).decode()}'"


def policy_of(page: str, script: str) -> str:
    """The page's policy: its own script and style alone, a Worker of its own text, and no network."""
    styles = ' '.join(sum_of(style) for style in re.findall('<style>(.*?)</style>', page, re.S))
    return (
        f"default-src 'none'; script-src {sum_of(script)} 'wasm-unsafe-eval'; style-src {styles}; worker-src blob:; img-src data: blob:; "
        "connect-src 'none'; base-uri 'none'; form-action 'none'"
    )


def script() -> str:
    """The page's script, which asks the engine in its Worker."""
    return in_one_scope(f'{PAGE}/main.js', {f'{PAGE}/served.js': f'{ENGINE}/local.js'})


def page_of(wasm: bytes, has: str) -> str:
    """The page, of the library and what it has of the repository."""
    page, code, engine = whole_page(), script(), in_scopes(f'{ENGINE}/worker.mjs')
    for text in (code, engine):
        assert '</script' not in text and '<!--' not in text
    policy = f'<meta http-equiv="Content-Security-Policy" content="{policy_of(page, code)}">'
    given = {'engine': engine, 'library': packed(wasm), 'has': packed(has.encode())}
    blocks = ''.join(f'<script type="text/plain" id="the-{name}">{text}</script>\n' for name, text in given.items())
    return page.replace('<meta charset="utf-8">', f'<meta charset="utf-8">\n{policy}', 1).replace(MODULE, f'{blocks}<script>{code}</script>')
