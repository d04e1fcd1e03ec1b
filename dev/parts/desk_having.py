"""What the desk's page has of the repository: examples, pages, tables that both languages read, and the services as Intel HEX."""
from __future__ import annotations

import json
import os
from dataclasses import asdict
from typing import Any

from toolbox import services
from toolbox.desk.pages import examples, files_of, grammar, page_of
from toolbox.desk.parts import engine_data
from toolbox.lsp.instructions import rows
from toolbox.lsp.ports import modes, ports
from toolbox.lsp.words import words_of
from toolbox.program import TOP

Fields = dict[str, Any]


def has() -> Fields:
    """All of it."""
    them = [asdict(example) | dict(zip(('source', 'run'), files_of(example.name))) for example in examples()]
    pages = {name: page_of(name) for name in sorted(os.listdir(f'{TOP}/docs')) if name.endswith('.md')}
    return engine_data() | {'examples': them, 'grammar': grammar(), 'pages': pages}


def services_made() -> Fields:
    """What stands in services.json: the services as pcboard makes them, as Intel HEX, and where their labels stand, without their part's name."""
    return {
        name: {'hex': services.hex_of(name), 'labels': {label.removeprefix(f'{name}_'): place for label, place in services.labels_of(name).items()}}
        for name in ('bios', 'dos')
    }


def instructions_made() -> Fields:
    """What stands in instructions.json: rows of instructions, ports, the timer's modes and the dialect's words, as the pages and the editors'
    grammar have them."""
    return {
        'rows': [asdict(row) for row in rows()],
        'ports': ports(),
        'modes': modes(),
        'words': {kind: sorted(words_of(kind)) for kind in ('mnemonic', 'directive', 'prefix', 'register', 'operator')},
    }


def table_of(fields: Fields) -> str:
    """A table as it stands in its file: a row of a list in each line."""
    parts = list[str]()
    for name, part in fields.items():
        them = ',\n'.join(f'    {json.dumps(row, ensure_ascii=False)}' for row in part) if isinstance(part, list) else ''
        parts.append(f'  "{name}": ' + (f'[\n{them}\n  ]' if them else json.dumps(part, ensure_ascii=False, separators=(',', ':'))))
    return '{\n' + ',\n'.join(parts) + '\n}\n'


def text_of(fields: Fields) -> str:
    """What the page has, as JSON."""
    return json.dumps(fields, ensure_ascii=False, separators=(',', ':'))
