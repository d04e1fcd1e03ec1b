"""Run files: what each field may hold (docs/formats.md), and what it is where nothing is said."""
from __future__ import annotations

import json
from typing import Any

from zebludor import CHOICES, DEFAULTS, FIRST_CHOICES, run_file as text_of

from toolbox.command import Sorry, read_text, tool, write_text

__all__ = ['CHOICES', 'DEFAULTS', 'FIRST_CHOICES', 'add_keys', 'chosen', 'fields_in', 'read_run_file', 'text_of']


def read_run_file(path: str) -> dict[str, Any]:
    """A run file's fields. What the values may be is judged by the program."""
    return fields_in(path, read_text(path))


def fields_in(path: str, text: str | bytes) -> dict[str, Any]:
    """The fields in a run file's text."""
    try:
        fields = json.loads(text)
    except RecursionError:
        raise Sorry(f'{path} is no run file: its brackets are nested too deep') from None
    except ValueError as error:
        raise Sorry(f'{path} is no JSON: {error} ({tool("why")} tells more)') from None
    if not isinstance(fields, dict):
        raise Sorry(f'{path} is no run file: it is no JSON object')
    return fields


def chosen(fields: dict[str, Any], choices: dict[str, str]) -> dict[str, Any]:
    """A run file's fields with these of `timer` and `clocks`, which make it one of version 2 with both."""
    if not choices:
        return fields
    return fields | {'version': 2} | FIRST_CHOICES | {name: fields[name] for name in CHOICES if name in fields} | choices


def add_keys(path: str, keys: list[tuple[int, int]]) -> None:
    """Puts keys that were typed, stamps and codes, into a run file: each behind those of its stamp that are there."""
    fields = read_run_file(path)
    fields['keys'] = sorted([*fields['keys'], *keys], key=lambda key: key[0])
    write_text(path, text_of(fields))
