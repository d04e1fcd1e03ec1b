"""Sentences about a run. Each is told by a row of sentences.json: the commands that ask pcprobe for it, what its answers must show and
lack, and the sentence; one without commands is a guess, and begins with 'perhaps'. docs/why.md has the rows as a page."""
from __future__ import annotations

import functools
import json
import os
import re
from typing import Any, NamedTuple

from toolbox.command import Sorry
from toolbox.program import BEFORE_START, Files, refusal, run

TABLE = os.path.join(os.path.dirname(__file__), 'sentences.json')
MOST_SHOWN = 12  # lines of an answer


class Row(NamedTuple):
    """A row: when it is asked for, in words; commands; patterns of lines that the answers must have, and none that they may; and what is
    told. `{}` has values that come with the run."""

    name: str
    when: str
    asks: tuple[str, ...]
    shows: tuple[str, ...]
    lacks: tuple[str, ...]
    says: str


class Raw(str):
    """A value that is a pattern by itself."""


class Told(NamedTuple):
    """A sentence, its row's name, the commands by which it was asked for, and their answers."""

    text: str
    name: str = ''
    commands: tuple[str, ...] = ()
    answers: tuple[str, ...] = ()


@functools.cache
def rows() -> dict[str, Row]:
    """The rows by their names."""
    with open(TABLE, encoding='utf-8') as file:
        them = json.load(file)
    return {row['name']: Row(row['name'], row['when'], *(tuple(row.get(key, ())) for key in ('asks', 'shows', 'lacks')), row['says']) for row in them}


def said(name: str, **values: Any) -> str:
    """What a row tells."""
    return rows()[name].says.format(**values)


def pattern(text: str, values: dict[str, Any]) -> re.Pattern[str]:
    """A row's pattern with these values, of which texts stand for themselves."""
    return re.compile(text.format(**{name: re.escape(value) if type(value) is str else value for name, value in values.items()}))


def answers_of(files: Files, commands: tuple[str, ...]) -> tuple[str, ...]:
    """The lines that a pcprobe of its own answers; a refusal, but that nothing is before the start, as a sentence."""
    ran = run(files.words('')[1:], '\n'.join((*commands, '')).encode(), 'pcprobe')
    if ran.status:
        raise Sorry(refusal(ran.status, ran.err))
    answers = tuple(ran.out.splitlines())
    if fault := next((line for line in answers if line.startswith('fault ') and line != BEFORE_START), ''):
        raise Sorry(f'pcprobe refuses: {fault}')
    return answers


def ask(files: Files, name: str, values: dict[str, Any]) -> list[Told]:
    """A row's sentence, if it is a guess, or pcprobe answers so."""
    row = rows()[name]
    commands = tuple('\n'.join(row.asks).format(**values).split('\n')) if row.asks else ()
    answers = answers_of(files, commands) if commands else ()
    has, lacks = ([any(map(pattern(text, values).search, answers)) for text in texts] for texts in (row.shows, row.lacks))
    return [Told(row.says.format(**values), name, commands, answers)] if all(has) and not any(lacks) else []


def how(one: Told, shown: Files) -> list[str]:
    """How a sentence was asked for: the command that a user can give on these files, and its answers; of a guess that it is one."""
    if not one.commands:
        return ['  (a guess: nothing was asked)']
    import shlex  # which few ask for

    words = ['./pcprobe', *(['--hex'] if shown.is_hex else []), shown.file, shown.run_file]
    text = '\\n'.join(one.commands)
    answers = one.answers if len(one.answers) <= MOST_SHOWN else (*one.answers[: MOST_SHOWN // 2], '..', *one.answers[-MOST_SHOWN // 2 :])
    return [f"  $ printf '{text}\\n' | {shlex.join(words)}", *(f'  {line}' for line in answers)]


def lines_of(them: list[Told]) -> list[str]:
    """What is told, as lines."""
    return [line for one in them for line in one.text.split('\n')]
