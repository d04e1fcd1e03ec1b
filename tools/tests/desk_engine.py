"""The engine of the desk's page under node: over the library for WebAssembly if there is one, else over the programs that stand in
for it."""
from __future__ import annotations

import functools
import json
import os
import shutil
import subprocess
import tempfile
from typing import Any, Callable

from tests import browser
from tests.support import SECONDS, TOOLS, children, is_there, only_if, processor_seconds

from toolbox import proved
from toolbox.command import Sorry
from toolbox.desk import parts
from toolbox.desk.parts import LIBRARY, engine_data
from toolbox.program import path

Fields = dict[str, Any]
MOST_TIME = 200  # milliseconds of a run between two answers


def has_node(_: Any = None) -> bool:
    """Whether node is there; if it isn't, what is told as not run."""
    return is_there('node', "the engine of the desk's page", 'nodejs')


def begun(room: str, module: str, *words: str) -> subprocess.Popen[str]:
    """A module of tests/desk, which is told these words, then what an engine has, and the library if there is one."""
    with open(f'{room}/has.json', 'w', encoding='utf-8') as file:
        json.dump(engine_data() | {'seconds': SECONDS}, file)  # on a machine at which others are at work, all is told too
    library = list(filter(None, [proved.library_file('zebludor.wasm')]))
    programs = {name.upper(): path(name) for name in ('pcboard', 'pcprobe', 'pcmasm')}
    command = ['node', f'{TOOLS}/tests/desk/{module}', *words, f'{room}/has.json', *library]
    return subprocess.Popen(command, stdin=subprocess.PIPE, stdout=subprocess.PIPE, text=True, env=os.environ | programs | {'TMPDIR': room})


class Engine:
    """An engine, which is asked as the page asks it. `include` finds what a source includes."""

    def __init__(self, include: Callable[[str], Fields | None] = lambda _: None) -> None:
        self.room, self.include = tempfile.mkdtemp(prefix='zebludor-'), include
        self.process = begun(self.room, 'answers.mjs')

    def close(self) -> None:
        """Ends it."""
        self.process.communicate()
        shutil.rmtree(self.room, ignore_errors=True)

    def spent(self) -> float:
        """The processor time of the engine, and of what stands in for its library."""
        return sum(map(processor_seconds, (self.process.pid, *children(self.process.pid))))

    def _said(self, what: Any) -> Fields:
        """What it says next, once this is told."""
        assert self.process.stdin and self.process.stdout
        self.process.stdin.write(json.dumps(what) + '\n')
        self.process.stdin.flush()
        found: Fields = json.loads(self.process.stdout.readline())
        return found

    def once(self, question: Fields) -> Fields:
        """What it answers, also that it is at work."""
        found = self._said(question)
        while 'wanted' in found:
            found = self._said(self.include(found['wanted']))
        return found

    def to_the_end(self, question: Fields) -> Fields:
        """What it answers after as many pauses of a run with much time as a busy machine makes."""
        while (found := self.ask(question)).get('why') == 'paused' and question.get('ms') == MOST_TIME:
            pass
        return found

    def ask(self, question: Fields) -> Fields:
        """What it answers in the end."""
        found = self.once(question)
        while found.get('working'):
            found = self.once({'do': 'wait', 'board': question['board']})
        return found


def with_node(case: type[Any]) -> type[Any]:
    """Of a class of tests one that runs none of them without node, and tells it."""
    for name in [name for name in vars(case) if name.startswith('test_') or name == 'setUp']:
        setattr(case, name, only_if(has_node)(vars(case)[name]))
    return case


def lacking() -> str:
    """Why no page of the desk can be opened, or nothing."""
    if browser.path() is None:
        return 'apt install chromium'
    return '' if has_library() else f'there is no {LIBRARY}'


@functools.cache
def has_library() -> bool:
    """Whether there is a library of the present sources."""
    try:
        return bool(parts.library())
    except Sorry:
        return False


def named_library(room: str, is_held: bool | None = None) -> dict[str, str]:
    """What the environment has for a desk that is started: if there is no library, a file in its place, which a page couldn't run."""
    if has_library() if is_held is None else is_held:
        return {}
    with open(f'{room}/{LIBRARY}', 'wb') as file:
        file.write(b'\0asm')
    return {'ZEBLUDOR_WASM': file.name}
