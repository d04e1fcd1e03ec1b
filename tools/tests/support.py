"""What the tools' tests share: running a tool as a user does, on files in a folder of its own."""
from __future__ import annotations

import contextlib
import functools
import importlib.machinery
import importlib.util
import io
import os
import re
import shutil
import signal
import subprocess
import sys
import tempfile
import time
import unittest
from typing import Any, Callable
from unittest import mock

TOOLS = os.path.dirname(os.path.dirname(os.path.realpath(__file__)))
TOP = os.path.dirname(TOOLS)
EXAMPLES = f'{TOP}/examples'
STORED = f'{TOOLS}/tests/stored'
sys.path.insert(0, TOOLS)
# What a test starts is interrupted as at a terminal, also where the tests are started with such signals ignored.
signal.signal(signal.SIGINT, signal.default_int_handler)
signal.signal(signal.SIGHUP, signal.SIG_DFL)

# Whatever ends at all has ended in so many seconds, however busy the machine is; then a wait is given up.
SECONDS = 300
# The processor time that `slower` needs on the machine on which the tests' limits of such time were set.
STANDARD = 0.016
RESET = "ENDS\nSEGMENT RESET AT 0FFFFh\n        JMP FAR start\nENDS\n"
# Runs a command, and tells the processor time and the most memory that it took.
MEASURED = """import resource, subprocess, sys
print(subprocess.run(sys.argv[1:], stdout=subprocess.PIPE, stderr=subprocess.DEVNULL, text=True).stdout)
used = resource.getrusage(resource.RUSAGE_CHILDREN)
print(used.ru_utime + used.ru_stime, used.ru_maxrss, file=sys.stderr)
"""
# A board whose way back lasts longer than any test.
SLOW = """#!/usr/bin/env python3
import sys, time
clock = 0
for line in sys.stdin:
    word, *more = line.split()
    if word == 'go':
        clock += int(more[0])
    if line == 'back stop\\n':
        time.sleep(6000)
    if word == 'regs':
        print(' '.join(it + '=0000' for it in 'AX BX CX DX SP BP SI DI'.split()))
        print(' '.join(it + '=0000' for it in 'CS DS ES SS IP FL'.split()))
    elif word in ('go', 'back', 'step'):
        print('clock', clock)
    elif word == 'break':
        print('stop 1')
    elif word == 'dump':
        print('00000: 00')
    elif word == 'chips':
        print('processor running busy 0')
    sys.stdout.flush()
"""


left_out: list[str] = []  # what the present test hasn't run; tools/test looks at it after each test
_told: set[str] = set()


def not_run(what: str) -> None:
    """Tells, once, what isn't run here, and is neither passed nor failed."""
    left_out.append(what)
    if what not in _told:
        _told.add(what)
        print(f'not run: {what}', flush=True)


def rooms_in(folder: str) -> list[str]:
    """The rooms of tools that had this folder for $XDG_RUNTIME_DIR."""
    return os.listdir(f'{folder}/zebludor') if os.path.isdir(f'{folder}/zebludor') else []


def packages() -> list[str]:
    """What the line of CONTRIBUTING installs that brings all that a test wants."""
    with open(f'{TOP}/CONTRIBUTING.md', encoding='utf-8') as file:
        return re.findall(r'`sudo apt install --no-install-recommends ([^`\n]+)`', file.read())[0].split()


def is_there(command: str, what: str, package: str) -> bool:
    """Whether a command is there. If it isn't, what it is wanted for is told as not run."""
    assert {*package.split()} <= {*packages()}, f"CONTRIBUTING's line of packages lacks {package}"
    found = shutil.which(command) is not None
    if not found:
        not_run(f'{what}; apt install {package}')
    return found


def only_if(is_there: Callable[[Any], bool]) -> Callable[[Callable[[Any], None]], Callable[[Any], None]]:
    """Of a test one that ends at once if this, which tells then what isn't run, says no."""

    def checked(test: Callable[[Any], None]) -> Callable[[Any], None]:
        @functools.wraps(test)
        def asking(case: Any) -> None:
            if is_there(case):
                test(case)

        return asking

    return checked


def example(name: str) -> tuple[str, str]:
    """The source and the run file of an example."""
    return f'{EXAMPLES}/{name}.asm', f'{EXAMPLES}/{name}.json'


@functools.cache
def main_of(name: str) -> Callable[[list[str]], int]:
    """A tool's own function."""
    loader = importlib.machinery.SourceFileLoader(f'tool_{name}', f'{TOOLS}/{name}')
    module = importlib.util.module_from_spec(importlib.machinery.ModuleSpec(loader.name, loader, origin=loader.path))
    module.__file__, sys.modules[loader.name] = loader.path, module
    loader.exec_module(module)
    return module.main  # type: ignore[no-any-return]


def state_of(process: int | str) -> list[str]:
    """What the kernel tells of a process, from its state on: then its parent, group and session; of one that is gone nothing."""
    try:
        with open(f'/proc/{process}/stat', encoding='utf-8') as file:
            return file.read().rpartition(')')[2].split()
    except OSError:
        return []


def is_running(process: int) -> bool:
    """Whether a process is there, and hasn't ended."""
    return state_of(process)[:1] not in ([], ['Z'])


def running(at: int) -> list[tuple[int, int]]:
    """The processes that haven't ended, each with the number at a place of what is told of it."""
    states = ((int(name), state_of(name)) for name in os.listdir('/proc') if name.isdecimal())
    return [(process, int(state[at])) for process, state in states if state and state[0] != 'Z']


def children(of: int) -> list[int]:
    """The processes that a process has started, and those that these have, found in one look at all processes."""
    parents, found, last = running(1), list[int](), [of]
    while last:
        last = [process for process, parent in parents if parent in last]
        found += last
    return found


def members(session: int) -> list[int]:
    """The processes of a session."""
    return [process for process, of in running(3) if of == session]


def processor_seconds(of: int) -> float:
    """The processor time that a process has used, without its children's; of one that has ended meanwhile none."""
    return sum(map(int, state_of(of)[11:13])) / os.sysconf('SC_CLK_TCK')


def slower() -> float:
    """How many times slower this machine is, with all else that it does now, than the one on which the tests' limits of time were set."""

    def once() -> float:
        begun = time.process_time()
        for number in range(100_000):
            hash(str(number))
        return time.process_time() - begun

    return max(1, max(once() for _ in range(5)) / STANDARD)


def until(holds: Callable[[], Any], pause: float = 0.01) -> bool:
    """Waits until something holds, and tells whether it does at last."""
    end = time.monotonic() + SECONDS
    while not (found := holds()) and time.monotonic() < end:
        time.sleep(pause)
    return bool(found)


def is_at_work(process: int, seconds: float = 0.1) -> bool:
    """Waits until pcboard or pcprobe, which a process has started, has worked for so many seconds of a processor from now on."""

    def spent() -> float:
        return sum(processor_seconds(child) for child in children(process) if name_of(child) in ('pcboard', 'pcprobe'))

    begun = spent()
    return until(lambda: spent() - begun > seconds, 0.05)  # each look is at all processes


def name_of(process: int) -> str:
    """The name of the program that a process runs; of one that has ended meanwhile none."""
    try:
        with open(f'/proc/{process}/comm', encoding='utf-8') as file:
            return file.read().strip()
    except OSError:
        return ''


def but_progress(text: str) -> str:
    """What a tool has told, without how far it was, which it tells on a busy machine."""
    return re.sub(r'^\w+(?:: .*)?, \d+ s\n', '', text, flags=re.M)


class ToolCase(unittest.TestCase):
    """A case with a folder of its own, and tools run in it."""

    def setUp(self) -> None:
        room = tempfile.TemporaryDirectory()
        self.addCleanup(room.cleanup)
        self.room = room.name
        self.maxDiff = None

    def file(self, name: str, text: str) -> str:
        """Writes a file into the folder."""
        path = f'{self.room}/{name}'
        with open(path, 'w', encoding='utf-8') as file:
            file.write(text)
        return path

    def program(self, lines: str, budget: int = 1000) -> tuple[str, str]:
        """A source with these lines behind `start:`, and a run file."""
        source = self.file('it.asm', f'SEGMENT MAIN AT 0F000h\nstart:\n{lines}\n{RESET}')
        return source, self.file('it.json', f'{{"version":1,"ram":64,"sw1":0,"sw2":0,"budget":{budget},"keys":[]}}')

    def hello_by_c2(self, budget: int = 100) -> tuple[str, str]:
        """The example `hello` under the second clock table: each STOSW costs 4 clocks more, so OUT begins in clock 71 and not 63,
        HLT in 79 and not 71."""
        fields = f'"version":2,"ram":64,"sw1":0,"sw2":0,"budget":{budget},"keys":[],"timer":"8253","clocks":"C2"'
        return example('hello')[0], self.file('c2.json', f'{{{fields}}}')

    def assert_within(self, spent: float, most: float, what: object = None) -> None:
        """Something has taken less than so many seconds of a processor, or, on a slow or busy machine, so many times more."""
        self.assertLess(spent, most * (slower() if spent >= most else 1), what)

    def tool(self, name: str, *words: str, given: str = '', status: int | None = 0) -> tuple[str, str]:
        """What a tool prints on its two streams, where it ends with this status. One of another folder is named with it."""
        from toolbox.command import MISTAKE

        path = f'{TOP}/{name}' if '/' in name else f'{TOOLS}/{name}'
        ran = subprocess.run([sys.executable, '-S', path, *words], input=given, capture_output=True, text=True, cwd=self.room, check=False)
        if status is not None:
            self.assertEqual(ran.returncode, status, ran.stderr or ran.stdout)
        self.assertNotRegex(ran.stderr, f'Traceback|{MISTAKE}')
        return ran.stdout, but_progress(ran.stderr)

    def called(self, name: str, *words: str, given: str = '', status: int | None = 0) -> tuple[str, str]:
        """As `tool`, in this process: a start of Python less for each of many calls."""
        from toolbox import guests
        from toolbox.command import Sorry, refuse, status_of

        out, err, held = io.StringIO(), io.StringIO(), (sys.argv, sys.stdin)
        handlers = {sign: signal.getsignal(sign) for sign in (signal.SIGINT, signal.SIGTERM, signal.SIGHUP)}
        sys.argv, sys.stdin = [f'{TOOLS}/{name}', *words], io.TextIOWrapper(io.BytesIO(given.encode()))
        unsaid = mock.patch.object(guests, '_told', set())
        try:
            with contextlib.redirect_stdout(out), contextlib.redirect_stderr(err), contextlib.chdir(self.room), unsaid:
                try:
                    came = status_of(main_of(name))
                except Sorry as sorry:
                    came = refuse(str(sorry), sorry.status)
        finally:
            sys.argv, sys.stdin = held
            for sign, handler in handlers.items():
                signal.signal(sign, handler)
        self.came = came
        if status is not None:
            self.assertEqual(came, status, err.getvalue() or out.getvalue())
        return out.getvalue(), but_progress(err.getvalue())

    def pcboard(self, *words: str, given: str = '') -> subprocess.CompletedProcess[str]:
        """A run of the program itself. That it isn't there is a failure. A file takes the many pieces of a long answer sooner than a
        pipe."""
        from toolbox import program

        with tempfile.TemporaryFile('w+', encoding='utf-8') as out:
            ran = subprocess.run([program.path(), *words], input=given, stdout=out, stderr=subprocess.PIPE, text=True, check=False)
            out.seek(0)
            ran.stdout = out.read()
        return ran
