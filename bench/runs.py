"""What bench/count and bench/race share: what they run, its run files, the processor time of a run, and the tables of pages."""
from __future__ import annotations

import os
import re
import resource
import signal
import subprocess
import sys

LONGEST_PROGRAM = 1 << 30  # bytes of one with all that a debugger wants
HERE = os.path.dirname(os.path.realpath(__file__))
TOP = os.path.dirname(HERE)
sys.path[:0] = [f'{TOP}/{folder}' for folder in ('tools', 'dev')]

from toolbox.command import Sorry, Unreadable, handed_on, read_text, write_text
from toolbox.program import path as built_program
from toolbox.runfile import read_run_file, text_of

# By their folders: C programs, mixes and books. Any other name is of bench/loops.
GROUPS = {
    'programs': ('sieve', 'sort', 'digits', 'crc', 'matrix', 'life'),
    'mixes': tuple('bcd bootish clear conf1000 conf1800 delay dxport intcall latch mulmem scroll search shortrep strings tone tone2'.split()),
    'books': tuple('boxes bubble collatz formats hexdump book_life primes queens rolls searches book_sieve squares strings13 table teletype words'.split()),
}
FOLDERS = {name: group for group, names in GROUPS.items() for name in names}


def program(named: str | None) -> str:
    """The program that is measured. A script that starts it would be measured with it."""
    found = os.path.abspath(named or built_program())
    try:
        with open(handed_on(found, LONGEST_PROGRAM), 'rb') as file:
            head = file.read(4)
    except OSError as error:
        raise Unreadable(f"{found} can't be read: {error.strerror}") from None
    if head != b'\x7fELF' or not os.access(found, os.X_OK):
        raise Sorry(f'{found} is no built program: give crates/pcboard/out/pcboard, not what starts it')
    return found


def source(name: str) -> str:
    """The source of a loop or a mix, or the HEX of a C program or a book."""
    stem = f'{HERE}/{FOLDERS.get(name, "loops")}/{name}'
    return f'{stem}.hex' if os.path.exists(f'{stem}.hex') else f'{stem}.asm'


def run_file(folder: str, name: str, budget: int) -> str:
    """The run file of what has this name with another budget, written into the folder."""
    path = f'{folder}/{name}_{budget}.json'
    own = f'{HERE}/{FOLDERS[name]}/run.json' if name in FOLDERS else f'{HERE}/loops/{name}.json'
    with open(path, 'w', encoding='utf-8') as file:
        file.write(text_of(read_run_file(own) | {'budget': budget}))
    return path


def command_line(board: str, task: str, code: str, run: str) -> list[str]:
    """The command line of a run or a session with a source or HEX, and a run file."""
    return [board, task, *(['--hex'] if code.endswith('.hex') else []), code, run]


def processor_time(words: list[str], limit: float, folder: str, changed: dict[str, str] | None = None) -> tuple[float, str] | None:
    """User and system time in seconds of a command with all that it starts, and what it printed; None past the limit."""
    before = resource.getrusage(resource.RUSAGE_CHILDREN)
    with subprocess.Popen(
        words,
        stdin=subprocess.DEVNULL,
        stdout=subprocess.PIPE,
        stderr=subprocess.DEVNULL,
        text=True,
        errors='replace',
        start_new_session=True,
        cwd=folder,
        env=os.environ | (changed or {}),
    ) as started:
        try:
            printed, _ = started.communicate(timeout=limit)
        except subprocess.TimeoutExpired:
            os.killpg(started.pid, signal.SIGKILL)
            return None
    after = resource.getrusage(resource.RUSAGE_CHILDREN)
    return after.ru_utime + after.ru_stime - before.ru_utime - before.ru_stime, printed


def fill(page: str, cells: dict[str, list[str]]) -> None:
    """Writes cells into the tables of a page: they are the last ones of each row that begins with their name."""
    text = read_text(page)
    for name, found in cells.items():
        row = rf'^(\|{re.escape(name)}(?=\|).*?)(?:\|[^|\n]*){{{len(found)}}}\|$'
        text = re.sub(row, '|'.join((r'\1', *found, '')), text, flags=re.M)
    write_text(page, text)
