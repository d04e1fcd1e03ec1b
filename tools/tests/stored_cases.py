"""The cases of whole runs and of lines of source, over the programs that are here and without Rattle, a process for each. Those that
call a crate's own functions, and those in which a read or a write fails, want Rattle."""
from __future__ import annotations

import concurrent.futures as futures
import os
import re
import subprocess
import tempfile
from dataclasses import dataclass
from typing import Callable

from parts.cases import cases_of
from toolbox import program
from toolbox.crates import TOP

LANES = 4
# What runs pcboard on words, with files by their names, and standard input: the status, and what it prints and tells.
Ran = tuple[int, bytes, bytes]
Runner = Callable[[list[bytes], dict[bytes, bytes], bytes], Ran]
# What stands before and behind a line of source_cases, and where its bytes begin and end.
BEFORE = 'five EQU 5\nlow EQU -3\nbig EQU 1234h\nSEGMENT A AT 1000h\n ORG 0FF0h\nback: DB 0\n ORG 1000h\n'
BEHIND = '\n ORG 1040h\nfore: DB 0\nlater EQU 7\n'
LINE, PLACE, END = 8, 0x11000, 0x11040


@dataclass
class Count:
    """How many cases passed and failed, and how many weren't run."""

    passed: int = 0
    failed: int = 0
    left: int = 0


def spelled(text: str) -> bytes:
    """The bytes of a text of program_cases: `|` is a line feed, `\\HH` a byte, `\\_HH` so many blanks."""

    def byte(found: re.Match[bytes]) -> bytes:
        if found[0] == b'|':
            return b'\n'
        return b' ' * int(found[1], 16) if found[1] else bytes([int(found[2], 16)])

    return re.sub(rb'\||\\(?:_(..)|(..))', byte, text.encode())


def parts_of(case: str) -> dict[str, list[str]]:
    """The parts of a case, by their words."""
    found: dict[str, list[str]] = {}
    for part in case.split(' ;; '):
        word, _, text = part.partition(' ')
        found.setdefault(word, []).append(text)
    return found


def ran_here(words: list[bytes], files: dict[bytes, bytes], given: bytes) -> Ran:
    """What the program that is here does, in a folder of its own that has these files."""
    with tempfile.TemporaryDirectory() as room:
        for name, octets in files.items():
            with open(os.path.join(room.encode(), name), 'wb') as file:
                file.write(octets)
        ran = subprocess.run([program.path(), *words], input=given, capture_output=True, cwd=room, check=False)
    return ran.returncode, ran.stdout, ran.stderr


def asked_in(case: str) -> tuple[list[bytes], dict[bytes, bytes], bytes]:
    """The words, files and input of a case of program_cases."""
    parts = parts_of(case)
    files = (each.partition(' ') for each in parts.get('file', []))
    words = [spelled(each) for each in parts.get('words', [''])[0].split()]
    return words, {spelled(name): spelled(text) for name, _, text in files}, spelled(parts.get('input', [''])[0])


def amiss_in_a_run(case: str, ran: Runner = ran_here) -> str | None:
    """What isn't as a case of program_cases says, or nothing."""
    return amiss_in(parts_of(case), *ran(*asked_in(case)))


def amiss_in(parts: dict[str, list[str]], status: int, out: bytes, err: bytes) -> str | None:
    """What isn't as the parts say, of a run that has ended."""

    def text(name: str) -> bytes:
        return spelled(parts.get(name, [''])[0])

    if str(status) != parts.get('status', [''])[0]:
        return f'status {status}'
    is_printed = out.startswith(text('begins')) if 'begins' in parts else out == text('out')
    is_told = text('usage') in err if 'usage' in parts else err == text('err')
    return 'what is printed' if not is_printed else None if is_told else 'what is told'


def assembled(ran: Runner, source: str, form: Callable[[dict[int, int]], str], fault: Callable[[str, str | None], str]) -> str:
    """What the assembler makes of a source: its bytes by their addresses, or its fault's number and line."""
    _, out, err = ran([b'asm', b'source'], {b'source': source.encode('utf-8', 'surrogateescape')}, b'')
    said = re.fullmatch(r'fault (\d+) \w+(?: line (\d+))?\n', err.decode())
    return fault(said[1], said[2]) if said else form(bytes_of(out.decode()))


def bytes_of(text: str) -> dict[int, int]:
    """The bytes of Intel HEX, as `asm` writes it, by their addresses."""
    found, bank = {}, 0
    for line in text.splitlines():
        octets = bytes.fromhex(line[1:])
        offset, kind, data = int.from_bytes(octets[1:3], 'big'), octets[3], octets[4:-1]
        bank = int.from_bytes(data, 'big') << 4 if kind == 2 else bank
        found.update({bank + offset + at: each for at, each in enumerate(data)} if kind == 0 else {})
    return found


def run_of(octets: dict[int, int], place: int, end: int) -> str:
    """The bytes from a place on, up to the first address without one."""
    text = ''
    while place < end and place in octets:
        text, place = f'{text}{octets[place]:02X}', place + 1
    return text


def placed(ran: Runner, line: str) -> str:
    """What a line places in a whole source, as source_cases has it."""
    return assembled(
        ran,
        f'{BEFORE}{line}{BEHIND}',
        lambda octets: run_of(octets, PLACE, END) or 'none',
        lambda number, at: f'fault {number}' + (f' line {at}' if at and at != str(LINE) else ''),
    )


def front(ran: Runner, size: str, whole: str) -> str:
    """What the first bytes of the source that is cut give."""

    def form(octets: dict[int, int]) -> str:
        places = ((0xF0000, 0xF0040), (0xFFFF0, 0x100030))
        return 'front' + ''.join(f' {place:05X}:{run_of(octets, place, end)}' for place, end in places if place in octets)

    return assembled(ran, whole[: int(size)], form, lambda number, at: f'front fault {number}' + (f' line {at}' if at else ''))


def amiss_in_a_line(case: str, ran: Runner = ran_here) -> str | None:
    """The answer to a case of source_cases, if it isn't the wanted one."""
    text, _, wanted = case.partition(' => ')
    answer = front(ran, text.split()[1], cut_source()) if wanted.startswith('front') else placed(ran, text)
    return None if answer == wanted else answer


def cut_source() -> str:
    """The source of which source_cases takes fronts."""
    with open(f'{TOP}/crates/source_cases/src/front.rt', encoding='utf-8') as file:
        found = re.search(r'const SOURCE: &str =\s*"(.*)";', file.read())
    assert found
    return found[1].replace('\\n', '\n')


def is_a_run(case: str) -> bool:
    """Whether a process can show a case of program_cases: no read or write fails in it."""
    return not {'reads', 'writes'} & parts_of(case).keys()


def is_of_the_assembler(case: str) -> bool:
    """Whether a case of source_cases is of a whole source."""
    text, _, wanted = case.partition(' => ')
    return not re.match(r'(hex|run|read): ', text) and wanted.split()[0] not in ('alone', 'same')


def judged(crate: str, is_taken: Callable[[str], bool], amiss: Callable[[str], str | None]) -> Count:
    """Judges a crate's cases, and prints those that aren't so."""
    cases = cases_of(crate)
    taken = [each for each in cases if is_taken(each)]
    count = Count(left=len(cases) - len(taken))
    with futures.ThreadPoolExecutor(LANES) as pool:
        for case, why in zip(taken, pool.map(amiss, taken)):
            count.passed += why is None
            count.failed += why is not None
            if why is not None:
                print(f'{crate}: {case[:200]}: {why[:200]}', flush=True)
    return count


def others() -> int:
    """How many cases other crates have."""
    names = sorted(each for each in os.listdir(f'{TOP}/crates') if each.endswith('_cases') and each not in ('program_cases', 'source_cases'))
    return sum(len(cases_of(each)) for each in names if os.path.isfile(f'{TOP}/crates/{each}/stdin'))


def run() -> tuple[int, int]:
    """Runs them all, tells it, and returns how many passed and failed."""
    print('the cases of whole runs and of sources, over the program that is here', flush=True)
    runs = judged('program_cases', is_a_run, amiss_in_a_run)
    lines = judged('source_cases', is_of_the_assembler, amiss_in_a_line)
    left = runs.left + lines.left + others()
    print(f'{runs.passed + runs.failed:,} runs and {lines.passed + lines.failed:,} sources; not run: {left:,} other cases, which call crates', flush=True)
    return runs.passed + lines.passed, runs.failed + lines.failed
