"""The IBM PC board from Python, with nothing but the standard library (3.10 or later).

    import zebludor
    report = zebludor.run(source, keys=[(5000, 0x1E), (5100, 0x9E)], budget=100_000)
    print(report.registers['AX'], report.screen[0])

    with zebludor.Session(source) as session:
        session.stop_at('done')
        session.go(1000)
        print(session.word('count'))

Runs, sessions and the assembler are those of the program that PCBOARD names, else of the one that the launcher of the repository
takes that this file stands in, or of the library that is stored beside it, in this process. Pit, Pic and Ppi are the chips by themselves: timer, interrupt controller and parallel port. They are calls of
the static library, laid out as c/zebludor.h says. Nothing here decides a fact. A refusal is raised as Fault, with the number
and the name that docs/formats.md explains; what isn't there, or isn't such a thing, as Unfit."""
from __future__ import annotations

import atexit
import contextlib
import functools
import io
import json
import os
import re
import signal
import stat
import sys
import threading
import time
import weakref
from types import SimpleNamespace
from typing import IO, TYPE_CHECKING, Any, Callable, Container, Iterable, Iterator, Mapping, NamedTuple, NoReturn, Sequence, TypeVar

if TYPE_CHECKING:
    import ctypes  # else imported where it is used, as all that takes long to load
    import subprocess

HERE = os.path.dirname(os.path.realpath(__file__))
# The repository or the release; of a wheel, its files stand beside this one.
TOP = f'{HERE}/zebludor_files' if os.path.isdir(f'{HERE}/zebludor_files') else os.path.dirname(HERE)
LAST_CLOCK = 1 << 40
MEMORY = 1 << 20
# A run by a library is made in parts of so many clocks, or of twice as many as long as a part takes less than a tenth of a second.
PART, LONG_RUN = 10_000_000, re.compile(rb'go \d{8,13}')
ROOM = 1 << 18  # bytes of an answer; of a longer one the library is asked again
# What a program's name ends in on this system, how a library that is loaded is called, and whether a pipe can be waited for.
ENDING, SHARED = '.exe' if sys.platform == 'win32' else '', {'win32': '{}.dll', 'darwin': 'lib{}.dylib'}.get(sys.platform, 'lib{}.so')
HAS_PIPES = sys.platform != 'win32'
# The chips' library of a release, else the one that dev/build leaves.
CHIPS = f'{TOP}/lib/{SHARED.format("zebludor_chips")}', f'{TOP}/crates/zebludor_chips/out/libzebludor_chips.a'
# What is stored beside the programs, and answers in this process.
LIBRARY = SHARED.format('zebludor')
# A run of more clocks, or of an unknown number, is a process's, which an interrupt ends at once; and so is a text of more bytes.
LONG, LARGE = 20_000_000, 1 << 20
BUDGET = re.compile(rb'"budget"\s*:\s*(\d{1,13})')
# What the library's programs know their files by, and the words of their tasks that it is asked for.
FILES_OF, OPTIONS = {'run': ['FILE', 'RUN'], 'asm': ['FILE']}, {'--hex', '--list'}
ROWS, COLUMNS = 25, 80
REGISTER_LINES = (('AX', 'BX', 'CX', 'DX', 'SP', 'BP', 'SI', 'DI'), ('CS', 'DS', 'ES', 'SS', 'IP', 'FL'))
REGISTERS = REGISTER_LINES[0] + REGISTER_LINES[1]
REGISTER_TEXT = re.compile('\n'.join(' '.join(f'{name}=([0-9A-F]{{4}})' for name in names) for names in REGISTER_LINES))
REGISTER_SHIFTS = dict(zip(REGISTERS, reversed(range(0, 16 * len(REGISTERS), 16))))  # in the number that all their digits are
HALVES = {f'{name}{half}': (f'{name}X', shift) for name in 'ABCD' for half, shift in (('L', 0), ('H', 8))}
# What stands on the stack where a routine is called: the bytes of its return address, and of FL; and the offset to which it returns.
RETURNS, RETURNED_TO = {'near': 2, 'far': 4, 'iret': 6}, 0xFFFF
SET_AT_ONCE = 16  # bytes of a command
GIVEN_AT_ONCE = 200  # commands: their answers fit in the pipe
CLOCK_ALONE = re.compile(rb'clock (\d{1,13})\n')
CLOCK_AT_END = re.compile(r'\bclock (\d+)$')
FLAGS = {'CF': 0, 'PF': 2, 'AF': 4, 'ZF': 6, 'SF': 7, 'TF': 8, 'IF': 9, 'DF': 10, 'OF': 11}
DEFAULTS: dict[str, Any] = {'version': 1, 'ram': 64, 'sw1': 0, 'sw2': 0, 'budget': 10_000_000, 'keys': []}
# What version 2 of run files has besides: which chip the timer is, and which table the clocks. Of version 1 they are the first.
CHOICES: dict[str, tuple[str, ...]] = {'timer': ('8253', '8254'), 'clocks': ('C1', 'C2')}
FIRST_CHOICES = {name: them[0] for name, them in CHOICES.items()}
RANGES = {'version': (1, 2), 'ram': (0, 65535), 'sw1': (0, 255), 'sw2': (0, 31), 'budget': (0, LAST_CLOCK)}

Source = str | bytes | os.PathLike
T = TypeVar('T')


class Unfit(Exception):
    """What is asked for isn't there, or a text isn't what it is taken for; its text is a sentence."""


class TooLong(Unfit):
    """An answer has more bytes than are read."""


class NotReturned(Exception):
    """A routine that was called hasn't returned within its clocks."""


class Fault(Exception):
    """A refusal by the program: its number and name, and its line and clock, where it tells them; of a run's field also why."""

    def __init__(self, number: int, name: str, line: int | None = None, clock: int | None = None, why: str = '') -> None:
        self.number, self.name, self.line, self.clock = number, name, line, clock
        places = ('' if line is None else f' line {line}') + ('' if clock is None else f' clock {clock}')
        super().__init__(f'fault {number} {name}{places}' + (f': {why}' if why else ''))


def fault_in(text: str) -> Fault | None:
    """The first fault that a text tells, or None."""
    found = re.search(r'^fault (\d+) (\w+)(?: line (\d+))?(?: clock (\d+))?\s*$', text, re.M)
    return found and Fault(int(found[1]), found[2], *(int(it) if it else None for it in found.group(3, 4)))


# Reports.


MANY = 100_000


class Changes(Sequence[tuple[int, int]]):
    """The speaker's changes of a report's text that has very many, read when they are asked for."""

    def __init__(self, text: str, first: int, end: int) -> None:
        self._text, self._first, self._end = text, first, end
        self._count = text.count('\n', first, end)

    def __len__(self) -> int:
        return self._count

    def __iter__(self) -> Iterator[tuple[int, int]]:
        for found in re.compile(r'(\d+) ([01])\n').finditer(self._text, self._first, self._end):
            yield int(found[1]), int(found[2])

    @functools.cached_property
    def _all(self) -> list[tuple[int, int]]:
        return list(iter(self))

    def __getitem__(self, place: Any) -> Any:
        return self._all[place]

    def __reversed__(self) -> Iterator[tuple[int, int]]:
        return reversed(self._all)

    def __eq__(self, other: object) -> bool:
        return isinstance(other, Sequence) and len(self) == len(other) and all(a == b for a, b in zip(self, other))

    def __repr__(self) -> str:
        return repr(self._all)


class Report(NamedTuple):
    """A report: what a run came to."""

    clock: int
    registers: dict[str, int]
    state: str
    lost: int
    changes: Sequence[tuple[int, int]]
    screen: list[str]

    def flag(self, name: str) -> int:
        """A flag: CF PF AF ZF SF TF IF DF OF."""
        return self.registers['FL'] >> FLAGS[name] & 1

    @property
    def text(self) -> str:
        """The screen, without the blanks at the ends of lines and of the screen."""
        return '\n'.join(it.rstrip() for it in self.screen).rstrip()

    def _repr_html_(self) -> str:
        """The screen, as a notebook shows it."""
        import html

        style = 'background:#101810;color:#50e070;padding:8px;line-height:1.1;display:inline-block'
        return f'<pre style="{style}">{html.escape(chr(10).join(self.screen))}</pre>'


class Registers(dict[str, int]):
    """A session's registers. Up to version 0.4 they were a method's answer: so they can be called, a version long."""

    def __call__(self) -> dict[str, int]:
        import warnings

        warnings.warn('session.registers is no method any more: leave the brackets out', DeprecationWarning, stacklevel=2)
        return self


def registers_of(lines: list[str]) -> dict[str, int]:
    """The registers of a report's two lines, or of a session's answer to `regs`."""
    found = REGISTER_TEXT.fullmatch('\n'.join(lines))
    if not found:
        raise ValueError(lines)
    words = int(''.join(found.groups()), 16)
    return {name: words >> shift & 0xFFFF for name, shift in REGISTER_SHIFTS.items()}


def _value(line: str, name: str) -> str:
    """What stands behind a line's name."""
    found, _, value = line.partition(' ')
    if found != name or not value:
        raise ValueError(line)
    return value


def read_report(text: str) -> Report:
    """A report's text, as docs/formats.md tells it, as a report. A refusal's is raised."""
    lines = text.split('\n', 6)
    fault = fault_in(lines[0])
    if fault:
        raise fault
    try:
        clock, registers = int(_value(lines[0], 'clock')), registers_of(lines[1:3])
        state, lost = _value(lines[3], 'state'), int(_value(lines[4], 'lost'))
        count, first = int(_value(lines[5], 'sound')), len(text) - len(lines[6])
        end = text.find('screen\n', first)
        changes: Sequence[tuple[int, int]] = Changes(text, first, end)
        if count <= MANY:
            changes = [(int(when), int(level)) for when, level in map(str.split, text[first:end].splitlines())]
        name, *screen = text[end:].split('\n')[: ROWS + 1]
        if len(changes) != count or name != 'screen' or [len(it) for it in screen] != [COLUMNS] * ROWS:
            raise ValueError
    except (ValueError, IndexError):
        raise Unfit('the text is no report of pcboard run (docs/formats.md, "Report")') from None
    return Report(clock, registers, state, lost, changes, screen)


# Run files.


def run_file(fields: dict[str, Any]) -> str:
    """A run file's text in one line, the fields in the order of docs/formats.md."""
    ordered = {name: fields[name] for name in (*DEFAULTS, *CHOICES) if name in fields}
    return json.dumps(ordered | fields, separators=(',', ':')) + '\n'


def _fields(given: dict[str, Any]) -> dict[str, Any]:
    """The fields of a run: what is given, else the usual ones. `timer` or `clocks` make it one of version 2 with both."""
    unknown = given.keys() - {*DEFAULTS, *CHOICES}
    if unknown:
        raise TypeError(f'{sorted(unknown)[0]} is no field of a run file: {", ".join((*DEFAULTS, *CHOICES))}')
    fields = DEFAULTS | {name: [list(key) for key in value] if name == 'keys' else value for name, value in given.items()}
    fields |= {'version': 2} | FIRST_CHOICES | {name: fields[name] for name in given} if given.keys() & CHOICES.keys() else {}
    if why := next(_unfit(fields), ''):
        raise Fault(32, 'BadField', why=why)
    return fields


def _unfit(fields: dict[str, Any]) -> Iterator[str]:
    """Why fields are none that a run file may have: the program tells of them all that one of them is bad."""
    for name, (least, most) in RANGES.items():
        greatest = (1 << 64) - 1 if name == 'budget' else most  # of one that is too large the program tells by itself
        if type(fields[name]) is not int or not least <= fields[name] <= greatest:
            yield f'{name} is {fields[name]!r}, and has to be {least:,} to {most:,}'
    for name in CHOICES.keys() & fields.keys():
        if fields[name] not in CHOICES[name]:
            yield f'{name} is {fields[name]!r}, and has to be {" or ".join(CHOICES[name])}'
    for place, key in enumerate(fields['keys']):
        if len(key) != 2 or not all(type(one) is int and one >= 0 for one in key) or key[0] > LAST_CLOCK:
            yield f'keys[{place}] is {key!r}, and has to be a clock, 0 to {LAST_CLOCK:,}, and a scan code'


# The program.


class Ran(NamedTuple):
    """What a run of the program came to, and the path of what made it: the program, or the library."""

    status: int
    out: str
    err: str
    by: str = ''


def program(name: str = 'pcboard') -> str:
    """The program pcboard, pcprobe or pcmasm: the one that $PCBOARD, $PCPROBE or $PCMASM names, else the one that the repository's
    launcher takes, or one that was built of other sources."""
    chosen = os.environ.get(name.upper())
    found = chosen or taken(name)
    if not os.access(found, os.X_OK):
        raise Unfit(f"the program {found}, which {name.upper()} names, isn't there" if chosen else f"the program {found} isn't there")
    return found


@functools.cache
def taken(name: str) -> str:
    """The program that the launcher of this name takes for a run. That the stored one is made of the present sources is known without a
    shell."""
    stored = f'{name}{ENDING}'
    return f'{TOP}/stored/{stored}' if not os.path.exists(f'{TOP}/crates/{name}/out/{name}') and _stored(stored) else _launched(name)


@functools.cache
def _launched(name: str) -> str:
    """The same by the launcher's `--version`, which says once to each user where that is the stored one."""
    import subprocess

    env = os.environ | {'ZEBLUDOR_TAKES': name}
    try:
        printed = subprocess.run([f'{TOP}/{name}', '--version'], stdin=subprocess.DEVNULL, stdout=subprocess.PIPE, env=env, text=True, check=False).stdout
    except OSError:
        raise Unfit(f"no launcher is in {TOP}, to which this copy of zebludor.py belongs: name the program in {name.upper()}") from None
    path = re.search(r'^program (\w+/[\w/]+)', printed, re.M)
    if not path:
        why = re.search(rf"^stored/{name} isn't taken: .*$", printed, re.M)
        more = f' ({why[0]})' if why else ''
        build = f'a first run of ./{name} builds one, or ' if os.path.exists(f'{TOP}/crates.txt') else ''
        raise Unfit(f'no {name} is built here; {build}name one in {name.upper()}{more}')
    return f'{TOP}/{path[1]}'


def _stored(name: str) -> bool:
    """Whether a stored file is the one of which stored/PROVED tells, and made of the present sources; and that it was proved elsewhere
    has been told."""
    found = _present()
    return found is not None and name in found.names and _is_told(found.mark)


@functools.cache
def _present() -> Any:
    """What the tools beside this file know of stored files, once; None if they aren't there."""
    _with_tools()
    try:
        from toolbox import present  # pylint: disable=import-error
    except ImportError:
        return None
    return present.present() if os.path.realpath(present.TOP) == TOP else None


@functools.cache
def _is_told(mark: str) -> bool:
    """Whether it was said, of stored programs, that they were proved elsewhere: else the launcher says it now, if there is one."""
    from toolbox import present  # pylint: disable=import-error

    folder = present.cache()
    if folder and os.path.exists(f'{folder}/{mark}'):
        return True
    with contextlib.suppress(Unfit):
        return not os.path.exists(f'{TOP}/pcboard') or bool(_launched('pcboard'))
    return False


def limit_memory(megabytes: int | None) -> None:
    """From now on each process of the program that begins here, and each call of the library, takes so much memory at most: one that
    wants more refuses, with a fault named Memory. None lifts the limit."""
    _limits[:] = [] if megabytes is None else [megabytes]


_limits: list[int] = []
SHELL = '/bin/sh'


def limited(words: list[str]) -> list[str]:
    """The words that start a process, which is under that limit. Without a shell that sets it none is."""
    if not _limits or not os.path.exists(SHELL):
        return words
    return [SHELL, '-c', f'ulimit -v {1024 * _limits[0]} 2>/dev/null; exec "$0" "$@"', *words]


@contextlib.contextmanager
def uninterrupted() -> Iterator[None]:
    """An interrupt that would end what is done here comes after it."""
    before, came = signal.getsignal(signal.SIGINT), list[int]()
    is_held = before is signal.default_int_handler and threading.current_thread() is threading.main_thread()
    if is_held:
        signal.signal(signal.SIGINT, lambda number, _: came.append(number))
    try:
        yield
    finally:
        if is_held:
            signal.signal(signal.SIGINT, before)
    if came:
        raise KeyboardInterrupt


def ran(words: list[str], given: bytes = b'', most: int = sys.maxsize, name: str = 'pcboard') -> Ran:
    """Runs a program to its end, in this process if that can be. An answer of more than `most` bytes isn't read, which is told as Unfit."""
    within = ran_within(words, given, most, name)
    if within:
        return within
    import subprocess
    import tempfile

    with tempfile.TemporaryFile() as to, tempfile.TemporaryFile() as err:
        to.write(given)  # into a file, not a pipe: a session answers before it has read all
        to.seek(0)
        path, process = program(name), None
        try:
            with uninterrupted():  # else nobody would know the process
                process = subprocess.Popen(limited([path, *words]), stdin=to, stdout=subprocess.PIPE, stderr=err)
            assert process.stdout
            with process.stdout as out:
                octets = bytearray()
                while piece := out.read1(1 << 16):  # read() would make room for `most` at once
                    octets += piece
                    if len(octets) > most:
                        raise TooLong(f'the answer has more than {most:,} bytes')
        except BaseException:
            if process:
                process.kill()
            raise
        finally:
            if process:
                process.wait()
        err.seek(0)
        return Ran(process.returncode, octets.decode('utf-8', 'replace'), err.read().decode('utf-8', 'replace'), path)


def _refuse(status: int, err: str) -> NoReturn:
    """Raises why the program gave no answer."""
    raise fault_in(err) or Unfit(err.strip() or f'the program ended with status {status}')


def _answer(words: list[str]) -> str:
    """What the program prints."""
    done = ran(words)
    if done.status:
        _refuse(done.status, done.err)
    return done.out


def _version() -> str:
    """The version of the repository, or of the release, that this file stands in."""
    try:
        with open(f'{TOP}/VERSION', encoding='ascii') as file:
            return file.read().strip()
    except OSError:
        return 'unknown'


__version__ = _version()


def is_hex_name(path: str | os.PathLike) -> bool:
    """Whether a file's name says that it is Intel HEX: it ends in .hex, in letters of either case."""
    return os.fspath(path).lower().endswith('.hex')


def _hex_words(source: Source, is_hex: bool) -> list[str]:
    """The word that says so to the program, of a path by its name too."""
    return ['--hex'] * (is_hex or not isinstance(source, (str, bytes)) and is_hex_name(source))


def _there(source: os.PathLike) -> str:
    """A source's path. Unfit tells why nothing is read there: it is no file, or a very long one, in which a program would find no end."""
    path = os.fspath(source)
    try:
        reading = _toolbox('limits of files').reading
    except Unfit:  # where the tools aren't
        reading = None
    try:
        os.stat(path) if reading is None else reading.check(path)
    except OSError as error:
        raise Unfit(f"{path} can't be read: {error.strerror}") from None
    return path


@contextlib.contextmanager
def _files(source: Source, fields: dict[str, Any] | None = None) -> Iterator[list[str]]:
    """The names of files with a source's text and a run file's fields; a path stays what it is."""
    import tempfile

    with tempfile.TemporaryDirectory() as room:
        if isinstance(source, (str, bytes)):
            path = f'{room}/source'
            with open(path, 'wb') as file:
                file.write(source if isinstance(source, bytes) else source.encode('utf-8', 'surrogateescape'))
        else:
            path = _there(source)
        names = [path]
        if fields is not None:
            names.append(f'{room}/run.json')
            with open(names[1], 'w', encoding='utf-8') as to:
                to.write(run_file(fields))
        yield ['--', *names]


def run(source: Source, *, is_hex: bool = False, services: bool | None = None, **fields: Any) -> Report:
    """Runs a source, or Intel HEX (a path that ends in .hex, or is_hex): a text, or a path to one. The fields are a run file's: `keys`, pairs of a clock and a scan
    code; `budget`, `ram`, `sw1`, `sw2`, `timer`, `clocks`; what isn't said is as tools/runfile has it. What docs/services.md calls a
    program with services has them, and 640 KB; `services` says otherwise, as --services and --bare do."""
    with _made(source, is_hex, services, fields) as words:
        return read_report(_answer(['run', *words]))


def _with_tools() -> None:
    """Modules of the tools can be imported, which stand in the folder beside this file's."""
    if f'{TOP}/tools' not in sys.path:
        sys.path.append(f'{TOP}/tools')


def _toolbox(what: str) -> Any:
    """Modules of the tools, which stand in the folder beside this file's. Unfit tells what wants them, if it isn't there."""
    import importlib

    _with_tools()
    names = 'command', 'guests', 'listing', 'places', 'program', 'reading'
    try:
        return SimpleNamespace(**{name: importlib.import_module(f'toolbox.{name}') for name in names})
    except ImportError as error:
        raise Unfit(f"{what} want the tools, and {TOP}/tools hasn't them: {error}") from None


@contextlib.contextmanager
def _made(source: Source, is_hex: bool, services: bool | None, given: dict[str, Any]) -> Iterator[list[str]]:
    """The words that name the program its files: the source and the run file, or what is made of a program with services."""
    words = _hex_words(source, is_hex)
    with _files(source, _fields(given)) as names:
        is_bare = bool(words) or services is False
        made = None if is_bare else _served(names[1], services, given, os.path.dirname(names[2]))
        yield ['--hex', '--', *made] if made else [*words, *names]


def _served(path: str, services: bool | None, given: dict[str, Any], room: str) -> list[str] | None:
    """The image and the run file of a program with services; None of what is none, or is refused. Where the tools aren't, none is."""
    try:
        tools = _toolbox('services')
    except Unfit:
        if services:
            raise
        return None
    try:
        guest = tools.guests.looked_at(tools.guests.Guest(path, is_served=bool(services)))
        made = tools.guests.made_with(guest, room, more=_fields({'ram': tools.guests.MOST_RAM} | given)) if guest.is_one else None
    except tools.command.Sorry as sorry:
        raise Unfit(str(sorry).replace(f'{room}/source', 'the source')) from None
    return made and [made.file, made.run_file]


def batch(
    source: Source,
    runs: Iterable[dict[str, Any] | str | bytes],
    *,
    is_hex: bool = False,
    jobs: int | None = None,
    seconds: int = 60,
    memory: int = 256,
    known: Container[str] = (),
) -> Iterator[dict[str, Any]]:
    """The answers to many runs of a program, in their order, as tools/batch has them (docs/sweeps.md). A run is a run file, with a `name`
    if you like, as a dict or as a line of JSON. Each may take so many processor seconds and megabytes. Runs whose ids are known are
    left out."""
    import tempfile

    tools = _toolbox('batches')
    from toolbox import batches  # pylint: disable=import-error

    lines = (json.dumps(run).encode() if isinstance(run, dict) else run.encode() if isinstance(run, str) else run for run in runs)
    with _files(source) as names, tempfile.TemporaryDirectory() as room:
        try:
            made = batches.batch_of(names[1], bool(_hex_words(source, is_hex)), room, seconds, memory)
            yield from batches.answers(made, lines, jobs or os.cpu_count() or 1, known)
        except tools.command.Sorry as sorry:
            raise Unfit(str(sorry)) from None


def assemble(source: Source) -> str:
    """A source's bytes as Intel HEX."""
    with _files(source) as names:
        return _answer(['asm', *names])


def listing(source: Source) -> str:
    """A source's listing."""
    with _files(source) as names:
        return _answer(['asm', '--list', *names])


# Sessions.


class Event(NamedTuple):
    """A line of the trail: an instruction's start, or the entry of an interrupt (then its type, and no bytes)."""

    clock: int
    segment: int
    offset: int
    octets: bytes
    text: str
    entry: int | None

    @property
    def address(self) -> int:
        """The physical address."""
        return (16 * self.segment + self.offset) % MEMORY


def event_of(line: str | bytes) -> Event:
    """A line of the trail, as docs/debugger.md tells it."""
    clock, _, rest = (line if isinstance(line, bytes) else line.encode()).partition(b' ')
    return tuple.__new__(Event, (int(clock),) + _place_of(rest))


@functools.lru_cache(1 << 16)
def _place_of(octets: bytes) -> tuple[int, int, bytes, str, int | None]:
    """All of a trail's line but the clock: loops have the same ones again and again."""
    rest = octets.decode('ascii').rstrip('\n')
    segment, offset, what = int(rest[:4], 16), int(rest[5:9], 16), rest[10:]
    if what.startswith('entry '):
        return segment, offset, b'', what, int(what.split()[1], 16)
    shown, _, text = what.partition(' ')
    return segment, offset, bytes.fromhex(shown), text, None


class Happening(NamedTuple):
    """Something that happens in a clock, as docs/probe.md tells of `events`: what, where and with which value.

    start: (segment, offset), the bytes; entry: None, the type; write: the address, the byte; in and out: the port, the byte;
    key: `arrives`, `lost` or `latched`, the code; wire: its name, the level; halted, woken, jammed: None, None"""

    clock: int
    what: str
    place: Any
    value: Any


def happening_of(line: str) -> Happening:
    """A line of `events`."""
    clock, what, *words = line.split()
    if what == 'start':
        return Happening(int(clock), what, (int(words[0][:4], 16), int(words[0][5:], 16)), bytes.fromhex(words[1]))
    if what in ('write', 'in', 'out'):
        return Happening(int(clock), what, int(words[0], 16), int(words[1], 16))
    if what == 'key':
        return Happening(int(clock), what, words[1], int(words[0], 16))
    if what == 'wire':
        return Happening(int(clock), what, words[0], int(words[1]))
    return Happening(int(clock), what, None, int(words[0], 16) if words else None)


_started: weakref.WeakSet[subprocess.Popen[bytes]] = weakref.WeakSet()


@atexit.register
def _end_all() -> None:
    """Ends the sessions' processes that are left, also in the midst of a run."""
    for each in _started:
        each.kill()


class Piped:
    """A session's process, by its pipes. The terminal's interrupt doesn't reach it, so that what talks with it can end a long run and go
    on. `start` begins it, as subprocess.Popen does."""

    is_within = False

    def __init__(self, words: list[str], start: Callable[..., subprocess.Popen[bytes]]) -> None:
        import subprocess

        pipes = {name: subprocess.PIPE for name in ('stdin', 'stdout', 'stderr')}
        self.process = start(words, **pipes, bufsize=0, start_new_session=True)
        _started.add(self.process)
        assert self.process.stdout
        self.out = os.fdopen(os.dup(self.process.stdout.fileno()), 'rb')

    def send(self, text: str) -> bool:
        """Hands the program commands; no, if it has ended."""
        assert self.process.stdin
        try:
            self.process.stdin.write(text.encode())
        except BrokenPipeError:
            return False
        return True

    def ended(self) -> tuple[int, str]:
        """The status with which it has ended, and what it told."""
        assert self.process.stderr
        err = self.process.stderr.read().decode('utf-8', 'replace')
        return self.process.wait(), err

    def is_answered(self, seconds: float | None) -> bool:
        """Whether something comes within so many seconds, or without a limit. Where no pipe can be waited for, it is read at once."""
        import select

        return not HAS_PIPES or bool(select.select([self.out], [], [], seconds)[0])

    def close(self) -> None:
        """Ends it, also in the midst of a run: it has nothing to keep."""
        self.process.kill()
        streams: list[IO[bytes] | None] = [self.process.stdin, self.out, self.process.stdout, self.process.stderr]
        for stream in streams:
            assert stream
            with contextlib.suppress(BrokenPipeError):
                stream.close()
        self.process.wait()


class Dialogue:
    """A session of `pcboard debug`, or of pcprobe, by its texts: one command at a time, and its answer. It is the library's, in this
    process, if that can be and the run file has a short run, or its runs may be cut; else the program's."""

    def __init__(self, words: list[str], name: str = 'pcboard', is_cut: bool = False) -> None:
        self.way: Piped | Called = called_of(words, name == 'pcprobe', is_cut) or Piped([program(name), *words], self.started)
        self.clock, self.is_idle = 0, True

    def started(self, words: list[str], **how: Any) -> subprocess.Popen[bytes]:
        """The session's process, begun; `how` is as for subprocess.Popen."""
        import subprocess

        return subprocess.Popen(limited(words), **how)

    def close(self) -> None:
        """Ends the session."""
        self.way.close()

    def refused(self, status: int, err: str) -> NoReturn:
        """The program has ended without an answer, so it has refused the files, or found no memory."""
        _refuse(status, err)

    def _send(self, text: str) -> None:
        """Hands the session commands; if it has ended, it has told why. Until all is answered, it isn't idle."""
        self.is_idle = False
        if not self.way.send(text):
            self._ended()

    def _ended(self) -> NoReturn:
        self.refused(*self.way.ended())

    def _line(self) -> str:
        """The next line of an answer."""
        line = self.way.out.readline()
        if not line:
            self._ended()
        return line.decode('ascii', 'replace').rstrip('\n')

    def begin(self, command: str) -> None:
        """Gives a command that has a single line for an answer, which is `rest`."""
        self._send(command + '\n')

    def _single(self) -> str:
        """The next answer of a single line, which may tell the clock."""
        line = self._line()
        found = CLOCK_AT_END.search(line)
        if found:
            self.clock = int(found[1])
        return line

    def rest(self) -> str:
        """The answer to what was begun."""
        line = self._single()
        self.is_idle = True
        return line

    def one(self, command: str) -> str:
        """The answer of a command that has a single line."""
        self.begin(command)
        return self.rest()

    def some(self, commands: list[str]) -> list[str]:
        """The answers of commands that have a single line each, given at once, as far as the pipe holds them."""
        found = list[str]()
        for at in range(0, len(commands), GIVEN_AT_ONCE):
            some = commands[at : at + GIVEN_AT_ONCE]
            self._send('\n'.join(some) + '\n')
            found += [self._single() for _ in some]
            self.is_idle = True
        return found

    def some_and_registers(self, commands: list[str]) -> tuple[list[str], list[str]]:
        """The answers of such commands, and what `regs` answers behind them: its lines, or the one that refuses it."""
        found, last = self.some(commands[:-GIVEN_AT_ONCE]), commands[-GIVEN_AT_ONCE:]
        self._send('\n'.join([*last, 'regs\n']))
        found += [self._single() for _ in last]
        lines = [self._line()]
        if '=' in lines[0]:
            lines.append(self._line())
        self.is_idle = True
        return found, lines

    def many(self, command: str) -> list[str]:
        """The answer of any other command. `go 0` behind it changes nothing, and its answer marks the end: a line of the screen may
        say what it likes, but has 80 characters."""
        self._send(command + '\ngo 0\n')
        octets, end = bytearray(), None
        while end is None:
            piece = self.way.out.read1(1 << 16)  # type: ignore[attr-defined]
            if not piece:
                self._ended()
            octets += piece
            end = CLOCK_ALONE.fullmatch(octets, octets.rfind(b'\n', 0, -1) + 1)
        self.clock, self.is_idle = int(end[1]), True
        return octets.decode('ascii', 'replace').split('\n')[:-2]

    def happenings(self, command: str) -> list[str]:
        """The lines of an answer that ends with its clock, or is a refusal alone."""
        self._send(command + '\n')
        lines = [self._line()]
        while not re.match('clock |fault ', lines[-1]):
            lines.append(self._line())
        self.clock, self.is_idle = int(lines[-1].split()[-1]) if 'clock ' in lines[-1] else self.clock, True
        return lines

    def dump(self, address: int, count: int) -> bytes:
        """Bytes from a physical address on, as many as there are below 100000h."""
        found = b''
        count = min(count, MEMORY - address)
        while len(found) < count:
            part = min(4096, count - len(found))
            lines = self.many(f'dump {address + len(found):X} {part}')
            fault = fault_in(lines[0])
            if fault:
                raise fault
            found += b''.join(bytes.fromhex(line.partition(':')[2]) for line in lines)
        return found


# The libraries.


class Header:
    """The structs and calls that a header declares, as ctypes has them."""

    def __init__(self, text: str) -> None:
        import ctypes

        self._numbers = {
            'void': None,
            'bool': ctypes.c_bool,
            'uint8_t': ctypes.c_uint8,
            'uint16_t': ctypes.c_uint16,
            'uint64_t': ctypes.c_uint64,
            'size_t': ctypes.c_size_t,
        }
        text = re.sub(r'/\*.*?\*/', '', text, flags=re.S)
        self.structs: dict[str, type[ctypes.Structure]] = {}
        for body, name in re.findall(r'typedef struct \w+ \{(.*?)\} (\w+);', text, re.S):
            fields = [
                (field.strip(' *'), self._type(kind + ' *' * ('*' in field)))
                for kind, names in re.findall(r'(\w+) ([^;]+);', body)
                for field in names.split(',')
            ]
            self.structs[name] = type(name, (ctypes.Structure,), {'_fields_': fields})
        self.calls = {
            name: (self._type(answer), [self._type(re.sub(r'\w+$', '', it.strip())) for it in words.split(',')])
            for answer, name, words in re.findall(r'^(\w+) (zebludor_\w+)\(([^)]*)\);', text, re.M)
        }

    def _type(self, text: str) -> Any:
        """A type as C writes it."""
        import ctypes

        if text == 'const uint8_t *':
            return ctypes.c_char_p  # by which bytes are handed in
        name = text.replace('const', '').replace('*', '').strip()
        kind = self._numbers[name] if name in self._numbers else self.structs[name]
        return ctypes.POINTER(kind) if '*' in text else kind


def _shared(archive: str, *more: str) -> ctypes.CDLL:
    """A static library, and sources that it needs, as a shared one, which the C compiler makes of them."""
    import ctypes
    import subprocess
    import tempfile

    with tempfile.TemporaryDirectory() as room:
        path = f'{room}/shared.so'
        words = ['cc', '-shared', '-fPIC', '-o', path, '-Wl,--whole-archive', archive, '-Wl,--no-whole-archive', *more, '-Wl,--no-undefined']
        try:
            done = subprocess.run(words, capture_output=True, text=True, check=False)
        except OSError as error:
            raise Unfit(f'cc makes a shared library of {archive}, and it can\'t be started: {error.strerror}') from None
        if done.returncode:
            raise Unfit(f'cc makes no shared library of {archive}: {done.stderr.strip()[-500:]}')
        return ctypes.CDLL(path)


class Library:
    """A library's structs and calls, by the header's declarations: an archive, with sources that it needs, or a shared library."""

    def __init__(self, path: str, *more: str) -> None:
        import ctypes

        try:
            with open(f'{TOP}/c/zebludor.h', encoding='utf-8') as file:
                header = Header(file.read())
            library = _shared(path, *more) if path.endswith('.a') else ctypes.CDLL(path)
        except OSError as error:
            raise Unfit(f"{path} can't be loaded: {error}") from None
        self.path, self.structs, self.calls = path, header.structs, dict[str, Any]()
        self.at, self._octet, self._is_limited = ctypes.byref, ctypes.c_uint8, False
        for name, (answer, parameters) in header.calls.items():
            if hasattr(library, name):
                self.calls[name] = call = getattr(library, name)
                call.restype, call.argtypes = answer, parameters

    def room(self, octets: int) -> Any:
        """Room for an answer of so many bytes."""
        return (self._octet * octets)()

    def limit(self) -> None:
        """The limit of a process's memory, for what this thread asks next, and for each session that is there."""
        if _limits or self._is_limited:
            self._is_limited = True  # for good: a thread's limit is lifted when it asks the next time
            self.calls['zebludor_limit'](_limits[0] * (1 + Called.there) << 20 if _limits else 0)


@functools.cache
def _loaded(path: str) -> Library:
    """A library, loaded once."""
    return Library(path, f'{TOP}/c/memory.c')


@functools.cache
def _own() -> Library | None:
    """The stored library, if it is made of the present sources, as the launcher's program is, and can be loaded here."""
    try:
        return _loaded(f'{TOP}/stored/{LIBRARY}') if _stored(LIBRARY) else None
    except Unfit:
        return None


_apart: list[bool] = []


@contextlib.contextmanager
def apart() -> Iterator[None]:
    """Within it all that is asked of a program is asked of a process: what outlives each answer does so, which a crash of the program mustn't
    end, or an interrupt keep waiting. Where no pipe can be waited for, the library answers too."""
    _apart.append(HAS_PIPES)
    try:
        yield
    finally:
        _apart.pop()


def library() -> Library | None:
    """The library that answers in this process in place of programs: the one that ZEBLUDOR_SESSION names, else the stored one. None if
    a program is named, or none can be loaded."""
    named = os.environ.get('ZEBLUDOR_SESSION')
    if named and not os.path.exists(named):
        raise Unfit(f"the library {named}, which ZEBLUDOR_SESSION names, isn't there")
    if named:
        return _loaded(named)
    return None if any(_apart) or any(os.environ.get(it) for it in ('PCBOARD', 'PCPROBE')) else _own()


def _octets_of(path: str) -> bytes | None:
    """The bytes of a file; None of what isn't regular, large, or not read, of which a process tells more."""
    try:
        found = os.stat(path)
        if not stat.S_ISREG(found.st_mode) or found.st_size > LARGE:
            return None
        with open(path, 'rb') as file:
            return file.read()
    except (OSError, ValueError):
        return None


def is_short(run: bytes) -> bool:
    """Whether a run file tells, in plain words, that its run isn't long."""
    budgets = BUDGET.findall(run)
    return len(budgets) == 1 and int(budgets[0]) <= LONG and b'\\' not in run


def _texts_of(words: list[str], given: bytes) -> list[bytes] | None:
    """What the files of a task hold: a source or Intel HEX, and of a run its run file. None if it is a process's."""
    names, end = FILES_OF.get(words[0], []), len(words) - 1 - words[::-1].index('--') if '--' in words else 0
    paths = words[end + 1 :]
    if not names or len(paths) != len(names) or not OPTIONS.issuperset(words[1:end]):
        return None
    texts = [given if path == '/dev/stdin' else _octets_of(path) for path in paths]
    found = [text for text in texts if text is not None and len(text) <= LARGE]
    return found if len(found) == len(names) and (len(names) == 1 or is_short(found[1])) else None


def ran_within(words: list[str], given: bytes, most: int, name: str) -> Ran | None:
    """What pcboard answers of a run or a source, by the library, in this process; None if that is a process's."""
    texts = _texts_of(words, given) if name == 'pcboard' and words else None
    them = library() if texts else None
    if not them or not texts:
        return None
    task = '\n'.join([words[0], *OPTIONS.intersection(words[1:-1]), *FILES_OF[words[0]], '']).encode()
    return (_assembled if words[0] == 'asm' else _asked)(them, (task, *texts), most, tuple(_limits))


def _asked(them: Library, texts: tuple[bytes, ...], most: int, _: tuple[int, ...]) -> Ran:
    """What pcboard answers to its words, as a text, and the texts of its files."""
    handed = [part for text in (*texts, *[b''] * (4 - len(texts))) for part in (text, len(text))]
    ended, rooms = them.structs['zebludor_ended'](), (ROOM, ROOM >> 4)
    while True:
        out, err = map(them.room, rooms)
        them.limit()
        them.calls['zebludor_pcboard'](*handed, out, len(out), err, len(err), them.at(ended))
        if ended.out > most:
            raise TooLong(f'the answer has more than {most:,} bytes')
        if ended.out <= len(out) and ended.err <= len(err):
            break
        rooms = max(len(out), ended.out), max(len(err), ended.err)
    printed = (bytes(memoryview(room)[:size]).decode('utf-8', 'replace') for room, size in ((out, ended.out), (err, ended.err)))
    return Ran(ended.status, *printed, by=them.path)


def ran_of(them: Library, image: bytes, run: bytes, most: int) -> Ran:
    """What pcboard answers of Intel HEX under a run file, however long that takes."""
    return _asked(them, (b'run\n--hex\nFILE\nRUN\n', image, run), most, ())


# A tool asks of one source again and again, and the same texts have the same answer.
_assembled = functools.lru_cache(8)(_asked)


class Called:
    """A session of pcprobe, or else of `pcboard debug`, by the calls of the library, in this process: an interrupt comes between the
    parts of a run, and else once a command is answered."""

    is_within, there = True, 0

    def __init__(self, library: Library, source: bytes, run: bytes, is_hex: bool, is_probe: bool) -> None:
        self._library = library
        self._command, self._text, self._drop = (library.calls[f'zebludor_session_{name}'] for name in ('command', 'text', 'drop'))
        begin = library.calls[f'zebludor_{"session" if is_probe else "debug"}_new{"_hex" * is_hex}']
        session, begun, self._told = (library.structs[f'zebludor_{name}']() for name in ('session', 'begun', 'told'))
        self._session, self._answer = library.at(session), library.at(self._told)
        library.limit()
        begin(self._session, source, len(source), run, len(run), library.at(begun))
        self.is_there, self.out, self._why = not begun.fault, io.BytesIO(), ''
        Called.there += self.is_there
        self._room = library.room(ROOM)

    def close(self) -> None:
        """Ends the session, and gives its memory back."""
        Called.there -= self.is_there
        self.is_there = False
        self._drop(self._session)

    def __del__(self) -> None:
        self.close()

    def send(self, text: str) -> bool:
        """Makes the commands, whose answers are read from then on; no, if there was no memory for one of them."""
        try:
            self.out = io.BytesIO(b''.join(map(self.answer, text.encode().removesuffix(b'\n').split(b'\n'))))
        except MemoryError:
            return False
        return True

    def ended(self) -> tuple[int, str]:
        """How a program would have ended."""
        return 1, 'fault 53 Memory'

    def is_answered(self, seconds: float | None) -> bool:
        """Whatever was asked is answered."""
        return True

    def answer(self, line: bytes) -> bytes:
        """The text of a command's answer. A run that isn't refused for its clocks is made in parts."""
        clocks = int(line[3:]) if LONG_RUN.fullmatch(line) else 0
        if clocks <= PART or int(self._made(b'go 0').split()[1]) + clocks > LAST_CLOCK:
            return self._made(line)
        part = PART
        while clocks > part:
            begun = time.monotonic()
            text = self._made(b'go %d' % part)
            if not text.startswith(b'clock '):
                return text
            clocks -= part
            part *= 2 if time.monotonic() - begun < 0.1 else 1
        return self._made(b'go %d' % clocks)

    def _made(self, line: bytes) -> bytes:
        """The text of the answer of a command, made at once."""
        told = self._told
        self._library.limit()
        self._command(self._session, line, len(line), self._room, len(self._room), self._answer)
        status = told.status
        if status == 2:
            self._room = self._library.room(told.length)
            self._text(self._session, self._room, len(self._room), self._answer)
            status = told.status
        if status == 1:
            raise Unfit('the session is closed')
        if status == 3:
            raise MemoryError
        return bytes(memoryview(self._room)[: told.length])


def called_of(words: list[str], is_probe: bool, is_cut: bool = True) -> Called | None:
    """A session of the library about files, as a program's words name them. None if it is a process's: if no library answers, if the
    files aren't read or are refused, which the program tells by name, and if the run is long, unless it may be cut."""
    texts = [_octets_of(path) for path in words[-2:]]
    if texts[0] is None or texts[1] is None or not (is_cut or is_short(texts[1])):
        return None
    them = library()
    called = Called(them, texts[0], texts[1], '--hex' in words[:-2], is_probe) if them else None
    return called if called and called.is_there else None


class Places:
    """Where the labels and the lines of a source stand, as the tools beside this file know it; of Intel HEX the labels and lines of a
    file of symbols, as --symbols takes it. A place that there isn't is Unfit."""

    def __init__(self, source: Source, *, is_hex: bool = False, symbols: str | os.PathLike | None = None) -> None:
        self._source, self._is_hex = source, bool(_hex_words(source, is_hex))
        self._symbols = None if symbols is None else os.fspath(symbols)

    def place(self, text: str) -> tuple[int, int]:
        """Segment and offset of a label, label+N (hexadecimal), :LINE or SEGMENT:OFFSET."""
        return self._told('far_of', text)

    def address(self, text: str) -> int:
        """A physical address: of such a place, or up to five hexadecimal digits."""
        return self._told('address_of', text)

    def line(self, number: int) -> tuple[int, int]:
        """Segment and offset of the first byte that a line places, or the next one that places some."""
        return self.place(f':{number}')

    @property
    def labels(self) -> dict[str, tuple[int, int]]:
        """All labels, with segment and offset."""
        return dict(self._listing.labels)

    @functools.cached_property
    def _listing(self) -> Any:
        tools = _toolbox('labels and lines')
        with _files(self._source) as names:
            files = tools.program.Files(names[-1], '', self._is_hex, self._symbols)
            try:
                with tools.guests.with_own_lines(files) as them:
                    return tools.listing.listing_of(them)
            except tools.command.Sorry as sorry:
                raise Unfit(str(sorry)) from None

    def _told(self, of: str, text: str) -> Any:
        tools = _toolbox('labels and lines')
        try:
            return getattr(tools.places, of)(self._listing, text)
        except tools.command.Sorry as sorry:
            raise Unfit(str(sorry)) from None


class Session:
    """A session of the debugger, as a context manager: a board at clock 0 that goes forth and back. Stops are numbered from 1,
    and stay for the whole session; what goes to a stop answers the number of the one that holds, or None. Its commands are
    those of docs/debugger.md; a refused one is raised as Fault. Services are as for `run`. `source` tells where labels and lines stand. With `probe` it is
    one of pcprobe, which has `events`, `key`, `watch` and `stop_when`, `set`, `undo` and `call`. Any thread may use it: a command waits until those of
    others are answered, and so does `close`, after which each is Unfit."""

    def __init__(
        self,
        source: Source,
        *,
        is_hex: bool = False,
        symbols: str | os.PathLike | None = None,
        probe: bool = False,
        services: bool | None = None,
        **fields: Any,
    ) -> None:
        self.source, self._is_probe = Places(source, is_hex=is_hex, symbols=symbols), probe
        self._lock, self._is_closed = threading.Lock(), False
        self._changes = list[tuple[int, list[str]]]()  # the last ones: their clocks, and what was given then, with the keys since
        self._returns = dict[tuple[int, int], int]()  # the stops to which routines return
        with _made(source, is_hex, services, fields) as words:
            self._dialogue = Dialogue(words, 'pcprobe', True) if probe else Dialogue(['debug', *words], is_cut=True)
            if self._dialogue.way.is_within:
                return
            try:
                self._dialogue.many('regs')  # behind its answer the files are read, and may go
            except BaseException:
                self._dialogue.close()
                raise

    def __enter__(self) -> Session:
        return self

    def __exit__(self, *_: object) -> None:
        self.close()

    def close(self) -> None:
        """Ends it."""
        with self._lock:
            if not self._is_closed:
                self._is_closed = True
                self._dialogue.close()

    @property
    def clock(self) -> int:
        """Where the board stands."""
        return self._dialogue.clock

    def _asked(self, ask: Callable[..., T], *given: Any) -> T:
        """What the dialogue answers to one thread at a time."""
        with self._lock:
            if self._is_closed:
                raise Unfit('the session is closed')
            return ask(*given)

    def _one(self, command: str) -> int | None:
        """The stop that the answer of a command tells, or None; a refusal is raised."""
        answer = self._asked(self._dialogue.one, command)
        fault = fault_in(answer)
        if fault:
            raise fault
        words = answer.split()
        return int(words[1]) if words[0] == 'stop' else None

    def _many(self, command: str) -> list[str]:
        """The lines of any other answer. A refusal is a line alone."""
        lines = self._asked(self._dialogue.many, command)
        fault = fault_in(lines[0]) if len(lines) == 1 else None
        if fault:
            raise fault
        return lines

    def _stop(self, condition: str) -> int:
        number = self._one(condition)
        assert number
        return number

    def stop_at(self, place: str | int, offset: int | None = None) -> int:
        """A stop: the processor is free at this CS:IP (`break`): a label or another place of `source`, or segment and offset."""
        segment, at = self.source.place(place) if isinstance(place, str) else (place, offset or 0)
        return self._stop(f'break {segment:X}:{at:X}')

    def stop_at_byte(self, place: str | int, value: int) -> int:
        """A stop: the byte at a label or at a physical address has a value (`byte`)."""
        return self._stop(f'byte {self._address(place):X} {value:X}')

    def _address(self, place: str | int) -> int:
        return self.source.address(place) if isinstance(place, str) else place

    def stop_at_sound(self) -> int:
        """A stop: the speaker is high (`sound`)."""
        return self._stop('sound')

    def stop_at_halt(self) -> int:
        """A stop: the processor is halted (`halted`)."""
        return self._stop('halted')

    def watch(self, place: str | int, count: int = 1, *, is_each_write: bool = False) -> int:
        """A stop: one of so many bytes, 1 to 65,536, from a label or a physical address on differs from the clock before (`changes`), or is
        written, also as it stands there (`when writes`)."""
        self._of_the_probe('watch')
        first = self._address(place)
        return self._stop(f'when writes={first:X}-{first + count - 1:X}' if is_each_write else f'changes {first:X} {count}')

    def stop_when(self, *kinds: str) -> int:
        """A stop: something of these kinds, which are those of `events`, has happened in the clock that led there (`when`)."""
        self._of_the_probe('stop_when')
        return self._stop(f'when {" ".join(map(self._kind, kinds))}')

    def go(self, clocks: int) -> int | None:
        """To the next stop, at most so many clocks on."""
        return self._one(f'go {clocks}')

    def step(self) -> None:
        """To the next clock at which the processor is free."""
        self._one('step')

    def back(self, clocks: int) -> None:
        """Back by so many clocks."""
        self._one(f'back {clocks}')

    def back_step(self) -> None:
        """Back to the last earlier clock at which the processor was free."""
        self._one('back step')

    def back_to_stop(self) -> int | None:
        """Back to the last earlier clock at which a stop held (`back stop`)."""
        return self._one('back stop')

    @property
    def registers(self) -> Registers:
        """The registers (`regs`), as a report has them."""
        return Registers(registers_of(self._many('regs')))

    def screen(self) -> list[str]:
        """The screen's 25 lines."""
        return self._many('screen')

    def dump(self, address: int, count: int) -> bytes:
        """Bytes from a physical address on, as many as there are below 100000h."""
        return self._asked(self._dialogue.dump, address, count)

    def byte(self, place: str | int) -> int:
        """The byte at a label, at another place of `source`, or at a physical address."""
        return self.dump(self._address(place), 1)[0]

    def word(self, place: str | int) -> int:
        """The word there."""
        return int.from_bytes(self.dump(self._address(place), 2), 'little')

    def events(self, clocks: int, *kinds: str) -> list[Happening]:
        """Goes on by so many clocks, whatever stops hold, and tells what happens in them, of kinds of docs/probe.md: `starts`,
        `entries`, `writes`, `ports`, `states`, `keys`, `wires`. Labels and other places of `source` may stand in the ranges of
        writes, as in `writes=ticks` or `writes=first-last`."""
        self._of_the_probe('events')
        *lines, last = self._asked(self._dialogue.happenings, f'events {clocks} {" ".join(map(self._kind, kinds))}')
        fault = fault_in(last)
        if fault:
            raise fault
        return [happening_of(each) for each in lines]

    def key(self, code: int, at: int | None = None) -> int:
        """Types a key by its scan code: it comes at clock `at`, above the present one, or at the next clock, which is answered, as if the
        run had had it from the start. Going back leaves it: on the way on it comes again."""
        self._of_the_probe('key')
        answer = self._asked(self._dialogue.one, f'key {code:X}' if at is None else f'key {code:X} {at}')
        fault = fault_in(answer)
        if fault:
            raise fault
        stamp = int(answer.split()[2])
        for _, given in self._changes[-1:]:
            given.append(f'key {code:X} {stamp}')
        return stamp

    def set(self, place: str | int, value: int | bytes, size: int = 1) -> None:
        """Changes the board as it stands: a register, a half of one or a flag, by its name in capitals; else what stands at a label, at
        another place of `source`, or at a physical address: bytes, or a number of so many. All that follows is of the changed board;
        `undo` takes it back, and no way back leads before it. Changes at one clock are one."""
        self._of_the_probe('set')
        if isinstance(place, str) and (place in REGISTERS or place in HALVES or place in FLAGS):
            self._change([f'set {name} {word:X}' for name, word in with_parts(self.registers, {place: value}).items()])
            return
        octets, at = value if isinstance(value, bytes) else _octets(value, size), self._address(place)
        before = self.dump(at, len(octets)) if len(octets) > SET_AT_ONCE else b''
        lines = _set_lines(dict(enumerate(octets, at)))
        for number, line in enumerate(lines):
            try:
                self._change([line])
            except Fault:
                self._change(_set_lines(dict(enumerate(before[: number * SET_AT_ONCE], at))))
                raise

    def _change(self, lines: list[str]) -> None:
        """Gives the session commands that change it. A refusal is raised once all are answered."""
        if lines and not (self._changes and self._changes[-1][0] == self.clock):
            self._changes = [*self._changes, (self.clock, list[str]())][-16:]
        self._took(lines, self._asked(self._dialogue.some, lines))

    def _took(self, lines: list[str], answers: list[str]) -> None:
        """What was given at the clock of the last change, so that it can be given again; what was refused is raised."""
        if lines:
            self._changes[-1][1].extend(line for line, answer in zip(lines, answers) if not answer.startswith('fault'))
            if not self._changes[-1][1]:
                self._changes.pop()
        for fault in filter(None, map(fault_in, answers)):
            raise fault

    def undo(self) -> None:
        """Goes back to before the last change; the last sixteen are kept. Keys that were typed since are gone."""
        self._of_the_probe('undo')
        self._one('undo')
        self._changes.pop()

    def routine(self, place: str | tuple[int, int], *, returns: str = 'near', most: int = 1_000_000, with_memory: bool = False) -> Routine:
        """A routine at a label or another place, to be called many times, each time on the board as it stands now: a context manager, at
        whose end the session is as it was. `returns` is `near`, `far` or `iret`; a call may take so many clocks at most."""
        self._of_the_probe('routine')
        if returns not in RETURNS:
            raise ValueError(f'{returns} is no way to return: {", ".join(RETURNS)}')
        return Routine(self, self.source.place(place) if isinstance(place, str) else place, returns, most, with_memory)

    def call(
        self,
        place: str | tuple[int, int],
        *,
        returns: str = 'near',
        stack: Sequence[int] = (),
        memory: Mapping[str | int, int | bytes] | None = None,
        most: int = 1_000_000,
        **registers: int,
    ) -> Returned:
        """Calls a routine on the board as it stands, with these registers (`ax=5`, `cl=1`, ..), words on the stack behind its return
        address, the nearest first, and memory, by labels or physical addresses. What it came to; NotReturned, if it takes more clocks.
        The session stands as before then."""
        with self.routine(place, returns=returns, most=most) as routine:
            found = routine(stack=stack, memory=memory, **registers)
            return found._replace(memory=routine.written())

    def _of_the_probe(self, name: str) -> None:
        """Refuses what `pcboard debug` hasn't."""
        if not self._is_probe:
            raise Unfit(f'a session of the probe has {name}: Session(source, probe=True)')

    def _kind(self, kind: str) -> str:
        """A kind as the probe takes it."""
        name, _, text = kind.partition('=')
        if name != 'writes' or not text:
            return kind
        first, _, last = text.partition('-')
        return f'{name}={self._address(first):X}-{self._address(last or first):X}'

    def trail(self) -> list[Event]:
        """The last 32 instruction starts and interrupt entries, the oldest first."""
        return [event_of(it) for it in self._many('trail')]


def _octets(value: int, size: int) -> bytes:
    """A number's bytes as memory has them, with a sign or without."""
    if not -(1 << 8 * size - 1) <= value < 1 << 8 * size:
        raise ValueError(f'{value} is no number of {size} bytes')
    return (value % (1 << 8 * size)).to_bytes(size, 'little')


def with_parts(now: Mapping[str, int], given: Mapping[str, Any]) -> dict[str, int]:
    """The registers that are given, by their names, or by those of halves and flags, which change what stands in theirs now."""
    found = {name: int.from_bytes(_octets(value, 2), 'little') for name, value in given.items() if name in REGISTERS}
    for name, value in given.items() if len(found) < len(given) else ():
        if name in REGISTERS:
            continue
        if name not in HALVES and name not in FLAGS:
            raise ValueError(f'{name} is no register, half of one, or flag')
        whole, shift = HALVES[name] if name in HALVES else ('FL', FLAGS[name])
        part = _octets(value, 1)[0] if name in HALVES else int(bool(value))
        most = 0xFF if name in HALVES else 1
        found[whole] = found.get(whole, now[whole]) & ~(most << shift) | part << shift
    return found


def _runs(addresses: Iterable[int], most: int) -> Iterator[range]:
    """Addresses as ranges of neighbours, each of so many at most."""
    found: range | None = None
    for at in sorted(addresses):
        if found and at == found.stop and len(found) < most:
            found = range(found.start, at + 1)
            continue
        if found:
            yield found
        found = range(at, at + 1)
    if found:
        yield found


def _set_lines(octets: Mapping[int, int]) -> list[str]:
    """The commands that set bytes by their addresses."""
    return [f'set {run.start:X} {" ".join(f"{octets[at]:02X}" for at in run)}' for run in _runs(octets, SET_AT_ONCE)]


class Returned(NamedTuple):
    """What a call came to: the registers where the routine has returned, the bytes that differ from before by their addresses, those of
    the stack too, and the clocks that it took."""

    registers: dict[str, int]
    memory: dict[int, int]
    clocks: int


class Routine:
    """A routine of a session's board. Each call is one of the board as it stood when the routine was asked for, which the session is
    again at the end. Between calls it stands where the last one has returned, and may be looked at."""

    def __init__(self, session: Session, place: tuple[int, int], returns: str, most: int, with_memory: bool) -> None:
        self._session, self._place, self._returns, self._most, self._with_memory = session, place, returns, most, with_memory
        self._clock, self._were, self._bytes_were = session.clock, session.registers, dict[int, int]()
        # What stands there at its clock by now. IP is set once even if it is the same: that ends a halt.
        self._are, self._bytes_are, self._is_changed = {**self._were, 'IP': -1}, dict[int, int](), False
        self._kept = next((list(given) for clock, given in session._changes[-1:] if clock == self._clock), None)
        self._left = int(session._many('chips')[-1].split()[3])  # clocks of what is under way
        self._back_to = (place[0] if returns == 'near' else RETURNED_TO, RETURNED_TO)
        if self._back_to not in session._returns:
            session._returns[self._back_to] = session.stop_at('%X:%X' % self._back_to)
        self._returned = f'stop {session._returns[self._back_to]} '
        self._frame = functools.lru_cache(64)(self._framed)  # calls mostly have the same one

    def __enter__(self) -> Routine:
        return self

    def __exit__(self, *_: object) -> None:
        self.close()

    def close(self) -> None:
        """The session is as it was before."""
        if self._is_changed and not self._session._is_closed:
            self._is_changed = False
            self._session.undo()
            self._session._change(self._kept or [])

    def __call__(self, *, stack: Sequence[int] = (), memory: Mapping[str | int, int | bytes] | None = None, **registers: int) -> Returned:
        then = {**self._were, **with_parts(self._were, {name.upper(): value for name, value in registers.items()})}
        then['SP'], octets = self._frame(then['FL'], then['SS'], then['SP'], *stack)
        then['CS'], then['IP'] = self._place
        if memory:
            octets = dict(octets)
            for place, value in memory.items():
                octets |= enumerate(value if isinstance(value, bytes) else _octets(value, 1), self._session._address(place))
        if not octets.keys() <= self._bytes_were.keys():
            self._look_at(octets)
        found, clocks = self._run(then, octets), self._session.clock - self._clock
        written = dict[int, int]()
        if self._with_memory:
            written = self.written()
            self._session.events(clocks, 'keys')
        return Returned(found, written, clocks - self._left)

    def _framed(self, flags: int, segment: int, top: int, *stack: int) -> tuple[int, dict[int, int]]:
        """SP where the routine begins, and the bytes that stand on the stack then, by their addresses."""
        words = (self._back_to[1], self._back_to[0], flags)[: RETURNS[self._returns] // 2]
        frame = b''.join([_octets(word, 2) for word in (*words, *stack)])
        top = (top - len(frame)) % 0x10000
        return top, {(16 * segment + (top + at) % 0x10000) % MEMORY: octet for at, octet in enumerate(frame)}

    def _back(self) -> list[str]:
        """The command that leads back to where each call begins."""
        return [f'back {self._session.clock - self._clock}'] if self._session.clock > self._clock else []

    def _look_at(self, octets: dict[int, int]) -> None:
        """What stands at addresses that no call has set before, and whether bytes can be set there."""
        for command in self._back():
            self._session._one(command)
        before = dict[int, int]()
        for run in _runs(octets.keys() - self._bytes_were.keys(), 4096):
            before |= enumerate(self._session.dump(run.start, len(run)), run.start)
        self._took(self._session._asked(self._session._dialogue.some, _set_lines(before)))
        self._bytes_were |= before
        self._bytes_are |= before

    def _took(self, answers: list[str]) -> None:
        """Raises what was refused. The first `set` that wasn't has begun a change, unless it belongs to one."""
        if not self._is_changed and any(answer == f'clock {self._clock}' for answer in answers):
            self._is_changed, changes = True, self._session._changes
            self._session._changes = changes if self._kept is not None else [*changes, (self._clock, list[str]())][-16:]
        for answer in answers:
            if answer.startswith('fault'):
                raise fault_in(answer) or Unfit(answer)

    def _run(self, then: dict[str, int], octets: dict[int, int]) -> dict[str, int]:
        """The registers where the routine has returned, of the board with these registers, these bytes, and all else as it was. Other
        stops are passed."""
        session, bytes_then = self._session, {**self._bytes_were, **octets}
        commands = self._back()
        if bytes_then != self._bytes_are:
            commands += _set_lines(dict(bytes_then.items() - self._bytes_are.items()))
        commands += [f'set {name} {word:X}' for name, word in then.items() if word != self._are[name]]
        answers, lines = session._asked(session._dialogue.some_and_registers, [*commands, f'go {self._most}'])
        self._took([*answers, *lines])
        self._are, self._bytes_are = then, bytes_then
        end = self._clock + self._most
        while not (answers[-1].startswith(self._returned) or answers[-1].startswith('stop') and self._has_returned(lines)):
            if session.clock >= end:
                raise NotReturned(f"the routine hasn't returned within {self._most:,} clocks")
            answers, lines = session._asked(session._dialogue.some_and_registers, [f'go {end - session.clock}'])
            self._took([*answers, *lines])
        return registers_of(lines)

    def _has_returned(self, lines: list[str]) -> bool:
        """Whether it has, where another stop holds, which is told first."""
        registers = registers_of(lines)
        return (registers['CS'], registers['IP']) == self._back_to and ' busy 0 ' in self._session._many('chips')[-1]

    def written(self) -> dict[int, int]:
        """The bytes that differ from where the last call began, to which the session goes back."""
        session, clocks = self._session, self._session.clock - self._clock
        session.back(clocks)
        runs = list(_runs({one.place for one in session.events(clocks, 'writes')}, 4096))
        after = [session.dump(run.start, len(run)) for run in runs]
        session.back(clocks)
        before = [session.dump(run.start, len(run)) for run in runs]
        pairs = ((at, old, new) for run, olds, news in zip(runs, before, after) for at, old, new in zip(run, olds, news))
        return {at: new for at, old, new in pairs if old != new}


# The chips.


class Chips(Library):
    """The static library's chips. ZEBLUDOR_CHIPS names another archive, or a shared library."""

    def __init__(self) -> None:
        path = os.environ.get('ZEBLUDOR_CHIPS') or next(filter(os.path.exists, CHIPS), CHIPS[-1])
        if not os.path.exists(path):
            raise Unfit(f"the chips' library {path} isn't there; dev/build zebludor_chips builds it, or ZEBLUDOR_CHIPS names another")
        super().__init__(path)

    def calls_of(self, chip: str) -> dict[str, Any]:
        """The library's calls of a chip, by the names behind its own."""
        begin = f'zebludor_{chip}_'
        return {name.removeprefix(begin): call for name, call in self.calls.items() if name.startswith(begin)}


@functools.cache
def chips() -> Chips:
    """The library, loaded once."""
    return Chips()


class Chip:
    """A chip by itself. `state` has its fields, which the header explains: they may be read, written, compared, kept as `bytes`.
    Any bytes are some chip. A number that doesn't fit is a ValueError, which names it."""

    name = ''

    def __init__(self, state: bytes | None = None) -> None:
        kind = chips().structs[f'zebludor_{self.name}']
        self.state: Any = kind() if state is None else kind.from_buffer_copy(state)
        self._calls, self._at = chips().calls_of(self.name), chips().at(self.state)

    def _call(self, call: str, **values: tuple[int, int]) -> Any:
        """Makes a call of the library with numbers, of which each goes up to a greatest one."""
        for name, (value, most) in values.items():
            if not 0 <= value <= most:
                raise ValueError(f'{name} is {value}, and has to be 0 to {most}')
        return self._calls[call](self._at, *(value for value, _ in values.values()))

    def __bytes__(self) -> bytes:
        return bytes(self.state)

    def __eq__(self, other: object) -> bool:
        return type(other) is type(self) and bytes(self) == bytes(other)

    def copy(self) -> Any:
        """Another chip, in the same state."""
        return type(self).of(bytes(self))

    @classmethod
    def of(cls, state: bytes) -> Any:
        """The chip whose state has these bytes."""
        chip = cls.__new__(cls)
        Chip.__init__(chip, state)
        return chip


class Pit(Chip):
    """A timer, Intel 8253 or 8254, from power-on."""

    name = 'pit'

    def __init__(self, kind: str = '8253') -> None:
        super().__init__()
        if kind not in CHOICES['timer']:
            raise ValueError(f'{kind} is no timer: {" or ".join(CHOICES["timer"])}')
        self._call('power_on_as', kind=(CHOICES['timer'].index(kind), 1))

    def read(self, port: int) -> int:
        """A byte of a counter, by its access and latches."""
        return self._call('read', port=(port, 3))

    def write(self, port: int, value: int) -> None:
        """A byte of a count, or to port 3 a control word."""
        self._call('write', port=(port, 3), value=(value, 255))

    def set_gate(self, counter: int, level: int) -> None:
        """A gate takes a level."""
        self._call('set_gate', counter=(counter, 2), level=(level, 1))

    def out(self, counter: int) -> int:
        """The level of an OUT."""
        return self._call('out', counter=(counter, 2))

    def advance(self, ticks: int) -> None:
        """Ticks of the three counters; any number takes as long."""
        self._call('advance', ticks=(ticks, (1 << 64) - 1))

    def until_change(self, counter: int) -> int:
        """After how many ticks an OUT first changes, as long as nothing is written; 0: never."""
        return self._call('until_change', counter=(counter, 2))


class Pic(Chip):
    """An interrupt controller, Intel 8259A, from power-on."""

    name = 'pic'

    def __init__(self) -> None:
        super().__init__()
        self._call('power_on')

    def set_line(self, level: int, is_high: int) -> None:
        """A request line takes a level."""
        self._call('set_line', level=(level, 7), is_high=(is_high, 1))

    def read(self, a0: int) -> int:
        """A read at an address line A0."""
        return self._call('read', a0=(a0, 1))

    def write(self, a0: int, value: int) -> None:
        """A command word at an address line A0."""
        self._call('write', a0=(a0, 1), value=(value, 255))

    def request(self) -> int:
        """The interrupt output."""
        return self._call('request')

    def acknowledge(self) -> int:
        """The interrupt acknowledge: the vector of the level that is taken, or of level 7."""
        return self._call('acknowledge')


class Ppi(Chip):
    """A parallel port, Intel 8255A in mode 0, from reset, with the switches on its pins."""

    name = 'ppi'

    def __init__(self, sw1: int = 0, sw2: int = 0) -> None:
        super().__init__()
        self._call('power_on', sw1=(sw1, 255), sw2=(sw2, 31))

    def read(self, port: int, latch: int = 0, out2: int = 0) -> int:
        """A port, with the keyboard's latch and the timer's OUT 2 on the pins."""
        return self._call('read', port=(port, 3), latch=(latch, 255), out2=(out2, 1))

    def write(self, port: int, value: int) -> None:
        """To a port's latch, or to port 3 a control word."""
        self._call('write', port=(port, 3), value=(value, 255))

    def port_b(self) -> int:
        """The levels of port B's lines."""
        return self._call('port_b')
