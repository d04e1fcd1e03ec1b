"""How every tool begins and ends, so that all of them refuse in the same way: a sentence on standard error that names the
tool, and a status that is one of all tools (docs/formats.md#exit-statuses)."""
import argparse
import contextlib
import errno
import gc
import io
import os
import re
import sys
import threading
import time
from typing import Callable, Iterator

from toolbox import reading
from toolbox.threads import TELLER, begin
from toolbox.writing import write_whole

HINT_STATUS, UNREADABLE_STATUS = 2, 3
LONGEST = 1000  # characters of a sentence
MOST = 100  # lines, or refused lines of a source
MISTAKE = 'a mistake of this tool has ended it'
COLLECTED = 50_000  # objects between two looks for what nobody needs: a look takes long where a source has a million lines
STARTED = 'ZEBLUDOR_STARTED'  # in the environment: how the user has started the command zebludor, by which he then knows the tools
PYTHON = sys.executable or 'python3'  # Python knows no path of its own where it was started without PATH
SYMBOLS = (
    "with --hex: a NASM listing or map file, or a listing of pcboard asm --list, for labels and lines; FILE@SEGMENT or "
    "FILE@SEGMENT:OFFSET, where NASM's first byte isn't at F000:0000; or labels as nm or ld86 -M prints them, with lines of C if "
    "as86's listings stand beside ld86's map, or lines SEGMENT:OFFSET NAME; FILE@SEGMENT,ram=PARAGRAPH gives names to what has no bytes, as in .bss, and to data of C"
)


class Sorry(Exception):
    """What was given isn't the tool's input; its text is a sentence for the user."""

    status = HINT_STATUS


class Unreadable(Sorry):
    """A file can't be opened, read or written."""

    status = UNREADABLE_STATUS


class Reader(argparse.ArgumentParser):
    """A parser whose help names the tools as the user starts them."""

    def format_help(self) -> str:
        return named(super().format_help())

    def format_usage(self) -> str:
        return named(super().format_usage())


def parser(doc: str) -> argparse.ArgumentParser:
    """A parser whose help is the tool's own docstring."""
    folder, name = os.path.split(os.path.realpath(sys.argv[0]))
    prog = named(f'{os.path.basename(folder)}/{name}')
    return Reader(prog=prog, description=doc, allow_abbrev=False, formatter_class=argparse.RawDescriptionHelpFormatter)


def tool(name: str) -> str:
    """A tool's name as the user starts it: tools/NAME, or zebludor NAME where that command was started."""
    started = os.environ.get(STARTED)
    return f'{started} {name}' if started else f'tools/{name}'


def named(text: str) -> str:
    """A text of ours, in which the tools have the names by which the user starts them. What stands in columns stays so."""
    if not os.environ.get(STARTED):
        return text
    lines, shift = list[str](), 0
    for line in text.split('\n'):
        anew = re.sub(r'(?<![\w/])tools/(?!test|toolbox|zebludor)([a-z]+)', lambda found: tool(found[1]), line)
        if '/' not in os.environ[STARTED]:
            anew = re.sub(r'(?<![\w/.])\./(pcboard|pcprobe)\b', r'\1', anew)
        is_behind = line.startswith(' ' * 10)
        shift = shift if is_behind else len(anew) - len(line) if line.startswith('  tools/') else 0
        lines.append(' ' * shift * is_behind + anew)
    return '\n'.join(lines)


@contextlib.contextmanager
def waiting(what: str, seconds: float = 2) -> Iterator[Callable[[str], None]]:
    """What goes on, told on standard error once it has lasted so many seconds: on a terminal in one line that is renewed,
    elsewhere each ten seconds. It gives what says how far it is."""
    is_terminal, begun, ended = sys.stderr.isatty(), time.monotonic(), threading.Event()
    far = ['']

    def tell() -> None:
        pause = seconds
        while not ended.wait(pause):
            text = f'{what}{far[0]}, {time.monotonic() - begun:.0f} s'
            print(f'\r{text}\033[K' if is_terminal else text, end='' if is_terminal else '\n', file=sys.stderr, flush=True)
            pause = 1 if is_terminal else 10
        if is_terminal and pause != seconds:
            print('\r\033[K', end='', file=sys.stderr, flush=True)

    def say(how_far: str) -> None:
        far[0] = f': {how_far}'

    teller = begin(tell, TELLER)
    try:
        yield say
    finally:
        ended.set()
        teller.join()


def want(module: str, why: str) -> None:
    """Ends a tool with a sentence on a system whose Python lacks a module; `why` is what it is wanted for."""

    def refused(_: list[str]) -> int:
        raise Sorry(f"this Python has no module {module.lstrip('_')}, by which {why}")

    try:
        __import__(module)
    except ImportError:
        start(refused)


def want_call(module: object, name: str, why: str) -> None:
    """Refuses on a system that lacks a call; `why` is what it is wanted for."""
    if not hasattr(module, name):
        raise Sorry(f'this system has no {name}, by which {why}')


def start(main: Callable[[list[str]], int]) -> None:
    """Runs a tool to its exit status; a reader that goes away, as `head` does, is no mistake."""
    gc.set_threshold(COLLECTED)
    with_streams()
    try:
        status = status_of(main)
        sys.stdout.flush()
    except Sorry as sorry:
        status = refuse(str(sorry), sorry.status)
    except BrokenPipeError:
        silence()
        status = 0
    except OSError as error:
        silence()
        sentence = f'{error.filename}: {error.strerror}' if error.filename else str(error.strerror or error)
        status = refuse(sentence, HINT_STATUS if error.errno == errno.ENOMEM else UNREADABLE_STATUS)  # no file is to blame for want of memory
    except KeyboardInterrupt:
        silence()
        status = 130
    except Exception as error:  # pylint: disable=broad-exception-caught
        silence()
        status = refuse(f'{MISTAKE}: {type(error).__name__}: {error} ({place_of(error)})')
    gc.freeze()  # Python looks through all objects once more at its end, and nobody needs that
    sys.exit(status)


def place_of(error: Exception) -> str:
    """Where an exception was raised."""
    where = error.__traceback__
    while where and where.tb_next:
        where = where.tb_next
    return f'{os.path.basename(where.tb_frame.f_code.co_filename)}, line {where.tb_lineno}' if where else 'nowhere'


def status_of(main: Callable[[list[str]], int]) -> int:
    """A tool's exit status, also where its parser ends it behind the help, which may not be written yet."""
    try:
        return main(sys.argv[1:])
    except SystemExit as ended:
        return ended.code if isinstance(ended.code, int) else int(ended.code is not None)


def clipped(text: str, most: int = LONGEST) -> str:
    """A text, or its beginning, if it is longer than so many characters."""
    return text if len(text) <= most else f'{text[:most]} .. and {len(text) - most:,} characters more'


def bounded(lines: list[str]) -> list[str]:
    """Lines, or the first of them, if they are many."""
    return [*map(clipped, lines[:MOST]), *more(len(lines))]


def more(count: int) -> list[str]:
    """What is said behind the first of so many lines, if not all are shown."""
    return [f'.. and {count - MOST:,} lines more'] if count > MOST else []


def refuse(sentence: str, status: int = HINT_STATUS) -> int:
    """Tells why the tool can't do it, and returns the status. What it quotes of a file may be long."""
    lines = sentence.split('\n')
    # a sentence, lines that were bounded, and how many more there are
    shown = [*map(clipped, lines)] if len(lines) <= MOST + 2 else bounded(lines)
    with contextlib.suppress(OSError):
        print(f'{os.path.basename(sys.argv[0])}:', '\n'.join(shown), file=sys.stderr)
    return status


def silence() -> None:
    """What isn't written to standard output yet is dropped, so that Python doesn't try it again at its end."""
    os.dup2(os.open(os.devnull, os.O_WRONLY), sys.stdout.fileno())


def with_streams() -> None:
    """Opens the null device for each of standard input, output and error that the tool was started without, so that reading
    and printing work. Bytes of standard input that aren't UTF-8 stay visible as escapes."""
    for number, name, mode in ((0, 'stdin', 'r'), (1, 'stdout', 'w'), (2, 'stderr', 'w')):
        if getattr(sys, name) is None:
            os.dup2(os.open(os.devnull, os.O_RDWR), number)
            setattr(sys, name, open(number, mode, encoding='utf-8'))  # pylint: disable=consider-using-with
    if isinstance(sys.stdin, io.TextIOWrapper):
        sys.stdin.reconfigure(encoding='utf-8', errors='backslashreplace')


def state_folder() -> str:
    """Where the tools keep what a user has typed: below $XDG_STATE_HOME, or ~/.local/state."""
    state = os.environ.get('XDG_STATE_HOME', '')
    if not os.path.isabs(state):
        state = os.path.join(os.path.expanduser('~'), '.local', 'state')
    return os.path.join(state, 'zebludor')


def read_text(path: str, most: int = reading.LONGEST) -> str:
    """A file's text, `-` for standard input. Bytes that aren't UTF-8 stay visible as escapes."""
    octets = read_input(most) if path == '-' else read_bytes(path, most)
    return octets.decode('utf-8', 'backslashreplace')


def read_bytes(path: str, most: int = reading.LONGEST) -> bytes:
    """A file's bytes, of which there may be so many."""
    try:
        return reading.read_whole(path, most)
    except OSError as error:
        raise Unreadable(f"{path} can't be read: {error.strerror}") from None


def read_input(most: int = reading.LONGEST) -> bytes:
    """The bytes of standard input."""
    try:
        octets = sys.stdin.buffer.read(most + 1)
    except OSError as error:
        raise Unreadable(f"standard input can't be read: {error.strerror}") from None
    if len(octets) > most:
        raise Unreadable(f'standard input has more than {most:,} bytes')
    return octets


def handed_on(path: str, most: int = reading.LONGEST) -> str:
    """The path of a file that a program opens. What can't be read at all that program refuses in its own words."""
    try:
        reading.check(path, most)
    except reading.Unfit as error:
        raise Unreadable(f"{path} can't be read: {error.strerror}") from None
    except OSError:
        pass
    return path


def write_text(path: str, text: str) -> None:
    """Writes a file whole, `-` for standard output."""
    if path != '-':
        write_bytes(path, text.encode())
        return
    try:
        sys.stdout.write(text)
    except OSError as error:
        raise Unreadable(f"{path} can't be written: {error.strerror}") from None


def write_bytes(path: str, octets: bytes) -> None:
    """Writes a file whole: where that fails, the old one is left as it was."""
    try:
        write_whole(path, octets)
    except OSError as error:
        raise Unreadable(f"{path} can't be written: {error.strerror}") from None
