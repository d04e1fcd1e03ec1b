"""What stands in textbooks, made ready for the board: a .COM or .EXE program, a diskette's first sector, a source with services, or
one for NASM or bcc, as Intel HEX and a run file that any tool runs. Each front that takes such a file takes it by `prepared`."""
from __future__ import annotations

import argparse
import contextlib
import os
import re
import sys
import tempfile
from typing import TYPE_CHECKING, Any, Iterator, NamedTuple

from toolbox import reading
from toolbox.command import SYMBOLS, Sorry, handed_on, read_bytes, write_bytes
from toolbox.listing import DIALECT
from toolbox.program import LAST_CLOCK, Files, Refusal, answer_of, is_hex_name, limited, run
from toolbox.runfile import DEFAULTS, read_run_file, text_of
from toolbox.services import MOST_RAM, TYPING, is_served
from toolbox.shown import LONGEST_LINE, bounded, clipped

if TYPE_CHECKING:
    from toolbox.loading import Loaded
    from toolbox.scancodes import Stroke

BINARIES = ('.com', '.exe', '.bin')
COMPILERS = {'nasm': ('nasm', 'nasm'), 'bcc': ('bcc', 'bcc elks-libc')}  # the command, and Debian's packages
OWN = 'dialect'
LANGUAGES = {'masm': 'of MASM, TASM or emu8086', 'nasm': 'for NASM', 'bcc': 'in C', OWN: "of the board's dialect"}
WORDS = '--services, --com, --args, --file, --files-out, --masm, --nasm, --bcc'
MAPPED = r' *\S+ +\S+ +[0-9a-f] +[0-9a-f]{8} +[A-Za-z]'  # a row of ld86's map, which bcc prints last
FIRST_OF_BCC = 'crt0.o'  # what stands before a program, of bcc's library
Fields = dict[str, Any]
LONGEST = 1 << 20  # bytes of a program, which is all that the processor reaches
AS_OWN = "taken as one of the board's own dialect"
_told = set[str]()


class Remark(NamedTuple):
    """What is told of a line: the path of its text, its number and the line itself, and words."""

    path: str
    number: int
    line: str
    words: str

    @property
    def sentences(self) -> list[str]:
        """What is told, and the line."""
        shown = f'  {self.number:5} | {clipped(self.line, LONGEST_LINE)}'.rstrip()
        return [f'{self.path}, line {self.number}: {clipped(self.words)}', shown]


class Refused(Sorry):
    """A source of MASM that isn't translated, or whose translation pcboard refuses: what is told of its lines."""

    def __init__(self, remarks: list[Remark]) -> None:
        super().__init__('\n'.join(bounded([line for one in remarks for line in one.sentences])))
        self.remarks = remarks


class Guest(NamedTuple):
    """A file as it was given, and how it is taken: the command's tail, as a source with services or by `--com`, the
    language that is said or seen, or without services; whether the look of a source has told that, and whether the
    program refuses it; and the files on its disk: by None it gets one if it may use it."""

    file: str
    args: str | None = None
    is_served: bool = False
    is_com: bool = False
    language: str | None = None
    is_bare: bool = False
    is_seen: bool = False
    is_refused: bool = False
    files: tuple[str, ...] | None = None

    @property
    def is_one(self) -> bool:
        """Whether it needs the services."""
        return not self.is_bare and (self.is_served or not self.is_source)

    @property
    def is_source(self) -> bool:
        """Whether it is a source of the dialect."""
        return self.language in (None, OWN) and not (self.is_com or ending(self.file) in BINARIES)


def ending(path: str) -> str:
    """A file's ending in small letters."""
    return os.path.splitext(path)[1].lower()


def add_files(reader: argparse.ArgumentParser) -> None:
    """FILE and RUN, and the words by which a tool takes them."""
    reader.add_argument('file', metavar='FILE', help='the source, or Intel HEX')
    reader.add_argument('run_file', nargs='?', metavar='RUN', help='the run file')
    add_words(reader)


def add_words(reader: argparse.ArgumentParser, has_symbols: bool = True) -> None:
    """The words by which a tool takes its FILE."""
    reader.add_argument('--hex', action='store_true', help='FILE is Intel HEX, as one is whose name ends in .hex')
    if has_symbols:
        reader.add_argument('--symbols', metavar='FILE', help=SYMBOLS)
    bare = 'no services: else a source that calls INT 10h, 16h, 20h or 21h and has nothing at FFFF:0000 has them'
    reader.add_argument('--bare', action='store_true', help=bare)
    reader.add_argument('--services', action='store_true', help='FILE is a source with services, whatever it calls')
    reader.add_argument('--com', action='store_true', help='FILE is a .COM program, whatever its name')
    reader.add_argument('--args', metavar='TEXT', help="the command's tail of a program with services")
    reader.add_argument('--file', metavar='NAME', action='append', dest='files', help='put a file on its disk; several')
    languages = reader.add_mutually_exclusive_group()
    for name, what in LANGUAGES.items():
        said = f'FILE is a source {what}, whatever stands in it'
        languages.add_argument(f'--{name}', action='store_const', const=name, dest='language', help=said)


def guest_of(given: argparse.Namespace, file: str | None = None) -> Guest:
    """What those words say, and else the look of the file."""
    name, is_hex, files = file or given.file, given.hex, tuple(given.files or ())
    is_disk = bool(files or getattr(given, 'files_out', None))
    said = Guest(name, given.args, given.services, given.com, given.language, files=files if is_disk else None)
    is_wanting = given.args is not None or is_disk
    if given.bare and (given.services or given.com or is_wanting or said.language not in (None, OWN)):
        raise Sorry(f'--bare goes without the words that a program with services has: {WORDS}')
    if said.is_one and is_hex and not given.bare:
        raise Sorry(f'--hex goes without --services and --com, and {name} is no Intel HEX')
    found = looked_at(said._replace(is_bare=given.bare or not said.is_one and (is_hex or is_hex_name(name))))
    if is_wanting and not (found.is_one or found.is_refused):
        goes = '--args goes' if given.args is not None else '--file and --files-out go'
        raise Sorry(f'{goes} with a .COM or .EXE program, or a source that calls INT 10h, 16h, 20h or 21h')
    return found


def words_of(given: argparse.Namespace) -> list[str]:
    """Those words, for another command."""
    names = [name for name in ('hex', 'services', 'com', 'bare') if getattr(given, name)] + ([given.language] if given.language else [])
    valued = {'symbols': given.symbols, 'args': given.args}
    words = [f'--{name}' for name in names] + [f'--{name}={value}' for name, value in valued.items() if value is not None]
    return words + [f'--file={path}' for path in given.files or []]


def origin_of(octets: bytes) -> tuple[str, int | None]:
    """Which assembler's a text is, `masm`, `nasm` or `dialect`, as pcmasm tells, and the line that shows it, if one
    does; the dialect's, if none shows another's. A line that only the dialect has spares the question."""
    found = DIALECT.search(octets)
    if found:
        return 'dialect', octets.count(b'\n', 0, found.start()) + 1
    name, *line = run(['--origin', '/dev/stdin'], octets, 'pcmasm').out.split() or ['dialect']
    return name, int(line[0]) if line else None


def is_masm(path: str) -> bool:
    """Whether what stands in a file shows that it is a source of MASM. What shows that it is NASM's is told once, or
    that nothing shows whose it is."""
    try:
        name, line = origin_of(reading.read_whole(path))
    except OSError:
        return False  # which whoever reads the file tells
    except Sorry as sorry:
        say_once(f"whether {path} is a source of MASM isn't known: {sorry}")
        return False
    if name == 'nasm':
        say_once(f"{path}, line {line}, is NASM's, and the file is {AS_OWN}; --nasm or --masm says what it is")
    elif name == 'dialect' and line is None:
        say_once(f'no line of {path} shows whose source it is, so it is {AS_OWN}; --masm or --nasm says what it is')
    return name == 'masm'


def say_once(sentence: str) -> None:
    """Tells something on standard error, unless that is done already."""
    if sentence not in _told:
        _told.add(sentence)
        print(f'{os.path.basename(sys.argv[0])}: {sentence}', file=sys.stderr)


def looked_at(guest: Guest) -> Guest:
    """A source as its look tells, if no word does: one of MASM, or with services, or none of these."""
    if guest.is_bare or not guest.is_source:
        return guest
    if guest.language != OWN and is_masm(guest.file):
        return guest._replace(language='masm', is_seen=True)
    if guest.is_served:
        return guest
    look = is_served(guest.file)
    return guest._replace(is_served=bool(look), is_seen=bool(look), is_refused=look is None)


def said_of(guest: Guest, file: str, without: str = '--bare', otherwise: str = '--nasm or --dialect') -> str:
    """How a source is taken by its look, and what takes it otherwise, as a sentence."""
    if guest.language == 'masm':
        what = 'is a source of MASM, TASM or emu8086, and runs with the services (docs/masm.md)'
        return f'{file} {what}; {otherwise} takes it otherwise'
    return f'{file} runs with the services (docs/services.md); {without} runs it without'


def asked(given: argparse.Namespace) -> tuple[Guest, Files]:
    """What a command line with FILE and RUN asks for. RUN may be missing."""
    return guest_of(given), Files(given.file, given.run_file or '', given.hex or is_hex_name(given.file), given.symbols)


def loaded(guest: Guest, ram: int, room: str) -> Loaded:
    """The program with the services in memory."""
    from toolbox import loading

    if guest.language == 'masm':
        return translated(guest, ram, room)
    if guest.language in COMPILERS:
        from toolbox import foreign

        made = compiled(guest, room)
        found = of_bytes(guest, read_bytes(f'{made}.com', LONGEST), ram, '')
        return found._replace(rows=foreign.rows_of(guest.file, f'{made}.map' if guest.language == 'bcc' else f'{made}.lst', found))
    if guest.is_com or ending(guest.file) in BINARIES:
        return of_bytes(guest, read_bytes(guest.file, LONGEST), ram, '.com' if guest.is_com else ending(guest.file))
    return loading.source(guest.file, guest.args or '', ram)


def translated(guest: Guest, ram: int, room: str) -> Loaded:
    """A source of MASM, with the rows of its own lines and names."""
    from toolbox import foreign, loading

    translation = foreign.translation_of(guest.file)
    path = os.path.join(tempfile.mkdtemp(dir=room), os.path.basename(guest.file))
    write_bytes(path, translation.text.encode('ascii', 'replace'))
    try:
        found = loading.source(path, guest.args or '', ram)
    except Sorry as sorry:
        refused = next(translation.refused(), None)
        raise (Refused([refused]) if refused else Sorry(str(sorry).replace(path, guest.file))) from None
    count = len(translation.lines)
    return found._replace(rows=translation.rows(found.rows[:count]) + found.rows[count:])


def of_bytes(guest: Guest, octets: bytes, ram: int, kind: str) -> Loaded:
    """A program of bytes. One that begins with MZ is an .EXE program, whatever its name, as for DOS."""
    from toolbox import loading

    args, name = guest.args or '', guest.file
    if octets[:2] in (b'MZ', b'ZM') and kind != '.bin':
        return loading.exe(name, octets, args, ram)
    if kind == '.exe':
        raise Sorry(f"{name} doesn't begin with MZ, as an .EXE program does; --com takes it as a .COM program")
    if kind == '.bin' or not kind and len(octets) == 512 and octets[-2:] == b'\x55\xAA':
        if guest.args is not None:
            raise Sorry('--args goes with a .COM or .EXE program: a first sector has no command')
        return loading.sector(name, octets)
    return loading.com(name, octets, args)


def compiled(guest: Guest, room: str) -> str:
    """What NASM or bcc makes of a source, as far as to its ending: .com, .lst and bcc's .map. Their messages are
    shown."""
    assert guest.language
    command, package = COMPILERS[guest.language]
    read_bytes(guest.file)
    stem, folder = os.path.splitext(os.path.basename(handed_on(guest.file)))[0], os.path.dirname(guest.file) or '.'
    made = os.path.join(room, stem)
    words = {
        'nasm': ['-f', 'bin', f'-I{folder}/', '-l', f'{made}.lst', '-o', f'{made}.com', guest.file],
        'bcc': ['-Md', '-C-t', '-A-l', f'-A{made}.lst', '-M', f'-I{folder}', '-o', f'{made}.com', guest.file],
    }[guest.language]
    import shutil  # and below symbols: what takes long to load, and few programs need
    import subprocess

    install = f'install it (Debian: apt-get install {package})'
    if not shutil.which(command):
        raise Sorry(f"{command} isn't there; {install}")
    ran = subprocess.run(limited([command, *words]), stdin=subprocess.DEVNULL, capture_output=True, check=False)
    out, err = (octets.decode('utf-8', 'replace') for octets in (ran.stdout, ran.stderr))
    printed, *mapped = re.split(f'^(?={MAPPED})', out, maxsplit=1, flags=re.M)
    write_bytes(f'{made}.map', '\n'.join(re.findall(rf'^ *{re.escape(stem)} .*', ''.join(mapped), re.M)).encode())
    messages = '\n'.join(bounded(f'{printed}\n{err}'.strip().split('\n')))
    if ran.returncode or not os.path.isfile(f'{made}.com'):
        if FIRST_OF_BCC in messages:
            raise Sorry(f'{command} has no library to link programs with; {install}')
        raise Sorry(f'{command} refuses {guest.file}:\n{messages or f"status {ran.returncode}"}')
    if messages:
        print(messages, file=sys.stderr)
    return made


def typed(guest: Guest, strokes: list[Stroke] | None) -> Fields:
    """The field of the keys that are typed, if any are. To a program with services they come later and more slowly."""
    if strokes is None:
        return {}
    from toolbox.scancodes import BARE, stamped

    return {'keys': stamped(strokes, *(TYPING if guest.is_one else BARE))}


def fields_for(guest: Guest, run_file: str | None, more: Fields | None = None, usual: Fields | None = None) -> Fields:
    """The run file's fields: RUN's, or the usual ones, and before these `more`. With services it has all the RAM that
    there can be, and where nothing says a budget, that has room for the keys."""
    fields = DEFAULTS | ({'ram': MOST_RAM} if guest.is_one else {}) | (usual or {})
    fields |= (read_run_file(run_file) if run_file else {}) | (more or {})
    if not run_file and fields['keys'] and 'budget' not in (more or {}):
        fields['budget'] = min(max(fields['budget'], 2 * fields['keys'][-1][0]), LAST_CLOCK)
    if guest.is_one:
        from toolbox.loading import check_ram

        check_ram(fields['ram'], run_file or guest.file)
    return fields


def kept(guest: Guest, run_file: str | None, symbols: str | None, name: str | None) -> tuple[str, str, str]:
    """The image, the run file and the symbols as files that stay, for a tool that writes to them. None is written over."""
    if not name:
        stay = '--keep NAME says where they stay'
        raise Sorry(f'{guest.file} becomes an image and a run file, to which the page may write: {stay}')
    paths = f'{name}.hex', f'{name}.json', f'{name}.symbols'
    there = next((each for each in paths if os.path.lexists(each)), None)
    if there:
        raise Sorry(f'{there} is there already; FILE {paths[0]} and RUN {paths[1]} go on with it')
    with prepared(guest, Files(guest.file, run_file or '')) as made:
        if not made.symbols:  # the program refuses it, and says why
            answer_of(['asm', '--', handed_on(guest.file)])
        keep(made, *paths)
    return paths[0], paths[1], symbols or paths[2]


def keep(made: Files, *paths: str) -> None:
    """Keeps the image, the run file and perhaps the symbols under these names."""
    for path, to in zip((made.file, made.run_file, made.symbols or ''), paths):
        write_bytes(to, read_bytes(path))


@contextlib.contextmanager
def with_own_lines(files: Files) -> Iterator[Files]:
    """The files themselves, or what is made of a source of MASM by its look; nothing is told of that."""
    guest = looked_at(Guest(files.file, is_bare=files.is_hex or bool(files.symbols)))
    with tempfile.TemporaryDirectory(prefix='zebludor-') as room:
        yield (made_with(guest, room) if guest.language else None) or files


def tell_of(guest: Guest) -> None:
    """Tells once how a program is taken, and what pcmasm notes of it."""
    if guest.language == 'masm':
        from toolbox import foreign

        notes = foreign.translation_of(guest.file).notes
        for line in bounded([f'{one.path}, line {one.number}{one.words.removeprefix("note")}' for one in notes]):
            say_once(line)
    if guest.is_seen:
        say_once(said_of(guest, guest.file))


@contextlib.contextmanager
def prepared(guest: Guest, files: Files, more: Fields | None = None) -> Iterator[Files]:
    """The files that a tool runs: `files` themselves, or what is made of them where they need the services; `more` has all fields of
    another run file, or stands before RUN's for the services. RUN may be missing (empty). A source that the program refuses stays what it is."""
    with tempfile.TemporaryDirectory(prefix='zebludor-') as room:
        made = made_with(guest, room, files.run_file, more) if guest.is_one else None
        if made:
            tell_of(guest)
            files = made._replace(symbols=files.symbols, source=None) if files.symbols else made
        elif more or not files.run_file:
            files = files._replace(run_file=os.path.join(room, 'run.json'))
            with open(files.run_file, 'w', encoding='utf-8') as file:
                file.write(text_of(more or DEFAULTS))
        yield files


def made_with(guest: Guest, room: str, run_file: str | None = None, more: Fields | None = None) -> Files | None:
    """What is made in a folder of a program with services, by RUN's fields and those that stand before them: Intel HEX, a run file and symbols;
    or None of a source that the program refuses, as it then does by itself."""
    from toolbox import disk

    fields = fields_for(guest, run_file, more)
    try:
        found = disk.beside(loaded(guest, fields['ram'], room), guest.file, guest.files, fields['ram'])
    except Refusal:
        if guest.is_source:
            return None
        raise
    stem = os.path.join(room, os.path.splitext(os.path.basename(guest.file))[0] or 'it')
    for end, text in {'hex': found.hex, 'json': text_of(fields), 'symbols': '\n'.join(found.rows) + '\n'}.items():
        with open(f'{stem}.{end}', 'w', encoding='utf-8', errors='surrogateescape') as file:
            file.write(text)
    source = os.path.abspath(guest.file) if guest.is_source else None
    return Files(f'{stem}.hex', f'{stem}.json', True, f'{stem}.symbols', source)
