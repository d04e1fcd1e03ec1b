"""What a program was made of and what was proved of it: the text PROVED beside it, the programs that are stored in the
repository, and the verdicts of crates. These are remembered below the user's cache by what the crates hold, since a crate that
is kept isn't proved again, and then has no verdict printed."""
from __future__ import annotations

import os
import re
import shutil
import subprocess
from dataclasses import dataclass
from typing import Iterable

from toolbox.command import Sorry, write_text
from toolbox.crates import CACHE, TOP, Crates, want_rattle
from toolbox.sources import files, stamps, sum_of, sum_of_sources

PROGRAMS = ('pcboard', 'pcprobe', 'pcmasm')  # which are stored together
# The library that is stored beside them: for which target each of its files is made.
LIBRARY, LIBRARY_FILES = 'zebludor_program', {'zebludor.wasm': 'wasm', 'libzebludor.so': 'shared'}
STORED = f'{TOP}/stored'
REMEMBERED = f'{CACHE}/zebludor/verdicts'
VERDICT = 'logic=proved '
TEXT = re.compile(r'kit (\S+)\nlogic (\S+)\n((?:made \S+ \S+ sources \S+\n)*)((?:target .*\n(?:trusted .*\n)*)*)((?:\w+: .*\n)*)((?:changed \S+ \S+\n)*)')


@dataclass(frozen=True)
class Made:
    """A program or library: the SHA-256 of its file, and the sum of its sources."""

    sum: str
    sources: str


@dataclass(frozen=True)
class Proved:
    """The text PROVED: kit and logic, what they made by the names of its files, and of each crate the line in which Rattle tells
    that it is proved. Of each file for another target than x86-64 Linux with glibc also the lines that tell the target and the module
    that was compiled for it, and what more is to be trusted."""

    kit: str
    logic: str
    made: dict[str, Made]
    verdicts: dict[str, str]
    target: str = ''
    changed: str = ''  # the lines in which a package tells that it has changed a file, as strip does

    def text(self) -> str:
        made = ''.join(f'made {name} {file.sum} sources {file.sources}\n' for name, file in self.made.items())
        verdicts = ''.join(f'{name}: {verdict}\n' for name, verdict in sorted(self.verdicts.items()))
        return f'kit {self.kit}\nlogic {self.logic}\n{made}{self.target}{verdicts}{self.changed}'

    def of(self, path: str) -> Made | None:
        """What it tells of this file; None where that is nothing, or of other bytes."""
        made = self.made.get(os.path.basename(path))
        return made if made and os.path.isfile(path) and sum_of(path) == made.sum else None


def read(folder: str) -> Proved | None:
    """The text PROVED in a folder, None where there is none."""
    try:
        with open(f'{folder}/PROVED', encoding='utf-8') as file:
            parts = TEXT.fullmatch(file.read())
    except (OSError, UnicodeDecodeError):
        return None
    if not parts:
        return None
    made = (line.split() for line in parts[3].splitlines())
    verdicts = (line.partition(': ') for line in parts[5].splitlines())
    files_made = {name: Made(its_sum, sources) for _, name, its_sum, _, sources in made}
    return Proved(parts[1], parts[2], files_made, {name: line for name, _, line in verdicts}, parts[4], parts[6])


def out(name: str) -> str:
    """Where a program is built."""
    return f'{TOP}/crates/{name}/out/{name}'


def version() -> tuple[str, str]:
    """The kit that is here, and its logic."""
    want_rattle()
    words = subprocess.run(['rt', 'version'], stdin=subprocess.DEVNULL, stdout=subprocess.PIPE, text=True, check=False).stdout.split()
    if len(words) != 3:
        raise Sorry("'rt version' tells no kit and logic")
    return words[0], words[2]


def verdict_in(printed: str) -> str | None:
    """The verdict among what Rattle printed of one crate."""
    return next((line.strip() for line in reversed(printed.splitlines()) if line.startswith(VERDICT)), None)


def verdicts_in(lines: Iterable[str]) -> dict[str, str]:
    """The verdicts in the output of `rt ci`, of the crates that it proved: none of their tests', and none of crates that it keeps."""
    found: dict[str, str] = {}
    last = ''
    for line in lines:
        is_proved = re.fullmatch(r'rt: (\w+) proved', line.strip())
        if is_proved and last:
            found[is_proved[1]] = last
        elif line.startswith(VERDICT):
            last = line.strip()
        elif line.startswith('== '):
            last = ''
    return found


def remember(made_of: str, verdict: str) -> None:
    """Keeps the verdict of a crate, by its stamp."""
    os.makedirs(REMEMBERED, exist_ok=True)
    write_text(f'{REMEMBERED}/{made_of}', verdict + '\n')


def recall(made_of: str) -> str | None:
    """The verdict of a crate with this stamp, where one was told here."""
    try:
        with open(f'{REMEMBERED}/{made_of}', encoding='utf-8') as file:
            return file.read().strip() or None
    except OSError:
        return None


def seen(log: str, top: str) -> list[str]:
    """Remembers the verdicts in a file that has the output of an `rt ci` of a clone, and returns of which crates. Nothing that it
    proved may have changed since it began; what is newer than the file is refused."""
    crates = Crates(top)
    with open(log, encoding='utf-8', errors='replace') as lines:
        verdicts = {name: verdict for name, verdict in verdicts_in(lines).items() if name in crates.named}
    newer = newer_than(log, {crate for name in verdicts for crate in crates.below(name)}, top)
    if newer:
        raise Sorry(f'{newer} is newer than {log}, so what it tells may be of another text')
    for name, made_of in stamps(crates, verdicts).items():
        remember(made_of, verdicts[name])
    return sorted(verdicts)


def newer_than(path: str, names: Iterable[str], top: str = TOP) -> str | None:
    """A source that is newer than a file."""
    limit = os.stat(path).st_mtime
    return next((source for source in [f'{top}/crates.txt', *files(names, top)] if os.stat(source).st_mtime > limit), None)


def told_of(path: str, crates: Crates, names: set[str]) -> Proved:
    """What there is to tell of a file that the present kit made of these crates, as they stand, with the verdicts that are known."""
    known = {name: recall(made_of) for name, made_of in stamps(crates, names).items()}
    verdicts = {name: verdict for name, verdict in known.items() if verdict}
    return Proved(*version(), {os.path.basename(path): Made(sum_of(path), sum_of_sources(names, crates.top))}, verdicts)


def note(path: str, crates: Crates, names: set[str]) -> None:
    """Writes PROVED beside a file that was made just now."""
    write_text(f'{os.path.dirname(path)}/PROVED', told_of(path, crates, names).text())


def compared(name: str, built: Proved) -> str | None:
    """How a program that was proved here stands to the stored one, in a sentence; None where none is stored."""
    stored, path = read(STORED), f'stored/{name}'
    if stored is None:
        return None
    was, now = stored.of(f'{TOP}/{path}'), built.made[name]
    if was is None:
        return f"{path} isn't the one that stored/PROVED tells of"
    if was.sources != now.sources:
        return f'{path} was made of other sources, so its bytes are not compared'
    by = '' if stored.kit == built.kit else f', by {built.kit} as by {stored.kit}'
    if was.sum != now.sum:
        return f'its bytes are NOT those of {path}, which {"the same kit" if not by else stored.kit} made of the same sources'
    others = [crate for crate, verdict in built.verdicts.items() if stored.verdicts.get(crate) != verdict]
    verdicts = f'but the verdicts of {", ".join(others)} are others' if others else 'and the verdicts are the same'
    return f'its bytes are those of {path}{by}, {verdicts}'


def built_here(name: str) -> Proved:
    """What is known of the program of this name that stands in its crate's folder, and has to be made of the present sources. One
    that `rt ci` left tells nothing of itself; then none of them may be newer, and what it printed for `rt ci` stands beside it."""
    program, crates = out(name), Crates()
    names, short = crates.below(name), f'crates/{name}/out/{name}'
    if not os.access(program, os.X_OK):
        raise Sorry(f'crates/{name}/out has no program; tools/test makes one, and so do rt ci and dev/build {name}')
    known = read(os.path.dirname(program))
    made = known and known.of(program)
    if known and made:
        if made.sources != sum_of_sources(names):
            raise Sorry(f'{short} is not made of the present sources; tools/test makes it so, and so do rt ci and dev/build {name}')
        if names <= known.verdicts.keys():
            return known
        if known.kit != version()[0]:
            raise Sorry(f"verdicts are unknown, and {short} was built by {known.kit}, which isn't the kit that is here")
    elif not was_left_by_ci(program):
        raise Sorry(f'nothing tells what {short} was made of; build it by tools/test, rt ci or dev/build {name}')
    elif newer := newer_than(program, names):
        raise Sorry(f'{os.path.relpath(newer, TOP)} is newer than {short}, which may be made of other sources')
    known = told_of(program, crates, names)
    lacking = sorted(names - known.verdicts.keys())
    if lacking:
        raise Sorry(
            f"nothing here has seen the verdicts of {', '.join(lacking)}; 'dev/build --verdicts' proves these crates again, and "
            "'dev/build --seen LOG CLONE' reads the output of an rt ci that proved them"
        )
    return known


def library_built_here(name: str) -> Proved:
    """What is known of a file of the library for another target, which has to be made of the present sources."""
    target, names = LIBRARY_FILES[name], Crates().below(LIBRARY)
    path = f'{TOP}/crates/{LIBRARY}/out/{target}/{name}'
    short, build = os.path.relpath(path, TOP), f'dev/build {LIBRARY} --target {target} makes it'
    known = read(os.path.dirname(path))
    made = known and known.of(path)
    if known is None or made is None:
        raise Sorry(f"{short} isn't there, or nothing tells what it was made of; {build}")
    if made.sources != sum_of_sources(names):
        raise Sorry(f'{short} is not made of the present sources; {build}')
    lacking = sorted(names - known.verdicts.keys())
    if lacking:
        raise Sorry(f'the verdicts of {", ".join(lacking)} are unknown where {short} was made; {build}')
    return known


def library_file(name: str) -> str | None:
    """The library's file of this name that was made of the present sources: the one that was built here, else the stored one, if any."""
    sources = sum_of_sources(Crates().below(LIBRARY))
    for folder in (f'{TOP}/crates/{LIBRARY}/out/{LIBRARY_FILES[name]}', STORED):
        known, path = read(folder), f'{folder}/{name}'
        made = known and known.of(path)
        if made and made.sources == sources:
            return path
    return None


def was_left_by_ci(program: str) -> bool:
    """Whether `rt ci` left this program, which it runs, and keeps what it printed. One that was copied there has nothing beside it."""
    printed = f'{os.path.dirname(program)}/stdout'
    return os.path.isfile(printed) and os.stat(printed).st_mtime >= os.stat(program).st_mtime


def store() -> Proved:
    """Makes the stored programs and the library's files those that were built here. Nothing is stored where one of them can't be."""
    library = LIBRARY_FILES if LIBRARY in Crates().static else {}
    paths = {name: out(name) for name in PROGRAMS} | {name: f'{TOP}/crates/{LIBRARY}/out/{target}/{name}' for name, target in library.items()}
    built = [*map(built_here, PROGRAMS), *map(library_built_here, library)]
    if len({(each.kit, each.logic) for each in built}) > 1:
        made = (f'{each.kit} made {os.path.relpath(path, TOP)}' for path, each in zip(paths.values(), built))
        raise Sorry(' and '.join(made) + '; one kit has to make all of them')
    whole = Proved(built[0].kit, built[0].logic, {}, {}, ''.join(each.target for each in built))
    for each in built:
        whole.made.update(each.made)
        whole.verdicts.update(each.verdicts)
    os.makedirs(STORED, exist_ok=True)
    for name, path in paths.items():
        shutil.copyfile(path, f'{STORED}/{name}.new')
        os.chmod(f'{STORED}/{name}.new', 0o755 if name in PROGRAMS else 0o644)
    for name in paths:
        os.replace(f'{STORED}/{name}.new', f'{STORED}/{name}')
    write_text(f'{STORED}/PROVED', whole.text())
    return whole
