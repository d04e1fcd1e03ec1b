"""What programs and libraries are made of, by what the files hold: never by a clone's place, its files' times or their order."""
from __future__ import annotations

import hashlib
import os
from typing import Callable, Iterable

from toolbox.crates import KIT, TOP, Crates

PARTS = ('src', 'specs', 'proofs')  # of a crate: what its library is made of


def folders(names: Iterable[str], top: str = TOP) -> list[str]:
    """The folders of these crates' sources, definitions and proofs."""
    return [folder for name in names for part in PARTS for folder, _, _ in os.walk(f'{top}/crates/{name}/{part}')]


def files(names: Iterable[str], top: str = TOP) -> list[str]:
    """The files in them."""
    inside = [f'{folder}/{name}' for folder in folders(names, top) for name in os.listdir(folder)]
    return [path for path in inside if path.endswith(('.rt', '.antt'))]


def size(names: Iterable[str]) -> int:
    """How many bytes they hold."""
    return sum(map(os.path.getsize, files(names)))


def sum_of(path: str) -> str:
    """The SHA-256 of what a file holds."""
    with open(path, 'rb') as file:
        return hashlib.sha256(file.read()).hexdigest()


def sum_of_sources(names: Iterable[str], top: str = TOP, sum_of: Callable[[str], str] = sum_of) -> str:
    """The sum of all that a program of these crates is made of, as `./pcboard --version` tells it: of a list that `sha256sum`
    would write, a line for each file, in the order of their paths from the repository on."""
    paths = sorted(os.path.relpath(path, top) for path in [f'{top}/crates.txt', *files(names, top)])
    return hashlib.sha256(''.join(f'{sum_of(f"{top}/{path}")}  {path}\n' for path in paths).encode()).hexdigest()


def stamp(crates: Crates, name: str, known: dict[str, str]) -> str:
    """A sum of all that a crate is made of: the kit, its line, its files, and those below it."""
    if name not in known:
        made_of = hashlib.sha256(crates.lines[name].encode())
        with open(f'{KIT}/WHAT', 'rb') as kit:
            made_of.update(kit.read())
        for path in sorted(files([name], crates.top)):
            with open(path, 'rb') as text:
                made_of.update(f'{os.path.relpath(path, crates.top)}\0'.encode() + text.read())
        for below in sorted(crates.below(name) - {name}):
            made_of.update(stamp(crates, below, known).encode())
        known[name] = made_of.hexdigest()
    return known[name]


def stamps(crates: Crates, names: Iterable[str]) -> dict[str, str]:
    """Those of several crates."""
    known: dict[str, str] = {}
    return {name: stamp(crates, name, known) for name in names}
