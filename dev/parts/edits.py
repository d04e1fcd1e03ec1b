"""Wrong bodies: edits of a crate's sources that the check must refuse, read and judged as `rt ci` does it.

The gate tries those in crates/NAME/must-fail; dev/refused those in crates/NAME/refused, which have the same form. Here the edits
of several functions are tried at once first, since most of what a check costs is the same for one edit and for ten: a function's
proof cites what those that it calls promise, and none of their bodies, so each is refused for its own edit. What such a check
leaves open is tried by itself."""
from __future__ import annotations

import importlib.machinery
import importlib.util
import os
import re
import sys
import tempfile
import types
from collections.abc import Callable, Iterator
from dataclasses import dataclass

from toolbox.crates import KIT, TOP, Crates, want_rattle

FOLDERS = ('must-fail', 'refused')


def judge() -> types.ModuleType:
    """The module of `rt` itself, so that an edit is read and judged by the gate's own words."""
    want_rattle()
    sys.path.insert(0, f'{KIT}/bin')
    loader = importlib.machinery.SourceFileLoader('rt_of_the_kit', f'{KIT}/bin/rt')
    spec = importlib.util.spec_from_loader(loader.name, loader)
    assert spec
    module = importlib.util.module_from_spec(spec)
    loader.exec_module(module)
    return module


def edits_of(name: str, folders: tuple[str, ...] = FOLDERS, top: str = TOP) -> list[str]:
    """The paths of a crate's edits."""
    found = []
    for folder in (f'{top}/crates/{name}/{kind}' for kind in folders):
        if os.path.isdir(folder):
            found += [f'{folder}/{file}' for file in sorted(os.listdir(folder)) if file.endswith('.edit')]
    return found


class Tried:
    """A crate as `rt` wants it to try an edit: over the libraries that stand where `crates` has them."""

    def __init__(self, crates: Crates, name: str):
        self.crates, self.name, self.folder = crates, name, crates.folder(name)

    def words(self, flags: list[str], keeps: bool) -> list[str]:
        """What follows the verb of the command that checks it."""
        del flags, keeps
        words = self.crates.command(self.name, 1)[2:]
        words = words[: words.index('-o')]
        for flag, count in (('--statements', 1), ('--toolchain', 2), ('--backend', 2)):
            if flag in words:
                at = words.index(flag)
                del words[at : at + count]
        return words


@dataclass(frozen=True)
class Edit:
    """An edit that changes one function: the lines that it puts in place of others, and where the function is."""

    path: str
    file: str
    function: str
    lines: dict[int, str]

    def is_refused(self, crate: str, lines: list[str]) -> bool:
        """Whether a check tells that the function isn't proved, and that the reason is a goal of its own: no other function that it
        calls, and no name in its proof that the edit took away."""
        module = self.file.removeprefix('src/').removesuffix('.rt')
        inside = '' if module in ('lib', 'main') else f'{module}/'
        head = re.compile(rf'fn {crate}::{inside.replace("/", "::")}(?:\w+::)?{self.function}: (.*)')
        reason = next((found[1] for found in map(head.match, lines) if found), '')
        if reason != 'not proved':
            return bool(re.fullmatch(r'no proof: expected answers in [^;]*; `search` did not prove [^;]*', reason))
        error = re.compile(rf'(?:\./)?proofs/{inside}(?:\w+/)?{self.function}/\w+\.antt:\d+:\d+: error: ')
        return any(error.match(line) and not TAKEN_AWAY.search(f'{line} {more}') for line, more in zip(lines, [*lines[1:], '']))


TAKEN_AWAY = re.compile('has no field|is not in scope|has no `|was not admitted')
HEAD = re.compile(r'( *)(?:pub(?:\([a-z]+\))? )?(?:const )?fn (\w+)')


def function_at(lines: list[str], number: int) -> str | None:
    """The name of the function in whose body a line stands, in `rt fmt`'s layout: signature and contract end where a brace opens
    as far in as the function begins, and the body where one closes there. A contract is no body: callers cite it."""
    for at in range(number, -1, -1):
        head = HEAD.match(lines[at])
        if head:
            opens = re.compile(rf'{head[1]}(?:{{|(?:\)|\S.*\)).* {{)')
            begins = next((n for n in range(at, number) if opens.fullmatch(lines[n])), None)
            is_inside = begins is not None and f'{head[1]}}}' not in lines[at:number]
            return head[2] if is_inside else None
    return None


def of_one_function(rt: types.ModuleType, edit: str, folder: str) -> Edit | None:
    """The edit, if it changes lines of one function alone, and no other function of that file has its name."""
    texts, why = rt.read_edit(edit, folder)
    if why or len(texts) != 1:
        return None
    ((file, text),) = texts.items()
    with open(f'{folder}/{file}', encoding='utf-8') as stood:
        lines = stood.read().split('\n')
    changed = {at: new for at, (old, new) in enumerate(zip(lines, text.split('\n'))) if old != new}
    names = {function_at(lines, at) for at in changed}
    heads = [head[2] for head in map(HEAD.match, lines) if head]
    if not file.startswith('src/') or len(names) != 1 or heads.count(name := names.pop()) != 1:
        return None
    return Edit(edit, file, name, changed)


def together(edits: list[Edit], folder: str) -> dict[str, str]:
    """The texts of the files that these edits change, all of them made."""
    texts = {}
    for file in {each.file for each in edits}:
        with open(f'{folder}/{file}', encoding='utf-8') as stood:
            lines = stood.read().split('\n')
        for edit in edits:
            if edit.file == file:
                lines = [edit.lines.get(at, line) for at, line in enumerate(lines)]
        texts[file] = '\n'.join(lines)
    return texts


def batches(edits: list[Edit]) -> Iterator[list[Edit]]:
    """The edits in lists of at least two, each function at most once in a list."""
    while len(edits) > 1:
        first: dict[tuple[str, str], Edit] = {}
        for edit in edits:
            first.setdefault((edit.file, edit.function), edit)
        yield [*first.values()]
        edits = [each for each in edits if each not in first.values()]


def refused_together(rt: types.ModuleType, crate: Tried, edits: list[Edit], kept: str) -> set[str]:
    """The paths of those that one check of all of them refuses, each at the goals of its own function. Where one of them keeps
    the check from the prover, halves are tried."""
    if len(edits) < 2:
        return set()
    lines = rt.checked(crate, together(edits, crate.folder), [], kept).stdout.split('\n')
    if any(line.startswith('logic=not-proved') for line in lines):
        return {edit.path for edit in edits if edit.is_refused(crate.name, lines)}
    middle = len(edits) // 2
    return refused_together(rt, crate, edits[:middle], kept) | refused_together(rt, crate, edits[middle:], kept)


def tried(rt: types.ModuleType, crates: Crates, name: str, edits: list[str], is_stopped: Callable[[], bool]) -> Iterator[tuple[bool, str]]:
    """Tries a crate's edits, each over what the checks of those before it proved. Gives of each whether it was refused, and what
    there is to say; at last the same of the crate itself, which must be proved over that work."""
    crate = Tried(crates, name)
    with tempfile.TemporaryDirectory(prefix='refused-') as kept:
        if is_stopped():
            return
        is_proved = not rt.checked(crate, {}, [], kept).returncode
        alone = [one for one in (of_one_function(rt, edit, crate.folder) for edit in edits) if one]
        refused: set[str] = set()
        for batch in batches(alone):
            if is_stopped():
                return
            found = refused_together(rt, crate, batch, kept)
            refused |= found
            for edit in sorted(found):
                yield True, f'must-fail {name}/{os.path.basename(edit)}: refused, as it must be, with others'
        for edit in edits:
            if is_stopped():
                return
            if edit not in refused:
                kind, text = rt.must_fail(crate, edit, [], kept)
                yield kind in (rt.REFUSED, rt.AT_LIMIT), text
        yield is_proved, f"{name}: {'proved' if is_proved else 'NOT PROVED, so its edits say nothing'}"
