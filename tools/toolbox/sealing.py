"""Sealed reports: one file with a program, its run file and its report, their sums, and what was proved of the board that answered.
Who checks one runs it again, so that a report that was edited is found, whatever sums stand beside it."""
from __future__ import annotations

import hashlib
import json
import os
import re
import tempfile
from typing import Any

import zebludor

from toolbox import limits, program, proved
from toolbox.command import Sorry, read_bytes, read_text, write_bytes
from toolbox.expectations import Outcome
from toolbox.faults import fault_in
from toolbox.program import Files
from toolbox.reading import LONGEST_REPORT
from toolbox.shown import clipped
from toolbox.sources import sum_of

TEXTS = ('program', 'run file', 'report')
KIND = 'zebludor sealed report 1'


def read_exactly(path: str) -> str:
    """A file's text, of which each byte comes back."""
    return read_bytes(path).decode('utf-8', 'surrogateescape')


def octets_of(text: str) -> bytes:
    return text.encode('utf-8', 'surrogateescape')


def digest(text: str) -> str:
    """A text's SHA-256."""
    return hashlib.sha256(octets_of(text)).hexdigest()


def board(path: str) -> dict[str, Any]:
    """The board that answers here: its version and the SHA-256 of the program or library, and what PROVED tells of it, if that is its sum."""
    its_sum = sum_of(path)
    found: dict[str, Any] = {'version': zebludor.__version__, 'sum': its_sum}
    for folder in (os.path.dirname(path), proved.STORED):
        said = proved.read(folder)
        made = next((each for each in said.made.values() if each.sum == its_sum), None) if said else None
        if said and made:
            return found | {'kit': said.kit, 'logic': said.logic, 'sources': made.sources, 'verdicts': said.verdicts}
    return found


def seal(files: Files, path: str, name: str) -> list[str]:
    """Runs a program, and writes its seal where no file is; returns what to print."""
    if os.path.lexists(path):
        raise Sorry(f'{path} is there already')
    words = files.words('run')
    ran = program.run(words)
    if ran.status:
        raise program.refused(words, ran)
    texts = dict(zip(TEXTS, (read_exactly(files.file), read_exactly(files.run_file), ran.out)))
    sealed = {'kind': KIND, 'name': os.path.basename(name), 'hex': files.is_hex, 'board': board(ran.by)}
    sealed |= {'sums': {each: digest(text) for each, text in texts.items()}, 'texts': texts}
    octets = (json.dumps(sealed, indent=1) + '\n').encode()
    if len(octets) > LONGEST_REPORT:
        raise Sorry(f'the sealed report would have {len(octets):,} bytes, and {LONGEST_REPORT:,} are the most; a smaller budget has a shorter report')
    write_bytes(path, octets)
    return [f'{digest(text)}  {each}' for each, text in texts.items()]


def is_sum(found: Any) -> bool:
    """Whether a value is a SHA-256."""
    return isinstance(found, str) and bool(re.fullmatch('[0-9a-f]{64}', found))


def read(path: str) -> dict[str, Any]:
    """A seal, as far as its form goes."""
    text = read_text(path, LONGEST_REPORT)
    try:
        sealed = json.loads(text)
        texts, sums, of_board = sealed['texts'], sealed['sums'], sealed['board']
        is_one = sealed['kind'] == KIND and isinstance(sealed['hex'], bool) and is_sum(of_board['sum'])
        is_one = is_one and all(isinstance(texts[each], str) and is_sum(sums[each]) for each in TEXTS)
        for each in TEXTS:
            octets_of(texts[each])
    except (ValueError, KeyError, TypeError, RecursionError):
        is_one = False
    if not is_one:
        raise Sorry(f'{path} is no sealed report')
    return sealed  # type: ignore[no-any-return]


def outcomes(path: str) -> tuple[list[Outcome], list[str]]:
    """What comes of checking a seal: its sums, its report against what this board answers, and the board; and what is neither met nor
    not. A run that is cut says nothing of the report."""
    sealed = read(path)
    found = [
        Outcome(f'sum of the {each}', None if digest(text) == sealed['sums'][each] else f'is {digest(text)}')
        for each, text in sealed['texts'].items()
        if each in TEXTS
    ]
    with tempfile.TemporaryDirectory() as room:
        files = Files(f'{room}/program', f'{room}/run.json', sealed['hex'])
        for to, each in ((files.file, 'program'), (files.run_file, 'run file')):
            write_bytes(to, octets_of(sealed['texts'][each]))
        ran = program.run(files.words('run'))
    answer = ran.out if ran.status == 0 else program.refusal(ran.status, ran.err)
    fault = fault_in(ran.err) if ran.status else None
    if fault and fault.kind.name == 'Memory':
        raise Sorry('\n'.join([answer, *limits.of_memory()]))
    found.append(Outcome('the report is what this board answers, to the byte', differing(sealed['texts']['report'], answer)))
    of_board = of_verdicts(sealed['board'], board(ran.by))
    return (found, [of_board]) if isinstance(of_board, str) else ([*found, of_board], [])


def differing(sealed: str, answer: str) -> str | None:
    """In which line a report differs from another."""
    if sealed == answer:
        return None
    ours, here = sealed.split('\n'), answer.split('\n')
    at = next((at for at, (one, other) in enumerate(zip(ours, here)) if one != other), min(len(ours), len(here)))
    shown = [clipped(each[at].rstrip() if at < len(each) else 'nothing') for each in (ours, here)]
    return f'line {at + 1}: sealed {shown[0]!r}, here {shown[1]!r}'


def of_verdicts(sealed: dict[str, Any], here: dict[str, Any]) -> Outcome | str:
    """Whether what was proved of the board here is as sealed; or a note that it is another board."""
    if sealed['sum'] != here['sum']:
        return f'another program answers here: {here["sum"]}, and sealed it was {sealed["sum"]}'
    what = [each for each in ('version', 'kit', 'logic', 'sources', 'verdicts') if sealed.get(each) != here.get(each)]
    return Outcome('the program here is the sealed one', f'but the {" and the ".join(what)} that PROVED tells of it' if what else None)
