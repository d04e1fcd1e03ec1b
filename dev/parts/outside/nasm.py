"""ndisasm, nasm's disassembler, beside this board's: both tell the text of random instructions, which is compared by what it says."""
from __future__ import annotations

import os
import random
import re
import shutil
import subprocess
import tempfile
from collections.abc import Callable
from typing import NamedTuple

from parts.outside import instructions
from toolbox.asking import answers_of
from toolbox.command import Sorry, write_text
from toolbox.loading import hex_of
from toolbox.program import Files
from toolbox.runfile import DEFAULTS, text_of

VERSION = '2.16.01'  # the one whose differences are known
PACKAGE = 'apt-get install --no-install-recommends nasm'
SLOT = 32  # bytes of an instruction's place, with NOPs behind it
MOST = 0x10000 // SLOT  # of a segment
TARGETS = {'byte': 1, 'word': 2, 'far': 4}  # bytes of a transfer's target
NOP = b'\x90'
# Other names of the same bytes, some of later processors.
NAMES = {'repe': 'rep', 'xrelease': 'rep', 'bnd': 'repne', 'xacquire': 'repne', 'xlatb': 'xlat'}
NAMES |= {'jc': 'jb', 'jnc': 'jnb', 'jna': 'jbe', 'jpe': 'jp', 'jpo': 'jnp', 'jnl': 'jge', 'jng': 'jle'}
PREFIXES = {'lock', 'rep', 'repne', 'es', 'cs', 'ss', 'ds'}
CODES = b'\x26\x2e\x36\x3e\xf0\xf2\xf3'


class Text(NamedTuple):
    """What a text says: prefixes in any order, the operation with its operands, and how many bytes it is of."""

    prefixes: frozenset[str]
    rest: str
    length: int


class Difference(NamedTuple):
    """An instruction of which both sides say something else."""

    octets: bytes
    here: str
    there: str


class Flaw(NamedTuple):
    """What ndisasm is known to say otherwise: of which instructions, and one that always shows it."""

    name: str
    why: str
    holds: Callable[[bytes], bool]
    witness: bytes


def opcode(octets: bytes) -> int:
    """The first byte behind the prefixes."""
    return next(octet for octet in octets if octet not in CODES)


FLAWS = (
    Flaw('ESC', "has an 8087's name, or none", lambda octets: 0xD8 <= opcode(octets) < 0xE0, b'\xd8\xe6'),
    Flaw('opcode 82h', 'begins none', lambda octets: opcode(octets) == 0x82, b'\x82\xc0\x01'),
    Flaw('WAIT', 'is taken for a part of the next one', lambda octets: opcode(octets) == 0x9B, b'\x26\x9b'),
    Flaw('REP NOP', "is a later processor's PAUSE", lambda octets: opcode(octets) == 0x90 and 0xF3 in octets[:-1], b'\xf3\x90'),
)


def path() -> str | None:
    """ndisasm: $NDISASM, else the one on the path."""
    return os.environ.get('NDISASM') or shutil.which('ndisasm')


def version(program: str) -> str:
    """Which nasm it is of."""
    try:
        ran = subprocess.run([program, '-v'], stdin=subprocess.DEVNULL, capture_output=True, text=True, check=False)
    except OSError as error:
        raise Sorry(f"{program} can't be started: {error}") from None
    found = re.match(r'NDISASM version (\S+)', ran.stdout or ran.stderr)
    if not found:
        raise Sorry(f'{program} is no ndisasm: it tells no version')
    return found[1]


def said(text: str, length: int) -> Text:
    """What a text of either side says: without regard to case, names, where an override stands, how a number is written, which operand
    of XCHG is first, and to what the operands of CALL and JMP tell by themselves."""
    words = text.lower().replace('byte +', '').replace('byte -', '-').split(' ')
    prefixes = set[str]()
    while words and (word := NAMES.get(words[0].rstrip(':'), words[0].rstrip(':'))) in PREFIXES:
        prefixes.add(word)
        words = words[1:]
    rest = ' '.join([NAMES.get(words[0], words[0]), *words[1:]] if words else [])
    inside = re.search(r'\[(es|cs|ss|ds):', rest)
    if inside:
        prefixes.add(inside[1])
        rest = rest.replace(inside[0], '[')
    rest = re.sub(r'\b0x([0-9a-f]+)\b|\b([0-9][0-9a-f]*)h\b', lambda number: str(int(number[1] or number[2], 16)), rest)
    rest = re.sub(r'-(\d+)', lambda number: f'+{0x10000 - int(number[1])}', rest).replace(',+', ',')
    rest = re.sub(r'^(call|jmp) (far (?=\d)|word (?=\[))', r'\1 ', rest)
    operation, _, operands = rest.partition(' ')
    if operation == 'xchg':
        rest = f'xchg {",".join(sorted(operands.split(",")))}'
    return Text(frozenset(prefixes), rest, length)


def cases(seed: int, count: int) -> list[bytes]:
    """Random instructions of a seed."""
    chance = random.Random(f'nasm {seed}')
    return [bytes(case.prefixes) + case.code + chance.randbytes(TARGETS.get(case.target, 0)) for case in instructions.cases(seed, count)]


def ours(offset: int, octets: bytes) -> tuple[str, int]:
    """This board's text, and of how many bytes."""
    image = {0x10000 + (offset + at) % 0x10000: octet for at, octet in enumerate(octets)}
    with tempfile.TemporaryDirectory() as room:
        files = Files(f'{room}/it.hex', f'{room}/run.json', True)
        write_text(files.file, hex_of(image))
        write_text(files.run_file, text_of(DEFAULTS | {'ram': 128}))
        (line,) = answers_of(files, (f'list 1000:{offset:X} 1',))
    _, digits, text = line.split(' ', 2)
    return text, len(digits) // 2


def theirs(program: str, made: list[bytes]) -> list[tuple[str, int]]:
    """ndisasm's texts, each of a place of its own."""
    with tempfile.NamedTemporaryFile() as file:
        file.write(b''.join(octets.ljust(SLOT, NOP) for octets in made))
        file.flush()
        printed = subprocess.run([program, '-b', '16', file.name], stdin=subprocess.DEVNULL, capture_output=True, text=True, check=False).stdout
    rows = re.findall(r'^([0-9A-F]{8})  ([0-9A-F]+) +(.*)$', printed, re.M)
    found = {int(at, 16): (text, len(octets) // 2) for at, octets, text in rows}
    try:
        return [found[SLOT * n] for n in range(len(made))]
    except KeyError:
        raise Sorry(f'{program} goes astray, or tells nothing') from None


def differences(program: str, made: list[bytes]) -> list[Difference]:
    """Where both sides say something else."""
    found = list[Difference]()
    for first in range(0, len(made), MOST):
        some = made[first : first + MOST]
        pairs = ((octets, ours(SLOT * at, octets), there) for at, (octets, there) in enumerate(zip(some, theirs(program, some))))
        found += [Difference(octets, here[0], there[0]) for octets, here, there in pairs if said(*here) != said(*there)]
    return found


def known(octets: bytes) -> list[str]:
    """The flaws that hold for an instruction, by their names."""
    return [flaw.name for flaw in FLAWS if flaw.holds(octets)]
