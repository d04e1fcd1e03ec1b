"""What instructions do, as `forms` of pcprobe tells it of their bytes (docs/probe.md). What isn't known of bytes yet is asked of a session
whose ROM has them, which ends with its answer: so `learn` asks for many at once."""
from __future__ import annotations

import re
import tempfile
from typing import Iterable, NamedTuple

from zebludor import DEFAULTS, run_file

from toolbox.program import ASKED, Files, ProbeSession

Far = tuple[int, int]
CALLING = ('call', 'enter')  # what CALL and INT do; INTO and a division do `may-enter`
GENERAL = ('AX', 'CX', 'DX', 'BX', 'BP', 'SI', 'DI')
PREFIXES = b'\x26\x2E\x36\x3E\xF0\xF2\xF3'
ROM, PARAGRAPHS = 0xF000, 1 << 12  # its first paragraph, and how many it has: each for the bytes of one instruction
MOST_KNOWN = 1 << 16
LONGEST, LONGEST_CALL = 13, 5  # bytes: seven prefixes and six others, and those of a CALL without prefixes
LINE = re.compile(
    r'(\w{4}:\w{4}) (\w+) does (\S+) to (.+) sp (\S+) sets (\S+) alters (\S+) mem \S+ (\S+) ports \S+ clocks (\S+) (\S+)',
)


class Form(NamedTuple):
    """What an instruction does, by the words of `forms`: `sp` is None if its bytes don't tell by how much it moves SP. If it may enter an
    interrupt, `sp` and `writes` are what is so if it does. A place to which it leads is `far`, or so many bytes from where it begins."""

    octets: bytes
    does: str
    to: str
    sp: int | None
    sets: list[str]
    alters: str
    writes: int
    clocks: tuple[str, str]
    far: Far | None = None
    by: int | None = None

    @property
    def type(self) -> int | None:
        """The type of interrupt that it enters, or may enter."""
        return int(self.to.removeprefix('vector '), 16) if self.to.startswith('vector') else None

    @property
    def calls(self) -> bool:
        """Whether it is a CALL or INT."""
        return self.does in CALLING

    @property
    def pushes(self) -> bool:
        """Whether it writes to where it moves SP down."""
        return bool(self.writes and self.sp and self.sp < 0)

    @property
    def pops_register(self) -> bool:
        """Whether it is POP of a word register."""
        return self.sp == 2 and any(name in GENERAL for name in self.sets)

    @property
    def loads_stack(self) -> bool:
        """Whether it loads SP or SS with what its bytes don't tell."""
        return self.sp is None or 'SS' in self.sets

    @property
    def turns_interrupts(self) -> bool:
        """Whether it changes the interrupt flag, and enters no interrupt."""
        return 'I' in self.alters and self.type is None

    @property
    def goes_on(self) -> bool:
        """Whether it may lead on to the next one."""
        return self.does not in ('jump', 'return')

    def target(self, at: Far) -> Far | None:
        """The place that a jump or call at another has in its own bytes, if it is one."""
        return self.far if self.by is None else (at[0], (at[1] + self.by) % 0x10000)


NOTHING = Form(b'', 'nothing', 'none', 0, [], '', 0, ('0', '0'))


def signed(value: int) -> int:
    """A word as a number from -32,768 to 32,767."""
    return (value + 0x8000) % 0x10000 - 0x8000


def far_in(text: str) -> Far:
    """A place SSSS:OOOO."""
    return int(text[:4], 16), int(text[5:9], 16)


def form_in(line: str, octets: bytes) -> Form:
    """What a line of `forms` tells of the instruction that these bytes begin with; one that has more bytes isn't theirs."""
    found = LINE.fullmatch(line)
    assert found, line
    place, shown, does, to, sp, sets, alters, writes, *clocks = found.groups()
    if does == 'nothing' or 2 * len(octets) < len(shown):
        return NOTHING
    at, there = far_in(place), far_in(to) if ':' in to and does in ('jump', 'branch', 'call') else None
    is_near = there is not None and there[0] == at[0]
    return Form(
        octets[: len(shown) // 2],
        does,
        to,
        None if sp == 'loads' else int(sp.partition('/')[0]),
        sets.split(','),
        alters,
        int(writes.partition('/')[0]),
        (clocks[0], clocks[1]),
        None if is_near else there,
        signed(there[1] - at[1]) if there and is_near else None,
    )


def place_of(octets: bytes, paragraph: int) -> Far:
    """A paragraph's place, by a segment that is in no far pointer there."""
    segment = next(one for one in range(paragraph, 0, -1) if one.to_bytes(2, 'little') not in octets)
    return segment, 16 * (paragraph - segment)


def lines_of(some: list[bytes]) -> list[str]:
    """A line of `forms` for each of these bytes."""
    from toolbox.loading import record  # loaded with all that makes programs ready, if something is asked

    records = [record(0, 2, ROM.to_bytes(2, 'big')), *(record(16 * at, 0, octets[:LONGEST]) for at, octets in enumerate(some)), record(0, 1, b'')]
    questions = ['forms %04X:%04X 1' % place_of(octets, paragraph) for paragraph, octets in enumerate(some, ROM)]
    with tempfile.TemporaryDirectory() as room:
        files = Files(f'{room}/bytes.hex', f'{room}/run.json', is_hex=True)
        for path, text in ((files.file, '\n'.join(records)), (files.run_file, run_file(DEFAULTS))):
            with open(path, 'w', encoding='ascii') as file:
                file.write(text)
        with ProbeSession(files) as session:
            return [line for at in range(0, len(questions), ASKED) for line in session.answers(questions[at : at + ASKED])]


_known = dict[bytes, Form]()


def ask(wanted: Iterable[bytes]) -> dict[bytes, Form]:
    """What is told of bytes, which is kept."""
    new, found = list(wanted), dict[bytes, Form]()
    for at in range(0, len(new), PARAGRAPHS):
        some = new[at : at + PARAGRAPHS]
        found.update(zip(some, map(form_in, lines_of(some), some)))
    _known.update(found)
    return found


def learn(wanted: Iterable[bytes]) -> None:
    """Asks for what isn't known of these. What others have asked for is forgotten, once that is very much."""
    if len(_known) > MOST_KNOWN:
        _known.clear()
    ask({octets for octets in wanted if octets not in _known})


def form_of(octets: bytes) -> Form:
    """The form of the instruction that these bytes begin with."""
    return _known.get(octets) or ask([octets])[octets]


def ends_of(octets: bytes) -> list[bytes]:
    """The ends of bytes that may be a CALL or INT of two bytes or more."""
    return [octets[-length:] for length in range(2, min(LONGEST_CALL, len(octets)) + 1)]


def ends_with_call(octets: bytes) -> bool:
    """Whether bytes end with a CALL or INT of two bytes or more, without a prefix."""
    return any(end[0] not in PREFIXES and form_of(end).calls and form_of(end).octets == end for end in ends_of(octets))


def is_by_frame(octets: bytes) -> bool:
    """Whether what loads SP takes it from BP, as the end of a routine with a frame does: MOV SP,BP, or LEA SP with BP."""
    code = octets.lstrip(PREFIXES)
    return code[:2] in (b'\x8B\xE5', b'\x89\xEC') or code[:1] == b'\x8D' and code[1] & 7 in (2, 3, 6) and code[1] >> 6 > (code[1] & 7 == 6) - 1
