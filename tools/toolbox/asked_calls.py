"""Calls of services that were made, and ask for what isn't there: a text without its $, a mode of another adapter, a character in the
wrong register, a file. A session stops where each of these calls begins."""
from __future__ import annotations

import re
import struct
from typing import Any, Iterator

from toolbox.listing import physical
from toolbox.program import Files, ProbeSession, Session
from toolbox.report import registers_of
from toolbox.services import address_of

MOST_CALLS = 64  # that are looked at
LONGEST_TEXT = 2000  # signs, as many as the screen has
LOADED, MOV_DL = re.compile(rb'\xB0.\xB4\x02|\xB4\x02\xB0.', re.DOTALL), 0xB2  # MOV AL and MOV AH,2
LAST_TEXT_MODE, OWN_MODE = 3, 7
FRAME, LONGEST_NAME = struct.Struct('<6xH4xH4xHH'), 64  # a call's frame: DX, DS, and IP and CS behind its INT; signs
Values = dict[str, Any]  # of a sentence: a clause's own, registers, and which bytes show what is so


def doubtful(files: Files, end: int) -> Iterator[tuple[int, tuple[int, int], str, Values]]:
    """Those among the first calls before a clock that ask for what isn't there: the clock, where the INT stands, a clause of clauses.json,
    and values."""
    kinds = {address_of(label): kind for label, kind in KINDS.items()}
    with ProbeSession(files) as session:
        for place in kinds:
            session.stop('break {:X}:{:X}'.format(*place))
        for _ in range(MOST_CALLS):
            if session.clock >= end or not session.go(end - session.clock).startswith('stop'):
                return
            registers = registers_of(session.answers(['regs']))
            frame = session.dump(physical(registers['SS'], registers['BP']), FRAME.size)
            dx, ds, ip, cs = FRAME.unpack(frame)
            place = cs, ip - 2 & 0xFFFF
            says, look = kinds[registers['CS'], registers['IP']]
            if values := look(session, registers, physical(*place), physical(ds, dx)):
                yield session.clock, place, says, {'address': physical(*place), 'count': 2} | registers | values


def text(session: Session, registers: dict[str, int], _: int, __: int) -> Values | None:
    """A text that no $ ends soon. One that goes past its segment's end isn't looked at."""
    segment, offset = registers['DS'], registers['DX']
    address = physical(segment, offset)
    is_fit = offset + LONGEST_TEXT > 0x10000 or b'$' in session.dump(address, LONGEST_TEXT)
    return None if is_fit else {'text': f'{segment:04X}:{offset:04X}', 'most': LONGEST_TEXT, 'address': address, 'count': LONGEST_TEXT}


def character(session: Session, registers: dict[str, int], address: int, _: int) -> Values | None:
    """A character that stands in AL, with 0 in DL, or is loaded just before the call, behind no load of DL."""
    sign, before = registers['AX'] & 0xFF, session.dump(address - 6, 6)
    is_loaded = before[0] != MOV_DL and LOADED.fullmatch(before[2:])
    is_sign = (0x20 if is_loaded else 0x21) <= sign < 0x7F
    return {'sign': repr(chr(sign))} if is_sign and (is_loaded or not registers['DX'] & 0xFF) else None


def mode(_: Session, registers: dict[str, int], __: int, ___: int) -> Values | None:
    """A mode of graphics, which another adapter has."""
    number = registers['AX'] & 0x7F
    return None if number <= LAST_TEXT_MODE or number == OWN_MODE else {'mode': number}


def missing(session: Session, _: dict[str, int], __: int, named: int) -> Values | None:
    """A file that isn't on the disk, and is opened, by the name that DS:DX leads to."""
    name = session.dump(named, LONGEST_NAME).partition(b'\0')[0].decode('ascii', 'replace')
    return {'file': name} if name.isprintable() and name.isascii() else None


KINDS = {'dos_write_text': ('text', text), 'dos_write_char': ('character', character), 'bios_mode': ('mode', mode), 'dos_no_file': ('file', missing)}
