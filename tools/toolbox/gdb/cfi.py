"""Where gdb finds the callers, as DWARF's `.debug_frame`. A frame is where its stack ends, at the return address, and its routine.
Everywhere one rule goes by what `frames` tells, in records beyond memory, of which the status word of a coprocessor that isn't
there has the place. A routine that begins with PUSH BP and MOV BP,SP, as those of C do, has rules of its own behind these, by BP."""
from __future__ import annotations

import struct

from toolbox.gdb.flow import outermost
from toolbox.gdb.frames import MEMORY, NOWHERE, RECORDS
from toolbox.listing import Listing

# DWARF's numbers of registers on the i386, and what its expressions and rules are made of.
ESP, EBP, EIP, CS, SS, RECORD = 4, 5, 8, 41, 42, 38
FOUR, LEFT, PLUS, AT, WORD_AT = b'\x34', b'\x24', b'\x22', b'\x06', b'\x94\x02'
BREG, BREGX = 0x70, b'\x92'
FURTHER, SAME, CFA_AT, CFA_IS, VALUE_IS = b'\x04', b'\x08', b'\x0C', b'\x0F', b'\x16'
NO_CALLER = b'\x07' + bytes([EIP])  # where a frame goes on is undefined
PROLOGUES, POP_BP = (b'\x55\x89\xE5', b'\x55\x8B\xEC'), 0x5D
PUSHES = {*range(0x50, 0x58), 0x4C}  # of registers, and DEC SP
ROOM = {b'\x83\xEC': 3, b'\x81\xEC': 4, b'\x83\xC4': 3, b'\x81\xC4': 4}  # SUB and ADD of SP and a number
RETURNS = {0xC3: 1, 0xC2: 3}  # near ones, with their lengths


def uleb(value: int) -> bytes:
    """A number of DWARF without sign."""
    more, low = value >> 7, value & 0x7F
    return bytes([low | 0x80]) + uleb(more) if more else bytes([low])


def sleb(value: int) -> bytes:
    """A number of DWARF with its sign."""
    more, low = value >> 7, value & 0x7F
    is_last = more == (-1 if low & 0x40 else 0)
    return bytes([low]) if is_last else bytes([low | 0x80]) + sleb(more)


def counted(rest: bytes) -> bytes:
    """A part of DWARF with its length before it."""
    return struct.pack('<I', len(rest)) + rest


def expression(*parts: bytes) -> bytes:
    """An expression."""
    whole = b''.join(parts)
    return uleb(len(whole)) + whole


def register(number: int) -> bytes:
    """A register's value."""
    return BREGX + uleb(number) + b'\x00'


def value_is(number: int, *parts: bytes) -> bytes:
    """The rule by which the caller had this value in a register."""
    return VALUE_IS + uleb(number) + expression(*parts)


def word_in(segment: int, base: int, offset: int) -> tuple[bytes, ...]:
    """The address that a word on the stack, so far from a register, is in a segment."""
    return register(segment), FOUR, LEFT, bytes([BREG + base]) + sleb(offset), WORD_AT, PLUS


def recorded(at: int) -> bytes:
    """A word of the frame's record: how far its end is from SP, how far its caller's SP, where that goes on, and its record."""
    return BREGX + uleb(RECORD) + sleb(RECORDS + at) + AT


def by_record() -> bytes:
    """The rule by the record."""
    stack = bytes([BREG + ESP, 0])
    next_one = value_is(EIP, recorded(8)) + value_is(RECORD, recorded(12))
    return CFA_IS + expression(stack, recorded(0), PLUS) + value_is(ESP, stack, recorded(4), PLUS) + next_one


def returns_at(base: int, offset: int, has_saved: bool) -> bytes:
    """The rule where the return address stands so far from a register, and BP's value before it if it is saved."""
    there, above = word_in(CS, base, offset), bytes([BREG + base]) + sleb(offset + 2)
    saved = value_is(EBP, *word_in(SS, EBP, 0)) if has_saved else SAME + uleb(EBP)
    return CFA_AT + uleb(base) + uleb(offset) + value_is(ESP, above) + value_is(EIP, *there) + value_is(RECORD, recorded(12)) + saved


def rules_of(octets: bytes) -> bytes:
    """The rules of a routine with a frame: behind PUSH BP, behind MOV BP,SP, and at each RET behind a POP BP."""
    framed = returns_at(EBP, 2, True)
    rules, at = FURTHER + struct.pack('<I', 1) + returns_at(ESP, 2, False) + FURTHER + struct.pack('<I', 2) + framed, 3
    for place in range(4, len(octets)):
        length = RETURNS.get(octets[place], 0)
        if length and octets[place - 1] == POP_BP and place >= at:
            rules += FURTHER + struct.pack('<I', place - at) + returns_at(ESP, 0, False) + FURTHER + struct.pack('<I', length) + framed
            at = place + length
    return rules


def behind_prologue(octets: bytes) -> range:
    """How far from its first byte a routine's frame is set up: from behind PUSH BP and MOV BP,SP on, over pushes of registers, up to where
    room has been made; nothing of a routine without a frame. A debugger that looks at instructions ends at one of these places."""
    if octets[:3] not in PROLOGUES:
        return range(0)
    at = 3
    while at < len(octets):
        taken = 1 if octets[at] in PUSHES else ROOM.get(octets[at : at + 2], 0)
        if not taken:
            break
        at += taken
    return range(3, at + 1)


def memory_of(listing: Listing) -> dict[int, int]:
    """The bytes that a listing tells."""
    parts = [*listing.parts.items(), *((address, line.shown) for address, line in listing.at.items())]
    return {first + place: octet for first, octets in parts for place, octet in enumerate(octets)}


def frames_of(listing: Listing, routines: list[tuple[int, int]]) -> bytes:
    """`.debug_frame`, for routines by first address and end: those with a frame by BP, and code without a caller, have rules of
    their own."""
    common = struct.pack('<IB', 0xFFFFFFFF, 3) + b'\x00' + uleb(1) + sleb(1) + uleb(EIP) + by_record()
    memory = memory_of(listing)
    texts = [(first, end, bytes(memory.get(address, 0) for address in range(first, end))) for first, end in routines]
    framed = [(first, end, rules_of(octets)) for first, end, octets in texts if octets[:3] in PROLOGUES]
    entries, here = counted(common), 0
    for first, end, rules in sorted([*framed, *((first, end, NO_CALLER) for first, end in outermost(listing)), (MEMORY, MEMORY, b'')]):
        if first < here:
            continue
        if first > here:
            entries += counted(struct.pack('<III', 0, here, first - here))
        if first < end:
            entries += counted(struct.pack('<III', 0, first, end - first) + rules)
        here = end
    return entries + counted(struct.pack('<III', 0, MEMORY, NOWHERE + 1 - MEMORY) + NO_CALLER)
