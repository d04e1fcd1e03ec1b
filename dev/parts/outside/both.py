"""The same bytes on both sides, and what they leave in memory."""
from __future__ import annotations

from zebludor import Session

from parts.outside import mame
from parts.outside.mame import Answer, Image
from toolbox.command import Sorry

SECONDS = 4.0  # at most, of MAME's time
CLOCKS = 40_000_000
PART = 4096  # of memory, in a command

RESET = 'SEGMENT R AT 0FFFFh\n JMP FAR go\nENDS\n'


def run_here(image: Image, **fields: object) -> Answer:
    """Runs an image up to its halt on this board."""
    with Session(mame.hex_of(image), is_hex=True, **({'ram': 640} | fields)) as session:
        session.stop_at_halt()
        if session.go(CLOCKS) is None:
            raise Sorry(f'the board came to no halt in {CLOCKS:,} clocks')
        registers = session.registers
        ram = b''.join(session.dump(at, PART) for at in range(0, mame.RAM, PART))
        return Answer(ram, session.dump(mame.TEXT, mame.TEXT_SIZE), True, (registers['CS'], registers['IP']))


def run_there(program: str, image: Image) -> Answer:
    """Runs it up to its halt on MAME's."""
    answer = mame.run(program, image, SECONDS)
    if not answer.is_halted:
        raise Sorry(f'MAME came to no halt in {SECONDS} seconds of its own')
    return answer


def word(number: int) -> bytes:
    """The two bytes of a word, cut to sixteen bits."""
    return (number & 0xFFFF).to_bytes(2, 'little')


def out(port: int, value: int) -> bytes:
    """MOV AL,value; OUT port,AL."""
    return bytes([0xB0, value, 0xE6, port])


def kept(port: int) -> bytes:
    """IN AL,port; STOSB."""
    return bytes([0xE4, port, 0xAA])


def with_bytes(image: Image, at: int, octets: bytes) -> None:
    """Puts bytes into an image, from an address on."""
    image.update((at + n, octet) for n, octet in enumerate(octets))
