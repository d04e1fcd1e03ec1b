"""Programs as DOS and a BIOS load them, in the memory of a board: .COM, .EXE, a diskette's first sector, and a source of the
dialect; each with the services before it (services/). And those that need none: ROMs, and the first two with examples/archive."""
from __future__ import annotations

import os
import struct
from typing import NamedTuple

from toolbox import services
from toolbox.command import Sorry, handed_on, tool
from toolbox.intel_hex import image_of, parts_of
from toolbox.listing import label_row, line_of, physical
from toolbox.program import TOP, answer_of
from toolbox.services import LEAST_RAM, MOST_RAM, SPAN

PSP, ENVIRONMENT = 0x100, 0xE0  # paragraphs; a header of a paragraph stands before each
ROOM_BEFORE = PSP - ENVIRONMENT + 1
MOST_OF_COM, TAIL, SECTOR = 0xFF00, 126, 0x7C00
END = ':00000001FF\n'
ROMS = (8192, 16384, 32768, 65536)  # bytes
BLOCK, RESET, ROM, SERVICES = 0xFFFE0, 0xFFFF0, 0xF0000, 0xF6000
HEADER = struct.Struct('<14H')
SERVICES_OWN = SPAN // 16  # paragraphs of RAM at its end


class Loaded(NamedTuple):
    """A program in memory: its bytes by address, the services before it, the rows of a file of symbols, and the paragraph up to which
    it wants memory."""

    image: dict[int, int]
    services: tuple[str, ...]
    rows: list[str]
    end: int = 0

    @property
    def hex(self) -> str:
        """All of it as Intel HEX."""
        them = [services.hex_of(name).replace(END, '') for name in self.services]
        return ''.join(them) + hex_of(self.image)


def placed(address: int, octets: bytes) -> dict[int, int]:
    """Bytes from an address on."""
    return dict(enumerate(octets, address))


def tail_of(args: str) -> bytes:
    """A command's tail as DOS hands it on: a blank before what was typed, unless it has one or fills the room, the return behind it."""
    if not args.isascii() or not args.isprintable():
        raise Sorry('--args takes printable ASCII')
    if len(args) > TAIL:
        raise Sorry(f'--args takes {TAIL} characters at most, and here are {len(args)}')
    tail = args if args[:1] in ('', ' ') or len(args) == TAIL else f' {args}'
    return bytes([len(tail)]) + tail.encode() + b'\r'


def prefix_of(psp: int, environment: int, name: str, args: str) -> dict[int, int]:
    """The program segment prefix (PSP) and the environment. The services set the end of memory in it."""
    octets = bytearray(256)
    octets[:0x0A] = bytes.fromhex('CD20000000') + bytes.fromhex('9AF0FE1DF0')
    octets[0x16:0x18] = octets[0x36:0x38] = struct.pack('<H', psp)
    octets[0x18:0x2C] = b'\1\1\1\0\2' + b'\xFF' * 15
    octets[0x2C:0x2E], octets[0x32:0x36] = struct.pack('<H', environment), struct.pack('<HH', 20, 0x18)
    octets[0x50:0x53] = b'\xCD\x21\xCB'
    octets[0x5D:0x68] = octets[0x6D:0x78] = b' ' * 11
    tail = tail_of(args)
    octets[0x80 : 0x80 + len(tail)] = tail
    own = os.path.basename(name).upper().encode('ascii', 'replace')[:64]
    return placed(16 * psp, bytes(octets)) | placed(16 * environment, b'COMSPEC=C:\\COMMAND.COM\0\0\1\0C:\\' + own + b'\0')


def begins(psp: int, code: tuple[int, int], stack: tuple[int, int], environment: int) -> dict[int, int]:
    """The block by which the services begin a program: CS:IP and SS:SP are a paragraph and an offset."""
    return placed(BLOCK, struct.pack('<6H', psp, code[1], code[0], stack[1], stack[0], environment))


def served(image: dict[int, int], start: tuple[int, int], end: int = 0) -> Loaded:
    """A program with the services, whose label `start` is where it begins, and that wants memory up to a paragraph, or no DOS; bytes
    of both at one address are refused."""
    names = ('bios', 'dos') if end else ('bios',)
    clash = min((address for name in names for address in image.keys() & services.bytes_of(name).keys()), default=None)
    if clash is not None:
        raise Sorry(f'the program has a byte at {clash:05X}h, where the services stand: from {SERVICES:05X}h on all is theirs')
    labels = {'start': start}
    for name in names:
        labels |= services.labels_of(name)
    return Loaded(image, names, [label_row(label, place) for label, place in labels.items()], end)


def check_com(name: str, octets: bytes) -> None:
    """Refuses what is no .COM program."""
    if not octets:
        raise Sorry(f'{name} is empty')
    if len(octets) > MOST_OF_COM:
        raise Sorry(f'{name} has {len(octets):,} bytes, and a .COM program has at most {MOST_OF_COM:,}')


def bare_com(name: str, octets: bytes) -> tuple[dict[int, int], list[str]]:
    """A .COM program that needs no services."""
    check_com(name, octets)
    if octets[:2] in (b'MZ', b'ZM'):
        raise Sorry(f'{name} begins with MZ, so it is an .EXE program: {tool("try")} runs it')
    return placed(16 * PSP + 0x100, octets) | archive('com'), []


def bare_sector(name: str, octets: bytes) -> tuple[dict[int, int], list[str]]:
    """A first sector that needs no services."""
    if len(octets) != 512:
        raise Sorry(f'{name} has {len(octets):,} bytes, and a first sector has 512' + (f': head -c 512 {name} > first.bin' if len(octets) > 512 else ''))
    ends = octets[-2:].hex(' ').upper()
    doubt = f'{name} ends in {ends}; a BIOS starts no sector that ends in anything but 55 AA'
    return placed(SECTOR, octets) | archive('sector'), [] if ends == '55 AA' else [doubt]


def bare_rom(name: str, octets: bytes) -> tuple[dict[int, int], list[str]]:
    """A ROM at the end of memory, where the processor begins, sixteen bytes before the end."""
    size = len(octets)
    if size not in ROMS:
        last = f'; tail -c 65536 {name} > last.bin gives the last 64 KB' if size > ROMS[-1] else ''
        raise Sorry(f'{name} has {size:,} bytes, and a ROM has {", ".join(f"{length:,}" for length in ROMS[:-1])} or {ROMS[-1]:,}{last}')
    first = octets[-16:-11]
    if set(octets[-16:]) in ({0}, {0xFF}):
        raise Sorry(f'{name} has nothing 16 bytes before its end, where the processor begins: it is no ROM, or not all of it')
    image = placed((1 << 20) - size, octets)
    if first[0] != 0xEA:
        return image, [f'{name} has {first[0]:02X} 16 bytes before its end, where the processor begins; a ROM of a PC has EA there, a far jump']
    offset, segment = struct.unpack('<HH', first[1:])
    is_inside = physical(segment, offset) in image
    return image, [] if is_inside else [f'the far jump at the end of {name} leads to {segment:04X}:{offset:04X}, where it has no byte']


def archive(name: str) -> dict[int, int]:
    """The bytes of examples/archive that set the registers before a program."""
    return image_of(answer_of(['asm', '--', f'{TOP}/examples/archive/{name}.asm']))


def com(name: str, octets: bytes, args: str) -> Loaded:
    """A .COM program."""
    check_com(name, octets)
    at = 16 * PSP
    image = prefix_of(PSP, ENVIRONMENT, name, args) | placed(at + 0x100, octets) | placed(at + 0xFFFE, b'\0\0')
    return served(image | begins(PSP, (PSP, 0x100), (PSP, 0xFFFE), ENVIRONMENT), (PSP, 0x100), PSP + 0x1000)


def sector(name: str, octets: bytes) -> Loaded:
    """A diskette's first sector."""
    if len(octets) != 512 or octets[-2:] != b'\x55\xAA':
        raise Sorry(f'{name} is no first sector, which has 512 bytes and ends in 55 AA; --com takes it as a .COM program')
    return served(placed(SECTOR, octets), (0, SECTOR))


def exe(name: str, octets: bytes, args: str, ram: int) -> Loaded:
    """An .EXE program with its relocations, at the paragraph behind its PSP."""
    if len(octets) < HEADER.size:
        raise Sorry(f'{name} ends within its header')
    _, last, pages, count, header, least, _, ss, sp, _, ip, cs, table, _ = HEADER.unpack_from(octets)
    end = 512 * pages - (512 - last if last else 0)
    if not pages or last > 511 or 16 * header >= end:
        raise Sorry(f"{name}: its header says {pages} pages, {last} bytes in the last and {header} paragraphs of header, which can't be")
    if end > len(octets):
        raise Sorry(f'{name} ends early: its header says {end:,} bytes, and here are {len(octets):,}')
    at, module = PSP + 0x10, bytearray(octets[16 * header : end])
    room = 64 * ram - SERVICES_OWN - at
    if (len(module) + 15) // 16 + least > room:
        raise Sorry(f'{name} wants {(len(module) + 15) // 16 + least:,} paragraphs of memory, and {room:,} are there with {ram} KB of RAM')
    relocate(name, octets, module, at, table, count)
    if (16 * cs + ip) % (1 << 20) >= len(module):
        raise Sorry(f'{name}: it begins at {cs:04X}:{ip:04X}, and has {len(module):,} bytes')
    if (16 * ss + (sp or 0x10000)) % (1 << 20) > 16 * room:
        raise Sorry(f'{name}: its stack ends at {ss:04X}:{sp:04X}, behind the memory that is there with {ram} KB of RAM')
    image = prefix_of(PSP, ENVIRONMENT, name, args) | placed(16 * at, bytes(module))
    code = (at + cs) % 0x10000, ip
    end = at + max((len(module) + 15) // 16 + least, ss + ((sp or 0x10000) + 15) // 16)
    return served(image | begins(PSP, code, ((at + ss) % 0x10000, sp), ENVIRONMENT), code, end)


def relocate(name: str, octets: bytes, module: bytearray, at: int, table: int, count: int) -> None:
    """Adds the paragraph `at` to each word that the table tells."""
    if count and table + 4 * count > len(octets):
        raise Sorry(f'{name}: its {count} relocations end behind the file')
    for number in range(count):
        offset, segment = struct.unpack_from('<HH', octets, table + 4 * number)
        place = 16 * segment + offset
        if place + 2 > len(module):
            raise Sorry(f'{name}: relocation {number + 1} is of {segment:04X}:{offset:04X}, outside of its {len(module):,} bytes')
        (word,) = struct.unpack_from('<H', module, place)
        struct.pack_into('<H', module, place, (word + at) % 0x10000)


def source(name: str, args: str, ram: int) -> Loaded:
    """A source of the dialect. It begins where its far jump at FFFF:0000 leads, which gives way to the services', else with its
    first byte. One that begins at offset 100h of a segment whose first 256 bytes are free is laid out as a .COM program; else the
    PSP stands behind the source's last byte in RAM."""
    image = image_of(answer_of(['asm', '--', handed_on(name)]))
    rows = answer_of(['asm', '--list', '--', handed_on(name)]).split('\n')[:-1]
    places = [line_of(0, row).address for row in rows]
    reset = {address: image.pop(address) for address in range(RESET, RESET + 16) if address in image}
    if reset and (list(reset) != list(range(RESET, RESET + 5)) or reset[RESET] != 0xEA):
        raise Sorry(f'{name}: at FFFF:0000 stands nothing but JMP FAR start, or nothing')
    if reset:
        start = reset[RESET + 3] + 256 * reset[RESET + 4], reset[RESET + 1] + 256 * reset[RESET + 2]
    else:
        start = next(filter(None, places), (0, 0))
    if not image:
        raise Sorry(f'{name} has no bytes but at FFFF:0000')
    psp = place_of(name, image, start, ram)
    environment = psp - ROOM_BEFORE + 1
    found = served(image | prefix_of(psp, environment, name, args) | begins(psp, start, (psp, 0xFFFE), environment), start, psp + 0x1000)
    # The far jump that gives way is none of the program's lines any more.
    own = [' ' * 28 + row[28:] if place and physical(*place) >= RESET else row for place, row in zip(places, rows)]
    return found._replace(rows=own + found.rows[1:])


def place_of(name: str, image: dict[int, int], start: tuple[int, int], ram: int) -> int:
    """The paragraph of a source's PSP."""
    first, segment = 16 * (start[0] - ROOM_BEFORE), start[0]
    if start[1] == 0x100 and first >= 0x600 and not any(first <= address < 16 * segment + 0x100 for address in image):
        return segment
    last = max((address for address in image if address < ROM), default=0x5FF)
    psp = max(last // 16 + 1, 0x60) + ROOM_BEFORE
    if psp + 0x1000 > 64 * ram - SERVICES_OWN:
        raise Sorry(f'{name} has a byte at {last:05X}h: behind it is no room for 64 KB and for the services with {ram} KB of RAM')
    return psp


def check_ram(ram: object, where: str) -> None:
    """Refuses RAM of a run file with which the services don't run."""
    if not isinstance(ram, int) or not LEAST_RAM <= ram <= MOST_RAM:
        raise Sorry(f'{where}: the services want {LEAST_RAM} to {MOST_RAM} KB of RAM: "ram":{MOST_RAM}')


def hex_of(image: dict[int, int]) -> str:
    """An image as Intel HEX, sixteen bytes a record."""
    rows, bank = list[str](), -1
    for first, octets in parts_of(image).items():
        for row in range(first & ~15, first + len(octets), 16):
            at = max(row, first)
            if at >> 16 != bank:
                bank = at >> 16
                rows.append(record(0, 2, struct.pack('>H', bank << 12)))
            rows.append(record(at & 0xFFFF, 0, octets[at - first : row + 16 - first]))
    return '\n'.join([*rows, record(0, 1, b''), ''])


def record(offset: int, kind: int, data: bytes) -> str:
    """A record of Intel HEX."""
    octets = struct.pack('>BHB', len(data), offset, kind) + data
    return f':{octets.hex().upper()}{-sum(octets) % 256:02X}'
