"""The disk of files of a program with services: memory below the services' own, laid out as services/dos.asm has it. Files are put on
it before a run and taken off it after; of the host's files the program reaches none."""
from __future__ import annotations

import contextlib
import os
import re
import struct
from itertools import accumulate
from typing import Callable

from toolbox.command import Sorry, read_bytes, write_bytes
from toolbox.intel_hex import parts_of
from toolbox.loading import BLOCK, ROM, SERVICES_OWN, Loaded, placed
from toolbox.services import Served, address_of

KB = 192  # of all of it
CLUSTER, CLUSTERS, FIRST, END = 1024, 192, 2, 0xFF
DIRECTORY, ENTRIES, ENTRY = 0x200, 48, struct.Struct('<11sB10xHHHI')
DATE, ARCHIVE = 0x221, 0x20  # 1 January 1981
MOST = 190 * 1024  # bytes: all clusters but the first two
NAME = re.compile(r"([A-Z0-9!#$%&'()@^_`{}~-]{1,8})(?:\.([A-Z0-9!#$%&'()@^_`{}~-]{1,3}))?")
# MOV AH or MOV AX with the number of a function on files.
CALLS = re.compile(rb'\xB4[\x3C-\x43\x4E\x4F\x56]|\xB8.[\x3C-\x43\x4E\x4F\x56]', re.DOTALL)


def read_all(paths: tuple[str, ...]) -> dict[str, bytes]:
    """The files that are put on a disk, by the names that they have there: their own in capital letters, of eight and three characters."""
    found = dict[str, bytes]()
    for path in paths:
        name = os.path.basename(path).upper()
        if not NAME.fullmatch(name):
            has = 'has at most eight characters, a dot and three more, and no blank or other sign'
            raise Sorry(f'--file {path}: a name under DOS {has}: copy it to such a name')
        if name in found:
            raise Sorry(f'--file {path}: {name} is on the disk already')
        found[name] = read_bytes(path, MOST)
    taken = sum((len(octets) + CLUSTER - 1) // CLUSTER for octets in found.values())
    if len(found) > ENTRIES or taken > CLUSTERS - FIRST:
        room = f'{ENTRIES} files and {CLUSTERS - FIRST} KB'
        raise Sorry(f'--file: the disk has room for {room}, and here are {len(found)} and {taken}')
    return found


def laid_out(files: dict[str, bytes]) -> bytes:
    """A disk with these files, up to its last byte that isn't 0."""
    chain, entries, data = bytearray(256), list[bytes](), bytearray()
    chain[:FIRST] = bytes([END]) * FIRST
    for name, octets in files.items():
        first, count = FIRST + len(data) // CLUSTER, (len(octets) + CLUSTER - 1) // CLUSTER
        chain[first : first + count] = [*range(first + 1, first + count), END] if count else []
        stem, _, ending = name.partition('.')
        first = first if count else END
        entries.append(ENTRY.pack(f'{stem:8}{ending:3}'.encode('ascii'), ARCHIVE, 0, DATE, first, len(octets)))
        data += octets.ljust(CLUSTER * count, b'\0')
    head = bytes(chain).ljust(DIRECTORY, b'\0') + b''.join(entries)
    return (head.ljust(FIRST * CLUSTER, b'\0') + data).rstrip(b'\0')


def beside(found: Loaded, name: str, paths: tuple[str, ...] | None, ram: int) -> Loaded:
    """A program with these files on a disk. By None it gets an empty one if it may use it, and if there is room."""
    has_dos, base = 'dos' in found.services, 64 * ram - SERVICES_OWN - 64 * KB
    end = max(max((address for address in found.image if address < ROM), default=0) // 16 + 1, found.end)
    if paths is None and not (has_dos and end <= base and any(map(CALLS.search, parts_of(found.image).values()))):
        return found
    if not has_dos:
        raise Sorry(f"{name} is a first sector, which has no DOS: --file and --files-out go with programs of DOS")
    if end > base:
        least = (end + 63) // 64 + KB + SERVICES_OWN // 64
        raise Sorry(f'{name} leaves no room for the disk of files with {ram} KB of RAM: it wants {least}')
    segment, offset = address_of('dos_beside')
    octets = bytes(found.image[BLOCK + at] for at in range(12))
    block = struct.pack('<2s2H', octets[:2], offset, segment) + octets[6:] + octets[2:6]
    return found._replace(image=found.image | placed(BLOCK, block) | placed(16 * base, laid_out(read_all(paths or ()))))


def files_of(dump: Callable[[int, int], bytes], left: Served | None) -> dict[str, bytes]:
    """The files on a program's disk, if it has one, by what its services left. It may have written over it, which is told."""
    base, found = 16 * left.disk if left else 0, dict[str, bytes]()
    head = dump(base, FIRST * CLUSTER) if base else b''
    for octets, _, _, _, first, size in ENTRY.iter_unpack(head[DIRECTORY:]):
        if not octets[0]:
            continue
        stem, ending = (part.decode('latin-1').rstrip() for part in (octets[:8], octets[8:]))
        name, count = f'{stem}.{ending}'.removesuffix('.'), (size + CLUSTER - 1) // CLUSTER
        *clusters, end = accumulate(range(min(count, CLUSTERS)), lambda at, _: head[at], initial=first)
        is_whole = end == END and len(clusters) == count and all(FIRST <= cluster < CLUSTERS for cluster in clusters)
        if not NAME.fullmatch(name) or name in found or not is_whole:
            raise Sorry(f'the program has written over the disk of files, whose directory stands at {base + DIRECTORY:05X}h')
        found[name] = b''.join(dump(base + CLUSTER * cluster, CLUSTER) for cluster in clusters)[:size]
    return found


def check_folder(path: str) -> None:
    """Refuses a folder for files that has something in it, or is none."""
    if os.path.lexists(path) and (os.path.islink(path) or not os.path.isdir(path) or os.listdir(path)):
        raise Sorry(f'--files-out wants a folder that is new or empty, and {path} is neither')


def take_off(files: dict[str, bytes], path: str) -> None:
    """Writes the files of a disk to a folder that is new or empty."""
    check_folder(path)
    with contextlib.suppress(FileExistsError):
        os.mkdir(path)
    for name, octets in files.items():
        write_bytes(os.path.join(path, name), octets)
