"""Bytes of memory by their addresses, as texts of Intel HEX have them."""
from __future__ import annotations

import re

MEMORY = 1 << 20


def image_of(text: str) -> dict[int, int]:
    """The bytes of an Intel HEX text. Whether it is one, the program judges."""
    found, base = dict[int, int](), 0
    for record in re.findall(r'^:([0-9A-Fa-f]{10,}) *\r?$', text, re.M):
        octets = bytes.fromhex(record[: len(record) // 2 * 2])
        at, kind, data = int.from_bytes(octets[1:3], 'big'), octets[3], octets[4:-1]
        if kind == 0:
            found.update(((base + at + place) % MEMORY, octet) for place, octet in enumerate(data))
        elif kind in (2, 4):
            base = int.from_bytes(data, 'big') << (4 if kind == 2 else 16)
    return found


def parts_of(image: dict[int, int]) -> dict[int, bytes]:
    """The parts of memory that these bytes fill, each as long as it goes."""
    found, end = dict[int, bytearray](), -1
    for address, octet in sorted(image.items()):
        if address != end:
            part = found[address] = bytearray()
        part.append(octet)
        end = address + 1
    return {first: bytes(part) for first, part in found.items()}
