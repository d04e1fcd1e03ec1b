"""Instructions that the 8086 hasn't, by their bytes: what processors after it took them for (Intel 80186, 80286 and 80386 Programmer's
Reference Manuals)."""
from __future__ import annotations

from toolbox.forms import PREFIXES
from toolbox.tables import tables


def later(octets: bytes) -> str | None:
    """What bytes that jam the 8086 are on a later processor, as a clause, or nothing."""
    plain = octets.lstrip(PREFIXES)
    code = plain[: 2 if plain[:1] == b'\x0F' else 1].hex(' ').upper()
    name = tables('clauses')['later'].get(code)
    return f'{code} is {name}' if name else None
