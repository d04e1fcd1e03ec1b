"""What a message of the client holds, and what is answered to one that isn't as the protocol has it."""
from __future__ import annotations

from typing import Any

PARSE, INVALID, NO_METHOD, PARAMS, INTERNAL = -32700, -32600, -32601, -32602, -32603
NOT_BEGUN, FAILED, CANCELLED = -32002, -32803, -32800
MOST = (1 << 31) - 1


class Unfit(Exception):
    """A request that is refused: a sentence, and the protocol's number."""

    def __init__(self, why: str, code: int = PARAMS) -> None:
        super().__init__(why)
        self.code = code


def want(fields: Any, name: str, kind: type, default: Any = None) -> Any:
    """A field of this kind; without a default it has to be there."""
    found = fields.get(name) if isinstance(fields, dict) else None
    if found is None and default is not None:
        return default
    if not isinstance(found, kind) or isinstance(found, bool) and kind is int:
        raise Unfit(f'"{name}" is missing, or no {kind.__name__}')
    return found


def number(fields: Any, name: str) -> int:
    """A field that is an unsigned number as the protocol has them."""
    found: int = want(fields, name, int)
    if not 0 <= found <= MOST:
        raise Unfit(f'"{name}" is {found}, and has to be 0 to {MOST}')
    return found
