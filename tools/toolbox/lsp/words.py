"""The dialect's words by what they are, as the editors' grammar has them, which is made of their definition."""
from __future__ import annotations

import functools
import re

from toolbox.desk.pages import grammar

KINDS = {
    'keyword.mnemonic': 'mnemonic',
    'keyword.prefix': 'prefix',
    'variable.language.register': 'register',
    'keyword.directive': 'directive',
    'keyword.operator': 'operator',
}
SEGMENT_REGISTERS = ('ES', 'CS', 'SS', 'DS')


@functools.cache
def kinds() -> dict[str, str]:
    """Each word in upper case, with its kind."""
    found = dict[str, str]()
    for rule in grammar():
        kind = KINDS.get(rule['name'].removesuffix('.zebludor'))
        words = re.search(r'\(\?:([A-Z0-9|]+)\)', rule['match'])
        if kind and words:
            found |= dict.fromkeys(words[1].split('|'), kind)
    return found


def words_of(kind: str) -> list[str]:
    """All words of a kind."""
    return [word for word, own in kinds().items() if own == kind]
