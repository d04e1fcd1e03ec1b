"""A line of a source as its tokens, and what it defines, does and uses. Whether it is right, the program says."""
from __future__ import annotations

import functools
import re
from dataclasses import dataclass
from typing import NamedTuple

from toolbox.lsp.words import SEGMENT_REGISTERS, kinds

TOKEN = re.compile(r"(?P<comment>;.*)|(?P<text>'[^']*'?)|(?P<number>\d\w*)|(?P<word>[A-Za-z_]\w*)|(?P<sign>\S)", re.A | re.S)
DATA = ('DB', 'DW', 'DD')
LABEL, CONSTANT, SEGMENT = 'label', 'constant', 'segment'


class Token(NamedTuple):
    """A word, number, text, sign or comment. A word is also a mnemonic, prefix, register, directive, operator or name."""

    kind: str
    text: str
    start: int

    @property
    def end(self) -> int:
        """The column after it."""
        return self.start + len(self.text)

    @property
    def key(self) -> str:
        """What it is without regard to case."""
        return self.text.upper()


@dataclass(frozen=True)
class Parsed:
    """A line: its tokens; what it defines, with the name; its statement, the token that says what it does, and those after it."""

    tokens: tuple[Token, ...] = ()
    label: Token | None = None
    defined: tuple[str, Token] | None = None
    prefixes: tuple[Token, ...] = ()
    statement: Token | None = None
    operands: tuple[Token, ...] = ()

    @property
    def comment(self) -> Token | None:
        """The comment, which is the last token."""
        return self.tokens[-1] if self.tokens and self.tokens[-1].kind == 'comment' else None

    @property
    def definitions(self) -> list[tuple[str, Token]]:
        """The label and the constant, as far as there are some."""
        return ([(LABEL, self.label)] if self.label else []) + ([self.defined] if self.defined else [])

    @property
    def names(self) -> list[Token]:
        """All names, those that it defines too."""
        return [token for token in self.tokens if token.kind == 'name']

    @property
    def uses(self) -> list[Token]:
        """The names that it doesn't define."""
        own = [name for _, name in self.definitions]
        return [name for name in self.names if name not in own]

    def does(self, *words: str) -> bool:
        """Whether its statement is one of these."""
        return self.statement is not None and self.statement.key in words

    def at(self, column: int) -> Token | None:
        """The token at a column, or the word that ends there."""
        found = [token for token in self.tokens if token.start <= column <= token.end]
        return next((token for token in found if column < token.end and token.kind != 'sign'), found[0] if found else None)

    def groups(self) -> list[tuple[Token, ...]]:
        """The operands, as the commas part them."""
        found: list[list[Token]] = [[]]
        for token in self.operands:
            if token.text == ',':
                found.append([])
            else:
                found[-1].append(token)
        return [tuple(group) for group in found] if self.operands else []


def kind_of(found: re.Match[str]) -> str:
    """A token's kind."""
    kind = str(found.lastgroup)
    return kinds().get(found[0].upper(), 'name') if kind == 'word' else kind


@functools.lru_cache(maxsize=1 << 16)
def parsed(line: str) -> Parsed:
    """A line without its end."""
    tokens = tuple(Token(kind_of(match), match[0], match.start()) for match in TOKEN.finditer(line))
    rest = [token for token in tokens if token.kind != 'comment']
    label = rest[0] if len(rest) > 1 and rest[0].kind == 'name' and rest[1].text == ':' else None
    rest = rest[2:] if label else rest
    at = 0
    while at < len(rest) and (rest[at].kind == 'prefix' or rest[at].key in SEGMENT_REGISTERS):
        at += 2 if rest[at].kind == 'register' else 1
    prefixes, rest = tuple(token for token in rest[:at] if token.text != ':'), rest[at:]
    if len(rest) > 1 and rest[0].kind == 'name' and rest[1].key == 'EQU':
        return Parsed(tokens, label, (CONSTANT, rest[0]), prefixes, rest[1], tuple(rest[2:]))
    defined = (SEGMENT, rest[1]) if len(rest) > 1 and rest[0].key == 'SEGMENT' and rest[1].kind == 'name' else None
    return Parsed(tokens, label, defined, prefixes, rest[0] if rest else None, tuple(rest[1:]))
