"""What a source says by itself: its names, where each is defined and used, its segments, and the values of its constants."""
from __future__ import annotations

import re
from dataclasses import dataclass, replace
from functools import cached_property

from toolbox.lsp.lines import CONSTANT, DATA, LABEL, Parsed, Token, parsed
from toolbox.lsp.text import Text


@dataclass(frozen=True)
class Definition:
    """A name, its kind, and the line that defines it first."""

    kind: str
    line: int
    name: Token


@dataclass(frozen=True)
class Span:
    """A segment: its name, and the lines from SEGMENT to ENDS."""

    name: Token
    first: int
    last: int


class Source:
    """A text as the dialect has it."""

    def __init__(self, text: Text) -> None:
        self.text = text
        self.lines: list[Parsed] = [parsed(line) for line in text.lines]
        if text.whole.startswith('\ufeff'):
            self.lines[0] = parsed(text.lines[0].replace('\ufeff', ' ', 1))

    @cached_property
    def definitions(self) -> dict[str, Definition]:
        """Each name in upper case, with what defines it first."""
        found = dict[str, Definition]()
        for number, line in enumerate(self.lines):
            for kind, name in line.definitions:
                found.setdefault(name.key, Definition(kind, number, name))
        return found

    @cached_property
    def places(self) -> dict[str, list[tuple[int, Token]]]:
        """Where each name stands, by the name in upper case."""
        found = dict[str, list[tuple[int, Token]]]()
        for number, line in enumerate(self.lines):
            for name in line.names:
                found.setdefault(name.key, []).append((number, name))
        return found

    @cached_property
    def spans(self) -> list[Span]:
        """The segments in their order."""
        found, is_open = list[Span](), False
        for number, line in enumerate(self.lines):
            if line.defined and line.does('SEGMENT'):
                found.append(Span(line.defined[1], number, len(self.lines) - 1))
                is_open = True
            elif line.does('ENDS') and is_open:
                found[-1] = replace(found[-1], last=number)
                is_open = False
        return found

    def span_of(self, line: int) -> Span | None:
        """The segment that a line is in."""
        return next((span for span in self.spans if span.first <= line <= span.last), None)

    def named(self, line: int, column: int) -> Token | None:
        """The name at a place, if it is one that the source defines."""
        found = self.lines[line].at(column)
        return found if found and found.kind == 'name' and found.key in self.definitions else None

    @cached_property
    def is_data(self) -> list[bool]:
        """Of each line whether it, or else the next one that does something, places data."""
        found, last = list[bool](), False
        for line in reversed(self.lines):
            last = line.does(*DATA) if line.statement else last
            found.append(last)
        return found[::-1]

    @cached_property
    def constants(self) -> dict[str, int]:
        """The values of EQU and SEGMENT names, as far as these are made of numbers and earlier ones."""
        found = dict[str, int]()
        for line in self.lines:
            if line.defined and line.defined[1].key not in found:
                kind, name = line.defined
                value = value_of(line.operands if kind == CONSTANT else line.operands[2:], found)
                if value is not None:
                    found[name.key] = value
        return found

    def value(self, tokens: tuple[Token, ...]) -> int | None:
        """A constant expression's value, or None."""
        return value_of(tokens, self.constants)

    def labels(self) -> list[Definition]:
        """The labels in their order."""
        return [definition for definition in self.definitions.values() if definition.kind == LABEL]


def number_in(token: Token) -> int | None:
    """A number of at most 4,000 digits, as Python's int takes some more, or a character as a number."""
    if token.kind == 'text':
        return ord(token.text[1]) if re.fullmatch(r"'[^']'", token.text) else None
    for pattern, base in ((r'(\d[0-9A-F]{,3999})H', 16), (r'([01]{1,4000})B', 2), (r'(\d{1,4000})', 10)):
        if found := re.fullmatch(pattern, token.key):
            return int(found[1], base)
    return None


def value_of(tokens: tuple[Token, ...], names: dict[str, int]) -> int | None:
    """The value of terms joined by + and -, perhaps after a -; None if a term is no number and none of these names."""
    total, sign, is_wanted = 0, 1, True
    for at, token in enumerate(tokens):
        if token.text in ('+', '-') and (not is_wanted or at == 0 and token.text == '-'):
            sign, is_wanted = (1 if token.text == '+' else -1), True
            continue
        term = names.get(token.key) if token.kind == 'name' else number_in(token) if token.kind in ('number', 'text') else None
        if term is None or not is_wanted:
            return None
        total, is_wanted = total + sign * term, False
    return None if is_wanted else total
