"""Where a name is defined and used, and another name for it."""
from __future__ import annotations

import re

from toolbox.lsp.asked import FAILED, Unfit, want
from toolbox.lsp.documents import Document
from toolbox.lsp.lines import Token
from toolbox.lsp.text import Fields
from toolbox.lsp.words import kinds

LONGEST_NAME = 31


def named(document: Document, asked: Fields) -> Token | None:
    """The name that stands at the asked position, if the source defines it."""
    return document.source.named(*document.text.place(want(asked, 'position', dict)))


def location(document: Document, line: int, name: Token) -> Fields:
    """Where a name stands."""
    return {'uri': document.uri, 'range': document.text.range(line, name.start, name.end)}


def definition(document: Document, asked: Fields) -> Fields | None:
    """Where the name is defined first."""
    name = named(document, asked)
    if name is None:
        return None
    found = document.source.definitions[name.key]
    return location(document, found.line, found.name)


def references(document: Document, asked: Fields) -> list[Fields]:
    """Where the name stands, with its definitions only if these are asked for."""
    name = named(document, asked)
    if name is None:
        return []
    with_definitions = want(want(asked, 'context', dict, {}), 'includeDeclaration', bool, False)
    lines = document.source.lines
    defines = [(number, token) for number, token in document.source.places[name.key] if token in [own for _, own in lines[number].definitions]]
    return [location(document, *place) for place in document.source.places[name.key] if with_definitions or place not in defines]


def highlights(document: Document, asked: Fields) -> list[Fields]:
    """Each place of the name in this document."""
    name = named(document, asked)
    return [{'range': document.text.range(line, token.start, token.end)} for line, token in document.source.places[name.key]] if name else []


def renamed_at(document: Document, asked: Fields) -> Fields:
    """The name that a new one can be given, and its range."""
    name = named(document, asked)
    if name is None:
        raise Unfit('no name that the source defines stands here', FAILED)
    line, _ = document.text.place(asked['position'])
    return {'range': document.text.range(line, name.start, name.end), 'placeholder': name.text}


def rename(document: Document, asked: Fields) -> Fields:
    """The edits that give a name another spelling everywhere, but in texts and comments."""
    name, new = named(document, asked), want(asked, 'newName', str)
    if name is None:
        raise Unfit('no name that the source defines stands here', FAILED)
    if why := unfit(document, name, new):
        raise Unfit(why, FAILED)
    places = document.source.places[name.key]
    return {'changes': {document.uri: [{'range': document.text.range(line, token.start, token.end), 'newText': new} for line, token in places]}}


def unfit(document: Document, name: Token, new: str) -> str:
    """Why a name can't be had, or nothing."""
    if not re.fullmatch(r'[A-Za-z_]\w*', new, re.A):
        return f"{new or 'nothing'} is no name: a name is a letter or _, then letters, digits and _"
    if len(new) > LONGEST_NAME:
        return f'{new} has {len(new)} characters, and a name has {LONGEST_NAME} at most'
    if new.upper() in kinds():
        return f'{new} is a word of the dialect, and no name'
    found = document.source.definitions.get(new.upper())
    if found and new.upper() != name.key:
        return f'{new} is defined already, in line {found.line + 1}'
    if new.upper() in document.source.places and new.upper() != name.key:
        return f'{new} is used already, in line {document.source.places[new.upper()][0][0] + 1}'
    return ''
