"""The tokens of a source by what they mean, as numbers."""
from __future__ import annotations

from toolbox.lsp.documents import Document
from toolbox.lsp.lines import CONSTANT, SEGMENT, Token
from toolbox.lsp.text import Fields, units

TYPES = ['comment', 'string', 'number', 'keyword', 'macro', 'modifier', 'operator', 'property', 'function', 'variable', 'enumMember', 'namespace']
MODIFIERS = ['declaration']
BY_KIND = {'text': 'string', 'mnemonic': 'keyword', 'directive': 'macro', 'prefix': 'modifier', 'register': 'property'}


def type_of(document: Document, token: Token) -> str | None:
    """A token's type, or None for signs and for names that nothing defines."""
    if token.kind != 'name':
        found = BY_KIND.get(token.kind, token.kind)
        return found if found in TYPES else None
    definition = document.source.definitions.get(token.key)
    if definition is None:
        return None
    if definition.kind in (CONSTANT, SEGMENT):
        return 'enumMember' if definition.kind == CONSTANT else 'namespace'
    return 'variable' if document.source.is_data[definition.line] else 'function'


def semantic_tokens(document: Document, _: Fields) -> Fields:
    """Five numbers for each: lines and columns on from the one before, its length, its type, and whether it defines."""
    data, line_before, column_before = list[int](), 0, 0
    for number, line in enumerate(document.source.lines):
        own = [name for _, name in line.definitions]
        for token in line.tokens:
            kind = type_of(document, token)
            if kind is None:
                continue
            column, end = (units(document.text.lines[number], at) for at in (token.start, token.end))
            before = column_before if number == line_before else 0
            data += [number - line_before, column - before, end - column, TYPES.index(kind), int(token in own)]
            line_before, column_before = number, column
    return {'data': data}
