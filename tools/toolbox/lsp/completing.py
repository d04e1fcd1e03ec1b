"""What may stand at a place, and the operands that a mnemonic takes."""
from __future__ import annotations

from toolbox.lsp.asked import want
from toolbox.lsp.documents import Document
from toolbox.lsp.instructions import forms_of
from toolbox.lsp.lines import CONSTANT, LABEL, Parsed, parsed
from toolbox.lsp.ports import ports
from toolbox.lsp.text import Fields
from toolbox.lsp.words import words_of

KEYWORD, REGISTER, LABEL_ITEM, CONSTANT_ITEM, VALUE, SEGMENT_ITEM = 14, 6, 3, 21, 12, 9
ADDRESSING = ('BX', 'BP', 'SI', 'DI')
SHORT_PORT = 0xFF


def item(label: str, kind: int, detail: str = '', rank: int = 5) -> Fields:
    """One of the list."""
    return {'label': label, 'kind': kind, 'detail': detail, 'sortText': f'{rank}{detail if kind == VALUE else label.lower()}'}


def statements(is_upper: bool) -> list[Fields]:
    """What a statement begins with."""
    found = list[Fields]()
    for word in words_of('mnemonic'):
        rows = forms_of(word)
        found.append(item(word, KEYWORD, rows[0].does if rows else '', 1))
    found += [item(word, KEYWORD, 'directive', 2) for word in words_of('directive') if word not in ('AT', 'DUP')]
    found += [item(word, KEYWORD, 'prefix', 3) for word in words_of('prefix')]
    return found if is_upper else [entry | {'label': entry['label'].lower()} for entry in found]


def names(document: Document) -> list[Fields]:
    """The source's own names."""
    constants = document.source.constants
    found = list[Fields]()
    for definition in document.source.definitions.values():
        line = document.text.lines[definition.line].strip()
        if definition.kind == LABEL:
            found.append(item(definition.name.text, LABEL_ITEM, line[:80], 1))
        else:
            value = constants.get(definition.name.key)
            kind = CONSTANT_ITEM if definition.kind == CONSTANT else SEGMENT_ITEM
            found.append(item(definition.name.text, kind, f'{value:X}h, {value}' if value is not None and value >= 0 else line[:80], 2))
    return found


def port_items(least: int, most: int) -> list[Fields]:
    """The ports in a range, by their chips."""
    return [item(f'{port:X}h' if f'{port:X}'[0].isdigit() else f'0{port:X}h', VALUE, what, 0) for port, what in ports().items() if least <= port <= most]


def operands(document: Document, line: Parsed) -> list[Fields]:
    """What an operand may be, where the line ends at the asked place."""
    count = sum(token.text == ',' for token in line.operands)
    in_brackets = [token.text for token in line.operands if token.text in '[]'][-1:] == ['[']
    if in_brackets:
        return [item(word, REGISTER, '', 3) for word in ADDRESSING] + names(document)
    found = list[Fields]()
    if line.does('OUT') and count == 0 or line.does('IN') and count == 1:
        found += port_items(0, SHORT_PORT)
    if line.does('MOV') and count == 1 and line.operands[0].key == 'DX':
        found += port_items(SHORT_PORT + 1, 0xFFFF)
    if line.statement and line.statement.kind == 'directive':
        return names(document) + [item(word, KEYWORD, '', 4) for word in ('DUP', 'SEG', 'AT')]
    registers = [item(word, REGISTER, '', 3) for word in words_of('register')]
    return found + names(document) + registers + [item(word, KEYWORD, 'operator', 4) for word in words_of('operator')]


def completion(document: Document, asked: Fields) -> Fields:
    """All that may stand there; the client picks by what is typed."""
    line, column = document.text.place(want(asked, 'position', dict))
    before = parsed(document.text.lines[line][:column])
    last = before.tokens[-1] if before.tokens else None
    items = list[Fields]()
    if last is None or last.kind not in ('comment', 'text'):
        is_begun = last is not None and last.end == column and last.kind != 'sign'
        at_statement = before.statement is None or is_begun and before.statement == last and not before.operands
        letter = last.text[0] if last and is_begun else ''
        items = statements(not letter.islower()) if at_statement else operands(document, before)
    return {'isIncomplete': False, 'items': items}


def signature_help(document: Document, asked: Fields) -> Fields | None:
    """The forms of the mnemonic before the place, with the operand that is written there."""
    line, column = document.text.place(want(asked, 'position', dict))
    before = parsed(document.text.lines[line][:column])
    if before.comment or before.statement is None or before.statement.kind != 'mnemonic' or before.statement.end == column:
        return None
    forms = [form for form in forms_of(before.statement.text) if form.operands]
    if not forms:
        return None
    active = sum(token.text == ',' for token in before.operands)
    signatures = [
        {
            'label': f'{before.statement.key} {form.operands}',
            'documentation': f'{form.octets}, clocks {form.clocks}',
            'parameters': [{'label': kind} for kind in form.kinds],
        }
        for form in forms
    ]
    fitting = next((at for at, form in enumerate(forms) if len(form.kinds) > active), 0)
    return {'signatures': signatures, 'activeSignature': fitting, 'activeParameter': active}
