"""What is told of the word at a place: of a mnemonic its bytes, clocks and forms, of a label its address, of a number its value, of a port
its chip."""
from __future__ import annotations

from toolbox import foreign
from toolbox.forms import form_of, learn
from toolbox.lsp import clocks
from toolbox.lsp.asked import want
from toolbox.lsp.documents import Document
from toolbox.lsp.instructions import forms_of
from toolbox.lsp.lines import LABEL, Token
from toolbox.lsp.ports import ports, written
from toolbox.lsp.source import Definition, number_in
from toolbox.lsp.straight import bytes_before, bytes_out, port_of
from toolbox.lsp.text import Fields

WITHOUT = 'of the text without its refused lines'
MOST_USES = 20


def hover(document: Document, asked: Fields) -> Fields | None:
    """The text for the asked place; of a line of MASM what becomes of it: rows of the dialect's listing."""
    line, column = document.text.place(want(asked, 'position', dict))
    token, span = document.source.lines[line].at(column), (0, len(document.text.lines[line]))
    if document.is_masm:
        rows = foreign.rows_of_line(line + 1, *document.as_file)
        paragraphs = ['\n'.join(['```', *rows, '```'])] if rows else []
    elif token and not document.note:
        paragraphs, span = told_of(document, line, token), (token.start, token.end)
    else:
        paragraphs = []
    return {'contents': {'kind': 'markdown', 'value': '\n\n'.join(paragraphs)}, 'range': document.text.range(line, *span)} if paragraphs else None


def told_of(document: Document, line: int, token: Token) -> list[str]:
    """The paragraphs for a token."""
    if token.kind == 'mnemonic':
        return of_a_mnemonic(document, line, token) + of_a_port(document, line) + forms_told(token)
    definition = document.source.definitions.get(token.key) if token.kind == 'name' else None
    if definition and definition.kind == LABEL:
        return of_a_label(document, definition)
    value = document.source.constants.get(token.key) if definition else number_in(token) if token.kind in ('number', 'text') else None
    paragraphs = [f'`{token.text}` {as_number(value)}'] if value is not None else []
    return paragraphs + (of_a_port(document, line) if token.kind in ('number', 'name', 'register') else [])


def of_a_mnemonic(document: Document, line: int, token: Token) -> list[str]:
    """What it does, the line's bytes and clocks, and the flags."""
    forms = forms_of(token.text)
    paragraphs = [f'**{token.key}** {forms[0].does}'] if forms else []
    row = document.answers.rows.get(line)
    form = form_of(document.answers.octets(line)) if row and forms else None
    if form and form.octets:
        paragraphs.append(f'`{row}`{partly(document)}')
        paragraphs += [f'Clocks by C{table + 1}: {clocks.text_of(form, table)}' for table in (0, 1)]
        paragraphs.append(f'Flags that change: {forms[0].flags or "none"}')
    return paragraphs


def forms_told(token: Token) -> list[str]:
    """The mnemonic's forms, as a table."""
    rows = [f'|{token.key if token.key in row.names else row.names[0]} {row.operands}|{row.octets}|{row.clocks}|' for row in forms_of(token.text)]
    return ['\n'.join(['|Form|Bytes|Clocks|', '|-|-|-|', *rows])] if rows else []


def partly(document: Document) -> str:
    """What is said beside an answer while lines are refused."""
    return '' if document.answers.is_whole else f', {WITHOUT}'


def of_a_port(document: Document, line: int) -> list[str]:
    """The chip and register that IN or OUT reaches, and what the byte says that is written there."""
    port = port_of(document.source, line)
    if port is None:
        return []
    paragraphs = [f'port {port:X}h: {ports().get(port, "nothing answers")}']
    before = bytes_before(document.source, line)
    for at, byte in bytes_out(document.source, line):
        says = written(at, byte, before)
        paragraphs += [f'{byte:02X}h there: {says}' if at == port else f'{byte:02X}h at port {at:X}h: {says}'] if says else []
        before = [*before, (at, byte)]
    return paragraphs


def of_a_label(document: Document, definition: Definition) -> list[str]:
    """A label's address, its comment or first bytes, and its uses."""
    far = document.answers.labels.get(definition.name.key)
    paragraphs = [f'**{definition.name.text}** label' + (f', `{far[0]:04X}:{far[1]:04X}`{partly(document)}' if far else '')]
    comment = comment_of(document, definition.line)
    first = next((document.answers.rows[at] for at in range(definition.line, len(document.text.lines)) if at in document.answers.rows), None)
    if comment:
        paragraphs.append(comment)
    elif first and first.address == far:
        paragraphs.append(f'begins with `{first.shown.hex(" ").upper()}`')
    uses = [number + 1 for number, name in document.source.places[definition.name.key] if name in document.source.lines[number].uses]
    more = ' ..' if len(uses) > MOST_USES else ''
    lines = ', '.join(map(str, dict.fromkeys(uses[:MOST_USES])))
    return paragraphs + [f'used in line{"s" * (len(set(uses)) > 1)} {lines}{more}' if uses else 'used nowhere']


def comment_of(document: Document, line: int) -> str:
    """The comment lines just above a line, else its own comment."""
    found, at = list[str](), line - 1
    while at >= 0 and len(document.source.lines[at].tokens) == 1 and (above := document.source.lines[at].comment):
        found.insert(0, above.text.lstrip('; '))
        at -= 1
    own = document.source.lines[line].comment
    return ' '.join(found) if found else own.text.lstrip('; ') if own else ''


def as_number(value: int) -> str:
    """A number in hexadecimal, decimal and binary, and as text if it is one; that it's too large, if 64 bits don't hold it."""
    width = next((size for size in (8, 16, 32, 64) if -(1 << size - 1) <= value < 1 << size), None)
    if width is None:
        return 'needs more than 64 bits'
    bits = value % (1 << width)
    hexadecimal = f'{bits:X}h' if f'{bits:X}'[0].isdigit() else f'0{bits:X}h'
    octets = bits.to_bytes(width // 8, 'big').lstrip(b'\0')
    text = f", '{octets.decode('ascii')}'" if octets and all(0x20 <= octet <= 0x7E for octet in octets) else ''
    return f'is {hexadecimal}, {value}, {bits:b}b{text}'


def inlay_hints(document: Document, asked: Fields) -> list[Fields]:
    """Address, bytes and clocks at each line's end, if the settings want them."""
    if not document.settings.hints or document.note:
        return []
    span = want(asked, 'range', dict)
    first, last = (document.text.place(span.get(edge))[0] for edge in ('start', 'end'))
    lines = [line for line in range(first, last + 1) if line in document.answers.rows]
    learn(document.answers.octets(line) for line in lines if is_instruction(document, line))
    return [hint_of(document, line) for line in lines]


def is_instruction(document: Document, line: int) -> bool:
    """Whether a line has a mnemonic."""
    statement = document.source.lines[line].statement
    return bool(statement and statement.kind == 'mnemonic')


def hint_of(document: Document, line: int) -> Fields:
    """A line's hint."""
    row, form = document.answers.rows[line], form_of(document.answers.octets(line)) if is_instruction(document, line) else None
    label = f'{row} {clocks.short(form)}' if form and form.octets else str(row)
    hint = {'position': document.text.position(line, len(document.text.lines[line])), 'label': label, 'paddingLeft': True}
    return hint if document.answers.is_whole else hint | {'tooltip': WITHOUT}
