"""A source laid out in columns: labels and directives of segments at the first, statements at 8, comments at 32. Texts and comments stay
as they are, and so does a line that is only a comment."""
from __future__ import annotations

from toolbox.lsp.asked import FAILED, Unfit, want
from toolbox.lsp.documents import Document
from toolbox.lsp.lines import CONSTANT, Parsed
from toolbox.lsp.text import Fields

STATEMENT, COMMENT = 8, 32


def padded(text: str, column: int) -> str:
    """A text up to a column, or with one space if it is longer."""
    return text + ' ' * max(column - len(text), 1)


def statement_of(line: str, parts: Parsed) -> str:
    """The statement, with one space after its mnemonic and prefixes."""
    first = parts.prefixes[0] if parts.prefixes else parts.statement
    code = [token for token in parts.tokens if token.kind != 'comment' and first and token.start >= first.start]
    if not code or parts.statement is None:
        return line[code[0].start : code[-1].end] if code else ''
    prefixes = ' '.join(token.text + ':' * (token.kind == 'register') for token in parts.prefixes)
    operands = line[parts.operands[0].start : parts.operands[-1].end] if parts.operands else ''
    return ' '.join(filter(None, (prefixes, parts.statement.text, operands)))


def laid_out(line: str, parts: Parsed) -> str:
    """A line in its columns."""
    has_open_text = any(token.kind == 'text' and (len(token.text) < 2 or not token.text.endswith("'")) for token in parts.tokens)
    if has_open_text or parts.comment and len(parts.tokens) == 1:
        return line
    statement, head = statement_of(line, parts), f'{parts.label.text}:' if parts.label else ''
    if parts.defined and parts.defined[0] == CONSTANT:
        head = f'{head} {parts.defined[1].text}'.lstrip()
    elif parts.does('SEGMENT', 'ENDS') and not parts.label:
        return with_comment(statement, parts)
    return with_comment(padded(head, STATEMENT) + statement if statement else head, parts)


def with_comment(code: str, parts: Parsed) -> str:
    """The code with the line's comment."""
    return padded(code, COMMENT) + parts.comment.text if parts.comment else code.rstrip()


def edits(document: Document, first: int, last: int) -> list[Fields]:
    """What lays out these lines."""
    if document.note:
        raise Unfit(document.note.text, FAILED)
    found = list[Fields]()
    for number in range(first, last + 1):
        line = document.text.lines[number]
        new = laid_out(line, document.source.lines[number])
        if new != line:
            found.append({'range': document.text.range(number, 0, len(line)), 'newText': new})
    return found


def formatting(document: Document, _: Fields) -> list[Fields]:
    """What lays out the whole document."""
    return edits(document, 0, len(document.text.lines) - 1)


def range_formatting(document: Document, asked: Fields) -> list[Fields]:
    """What lays out the lines of a range."""
    span = want(asked, 'range', dict)
    first, last = (document.text.place(span.get(edge)) for edge in ('start', 'end'))
    return edits(document, first[0], last[0] - (last[1] == 0 and last[0] > first[0]))
