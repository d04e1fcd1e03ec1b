"""Who calls whom: CALL and JMP to labels. A routine begins at a label that one of them names, or that is the first of its segment, and goes
to the next of these."""
from __future__ import annotations

from toolbox.lsp.asked import want
from toolbox.lsp.documents import Document
from toolbox.lsp.lines import LABEL, Parsed, Token
from toolbox.lsp.naming import named
from toolbox.lsp.outline import FUNCTION
from toolbox.lsp.source import Definition, Source
from toolbox.lsp.text import Fields


def target_of(source: Source, line: Parsed) -> Token | None:
    """The label that a CALL or JMP goes to."""
    if not line.does('CALL', 'JMP') or any(token.text == '[' for token in line.operands):
        return None
    name = next((token for token in line.operands if token.kind == 'name'), None)
    found = source.definitions.get(name.key) if name else None
    return name if found and found.kind == LABEL else None


def routines(source: Source) -> list[Definition]:
    """The labels at which routines begin, in their order."""
    called = {target.key for target in (target_of(source, line) for line in source.lines) if target}
    labels = sorted(source.labels(), key=lambda label: label.line)
    firsts = {next((label.name.key for label in labels if span.first <= label.line <= span.last), '') for span in source.spans}
    return [label for label in labels if label.name.key in called | firsts]


def end_of(source: Source, routine: Definition, them: list[Definition]) -> int:
    """A routine's last line, among these."""
    span = source.span_of(routine.line)
    last = span.last if span else len(source.lines) - 1
    following = next((other.line for other in them if other.line > routine.line), last + 1)
    return max(routine.line, min(following - 1, last))


def item(document: Document, routine: Definition, them: list[Definition]) -> Fields:
    """One of the routines as the protocol has it."""
    text = document.text
    span = text.lines_range(routine.line, end_of(document.source, routine, them))
    return {
        'name': routine.name.text,
        'kind': FUNCTION,
        'uri': document.uri,
        'range': span,
        'selectionRange': text.range(routine.line, routine.name.start, routine.name.end),
    }


def prepare(document: Document, asked: Fields) -> list[Fields] | None:
    """The label at the asked place."""
    name = named(document, asked)
    found = document.source.definitions[name.key] if name else None
    return [item(document, found, routines(document.source))] if found and found.kind == LABEL else None


def asked_routine(document: Document, asked: Fields) -> Definition | None:
    """The routine of an item that the client has kept, if its name still is one."""
    name = want(want(asked, 'item', dict), 'name', str)
    found = document.source.definitions.get(name.upper())
    return found if found and found.kind == LABEL else None


def incoming(document: Document, asked: Fields) -> list[Fields]:
    """The routines that call one, each with the places."""
    source, callee = document.source, asked_routine(document, asked)
    them, found = routines(source), dict[str, tuple[Definition, list[Fields]]]()
    for number, line in enumerate(source.lines):
        name = target_of(source, line)
        if callee and name and name.key == callee.name.key:
            span = source.span_of(number)
            inside = [routine for routine in them if routine.line <= number and span and routine.line >= span.first]
            if inside:
                found.setdefault(inside[-1].name.key, (inside[-1], []))[1].append(document.text.range(number, name.start, name.end))
    return [{'from': item(document, routine, them), 'fromRanges': ranges} for routine, ranges in found.values()]


def outgoing(document: Document, asked: Fields) -> list[Fields]:
    """The labels that a routine calls, each with the places."""
    source, caller = document.source, asked_routine(document, asked)
    them, found = routines(source), dict[str, list[Fields]]()
    for number in range(caller.line, end_of(source, caller, them) + 1) if caller else ():
        if name := target_of(source, source.lines[number]):
            found.setdefault(name.key, []).append(document.text.range(number, name.start, name.end))
    return [{'to': item(document, source.definitions[key], them), 'fromRanges': ranges} for key, ranges in found.items()]
