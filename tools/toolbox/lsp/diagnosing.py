"""What is underlined: refused lines, with what to write, and what is accepted and hardly meant; and the edits that are offered for it."""
from __future__ import annotations

import itertools

from toolbox import foreign
from toolbox.faults import Fault
from toolbox.lsp.asked import want
from toolbox.lsp.documents import Document
from toolbox.lsp.doubts import doubts_of
from toolbox.lsp.repairs import MOST, candidates
from toolbox.lsp.text import Fields
from toolbox.messages import judged, what_to_do

ERROR, WARNING, INFORMATION = 1, 2, 3
LONGEST_REPAIRED, MOST_REPAIRED = 1000, 5


def code_range(document: Document, line: int) -> Fields:
    """A line without its comment and the spaces around."""
    tokens = [token for token in document.source.lines[line].tokens if token.kind != 'comment'] or document.source.lines[line].tokens
    length = len(document.text.lines[line])
    return document.text.range(line, tokens[0].start if tokens else 0, tokens[-1].end if tokens else length)


def of_a_fault(document: Document, fault: Fault, is_after: bool) -> Fields:
    """A refused line; a fault of the whole source stands at the first."""
    line = document.text.line_of(fault.line) if fault.line else 0
    message = f'{what_to_do(document.answers.lines, fault)}{judged(is_after)}'
    return {'range': code_range(document, line), 'severity': ERROR, 'code': fault.number, 'source': 'pcboard', 'message': message}


def diagnostics(document: Document) -> list[Fields]:
    """All that is known by now."""
    if document.is_masm:  # what is refused of a file that it includes stands at the first line
        places = ((code_range(document, document.text.line_of(line or 1)), text) for line, text in foreign.complaints(*document.as_file))
        return [{'range': place, 'severity': ERROR, 'source': 'pcmasm', 'message': text} for place, text in places]
    if document.note:
        note = document.note
        return [{'range': code_range(document, note.line), 'severity': INFORMATION, 'source': 'zebludor', 'message': note.text}]
    found = [of_a_fault(document, *refusal) for refusal in document.answers.refused]
    if document.answers.is_over and document.answers.is_whole:
        found += [
            {
                'range': document.text.range(doubt.line, doubt.first, doubt.last),
                'severity': WARNING,
                'code': doubt.name,
                'source': 'zebludor',
                'message': doubt.text,
            }
            for doubt in doubts_of(document.source, document.answers)
            if doubt.name not in document.settings.off
        ]
    return found


def repairs(document: Document, line: int) -> list[str]:
    """Other texts for a refused line, which the program doesn't refuse."""
    if len(document.text.lines[line]) > LONGEST_REPAIRED:
        return []
    them = dict.fromkeys(text for text in candidates(document.source, line) if text != document.text.lines[line])
    return [text for text in itertools.islice(them, 2 * MOST) if document.answers.accepts(line, text)][:MOST]


def code_actions(document: Document, asked: Fields) -> list[Fields]:
    """For each refused line of a range the edits that mend it."""
    span, found = want(asked, 'range', dict), list[Fields]()
    only = want(want(asked, 'context', dict, {}), 'only', list, ['quickfix'])
    first, last = (document.text.place(span.get(edge))[0] for edge in ('start', 'end'))
    if document.note or 'quickfix' not in only and '' not in only:
        return []
    document.answers.finish()
    faults = [refusal for refusal in document.answers.refused if refusal[0].line and first <= document.text.line_of(refusal[0].line) <= last]
    for fault, is_after in faults[:MOST_REPAIRED]:
        line = document.text.line_of(fault.line or 1)
        for at, text in enumerate(repairs(document, line)):
            edit = {'range': document.text.range(line, 0, len(document.text.lines[line])), 'newText': text}
            action = {'title': f'Write {text.partition(";")[0].strip()}', 'kind': 'quickfix', 'isPreferred': at == 0}
            found.append(action | {'diagnostics': [of_a_fault(document, fault, is_after)], 'edit': {'changes': {document.uri: [edit]}}})
    return found
