"""A source's segments, labels and constants as a tree, what folds in it, and the names of many sources."""
from __future__ import annotations

import os
import re
from pathlib import Path
from typing import Iterable, Iterator

from toolbox.lsp.documents import Document
from toolbox.lsp.lines import CONSTANT, LABEL, SEGMENT
from toolbox.lsp.source import Definition, Source, Span
from toolbox.lsp.text import Fields, Text
from toolbox.reading import read_whole

NAMESPACE, FUNCTION, VARIABLE, CONSTANT_SYMBOL = 3, 12, 13, 14
MOST_FILES, LONGEST_FILE, MOST_FOUND, LONGEST_LINE = 500, 1 << 20, 1000, 1000
LONG = re.compile(rf'^([^\r\n]{{{LONGEST_LINE}}})[^\r\n]+', re.M)


def symbol_kind(source: Source, definition: Definition) -> int:
    """What the protocol calls a name."""
    if definition.kind == LABEL:
        return VARIABLE if source.is_data[definition.line] else FUNCTION
    return NAMESPACE if definition.kind == SEGMENT else CONSTANT_SYMBOL


def symbol(document: Document, definition: Definition, last: int, children: list[Fields]) -> Fields:
    """A name with the lines that belong to it."""
    text = document.text
    entry = {'name': definition.name.text, 'kind': symbol_kind(document.source, definition), 'range': text.lines_range(definition.line, last)}
    return entry | {'selectionRange': text.range(definition.line, definition.name.start, definition.name.end), 'children': children}


def document_symbols(document: Document, _: Fields) -> list[Fields]:
    """The segments with their labels, and beside them the constants and what is in no segment."""
    source = document.source
    labels, found, keys = sorted(source.labels(), key=lambda label: label.line), list[Fields](), set[str]()
    for span in source.spans:
        inside = [label for label in labels if span.first <= label.line <= span.last]
        keys |= {label.name.key for label in inside}
        ends = [label.line for label in inside[1:]] + [span.last]
        children = [symbol(document, label, max(label.line, end - 1), []) for label, end in zip(inside, ends)]
        found.append(symbol(document, Definition(SEGMENT, span.first, span.name), span.last, children))
    rest = [definition for definition in source.definitions.values() if definition.kind != SEGMENT and definition.name.key not in keys]
    return found + [symbol(document, definition, definition.line, []) for definition in rest]


def folds(document: Document, _: Fields) -> list[Fields]:
    """The segments, and comments of two lines or more."""
    found = [{'startLine': span.first, 'endLine': span.last, 'kind': 'region'} for span in document.source.spans if span.last > span.first]
    first = None
    for number, line in enumerate([*document.source.lines, None]):
        is_comment = line is not None and len(line.tokens) == 1 and line.comment is not None
        if is_comment and first is None:
            first = number
        elif not is_comment and first is not None:
            found += [{'startLine': first, 'endLine': number - 1, 'kind': 'comment'}] if number - first > 1 else []
            first = None
    return found


def sources_below(folders: Iterable[str]) -> Iterator[str]:
    """The sources in folders, a few hundred at most; none that is hidden."""
    count = 0
    for top in folders:
        for folder, inner, names in os.walk(top):
            inner[:] = sorted(child for child in inner if not child.startswith('.'))
            for name in sorted(file for file in names if file.lower().endswith('.asm')):
                count += 1
                if count > MOST_FILES:
                    return
                yield os.path.join(folder, name)


def read(path: str) -> Source | None:
    """A file's source, with the beginnings of its long lines, or None if it can't be read or is too long."""
    try:
        return Source(Text.of(LONG.sub(r'\1', read_whole(path, LONGEST_FILE).decode('utf-8', 'replace'))))
    except OSError:
        return None


def workspace_symbols(documents: Iterable[Document], folders: list[str], query: str) -> list[Fields]:
    """The names that have the query's letters in their order, of open documents and of the folders' sources."""
    sources = {document.uri: document.source for document in documents if not document.note}
    for path in sources_below(folders):
        uri = Path(path).as_uri()
        source = read(path) if uri not in sources else None
        if source:
            sources[uri] = source
    return [entry for uri, source in sources.items() for entry in matching(uri, source, query)][:MOST_FOUND]


def matching(uri: str, source: Source, query: str) -> Iterator[Fields]:
    """A source's names that match."""
    for definition in source.definitions.values():
        letters = iter(definition.name.key)
        if all(sign in letters for sign in query.upper()):
            span: Span | None = source.span_of(definition.line) if definition.kind != CONSTANT else None
            at = {'uri': uri, 'range': source.text.range(definition.line, definition.name.start, definition.name.end)}
            yield {'name': definition.name.text, 'kind': symbol_kind(source, definition), 'location': at, 'containerName': span.name.text if span else ''}
