"""What the desk shows of the repository: the examples, and the project's pages as HTML."""
from __future__ import annotations

import html
import json
import os
import re
from dataclasses import dataclass
from typing import Any

from zebludor import TOP

from toolbox.command import Sorry, read_text
from toolbox.runfile import DEFAULTS, read_run_file
from toolbox.services import MOST_RAM

BOOKS = 'books/'
NAME = re.compile(r'[a-z0-9_-]+')


@dataclass(frozen=True)
class Example:
    """An example: its name, what it shows, and where the pages speak of it."""

    name: str
    shows: str
    page: str
    anchor: str


def examples() -> list[Example]:
    """The examples, of which the first comment says what they are: those that have a source and a run file, in the order of
    docs/examples.md, and behind them textbooks' programs with services."""
    page = read_text(f'{TOP}/docs/examples.md')
    there = sorted(file[:-4] for file in os.listdir(f'{TOP}/examples') if file.endswith('.asm'))
    rows = [line.split('|')[1:4] for line in page.splitlines() if re.match(r'\|[a-z, ]+\|.*\|.*\|$', line)]
    cells_by_name = {name.strip(): cells for cells in rows for name in cells[0].split(',')}
    order = [name for name in cells_by_name if name in there] + [name for name in there if name not in cells_by_name]
    books = sorted(f'{BOOKS}{file[:-4]}' for file in os.listdir(f'{TOP}/examples/{BOOKS}') if file.endswith('.asm'))
    found = [example_of(name, cells_by_name.get(name, ['', '', '']), page) for name in order]
    return found + [Example(name, shown(name), 'services.md', '') for name in books]


def shown(name: str) -> str:
    """What an example's first comment says."""
    return read_text(f'{TOP}/examples/{name}.asm').partition('\n')[0].lstrip('; ')


def example_of(name: str, cells: list[str], page: str) -> Example:
    """An example, and the place of the pages that its row of the table names, or that is headed by its name."""
    first = shown(name)
    link = re.search(r'\]\((\w[\w.-]*\.md)(?:#([\w-]+))?\)', cells[2])
    if link:
        return Example(name, first, link[1], link[2] or '')
    heads = [head for head in re.findall(r'^# (.*)$', page, re.M) if name[:6] in head.lower() or name == 'readback' and 'read back' in head]
    return Example(name, first, 'examples.md', anchor_of(heads[0]) if heads else '')


def files_of(name: str) -> tuple[str, dict[str, Any]]:
    """An example's source, and its run file's fields; a program with services has the usual ones, with all the RAM that there can be."""
    if name not in {example.name for example in examples()}:
        raise Sorry(f'there is no example {name}')
    path = f'{TOP}/examples/{name}'
    is_served = name.startswith(BOOKS)
    return read_text(f'{path}.asm'), DEFAULTS | {'ram': MOST_RAM} if is_served else read_run_file(f'{path}.json')


def grammar() -> list[dict[str, str]]:
    """The rows of the editors' grammar, a name and a pattern each, in the order in which they are tried; none where it isn't there."""
    try:
        with open(f'{TOP}/editors/vscode/zebludor.tmLanguage.json', encoding='utf-8') as file:
            return list(json.load(file)['patterns'])
    except OSError:
        return []


def page_of(name: str) -> str:
    """A page of docs/ as HTML."""
    there = [file for file in os.listdir(f'{TOP}/docs') if file.endswith('.md')]
    if name not in there:
        raise Sorry(f'there is no page {name}')
    return as_html(read_text(f'{TOP}/docs/{name}'))


def anchor_of(title: str) -> str:
    """A heading's anchor."""
    return re.sub(r'[^\w -]', '', re.sub(r'\[(.*?)\]\(.*?\)', r'\1', title).lower()).replace(' ', '-')


def inline(text: str) -> str:
    """A stretch of text: code, links, bold. Links lead to other pages of docs/ alone; what others name stays as text."""
    kept = list[str]()

    def keep(found: re.Match[str]) -> str:
        kept.append(f'<code>{html.escape(found[1])}</code>')
        return f'\0{len(kept) - 1}\0'

    def link(found: re.Match[str]) -> str:
        target = re.fullmatch(r'(\w[\w.-]*\.md)?(?:#([\w-]+))?', html.unescape(found[2]))
        if not target:
            return found[1]
        return f'<a href="#" data-page="{target[1] or ""}" data-anchor="{target[2] or ""}">{found[1]}</a>'

    text = html.escape(re.sub(r'`([^`]+)`', keep, text.replace('\0', '')))
    text = re.sub(r'!?\[([^\]]*)\]\(([^)\s]*)\)', link, text)
    text = re.sub(r'\*\*(.+?)\*\*', r'<b>\1</b>', text)
    return re.sub('\0(\\d+)\0', lambda place: kept[int(place[1])], text)


def row(line: str, tag: str) -> str:
    """A row of a table."""
    cells = re.split(r'(?<!\\)\|', line.strip()[1:-1])
    return '<tr>' + ''.join(f'<{tag}>{inline(cell.replace(chr(92) + "|", "|").strip())}</{tag}>' for cell in cells) + '</tr>'


def as_html(text: str) -> str:
    """The few forms that the project's pages have: headings, paragraphs, lists, tables and blocks of code."""
    out, lines = list[str](), text.split('\n')
    while lines:
        line = lines.pop(0)
        if line.startswith('```'):
            block = list[str]()
            while lines and not lines[0].startswith('```'):
                block.append(lines.pop(0))
            lines[:1] = []
            out.append(f'<pre>{html.escape(chr(10).join(block))}</pre>')
        elif found := re.match(r'(#+) (.*)', line):
            level = min(len(found[1]) + 1, 4)
            out.append(f'<h{level} data-name="{html.escape(anchor_of(found[2]))}">{inline(found[2])}</h{level}>')
        elif line.startswith('|'):
            out.append(table([line, *taken(lines, '|')]))
        elif line.startswith('- '):
            items = [line, *taken(lines, '- ')]
            out.append('<ul>' + ''.join(f'<li>{inline(entry[2:])}</li>' for entry in items) + '</ul>')
        elif line.strip():
            out.append(f'<p>{inline(line)}</p>')
    return '\n'.join(out)


def taken(lines: list[str], start: str) -> list[str]:
    """The next lines that begin so, taken away."""
    found = list[str]()
    while lines and lines[0].startswith(start):
        found.append(lines.pop(0))
    return found


def table(lines: list[str]) -> str:
    """A table, whose second line parts its head."""
    head, body = lines[0], lines[2:]
    first = row(head, 'th') if head.strip('| ') else ''
    return f'<div class="wide"><table>{first}{"".join(row(line, "td") for line in body)}</table></div>'
