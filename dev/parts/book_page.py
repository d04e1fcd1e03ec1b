"""The book as one page of HTML that needs nothing else, and prints on paper."""
from __future__ import annotations

import html
import re
from collections.abc import Iterator

from parts import book_words
from parts.book import Book, Chapter, Entry, contract_lines, headings_of, index, source_of, ways, where
from parts.definitions import Root, Scope, meant

TOKEN = re.compile(r'(\s+--.*$|^--.*$|\s*//.*$)|([^\s(){}\[\];,«»:&<>]+)|([\s\S])', re.M)
STYLE = """
body { font: 16px/1.45 Georgia, serif; max-width: 62rem; margin: 2rem auto; padding: 0 1rem; color: #111; background: #fff }
h1, h2, h3 { font-family: Helvetica, Arial, sans-serif; line-height: 1.2; break-after: avoid }
h2 { border-bottom: 1px solid #999; margin-top: 3rem } h3 { margin-top: 2.2rem }
pre { font: 13px/1.4 "DejaVu Sans Mono", Menlo, Consolas, monospace; white-space: pre-wrap; margin: 0 }
code { font: 0.85em "DejaVu Sans Mono", Menlo, Consolas, monospace } a { color: #003f8a; text-decoration: none } a:hover { text-decoration: underline }
section.d { margin: 1.2rem 0; padding-left: 3.2rem; position: relative; break-inside: avoid-page } section.d:target { background: #fff6cc }
.n { position: absolute; left: 0; font: 12px Helvetica, Arial, sans-serif; color: #666 } .c { color: #456; } b { color: #000 }
.s { font: 12px/1.4 Helvetica, Arial, sans-serif; color: #555; margin: 0.2rem 0 0 } table { border-collapse: collapse } td { vertical-align: top; padding: 0.15rem 1rem 0.15rem 0 }
ul.i { columns: 3; list-style: none; padding: 0; font-size: 13px } ul.i li { break-inside: avoid; overflow-wrap: anywhere } p.h { font-weight: bold }
@media print { @page { margin: 16mm 14mm } body { font-size: 10pt; max-width: none; margin: 0; padding: 0 } pre { font-size: 7pt } .s, .n { font-size: 6.5pt }
  a { color: inherit } ul.i { font-size: 7pt } section.d { padding-left: 2.2rem; margin: 0.7rem 0 } h2.p { break-before: page } }
"""


def page_of(book: Book) -> str:
    """The page."""
    title = book.title()
    head = f'<meta charset="utf-8">\n<meta name="viewport" content="width=device-width">\n<title>{html.escape(title.replace("`", ""))}</title>\n<style>{STYLE}</style>'
    return f'<!DOCTYPE html>\n<html lang="en">\n{head}\n<h1>{prose(title)}</h1>\n' + '\n'.join(body(book)) + '\n</html>\n'


def body(book: Book) -> Iterator[str]:
    yield from first_chapter(book)
    yield from contents(book)
    yield f'<h2 class="p" id="contracts">{"The contract" if len(book.calls) == 1 else "The contracts"}</h2>'
    for call in book.calls:
        yield f'<section class="d" id="{anchor_of(book, call)}"><pre>{code(book, contract_lines(call), call.scope, 0, call.call.rpartition("::")[2])}</pre></section>'
    for part in book.parts:
        yield f'<h2 id="{part.crate}">{part.crate}</h2>\n<p>{prose(part.about)}</p>'
        for chapter in part.chapters:
            yield from chapter_of(book, chapter)
    yield '<h2 id="kit">Names of the kit\'s library</h2>\n' + table(book_words.kit_of(book.kit))
    yield '<h2 class="p" id="index">Index</h2>\n<ul class="i">'
    for name, of_name in index(book):
        yield f'<li><code>{html.escape(name)}</code> ' + ', '.join(f'{link(each, str(each.number))} {where(each)}' for each in of_name) + '</li>'
    yield f'</ul>\n<h2 class="p" id="cases">{book_words.CASES}</h2>\n<ul class="i">'
    for case in book.cases():
        yield f'<li><code>{html.escape(case.name)}</code> {link(case.type, case.type.name)}: ' + ', '.join(
            link(each, each.name) for each in case.named_by
        ) + '</li>'
    yield '</ul>'


def anchor_of(book: Book, call: Root) -> str:
    """The place of a contract in the page: two may have one name."""
    return f'c{next(number for number, each in enumerate(book.calls, 1) if each is call)}'


def prose(text: str) -> str:
    """A sentence, with what stands in backquotes as code."""
    return re.sub(r'`([^`]*)`', r'<code>\1</code>', html.escape(text, quote=False))


def table(rows: list[tuple[str, str]]) -> str:
    return '<table>\n' + '\n'.join(f'<tr><td><code>{html.escape(word, quote=False)}</code><td>{prose(meaning)}' for word, meaning in rows) + '\n</table>'


def first_chapter(book: Book) -> Iterator[str]:
    for title, paragraphs in book_words.chapter(book.called(), book.count(), []):
        yield f'<h2>{prose(title)}</h2>'
        yield from (f'<p>{prose(each)}</p>' if isinstance(each, str) else table(each) for each in paragraphs)
    rows = (f'<tr><td>{prose(question)}<td>' + ', '.join(f'{link(each, each.name)}' for each in entries) for question, entries in ways(book))
    yield f'<h2>{book_words.WHERE}</h2>\n<table>\n' + '\n'.join(rows) + '\n</table>'


def contents(book: Book) -> Iterator[str]:
    yield '<h2 class="p">Contents</h2>\n<p>' + ', '.join(
        f'<a href="#{anchor_of(book, each)}">the contract of <code>{each.call}</code></a>' for each in book.calls
    ) + '</p>\n<table>'
    for part in book.parts:
        first = part.chapters[0].entries[0].number
        files = ', '.join(f'<a href="#d{each.entries[0].number}">{each.entries[0].definition.node[1] or "types"}</a>' for each in part.chapters)
        yield f'<tr><td>{first}<td><a href="#{part.crate}">{part.crate}</a><td>{prose(part.about)} <span class="s">{files}</span>'
    yield '</table>\n<p><a href="#kit">Names of the kit\'s library</a>, <a href="#index">index</a>, <a href="#cases">cases of types</a></p>'


def chapter_of(book: Book, chapter: Chapter) -> Iterator[str]:
    yield f'<h3>{chapter.title}</h3>' + (f'\n<p>{prose(" ".join(chapter.head))}</p>' if chapter.head else '')
    for each, heading in zip(chapter.entries, headings_of(chapter.entries)):
        yield from [f'<p class="h">{prose(" ".join(line.strip("- ") for line in heading))}</p>'] if heading else []
        lines = [*each.definition.comment, *each.definition.lines]
        yield f'<section class="d" id="d{each.number}"><span class="n">{each.number}</span><pre>{code(book, lines, each.definition.scope, each.number, each.name)}</pre>'
        yield f'<p class="s">{said_below(book, chapter, each)}</p></section>'


def said_below(book: Book, chapter: Chapter, entry: Entry) -> str:
    """Who names a definition, and which manual is cited for it."""
    callers = [f'<a href="#{anchor_of(book, each)}">the contract of {each.call}</a>' for each in book.callers(entry)]
    named_by = ', '.join([*callers, *(link(book.entries[each - 1], book.entries[each - 1].name) for each in entry.named_by)])
    cited = '; '.join(source_of(chapter, entry))
    return f'named by {named_by or "itself"}' + (f'<br>source: {html.escape(cited, quote=False)}' if cited else '')


def link(entry: Entry, text: str) -> str:
    return f'<a href="#d{entry.number}">{html.escape(text)}</a>'


def code(book: Book, lines: list[str], scope: Scope, own: int, name: str) -> str:
    """Lines of a source, with each word that stands for a definition of the book as a link to it; its own name stands out."""
    text, parts, is_named = '\n'.join(lines), list[str](), False
    operators = {part: node for word, node in scope.items() if '◌' in word for part in word.split('◌') if part}
    for comment, word, other in TOKEN.findall(text):
        node = word and (meant(word, scope) or operators.get(word))
        number = book.numbers.get(book.found.stands_for(node)) if node else None
        shown = html.escape(comment or word or other, quote=False)
        if word == name.strip('◌') and not is_named and not comment:
            shown, is_named = f'<b>{shown}</b>', True
        elif number and number != own:
            shown = f'<a href="#d{number}">{shown}</a>'
        parts.append(f'<span class="c">{shown}</span>' if comment else shown)
    return ''.join(parts)
