"""A book of what the contracts of some public calls rest on: their clauses, and each definition and type that these lead to, once,
with its comment, the manual that is cited for it, what it names and what names it."""
from __future__ import annotations

import re
import textwrap
from collections.abc import Iterable, Iterator, Sequence
from typing import NamedTuple

from parts import book_words
from parts.definitions import COMMENT, CRATES, NOTE, WORD, Definition, Definitions, Node, Root, constructors, first_sentence, meant, opening, read
from toolbox.command import Sorry

CLASS = (' To be believed', ' Laws:', ' For proofs alone:')  # how the line of a head begins that says what rests on its file
WORKS = (
    r"8086 Family User's Manual|IBM PC Technical Reference|Intel 82\d\dA? data sheet|Motorola MC6845 data sheet"
    r'|Intel, Hexadecimal Object File Format Specification, revision A|RFC 8259'
)
CITED = re.compile(rf'(?:{WORKS})(?:,? ?(?:and |with |to )?"[^"]*")*')
HEADING = re.compile(r'"[A-Z][^"]*"')
WIDTH = 120


class Entry(NamedTuple):
    """A definition or type of the book: its number, and the numbers of what it names and of what names it."""

    number: int
    definition: Definition
    names: list[int]
    named_by: list[int]

    @property
    def name(self) -> str:
        return self.definition.node[2]


class Case(NamedTuple):
    """A constructor: its name, its type, and the definitions that name it."""

    name: str
    type: Entry
    named_by: list[Entry]


class Chapter(NamedTuple):
    """A file of definitions, or the types of a crate: its title, the comment at its head, and the manuals that it cites."""

    title: str
    head: list[str]
    cited: list[str]
    entries: list[Entry]


class Part(NamedTuple):
    """A crate: its name, what it is, and its chapters."""

    crate: str
    about: str
    chapters: list[Chapter]


class Count(NamedTuple):
    """Lines of the book, without blank ones: those of files of definitions, of which so many are comments, then types' and
    contracts'; and how many of each there are."""

    lines: int
    comments: int
    definitions: int
    files: int
    type_lines: int
    types: int
    contract_lines: int
    contracts: int

    def text(self) -> str:
        """A line for each."""
        return (
            f'{self.lines:,} lines of definitions: {self.definitions:,} in {self.files} files; {self.comments:,} of the lines are comments\n'
            f'{self.type_lines:,} lines of types: {self.types}\n'
            f'{self.contract_lines:,} lines of contracts: {self.contracts}\n'
        )


class Book:
    """The book of some calls."""

    def __init__(self, found: Definitions, names: Sequence[str]) -> None:
        self.found = found
        wanted = found.wanted(names)
        self.calls = [each for each in wanted if re.match(r'\s*(?:[\w()":]+ )*fn ', each.text)]
        if not self.calls:
            raise Sorry(f'{", ".join(names)} has no public call')
        reached = found.reached(wanted)
        self.nodes = {each for each in reached if each in found.texts}
        self.kit = sorted({each for each in reached if each[0] not in found.crates})
        self.numbers = {node: number for number, node in enumerate(self.ordered(reached), 1)}
        self.leads = {node: self.led_to(found.edges[node], node) for node in self.numbers}
        self.parts = [self.part(crate) for crate in found.crates if any(each[0] == crate for each in self.nodes)]
        self.entries = [each for part in self.parts for chapter in part.chapters for each in chapter.entries]

    def called(self) -> str:
        """Its calls in a few words."""
        names = [f'`{root.call}`' for root in self.calls]
        return ', '.join(names) if len(names) <= 6 else f'{len(names)} calls'

    def title(self) -> str:
        return f'What {self.called()} ' + ('rests on' if len(self.calls) == 1 else 'rest on')

    def ordered(self, reached: list[Node]) -> Iterator[Node]:
        """The nodes in the order of the book: by crates, in each the types and then the files, and each of these as it stands."""
        places = self.found.places(reached)
        for crate in self.found.crates:
            own = [(crate, ''), *(each for each in places if each[0] == crate)]
            yield from (node for place in own for node in self.found.texts if node[:2] == place and node in self.nodes)

    def led_to(self, nodes: Iterable[Node], itself: Node | None = None) -> list[int]:
        """The numbers of what some nodes stand for."""
        return sorted({self.numbers[each] for each in map(self.found.stands_for, nodes) if each in self.numbers and each != itself})

    def part(self, crate: str) -> Part:
        """The chapters of a crate."""
        places = dict.fromkeys(node[:2] for node in self.numbers if node[0] == crate)
        head = opening(read(CRATES / crate / 'src/lib.rt'), '//!')
        return Part(crate, first_sentence('\n'.join(head)), [self.chapter(place) for place in places])

    def chapter(self, place: Node) -> Chapter:
        """The definitions of a file, or the types of a crate, of which this is the name."""
        head = [line.strip() for line in self.found.heads.get(place, []) if not line.startswith(CLASS)]
        entries = [self.entry(node) for node in self.numbers if node[:2] == place]
        return Chapter(f'{place[0]}/specs/{place[1]}.antt' if place[1] else f'{place[0]}: types', head, cited_in(' '.join(head)), entries)

    def entry(self, node: Node) -> Entry:
        number = self.numbers[node]
        named_by = [self.numbers[each] for each, leads in self.leads.items() if number in leads]
        return Entry(number, self.found.texts[node], self.leads[node], named_by)

    def callers(self, entry: Entry) -> list[Root]:
        """The contracts that name it themselves."""
        return [each for each in self.calls if entry.number in self.led_to(each.nodes)]

    def cases(self) -> list[Case]:
        """The constructors of its types by their names, each with the definitions that name it."""
        of_type = {(each.definition.node, name): Case(name, each, []) for each in self.entries for name in constructors(each.definition)}
        for entry in self.entries:
            for word in dict.fromkeys(WORD.findall(NOTE.sub('', COMMENT.sub('', '\n'.join(entry.definition.lines))))):
                node = meant(word, entry.definition.scope)
                case = of_type.get((self.found.stands_for(node), word.rpartition('.')[2])) if node else None
                if case and case.type != entry and entry not in case.named_by:
                    case.named_by.append(entry)
        return sorted((each for each in of_type.values() if each.named_by), key=lambda each: (each.name.lower(), each.type.number))

    def count(self) -> Count:
        chapters = [each for part in self.parts for each in part.chapters]
        files = [each for each in chapters if each.entries[0].definition.node[1]]
        of_files = [line for each in files for line in [*each.head, *lines_of(each.entries)]]
        of_types = [line for each in chapters if each not in files for line in lines_of(each.entries)]
        comments = [line for line in of_files if line.lstrip().startswith('--')]
        heads = sum(len(each.head) for each in files)
        contracts = [line for each in self.calls for line in contract_lines(each)]
        return Count(
            len(of_files),
            len(comments) + heads,
            sum(len(each.entries) for each in files),
            len(files),
            len(of_types),
            sum(len(each.entries) for each in chapters if each not in files),
            len(contracts),
            len(self.calls),
        )


def cited_in(text: str) -> list[str]:
    """The manuals that a comment cites, with the headings in them."""
    return [' '.join(each.split()) for each in CITED.findall(text)]


def source_of(chapter: Chapter, entry: Entry) -> list[str]:
    """The manual's places that are cited for a definition: by its own comments, by the heading above it, or by its file's head."""
    inside = [line for line in entry.definition.lines if line.startswith('--')]
    for lines in ([*entry.definition.comment, *inside], entry.definition.heading):
        said = ' '.join(line.lstrip('-/ ') for line in lines)
        own = cited_in(said)
        if own:
            return own
        work = re.match(WORKS, chapter.cited[0]) if chapter.cited else None
        if work and HEADING.search(said):
            return [f'{work[0]}, {" and ".join(HEADING.findall(said))}']
    return chapter.cited


def headings_of(entries: list[Entry]) -> Iterator[tuple[str, ...]]:
    """The heading that stands above each entry; if it is that of the entry before, none."""
    last: tuple[str, ...] = ()
    for each in entries:
        heading = each.definition.heading
        yield heading if heading != last else ()
        last = heading or last


def lines_of(entries: list[Entry]) -> Iterator[str]:
    """The lines of some entries, with the headings above them."""
    for each, heading in zip(entries, headings_of(entries)):
        yield from (*heading, *each.definition.comment, *each.definition.lines)


def contract_lines(call: Root) -> list[str]:
    """A contract as its source has it."""
    indent = '    ' if '::' in call.call else ''
    text = [line.removeprefix(indent) for line in call.text.splitlines() if line.strip()]
    return [*(f'///{line}' for line in call.comment.splitlines()), *text]


def text_of(book: Book) -> str:
    """The book as text."""
    return '\n'.join(line.rstrip() for line in text_lines(book)) + '\n'


def text_lines(book: Book) -> Iterator[str]:
    yield from (title_line(book.title(), '='), *first_chapter(book))
    yield from (title_line('Contents'), *rows_of([(f'[{each.chapters[0].entries[0].number}] {each.crate}', each.about) for each in book.parts]), '')
    yield title_line('The contract' if len(book.calls) == 1 else 'The contracts')
    for call in book.calls:
        yield from (*contract_lines(call), '', *below('names', book.led_to(call.nodes), book), '')
    for part in book.parts:
        yield from (title_line(part.crate), *wrapped(part.about), '')
        for chapter in part.chapters:
            yield from chapter_lines(book, chapter)
    yield title_line("Names of the kit's library")
    yield from (*rows_of(book_words.kit_of(book.kit)), '', title_line('Index'), *index_lines(book))
    yield from ('', title_line(book_words.CASES), *(line for case in book.cases() for line in case_lines(case)))


def title_line(title: str, mark: str = '-') -> str:
    return f'{title}\n{mark * len(title)}\n'


def wrapped(text: str) -> list[str]:
    return textwrap.wrap(text, WIDTH, break_long_words=False, break_on_hyphens=False)


def rows_of(table: list[tuple[str, str]]) -> Iterator[str]:
    """A table of words and what is said of them."""
    room = max(map(len, (word for word, _ in table)), default=0) + 2
    for word, meaning in table:
        yield from textwrap.wrap(f'{word:<{room}}{meaning}', WIDTH, subsequent_indent=' ' * room, break_on_hyphens=False)


def first_chapter(book: Book) -> Iterator[str]:
    """What is claimed, and how to read it."""
    for title, paragraphs in book_words.chapter(book.called(), book.count(), [*ways(book)]):
        yield title_line(title)
        for each in paragraphs:
            if isinstance(each, str):
                yield from (*wrapped(each), '')
            else:
                yield from rows_of(each)
                yield ''


def ways(book: Book) -> Iterator[tuple[str, list[Entry]]]:
    """Where things are said that readers ask first, of those that this book has."""
    by_node = {each.definition.node: each for each in book.entries}
    for question, nodes in book_words.WAYS:
        if all(each in by_node for each in nodes):
            yield question, [by_node[each] for each in nodes]


def chapter_lines(book: Book, chapter: Chapter) -> Iterator[str]:
    yield f'# {chapter.title}'
    yield from (*wrapped(' '.join(chapter.head)), '') if chapter.head else ('',)
    for each, heading in zip(chapter.entries, headings_of(chapter.entries)):
        yield from (*heading, '') if heading else ()
        yield f'[{each.number}]'
        yield from (*each.definition.comment, *each.definition.lines)
        yield from (*below('names', each.names, book), *below('named by', each.named_by, book, [call.call for call in book.callers(each)]), '')


def below(word: str, numbers: list[int], book: Book, calls: Iterable[str] = ()) -> list[str]:
    """The lines below a definition that name others, by their numbers."""
    named = [*(f'the contract of {each}' for each in calls), *(f'{book.entries[each - 1].name} [{each}]' for each in numbers)]
    return textwrap.wrap(f'    {word}: {", ".join(named)}', WIDTH, subsequent_indent='      ', break_long_words=False, break_on_hyphens=False) if named else []


def index_lines(book: Book) -> Iterator[str]:
    for name, of_name in index(book):
        yield f'{name}  ' + ', '.join(f'[{each.number}] {where(each)}' for each in of_name)


def case_lines(case: Case) -> list[str]:
    named_by = ', '.join(f'{each.name} [{each.number}]' for each in case.named_by)
    return textwrap.wrap(f'{case.name}  [{case.type.number}] {case.type.name}: {named_by}', WIDTH, subsequent_indent='    ')


def where(entry: Entry) -> str:
    """The crate and the file of an entry."""
    crate, file, _ = entry.definition.node
    return f'{crate}/{file}' if file else crate


def index(book: Book) -> list[tuple[str, list[Entry]]]:
    """The entries by their names."""
    by_name: dict[str, list[Entry]] = {}
    for each in book.entries:
        by_name.setdefault(each.name, []).append(each)
    return sorted(by_name.items(), key=lambda item: (item[0].strip('◌').lower(), item[0]))
