"""The definitions in crates/*/specs/*.antt, the types and the public calls in crates/*/src, and what each of them names. Sources
are read by their layout, as rt fmt leaves them, and names are resolved by each file's `use` lines.

A node is what a name stands for: a definition (crate, file, name), a type or trait of the sources (crate, '', name), a file of
definitions (crate, file), or something of the kit, which has the same form and is none of these crates'."""
from __future__ import annotations

import re
from collections.abc import Iterable, Iterator
from pathlib import Path
from typing import NamedTuple

from toolbox.command import Sorry
from toolbox.crates import TOP

CRATES = Path(TOP) / 'crates'
TYPES = ('struct', 'enum', 'trait', 'type')
UNSEEN = ('use', 'view', 'invariant', 'inverse', 'inverse_ok', 'keeps_bytes')  # ghost members that no clause of a call speaks of
ITEM = (
    r'^{}(pub )?(?:pub\(.*?\) )?(?:safe |const |unsafe |extern "C" )*'
    r'(fn|struct|enum|trait|impl|mod|use|type|static|const|ghost)\b(?:<.*?> | )(?:([^{{\n]*) for )?&?(?:\w+::)*(\w+)'
)
USE = re.compile(r'^\s*(?:pub |ghost |unfoldable )*use (?:Rattle\.(?=\w+\.specs\.)|(?=denote\.))(\w+)(?:\.specs)?\.([\w.]+?)(?:\.\{(.*)\}| as (\w+));?$', re.M)
DEFINED = re.compile(r'(?:(?:abbrev|unfoldable|pub|record|data) )*([^\s(]+)(?: [({].*)? :(?: |$)')
IMPORT = re.compile(r'(?:pub |unfoldable )*use ')
COMMENT, NOTE = re.compile(r'(^|\s)--.*', re.M), re.compile(r'//.*')
WORD = re.compile(r'>>=|[^\s(){}\[\];,«»:&<>]+')

Node = tuple[str, ...]
Scope = dict[str, Node]


class Definition(NamedTuple):
    """A definition or a type, as it stands in its file: the heading above it, its comment, its other lines, none of which is
    blank, and what its words name."""

    node: Node
    heading: tuple[str, ...]
    comment: tuple[str, ...]
    lines: tuple[str, ...]
    scope: Scope


class Item(NamedTuple):
    """An item of a source: its text, the comment above it, whether it is `pub`, its kind, of which trait, and its name."""

    text: str
    comment: str
    is_pub: bool
    kind: str
    trait: str
    name: str


class Root(NamedTuple):
    """What a caller reaches: its crate and name, whether it is a law, what its signature and clauses name, its comment, its
    signature with the clauses, and what their words stand for."""

    crate: str
    call: str
    is_law: bool
    nodes: frozenset[Node]
    comment: str
    text: str
    scope: Scope

    def is_named(self, name: str) -> bool:
        """Whether a word means it: its crate, its own name, with its type, or with its crate too, or with the program that the
        crate is the library of."""
        owners = (self.crate, self.crate.removesuffix('_program'))
        return name in (self.crate, self.call, self.call.rpartition('::')[2], *(f'{each}::{self.call}' for each in owners))


class Definitions:
    """All of them. `edges` has what each node names, `views` what the views of types name besides, which are no clause of a call;
    `texts` the definitions and types by their nodes, in the order of their files; `heads` the first comment of each file of
    definitions, `roots` what callers reach."""

    def __init__(self) -> None:
        with open(f'{TOP}/crates.txt', encoding='utf-8') as file:
            self.crates = re.findall(r'^(\w+)(?: \w+)?:', file.read(), re.M)[::-1]  # each before those that it stands on
        specs = (file for crate in self.crates for file in sorted((CRATES / crate / 'specs').glob('*.antt')))
        self.files = {(file.parts[-3], file.stem): file for file in specs if file.stem != 'Lib'}
        self.edges: dict[Node, set[Node]] = {}
        self.views: dict[Node, set[Node]] = {}
        self.texts: dict[Node, Definition] = {}
        self.heads: dict[Node, list[str]] = {}
        self.roots: list[Root] = []
        for (crate, _), file in self.files.items():
            self.read_file(crate, file)
        for lib in sorted(CRATES.glob('*/src/lib.rt')):
            self.read_library(lib.parents[1].name)

    def read_file(self, crate: str, file: Path) -> None:
        """Adds what a file defines, and what it passes on by `pub use`."""
        text = file.read_text(encoding='utf-8')
        scope = scope_of(COMMENT.sub('', text), crate)
        self.edges.update({(crate, file.stem, name): {node} for name, node in scope.items()})
        self.heads[crate, file.stem] = opening(text, '--')
        found = {each.node[2]: each for each in definitions_in(text, (crate, file.stem), scope)}
        scope.update({name: each.node for name, each in found.items()})
        self.edges.update({each.node: named(COMMENT.sub('', '\n'.join(each.lines)), scope) for each in found.values()})
        self.edges.update({(crate, file.stem, name): {each.node} for each in found.values() for name in constructors(each)})
        self.texts.update({each.node: each for each in found.values()})

    def stands_for(self, node: Node) -> Node:
        """The definition that a name stands for: another file's, if a file passes it on, and of a constructor its type."""
        while node not in self.texts and len(self.edges.get(node, ())) == 1:
            node = next(iter(self.edges[node]))
        return node

    def read_library(self, crate: str) -> None:
        """Adds a library's types, and as roots what a caller of it reaches."""
        parts = [(file, is_open, read(file)) for file, is_open in modules(crate)]
        public = {each.name for _, is_open, text in parts for each in items(text) if is_open and each.is_pub and each.kind in TYPES}
        for file, is_open, text in parts:
            is_law = file.stem == 'laws' or crate.endswith('_laws')
            own = {each.name: (crate, '', each.name) for each in items(text) if each.kind in TYPES}
            scope = scope_of(NOTE.sub('', text), crate) | own
            for item in items(text):
                if item.kind in TYPES or item.trait == 'Model':
                    self.read_type(crate, item, scope)
                seen = item.name in public if item.kind in ('impl', *TYPES) else item.is_pub and is_open and item.kind != 'mod'
                self.roots += roots_of(crate, item, scope, is_law) if seen else []

    def read_type(self, crate: str, item: Item, scope: Scope) -> None:
        """Adds a type or a trait, or to a type what its view has in its place."""
        node: Node = (crate, '', item.name)
        members = items(item.text, '    ')
        if item.trait == 'Model':
            value = next((each for each in members if each.name == 'Value'), None)
            if not value:  # the type is as it stands, and owns memory beside its fields
                self.edges[node] |= named(NOTE.sub('', ' '.join(each.text for each in members)), scope)
                return
            lines = [*(f'    //{line}' for line in value.comment.splitlines()), f'    {" ".join(value.text.split())}']
            was = self.texts[node]
            self.texts[node] = was._replace(lines=(was.lines[0].removesuffix('{').removesuffix(';').rstrip(), *lines), scope=was.scope | scope)
            self.views[node] = self.edges[node] | named(NOTE.sub('', ' '.join(each.text for each in members if each.name == 'view')), scope)
            self.edges[node] = named(value.text, scope)
            return
        if node in self.texts and not item.is_pub:
            return  # a private type of another module, that has the name too
        comment = tuple(f'///{line}' for line in item.comment.splitlines())
        lines = [line for line in item.text.splitlines() if line.strip() and not line.lstrip().startswith('#[')]
        self.texts[node] = Definition(node, (), comment, tuple(lines), scope)
        seen = (NOTE.sub('', seen_of(each)) for each in members if each.name not in UNSEEN) if item.kind == 'trait' else [capitals(NOTE.sub('', item.text))]
        self.edges[node] = named(' '.join(seen), scope)

    def wanted(self, names: Iterable[str]) -> list[Root]:
        """What callers reach of these names."""
        names = list(names)
        unknown = sorted(each for each in names if each not in self.crates and not any(root.is_named(each) for root in self.roots))
        if unknown:
            raise Sorry(f'there is no crate and no public call {", ".join(unknown)}')
        return self.called(names)

    def called(self, names: Iterable[str]) -> list[Root]:
        """What callers reach of those of these names that there are, in the order of `crates`. Of functions with one name, it alone
        means the one whose crate comes first in crates.txt, as `program` that of pcboard_program."""
        places = {number for name in names for number in self.meant_by(name)}
        return sorted((self.roots[number] for number in sorted(places)), key=lambda each: self.crates.index(each.crate))

    def meant_by(self, name: str) -> list[int]:
        """Which of the roots a name means."""
        found = {number: each for number, each in enumerate(self.roots) if each.is_named(name)}
        first = max((self.crates.index(each.crate) for each in found.values() if each.call == name), default=0)
        return [number for number, each in found.items() if each.call != name or self.crates.index(each.crate) == first]

    def reached(self, roots: Iterable[Root], views: bool = False) -> list[Node]:
        """The nodes that the clauses of some lead to, each once: those that they name, then those that these name, and so on. With
        `views`, from a type to its view too."""
        todo, seen = [node for each in roots for node in sorted(each.nodes)], dict[Node, None]()
        while todo:
            seen.update(dict.fromkeys(todo))
            leads = ([*sorted(self.edges.get(node, ())), *(sorted(self.views.get(node, ())) if views else ())] for node in todo)
            todo = list({to: None for all_of in leads for to in all_of if to not in seen})
        return list(seen)

    def places(self, nodes: Iterable[Node]) -> list[Node]:
        """The files of definitions that some nodes stand in, in an order to read them in: crates above others before these, and in
        a crate the file that is reached first before the next."""
        return sorted(dict.fromkeys(node[:2] for node in nodes if node[:2] in self.files), key=lambda place: self.crates.index(place[0]))


def read(file: Path) -> str:
    """A source's text."""
    return file.read_text(encoding='utf-8')


def opening(text: str, mark: str) -> list[str]:
    """The lines of the comment that a source begins with."""
    found = re.match(rf'(?:{mark}.*\n)*', text)
    assert found
    return [line[len(mark) :] for line in found[0].splitlines()]


def first_sentence(text: str) -> str:
    """The first sentence of a comment, with its lines joined."""
    joined = ' '.join(text.split())
    for end in (each.end() for each in re.finditer(r'\.(?= [A-Z`]|$)', joined)):
        if joined.count('(', 0, end) == joined.count(')', 0, end) and joined.count('`', 0, end) % 2 == 0:
            return joined[:end]
    return joined


def comment_above(text: str, start: int, mark: str) -> str:
    """The comment that ends just before a place; attributes and comments of another kind between them are left out."""
    lines: list[str] = []
    for line in reversed(text[:start].splitlines()):
        line = line.strip()
        if line.startswith(mark):
            lines.insert(0, line[len(mark) :])
        elif not line.startswith(('#[', '// ')):
            break
    return '\n'.join(lines)


def items(text: str, indent: str = '') -> list[Item]:
    """The items of a source, or the members of one, each without what stands above the next."""
    found = list(re.finditer(ITEM.format(indent), text, re.M))
    ends = [each.start() for each in found[1:]] + [len(text)]
    above = re.compile(rf'(?:\n{indent}(?://|#\[).*|\n[ ]*)*\Z')
    return [
        Item(above.sub('\n', text[each.start() : end]), said_of(text, each.start()), bool(each[1]), each[2], each[3] or '', each[4])
        for each, end in zip(found, ends)
    ]


def said_of(text: str, start: int) -> str:
    """The comment above an item, or above a ghost member."""
    return comment_above(text, start, '///') or comment_above(text, start, '//')


def signature(member: str) -> tuple[str, str]:
    """The part of a function before its body, and the body."""
    end = re.search(r'^\s*(\{)|^(?!\s*(?:requires|ensures)\b).*(\{)$|\Z', member, re.M)
    assert end
    start = max(end.start(1), end.start(2)) if end[0] else len(member)
    return member[:start], member[start:]


def modules(crate: str) -> list[tuple[Path, bool]]:
    """A library's sources, in the order in which their modules are named, each with whether a caller reaches it."""
    files = [(CRATES / crate / 'src/lib.rt', True)]
    for file, is_open in files:
        inner = file.parent if file.stem == 'lib' else file.parent / file.stem
        files += [(inner / f'{each.name}.rt', is_open and each.is_pub) for each in items(read(file)) if each.kind == 'mod']
    return files


def capitals(text: str) -> str:
    """The types among the words of a signature."""
    return ' '.join(re.findall(r'\b[A-Z]\w*', text))


def seen_of(item: Item) -> str:
    """What a caller sees of a member: types of a function's signature, and the clauses; all of what is ghost."""
    text = NOTE.sub('', signature(item.text)[0] if item.kind == 'fn' else item.text)
    start = re.search(r'^\s*(?:requires|ensures|ghost)\b|\Z', text, re.M)
    assert start
    return f'{capitals(text[: start.start()])} {text[start.start() :]}'


def roots_of(crate: str, item: Item, scope: Scope, is_law: bool) -> Iterator[Root]:
    """What callers reach of an item that is public."""
    of_trait = item.kind == 'trait' or bool(item.trait)
    for each in items(item.text, '    ') if item.kind in ('impl', 'trait') else [item]:
        if of_trait or each.is_pub:
            text, body = signature(each.text)
            nodes = named(seen_of(each), scope) if each.name not in UNSEEN else set()
            nodes |= {(crate, '', each.name)} if each.kind in TYPES else set()
            call = f'{item.name}::{each.name}' if item.kind in ('impl', 'trait') else each.name
            yield Root(crate, call, is_law or body.strip().startswith('{}'), frozenset(nodes), each.comment, text.rstrip(), scope)


def scope_of(text: str, crate: str) -> Scope:
    """What the imported names of a file stand for."""
    scope: Scope = {}
    for top, names in re.findall(r'^use (\w+)::([^;]*);', text, re.M):
        scope.update({name: (crate if top == 'crate' else top, '', name) for name in re.findall(r'\b[A-Z]\w*', names)})
    for top, path, names, alias in USE.findall(text):
        file, *inner = path.split('.')
        if file in ('declared', 'contracts'):  # a type itself, or as the logic has it
            file, inner = '', [part for part in inner if part[0].isupper()]
        elif inner and names and not (CRATES / top).is_dir():  # the kit has files in folders
            file, inner = path, []
        for name, _, new in (name.strip().partition(' as ') for name in names.split(',')):
            scope[alias or new or name] = (top, file, *(inner or [name] * (not alias)))[:3]
    return scope


def meant(word: str, scope: Scope) -> Node | None:
    """What a word stands for, but for an operator."""
    head, *rest = word.split('.')
    return (*scope[head], *rest)[:3] if head in scope and (rest or len(scope[head]) == 3) else None


def named(text: str, scope: Scope) -> set[Node]:
    """What the words of a clause or a definition stand for: an operator by its parts, `>>=` by `do` too."""
    words = set(WORD.findall(text.replace(' do\n', ' do >>=\n')))
    nodes = {node for name, node in scope.items() if '◌' in name and {part for part in name.split('◌') if part} <= words}
    return nodes | {node for node in (meant(word, scope) for word in words) if node}


def constructors(each: Definition) -> list[str]:
    """The constructors of a type that is defined by them, or the variants of one of the code."""
    forms = ((r'(?:pub )?data ', r'\s+(?:pub )?(\S+) :'), (r'pub enum |enum ', r' {4}([A-Z]\w*)[^\w]'))
    cases = next((case for head, case in forms if re.match(head, each.lines[0])), r'(?!)()')
    return [name[1] for name in (re.match(cases, line) for line in each.lines[1:]) if name]


def definitions_in(text: str, place: Node, scope: Scope) -> list[Definition]:
    """The definitions of a file, each with the comment that ends above it. A comment with a blank line below it is a heading."""
    found: dict[str, Definition] = {}
    name, heading, comment, first = '', list[str](), list[str](), list[str]()
    for line in text.partition('\n\n')[2].splitlines():
        start = DEFINED.match(line)
        if IMPORT.match(line) or not line and not comment:
            continue
        if line.startswith('--'):
            comment.append(line)
        elif not line:
            heading, comment = comment, []
        elif line.startswith('infix'):
            first = [line]
        elif start and start[1] not in found:
            name = start[1]
            found[name] = Definition((*place, name), tuple(heading), tuple(comment), (*first, line), scope)
            heading, comment, first = [], [], []
        else:
            name = start[1] if start else name
            found[name] = found[name]._replace(lines=(*found[name].lines, *comment, line))
            comment = []
    return list(found.values())
