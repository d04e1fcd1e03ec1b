"""Variables of C as bcc's listings by as86 tell them: their types as they are declared outside of functions, where these have as many bytes
as the listing gives them. Of structures, of numbers with a fraction and of what is declared in another way no type is told."""
from __future__ import annotations

import re
from dataclasses import replace
from math import prod
from typing import Any, Callable, Iterator, NamedTuple

from toolbox.data_labels import SIZES, Datum

Row = tuple[str | Any, ...]  # of as86's listing: offset, bytes, text
LINE, FILE, LITERAL = re.compile(r'! (\d+) ?(.*)'), re.compile(r'# (\d+) "([^"]*)"'), re.compile(r'"(?:\\.|[^"\\])*"|\'(?:\\.|[^\'\\])*\'')
SECTION = re.compile(r'\.(text|data|bss)\b', re.I)
COMMON = re.compile(r'(?:\.comm\s+(\w+),|(\w+)\s+lcomm\s+)(\$?)([0-9A-F]+)\s*$', re.I)
LABEL, PADDING = re.compile(r'([\w.]+):'), re.compile(r'\.blkb\b', re.I)
# By a type's words in the order of the alphabet: its name, and the statement that has as many bytes. bcc's char has no sign unless it is told.
TYPES = {
    'char': ('char', 'DB'),
    'char unsigned': ('unsigned char', 'DB'),
    'char signed': ('signed char', 'DB'),
    'int': ('int', 'DW'),
    'short': ('short', 'DW'),
    'unsigned': ('unsigned int', 'DW'),
    'short unsigned': ('unsigned short', 'DW'),
    'long': ('long', 'DD'),
    'long unsigned': ('unsigned long', 'DD'),
}
WORDS = {'char', 'short', 'int', 'long', 'signed', 'unsigned', 'float', 'double', 'void'}
KEPT = {'static', 'const', 'volatile', 'register', 'auto', 'extern', 'typedef'}  # words that say nothing of the type
DECLARED = re.compile(r'\s*((?:\*\s*)*)([A-Za-z_]\w*)\s*((?:\[[^\[\]]*\]\s*)*)')
TO_FUNCTION = re.compile(r'[\s*]*\(\s*\*\s*([A-Za-z_]\w*)\s*\)\s*\([^()]*\)\s*')
COMMA = re.compile(r',(?![^(\[]*[)\]])')


class Room(NamedTuple):
    """What the listing gives a name: so many bytes, and so many without what fills them up at the end."""

    most: int
    own: int


class Type(NamedTuple):
    """A type: its element's name and statement, and how many there are in each dimension; None, if that isn't a number."""

    said: str
    kind: str
    sizes: tuple[int | None, ...] = ()


def in_sections(rows: list[Row]) -> Iterator[tuple[str, str, str, str]]:
    """Each row of a module behind the section that it is in, or begins: text, data or bss."""
    section = 'text'
    for offset, value, text in rows:
        begins = SECTION.match(text.strip())
        section = begins[1].lower() if begins else section
        yield section, offset, value, text


def rooms_in(rows: list[Row]) -> dict[str, Room]:
    """The rooms of a module's names: of data up to the next label, or to where the section is left and gone on with."""
    found, names, begin = dict[str, Room](), list[str](), 0
    filled: int | None = None  # where what fills up begins, if nothing else stands behind it
    for section, offset, value, text in in_sections(rows):
        code, place = text.strip(), re.search('[0-9A-F]{8}', value)
        label = LABEL.match(code) if place else None
        if common := COMMON.match(code):
            found[common[1] or common[2]] = Room(size := int(common[4], 16 if common[3] else 10), size)
        if common or section != 'data' or not (label or offset.strip()):
            continue
        at = int(place[0] if place and label else offset, 16)
        if SECTION.match(code) or label and at > begin:
            found |= dict.fromkeys(names, Room(at - begin, (at if filled is None else filled) - begin))
            names, filled = [], None
        begin = at if label else begin
        names += [label[1]] if label else []
        filled = filled if label else None if not PADDING.match(code) else at if filled is None else filled
    return found


def statements(rows: list[Row]) -> Iterator[tuple[str, int, str]]:
    """What the module says outside of functions, up to each semicolon, with its file and line: without what stands in braces."""
    file, depth, text, line, is_head, is_kept = '', 0, '', 0, False, False
    for number, said in (match.groups() for _, _, text_of_row in rows if (match := LINE.match(text_of_row))):
        file = begins[2] if (begins := FILE.match(said)) else file
        for part in re.split('([{};])', '' if FILE.match(said) else LITERAL.sub('""', said) + ' '):
            if part == '{' and not depth:
                is_kept = not is_head and (text.rstrip().endswith('=') or bool(re.match(r'.*\b(struct|union|enum)\b\s*\w*\s*$', text)))
            depth += (part == '{') - (part == '}')
            if part == '}' and depth <= 0:
                text, is_head, depth = text + '{}' if is_kept else '', False, 0
            elif depth == 0 and part == ';':
                is_head = is_head or bool(re.search(r'\)\s*[A-Za-z_]', text))  # parameters of a function are declared
                if not is_head:
                    yield file, line, text
                text = ''
            elif depth == 0 and part not in ('{', '}'):
                line = line if text.strip() else int(number)
                text += part


def words_of(text: str, known: dict[str, Type]) -> tuple[Type | None, set[str], str]:
    """The type that a declaration begins with, its other words, and what stands behind them."""
    kept, words, found = set[str](), set[str](), None
    while match := re.match(r'\s*([A-Za-z_]\w*)\b\s*(\{\})?', text):
        word = match[1]
        if word in ('struct', 'union', 'enum') and (tag := re.match(r'\s*\w+\s*(\w*)\s*(\{\})?', text)):
            found, match = Type(f'{word} {tag[1]}'.strip(), ''), tag
        elif word in known and not words and not found:
            found = known[word]
        elif word in WORDS:
            words.add(word)
        elif word in KEPT:
            kept.add(word)
        else:
            break
        text = text[match.end() :]
    if words:
        least = words - ({'signed'} if 'char' not in words else set()) or {'int'}
        name = ' '.join(sorted(least - {'int'} if len(least) > 1 else least))
        found = Type(*TYPES.get(name, (name, '')))
    return found, kept, text


def number_in(text: str) -> int | None:
    """A dimension that is a number."""
    found = re.fullmatch(r'\s*(?:0x([0-9A-Fa-f]+)|(\d+))\s*', text)
    return None if not found else int(found[1], 16) if found[1] else int(found[2], 8 if found[2][0] == '0' else 10)


def declared(part: str, base: Type) -> tuple[str, Type] | None:
    """A name with its type, of what stands between commas."""
    part = part.partition('=')[0]
    if function := TO_FUNCTION.fullmatch(part):
        return function[1], Type('function near *', 'DW')
    found = DECLARED.fullmatch(part)
    if not found:
        return None
    stars, sizes = found[1].count('*'), tuple(map(number_in, re.findall(r'\[([^\[\]]*)\]', found[3])))
    of = Type(f'{base.said} near{" *" * stars}', 'DW') if stars else base
    return found[2], of._replace(sizes=(*sizes, *of.sizes))


def types_in(rows: list[Row]) -> Iterator[tuple[str, str, int, Type]]:
    """The names that a module declares outside of functions, with file, line and type."""
    known = dict[str, Type]()
    for file, line, text in statements(rows):
        base, kept, rest = words_of(text, known)
        for name, its in filter(None, (declared(part, base) for part in COMMA.split(rest))) if base else ():
            if 'typedef' in kept:
                known[name] = its
            elif 'extern' not in kept:
                yield name, file, line, its


def with_room(its: Type, room: Room) -> Type | None:
    """The type as it fills its room, with the dimension that is left open; None, if it has another size."""
    if its.sizes.count(None) > 1 or not its.kind:
        return None
    size = SIZES[its.kind] * prod(one for one in its.sizes if one is not None)
    if None in its.sizes:
        count, left = divmod(room.own, size or 1)
        return its._replace(sizes=tuple(count if one is None else one for one in its.sizes)) if count and not left else None
    return its if size == room.own or size and room.own <= size and room.most - size in (0, 1) else None


def data_in(rows: list[Row], named: Callable[[str], str], places: dict[str, tuple[int, int]]) -> list[Datum]:
    """A module's variables, of those with a place; `named` tells a file's path. One that is declared twice in different ways has no type."""
    rooms, found = rooms_in(rows), dict[str, Datum | None]()
    for name, file, line, its in types_in(rows):
        label = f'_{name}'
        whole = with_room(its, rooms[label]) if label in rooms and label in places else None
        if whole:
            sizes = tuple(one for one in whole.sizes if one is not None)
            datum = Datum(label, line, whole.kind, places[label], SIZES[whole.kind] * prod(sizes), whole.said, sizes, named(file))
            before = found.get(label, datum)
            found[label] = datum if before and replace(before, line=line) == datum else None
    return [one for one in found.values() if one]
