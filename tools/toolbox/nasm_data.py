"""Data and constants that NASM's listing tells: the labels before D.. and RES.., with as many bytes as its rows have; and EQU's names, as far
as they are made of numbers, of earlier ones and of how far labels are apart. What it doesn't tell isn't guessed."""
from __future__ import annotations

import ast
import operator
import re
from collections import Counter
from dataclasses import dataclass, field
from typing import Callable, Iterable, Iterator

from toolbox.data_labels import SIZES, Datum

# A row: its number, offset, bytes, and how many times, or how many bytes besides.
ROW = re.compile(r' *(\d+) (?:([0-9A-F]{8}) ([0-9A-F\[\]()]*)(\?*)(?:<(rep|res|bin|incbin) ([0-9A-F]+)h>)?-?)?')
INNER = re.compile(r'<\d+> ')  # before the text of what a macro makes
SECTION = re.compile(r'\s*\[?\s*(section|segment|absolute|struc|endstruc)\b', re.I)
LABEL = re.compile(r'\s*([A-Za-z_.?@][\w.$#@~?]*)(?:\s*:\s*|\s+(?=(?:times\b|d[bwdqt]\b|res[bwdqt]\b|incbin\b)))', re.I)
STATEMENT = re.compile(r"(?:times\s+[^'\"]*?\s)?\s*(?:d|res)([bwd])(?!\w)", re.I)
CONSTANT = re.compile(r"""\s*([A-Za-z_?@][\w.$#@~?]*)\s*:?\s+equ\s+((?:'[^']*'|"[^"]*"|[^;'"])*)""", re.I)
NAMED_SEGMENT = re.compile(r'(?:\s*\w+\s*:)?\s*SEGMENT\s+(\w+)\s+AT\s+([^;]*)', re.I)
TEXT, LEAST, GREATEST = 40, -(1 << 31), (1 << 32) - 1
NUMBER = re.compile(
    r"'[^'\\]{1,4}'|\"[^\"\\]{1,4}\"|0x[0-9a-f_]+|[0-9][0-9a-f_]*h\b|0[hxdobqy][0-9a-f_]+|\$[0-9][0-9a-f_]*|[0-9][0-9a-f_]*[hxdtoqby]?|"
    r'[a-z_?@.][\w.$#@~?]*|\$\$?|<<|>>|.',
    re.I,
)
BASES = {'h': 16, 'x': 16, 'd': 10, 't': 10, 'o': 8, 'q': 8, 'b': 2, 'y': 2}
OPERATORS: dict[type, Callable[[int, int], int]] = {
    ast.Add: operator.add,
    ast.Sub: operator.sub,
    ast.Mult: operator.mul,
    ast.Div: operator.floordiv,
    ast.Mod: operator.mod,
    ast.LShift: operator.lshift,
    ast.RShift: operator.rshift,
    ast.BitOr: operator.or_,
    ast.BitXor: operator.xor,
    ast.BitAnd: operator.and_,
}


@dataclass
class Statement:
    """A line of the listing: its number there and in the source, its text, also without label and comment, and the labels before it; its
    section, or structure; where it begins, and how many bytes it has; of each of its rows the offset, and the bytes as far as they are known."""

    row: int = 0
    number: int = 0
    code: str = ''
    text: str = ''
    labels: list[str] = field(default_factory=list)
    section: int = 0
    is_structure: bool = False
    begin: int | None = None
    size: int = 0
    is_reserved: bool = False
    rows: list[tuple[int, bytes]] = field(default_factory=list)

    @property
    def kind(self) -> str:
        """DB, DW or DD of data, which it places or reserves."""
        found = STATEMENT.match(self.text)
        return f'D{found[1].upper()}' if found else ''

    def take(self, row: re.Match[str]) -> None:
        """A row of it."""
        offset, more = int(row[2], 16), int(row[6] or '0', 16)
        digits, times = re.split(r'[\[(]', row[3])[0], more if row[5] == 'rep' else 1
        self.begin = offset if self.begin is None else self.begin
        self.size = times * (self.size + len(re.sub(r'\W', '', row[3])) // 2 + len(row[4]) // 2) + (more if row[5] != 'rep' else 0)
        self.is_reserved = self.is_reserved or bool(row[4]) or row[5] == 'res'
        self.rows.append((offset, bytes.fromhex(digits[: len(digits) // 2 * 2]) * min(times, 8)))


def statements(rows: list[str]) -> Iterator[Statement]:
    """The listing's statements in their order. What a macro makes, or a file that is included, is told by rows of its own, and belongs to
    the line that calls it."""
    now, section, above, is_structure = Statement(), 0, '', False
    for text in rows:
        row, code = ROW.match(text), text[TEXT:].rstrip()
        if not row:
            continue
        if now.row == int(row[1]) and row[2] and not code:
            now.take(row)
            continue
        yield now
        begins = SECTION.match(code)
        section, is_structure = section + bool(begins), begins[1].lower() == 'struc' if begins else is_structure
        label = LABEL.match(code)
        name = label[1] if label and not label[1].startswith('..') else ''
        above = name if name and not name.startswith('.') else above
        number = now.number if now.number and INNER.search(text[:TEXT]) else int(row[1])
        plain = code[label.end() if label else 0 :].partition(';')[0].strip()
        labels = [above + name if name.startswith('.') else name] if name else []
        now = Statement(int(row[1]), number, code, plain, labels, section, is_structure)
        if row[2]:
            now.take(row)
    yield now


def data_in(rows: list[str], places: dict[str, tuple[int, int]]) -> list[Datum]:
    """The labels of data, of those with a place, with the statements of their kind behind them. Where the next one of the section stands
    elsewhere than behind these, their size isn't known; one that is there twice, as in two structures, has none."""
    them = [one for one in statements(rows) if one.begin is not None or one.labels or one.text]
    found, names = list[Datum](), list[str]()
    for at, one in enumerate(them):
        names += [] if one.is_structure else one.labels
        if one.kind and one.begin is not None and names:
            size, after = span_of(them, at)
            is_sure = after is None or after.section != one.section or after.begin in (None, one.begin + size)
            is_whole = is_sure and size and not size % SIZES[one.kind]
            found += [Datum(name, one.number, one.kind, places[name], size) for name in names if is_whole and name in places]
        if one.text or one.begin is not None:
            names.clear()
    known = Counter(one.name for one in found)
    return [one for one in found if known[one.name] == 1]


def span_of(them: list[Statement], at: int) -> tuple[int, Statement | None]:
    """How many bytes a statement has with those of its kind behind it, and the next one."""
    one = them[at]
    size, begin = one.size, one.begin or 0
    for after in map(them.__getitem__, range(at + 1, len(them))):
        if after.begin != begin + size or (after.kind, after.section) != (one.kind, one.section) or after.labels:
            return size, after
        size += after.size
    return size, None


def constants_in(rows: list[str]) -> dict[str, int]:
    """EQU's names with their values."""
    found, offsets, here = dict[str, int](), dict[str, tuple[int, int]](), (0, 0)
    for one in statements(rows):
        here = here if one.section == here[0] else (one.section, 0)
        if one.begin is not None:
            here = one.section, one.begin + one.size
            offsets |= {label[1]: (one.section, one.begin) for label in [LABEL.match(one.code)] if label}
        if constant := CONSTANT.match(one.code):
            value = value_of(constant[2], found, offsets, here)
            found.pop(constant[1], None)
            if value is not None and LEAST <= value <= GREATEST:
                found[constant[1]] = value
    return found


def constants_among(texts: Iterable[str]) -> dict[str, int]:
    """EQU's names with their values, of lines of the dialect, whose expressions NASM has too."""
    known, found = dict[str, int](), dict[str, int]()
    for text in texts:
        equal, segment = CONSTANT.match(text), NAMED_SEGMENT.match(text)
        if named := equal or segment:
            value = value_of(named[2], known, {}, (0, 0))
            known |= {} if value is None else {named[1]: value}
            found |= {named[1]: value} if equal and value is not None else {}
    return found


def number_in(word: str) -> int | None:
    """A number or a character as NASM writes it; None of another word."""
    lower = word.lower().replace('_', '')
    try:
        if word[0] in '\'"' and len(word) > 2:
            return int.from_bytes(word[1:-1].encode('latin-1'), 'little')
        if re.fullmatch('0[hxdobqy][0-9a-f]+', lower) and not re.fullmatch('0[0-9a-f]*h|0[01]*[by]', lower):
            return int(lower[2:], BASES[lower[1]])
        if re.fullmatch('[0-9][0-9a-f]*[hx]', lower):
            return int(lower[:-1], 16)
        if lower[0] == '$' and len(lower) > 1:
            return int(lower[1:], 16)
        return int(lower[:-1], BASES[lower[-1]]) if lower[-1] in BASES and lower[0].isdigit() else int(lower)
    except (ValueError, UnicodeEncodeError, KeyError):
        return None


def value_of(text: str, known: dict[str, int], offsets: dict[str, tuple[int, int]], here: tuple[int, int]) -> int | None:
    """What an expression of numbers is, and of how far two labels of one section are apart, of which one may be `$`."""
    if far := re.fullmatch(r'\s*(\$|[A-Za-z_?@.][\w.$#@~?]*)\s*-\s*([A-Za-z_?@.][\w.$#@~?]*)\s*', text):
        end, begin = here if far[1] == '$' else offsets.get(far[1]), offsets.get(far[2])
        if end and begin:
            return end[1] - begin[1] if end[0] == begin[0] else None
    words = [word for word in NUMBER.findall(text) if word.strip()]
    numbers = [word if re.fullmatch(r'<<|>>|[-+*/%&|^~()]', word) else known[word] if word in known else number_in(word) for word in words]
    if None in numbers or len(numbers) > 100:
        return None
    try:
        return evaluated(ast.parse(' '.join(map(str, numbers)), mode='eval').body)
    except (SyntaxError, ValueError, ZeroDivisionError, RecursionError):
        return None


def evaluated(node: ast.AST) -> int:
    """A term's value. Its division and shifts are of numbers without sign."""
    if isinstance(node, ast.Constant) and isinstance(node.value, int):
        return node.value
    if isinstance(node, ast.UnaryOp):
        one = evaluated(node.operand)
        return {ast.USub: -one, ast.UAdd: one, ast.Invert: ~one}[type(node.op)]
    if not isinstance(node, ast.BinOp) or type(node.op) not in OPERATORS:
        raise ValueError
    left, right = evaluated(node.left), evaluated(node.right)
    is_unsigned = isinstance(node.op, (ast.Div, ast.Mod, ast.LShift, ast.RShift))
    if is_unsigned and (left < 0 or right < 0) or isinstance(node.op, ast.LShift) and right > 31 or max(abs(left), abs(right)) > 1 << 40:
        raise ValueError
    return OPERATORS[type(node.op)](left, right)
