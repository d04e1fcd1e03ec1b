"""What a refused line looks like that was written for another assembler, or for a later processor. A hint is a guess from
the line's look: that the line is refused, the program says, and nothing here. The looks are hints.json's, which the page reads too."""
from __future__ import annotations

import difflib
import re

from toolbox.habits import habit_of
from toolbox.listing import code_of, label_in
from toolbox.tables import tables

TABLE = tables('hints')
STATEMENTS, WORDS = frozenset(TABLE['statements']), frozenset(TABLE['words'])
RANGES = TABLE['ranges']
LONGEST_LINE = 1000  # a longer one is given no hint: the looks' time grows faster than a line

# A look (in a line without comment and texts in quotes, in upper case) and what to write.
LOOKS: tuple[tuple[str, str], ...] = tuple((look, hint) for look, hint in TABLE['looks'])


def bare(line: str) -> str:
    """A line's code in upper case, with the texts in single quotes made empty."""
    return re.sub(r"'[^']*'", "''", code_of(line)).upper()


def of_a_word_as_label(code: str) -> str | None:
    """A hint where the label is a word of the dialect."""
    found = re.match(r'\s*(\w+)\s*:', code)
    if found and found[1] in STATEMENTS:
        return f'{found[1]} is an instruction, and no instruction is a name: write {found[1].lower()}_1: for {found[1].lower()}:'
    return None


def of_a_word_as_operand(code: str) -> str | None:
    """A hint where an operand, or what stands in its brackets, is a mnemonic."""
    found = re.search(r'\w\s+(?:(?:SHORT|FAR)\s+)?\[?(\w+)\]?\s*$|,\s*\[?(\w+)\]?\s*(?:,|$)', code)
    word = found and (found[1] or found[2])
    first = re.match(r'\s*(?:\w+\s*:)?\s*(\w+)', code)
    if word in STATEMENTS and first and first[1] in STATEMENTS:
        return f'{word} is an instruction, and no instruction is a name: write {word.lower()}_1 for {word.lower()}'
    return None


def of_a_name_before_brackets(code: str) -> str | None:
    """A hint where a name or number stands before the brackets with its registers."""
    found = re.search(r'(\w+)\s*\[([^\]]*)\]', code)
    if found and found[1] not in STATEMENTS | WORDS and found[1] not in ('PTR', 'OFFSET', 'DWORD'):
        return f'a name stands in the brackets: [{found[1].lower()}+{found[2]}] for {found[1].lower()}[{found[2]}]'
    return None


def of_a_long_text(line: str) -> str | None:
    """A hint where a text of several characters stands for a number."""
    code = code_of(line)
    found = re.search(r"'([^']{2,})'", code)
    if not found or re.search(r'(^|[\s:])DB\s', code, re.I):
        return None
    word = f"; the word that has {found[1][0]} first is 0{ord(found[1][1]):X}{ord(found[1][0]):02X}h" if len(found[1]) == 2 else ''
    return f"a text of several characters stands in DB alone{word}"


def of_a_missing_colon(code: str) -> str | None:
    """A hint where a name stands before a statement without a colon."""
    found = re.match(r'\s*(\w+)\s+(D[BWD]|\w+)\b', code)
    if not found or found[1] in STATEMENTS:
        return None
    if re.fullmatch(r'D[BWD]', found[2]) or found[2] in STATEMENTS:
        return f'labels take a colon, those of data too: {found[1].lower()}: {found[2]} ..'
    return None


def of_a_bare_hexadecimal(code: str) -> str | None:
    """A hint where a hexadecimal number begins with a letter, so that it reads as a name."""
    found = re.search(r'(?<![\w.])([A-F][0-9A-F]*H)\b(?!\s*:)', code)
    if found and found[1] not in ('AH', 'BH', 'CH', 'DH'):
        return f'a hexadecimal number begins with a digit: 0{found[1][:-1]}h for {found[1][:-1]}h'
    return None


def of_characters(line: str) -> str | None:
    """A hint where a character isn't the dialect's."""
    if line.startswith('\ufeff'):
        return "the file begins with a byte order mark: save it as UTF-8 without it, or tail -c +4 FILE > NEW leaves it out"
    found = next(((column, sign) for column, sign in enumerate(line, 1) if not (' ' <= sign <= '~' or sign in '\t\r')), None)
    if not found:
        return None
    plain = 'a source has printable ASCII, tabulators and line ends alone'
    if found[0] <= len(code_of(line)):
        return f'column {found[0]} has {found[1]!r}; {plain}'
    return f'column {found[0]} has {found[1]!r}; {plain}, in comments too: iconv -c -f UTF-8 -t ASCII FILE > NEW leaves the rest out'


def near(word: str, known: list[str]) -> str:
    """The known word that a word was most likely meant for, or nothing."""
    lower = {candidate.lower(): candidate for candidate in known}
    found = difflib.get_close_matches(word.lower(), lower, 1, 0.6)
    return lower[found[0]] if found else ''


def of_a_statement(code: str) -> str | None:
    """A hint where a mnemonic is misspelt."""
    found = re.match(r'\s*(?:\w+\s*:)?\s*(\w+)', code)
    meant = near(found[1], sorted(STATEMENTS)) if found and found[1] not in STATEMENTS | WORDS else ''
    return f'is {meant} meant?' if meant else None


def of_a_name(code: str, source: list[str]) -> str | None:
    """A hint where no line defines a name: those that resemble it."""
    names = [name for name in map(label_in, source) if name]
    names += re.findall(r'(?im)^\s*(?:segment\s+)?([a-z_]\w*)\s+(?:equ|at)\b', '\n'.join(map(code_of, source)))
    known = {name.upper() for name in names} | STATEMENTS | WORDS
    unknown = [
        each for each in re.findall(r"(?<![\w.'])[A-Z_]\w*", re.sub(r'^\s*\w+\s*:', '', code)) if each not in known and not re.fullmatch(TABLE['own'], each)
    ]
    lower = {name.lower(): name for name in names}
    for word in unknown:
        meant = [lower[match] for match in difflib.get_close_matches(word.lower(), lower, 3, 0.6)]
        if meant:
            return f'no line defines {word.lower()}; is {" or ".join(meant)} meant?'
    if unknown and re.fullmatch(r'[A-F][0-9A-F]*\d[0-9A-F]*', unknown[0]):
        return f'no line defines {unknown[0].lower()}; a hexadecimal number begins with a digit and ends with h: 0{unknown[0]}h'
    if unknown and source:
        return f'no line defines {unknown[0].lower()}: a label begins its line and takes a colon, {unknown[0].lower()}:'
    return None


def hint_of(line: str, number: int, source: list[str] | None = None) -> str | None:
    """A hint for a refused line of a source, by its look, its fault's number and the source's other lines."""
    if number == 2:
        return of_characters(line)
    if len(line) > LONGEST_LINE:
        return None
    code = bare(line)
    habit = habit_of(line, code) if number in (3, 4, 5, 7, 11) else None
    if habit and not (number in (4, 7) and of_a_bare_hexadecimal(code)):
        return habit
    special = of_a_word_as_label(code) if number == 3 else of_a_missing_colon(code) if number in (3, 4, 11) else None
    if number == 3:
        special = special or of_a_word_as_operand(code) or of_a_name_before_brackets(code) or of_a_long_text(line)
    special = special or (of_a_bare_hexadecimal(code) if number in (4, 7) else None)
    special = special or (of_a_name(code, source or []) if number == 7 else None)
    if special:
        return special
    if number in (6, 9, 10, 12):
        return None
    if number == 11:
        return 'code, data and labels stand in a segment: SEGMENT MAIN AT 50h before them, and ENDS behind'
    looks = LOOKS if number != 8 else tuple(pair for pair in LOOKS if 'target' in pair[1] or 'port' in pair[1])
    found = next((hint for look, hint in looks if re.search(look, code)), None)
    return found or (of_a_statement(code) if number == 4 else RANGES if number == 8 else None)
