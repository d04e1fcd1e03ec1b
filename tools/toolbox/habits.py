"""What lines look like that come from other assemblers' and languages' habits, and what stands for them here. A look is of a line without
comment, in upper case, with the texts in quotes made empty; the first that fits gives the hint."""
from __future__ import annotations

import re

from toolbox.tables import tables

BEFORE = r'^\s*(?:\w+\s*:)?\s*'
TABLE = tables('hints')
NONE, ONE, TWO, EXAMPLES = (TABLE[name] for name in ('none', 'one', 'two', 'examples'))
HABITS: tuple[tuple[str, str], ...] = tuple((look, hint) for look, hint in TABLE['habits'])


def habit_of(line: str, code: str) -> str | None:
    """A hint for a line by its habit; `code` is it without comment, in upper case, its texts empty."""
    plain = line.partition(';')[0] if "'" not in line else line
    if re.search(r"'[^']*''[^']*'", plain) and '""' not in plain and not re.search(r"(^|[\s,(])''", plain):
        return "a text holds no quote: DB 'It',39,'s'"
    if code.count("'") % 2:
        return "a text ends with a quote, as it begins: 'a'"
    if code.count('[') != code.count(']'):
        return 'a bracket is missing: each [ has its ]'
    found = next((hint for look, hint in HABITS if re.search(look, code)), None)
    return found or of_operands(code)


def of_operands(code: str) -> str | None:
    """A hint where an instruction has too many operands, or too few."""
    found = re.match(rf'{BEFORE}(?:(?:LOCK|REPN?[EZ]?)\s+)*(\w+)\s*(.*?)\s*$', code)
    if not found:
        return None
    name, rest = found[1], found[2]
    if name in NONE and re.match(r'[A-Z]{2,}\b', rest) and rest.split()[0] in (*NONE, *ONE, *TWO):
        return 'one instruction a line'
    count = len(rest.split(',')) if rest else 0
    for names, wanted, said in ((NONE, 0, 'no operand'), (ONE, 1, 'one operand'), (TWO, 2, 'two operands')):
        if name in names and count != wanted:
            return f'{name} takes {said}' + (f': {name} {EXAMPLES.get(name, "label" if name[0] in "JL" else ("AX", "AX,5")[wanted - 1])}' if wanted else '')
    return None
