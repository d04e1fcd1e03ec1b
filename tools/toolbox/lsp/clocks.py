"""The clocks of an instruction, as the program tells them, in words."""
from __future__ import annotations

from toolbox.forms import Form

COUNTS = {'cl': ('CL', 255), 'n': ('elements', 65_535)}  # by what data decide, and how many there are at most


def counted(clocks: str) -> tuple[int, int, str, int] | None:
    """Of `9+17n` the fixed clocks, those of each, what these are, and how many at most."""
    fixed, plus, each = clocks.partition('+')
    if not plus:
        return None
    number = each.rstrip('cln')
    what, most = COUNTS[each[len(number) :]]
    return int(fixed), int(number), what, most


def text_of(form: Form, table: int) -> str:
    """All that is known of them, by the first or the second table."""
    clocks, by = form.clocks[table], counted(form.clocks[table])
    if by:
        fixed, each, what, most = by
        return f'{fixed} + {each} × {what}, {fixed} to {fixed + each * most:,}'
    most_of, slash, least = clocks.partition('/')
    if form.type == 0 and slash:
        return f'{least}; {int(most_of) - int(least)} more if it fails'
    return f'{most_of} if it {"jumps" if form.does == "branch" else "enters"}, else {least}' if slash else clocks


def short(form: Form) -> str:
    """Those by the first table: of a division those of one that has a quotient."""
    clocks, by = form.clocks[0], counted(form.clocks[0])
    return f'{by[0]}+{by[1]}×{by[2]}' if by else clocks.rpartition('/')[2] if form.type == 0 else clocks
