"""What is shown of a text of any length, and of any number of lines: how it begins, and how much more there is."""
from __future__ import annotations

from toolbox.command import LONGEST, MOST, bounded, clipped, more, named

__all__ = ['LONGEST', 'LONGEST_LINE', 'MOST', 'MOST_CHANGES', 'bounded', 'clipped', 'more', 'report_of']

LONGEST_LINE = 160  # characters of a source's line
MOST_CHANGES = 10_000  # of the speaker's level


def report_of(text: str) -> str:
    """A report's text, or, if the speaker's changes are many, the first of them."""
    head, _, screen = text.partition('\nscreen\n')
    lines = head.split('\n')
    first = next((at for at, line in enumerate(lines, 1) if line.startswith('sound ')), len(lines))
    left_out = len(lines) - first - MOST_CHANGES
    if left_out <= 0:
        return text
    more = f'.. and {left_out:,} changes more, which {named("./pcboard run")} prints'
    return '\n'.join([*lines[: first + MOST_CHANGES], more, 'screen', screen])
