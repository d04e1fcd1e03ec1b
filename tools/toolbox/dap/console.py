"""The console's commands, beside expressions: those that are answered where the board stands, and those that move it or take long."""
from __future__ import annotations

from typing import Callable, Iterator

from toolbox.command import Sorry
from toolbox.dap.board import Machine
from toolbox.edits import assign
from toolbox.keying import code_of_word, key_lines, type_words
from toolbox.lasts import last_of
from toolbox.watches import command_of

SHOWING = ('regs', 'screen', 'dump', 'trail', 'chips')
MOMENTS = 'moments KEY FIRST LAST CLOCKS'


def answer(board: Machine, text: str) -> str | None:
    """The answer to a command; of an expression nothing."""
    name, *words = text.split() or ['']
    if name == 'key' and words:
        return type_words(board, words)
    if name == 'set' and words:
        return assign(board, board.listing, text.removeprefix('set'))
    if text == 'keys':
        return '\n'.join(key_lines(board)) or 'no keys'
    if name not in SHOWING or '\n' in text:
        return None
    return '\n'.join(line.rstrip() for line in board.many(command_of(board, board.listing, text))).rstrip()


def way(board: Machine, text: str, stops: list[str], tell: Callable[[str], None]) -> Callable[[], tuple[str, str]] | None:
    """What `last` and `moments` do, which tell a stop then and why; of another text nothing. The stops are those of the breakpoints."""
    name, *words = text.split() or ['']

    def last() -> tuple[str, str]:
        found = last_of(board, board.listing, words)
        tell(found)
        return 'goto', found

    def moments() -> tuple[str, str]:
        for line in tried(board, words, stops):
            tell(line)
        return 'pause', f'clock {board.clock}'

    return {'last': last, 'moments': moments}.get(name) if words else None


def tried(board: Machine, words: list[str], stops: list[str]) -> Iterator[str]:
    """Where runs end with a key at each of some clocks: a line for neighbouring clocks with one stop."""
    numbers = [word.replace(',', '').replace('_', '') for word in words[1:]]
    if len(numbers) != 3 or not all(map(str.isdecimal, numbers)) or int(numbers[0]) > int(numbers[1]):
        raise Sorry(f'use: {MOMENTS}')
    if any(stop in board.asked for stop in stops):
        raise Sorry('what a condition asks is asked of a board that runs, and of none that might: take conditions and counts out first')
    for found in board.moments(code_of_word(words[0]), *map(int, numbers), stops=stops):
        clocks = f'clock {found.least}' + (f' to {found.greatest}' if found.greatest > found.least else '')
        yield f'{found.first:>9} to {found.last:>9}: {f"{found.stop}, {clocks}" if found.stop else "no breakpoint"}'
