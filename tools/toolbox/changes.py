"""What was set in a session of pcprobe, so that one that is begun anew is changed at the same clocks, and `undo` takes it back."""
from __future__ import annotations

from typing import Callable

MOST_KEPT, SHOWN = 16, 8  # changes that pcprobe itself undoes; commands of one that are shown
Deed = tuple[int, str]


class Changes:
    """The commands `set`, and `key` since the first of them, in their order, each with the clock at which it is given anew: its own,
    or of a key that of the last `set`. A `set` at the clock of the last change belongs to that one."""

    def __init__(self) -> None:
        self.deeds = list[Deed]()
        self._kept = list[int]()  # of each change that the session undoes, how many deeds were before it

    @property
    def first(self) -> int:
        """The clock of the last change, beyond which no way back leads; of an unchanged board 0."""
        return self.deeds[-1][0] if self.deeds else 0

    def take(self, clock: int, command: str) -> bool:
        """The session was changed, or a key typed; whether that was a change of its own."""
        is_new = command.startswith('set') and not (self._kept and self.first == clock)
        if is_new:
            self._kept = [*self._kept, len(self.deeds)][-MOST_KEPT:]
        self.deeds.append((clock, command))
        return is_new

    def type(self, command: str) -> None:
        """A key was typed, which is gone when the change before it is undone."""
        self.take(self.first, command)

    def _begin(self) -> int:
        """How many deeds were before the last change."""
        return self._kept[-1] if self._kept else next(at for at, (clock, _) in enumerate(self.deeds) if clock == self.first)

    def last(self) -> str:
        """What the last change set, in words."""
        words = [command.removeprefix('set ') for _, command in self.deeds[self._begin() :] if command.startswith('set')]
        return ', '.join(words[:SHOWN]) + (f' and {len(words) - SHOWN} more' if len(words) > SHOWN else '')

    def undo(self) -> None:
        """The last change is undone, with the keys that were typed since."""
        del self.deeds[self._begin() :]
        del self._kept[-1:]

    def make(self, deeds: list[Deed], go: Callable[[int], object], ask: Callable[[str], object]) -> None:
        """Makes deeds of a session, which goes to the clock of each first."""
        for clock, command in deeds:
            go(clock)
            ask(command)
            self.take(clock, command)

    def keys(self) -> list[tuple[int, int]]:
        """The keys that were typed since the first change: stamps and codes."""
        words = [command.split() for _, command in self.deeds if command.startswith('key')]
        return [(int(stamp), int(code, 16)) for _, code, stamp in words]
