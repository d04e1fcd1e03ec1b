"""Conditions of watchpoints, judged on the board where watched bytes have changed: forth behind the change, and back before it, where gdb
shows the board. gdb tells a change from the value that it saw last: so it is shown the last one that was passed, where no condition
held, before one where some does."""
from __future__ import annotations

from dataclasses import dataclass, field
from typing import Callable

from toolbox.gdb.bytecode import Condition
from toolbox.session_board import SessionBoard

ROW, FIRST = 1 << 20, 0x10000000  # `in_gdb` has a breakpoint's place say whose condition it has
Holds = Callable[[Condition, SessionBoard], bool]


@dataclass
class Judges:
    """The conditions, by the places of the breakpoints that have them; and by addresses where a run has passed a change last."""

    conditions: dict[int, list[Condition]] = field(default_factory=dict)
    passed: dict[int, int] = field(default_factory=dict)

    def put(self, place: int, conditions: list[Condition]) -> bool:
        """Puts conditions for those at a place beyond memory; whether it is one of a watchpoint's."""
        if place >= FIRST and conditions:
            self.conditions[place] = conditions
        return place >= FIRST

    def leave(self, place: int) -> None:
        """A watchpoint's condition is taken out."""
        self.conditions.pop(place, None)

    def asked(self, first: int, holds: Holds, is_back: bool) -> list[Callable[[SessionBoard], bool]]:
        """What the watchpoints of the bytes from an address on ask, where a run begins: one question for all of them."""
        self.passed.pop(first, None)
        conditions = [one for place, them in self.conditions.items() if place % ROW == first for one in them]

        def ask(board: SessionBoard) -> bool:
            if is_back:
                board.one('back 1')
            is_met = any(holds(one, board) for one in conditions)
            if not is_met:
                self.passed[first] = board.clock
            if is_back:
                board.one('go 1')
            return is_met

        return [ask] if conditions else []
