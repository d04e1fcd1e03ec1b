"""What a run's calls and interrupts come to: how long each took, how much stack, and how long interrupts were off."""
from __future__ import annotations

import contextlib
from bisect import bisect_left
from dataclasses import dataclass, field
from typing import Iterator

from toolbox.chips import Chips
from toolbox.following import Follower, Frame, Mark, Marks, Port, Requests, Start, State, Tally, What, Wire, states_in
from toolbox.forms import Far
from toolbox.program import Files, ProbeSession, uninterrupted

PIECE = 1_000_000  # clocks that are followed at once: an interrupt is seen after them
KINDS = 'starts entries wires ports=20-21'
INTERRUPT_FLAG = 0x200


@dataclass
class Routine:
    """What is reached by CALL, by INT or as a handler: its calls, the clocks of those that returned, with and without the
    interrupts inside, the bytes of stack at most; and the clocks at which those calls began that ended otherwise, or not yet."""

    calls: int = 0
    took: Tally = field(default_factory=Tally)
    own: Tally = field(default_factory=Tally)
    stack: int = 0
    otherwise: list[int] = field(default_factory=list)
    unended: list[int] = field(default_factory=list)


class Spans:
    """The clocks of interrupts that have returned."""

    def __init__(self) -> None:
        self._begun, self._ends, self._sums = list[int](), list[int](), [0]

    def add(self, begun: int, end: int) -> None:
        """One more, which takes those in that began later."""
        while self._begun and self._begun[-1] >= begun:
            for each in (self._begun, self._ends, self._sums):
                each.pop()
        covered = end - max(begun, self._ends[-1] if self._ends else 0)
        self._begun.append(begun)
        self._ends.append(end)
        self._sums.append(self._sums[-1] + covered)

    def since(self, clock: int) -> int:
        """The clocks of those that began at a clock or later."""
        return self._sums[-1] - self._sums[bisect_left(self._begun, clock)]


@dataclass
class Off:
    """Interrupts off: since when, what turned them off (at the run's begin nothing), the end of that first stretch, and the longest of the others."""

    since: tuple[int, What | None] | None
    first: tuple[int, What] | None = None
    longest: tuple[int, int, What, What] | None = None

    def set(self, clock: int, is_on: bool, what: What) -> None:
        """They are on or off from a clock on."""
        if not is_on:
            self.since = self.since or (clock, what)
        elif self.since:
            begun, by = self.since
            if by is None:
                self.first = clock, what
            elif self.longest is None or clock - begun > self.longest[1] - self.longest[0]:
                self.longest = begun, clock, by, what
            self.since = None


class Calls(Follower):
    """What a run's marks come to."""

    def __init__(self, first: int, state: State, chips: Chips) -> None:
        super().__init__(state)
        self.routines: dict[tuple[int | None, bool, Far], Routine] = {}
        self.requests, self.spans = Requests(chips.lines['controller']), Spans()
        self.off = Off(None if state.flags & INTERRUPT_FLAG else (first, None))
        self.strays = 0
        self._fresh: Frame | None = None
        self._nests: dict[int, list[Frame]] = {}  # of each segment, its calls from above one another

    def follow(self, mark: Mark) -> None:
        """The next mark."""
        what = mark.what
        if isinstance(what, Wire):
            self.requests.wire(mark.clock, what)
        elif isinstance(what, Port):
            self.requests.port(what)
        else:
            super().follow(mark)
            if isinstance(what, Start):
                self._turn(mark, what)

    def _turn(self, mark: Mark, what: Start) -> None:
        """Whether interrupts are on after an instruction. CLI and STI differ by their last bit."""
        if mark.state and (what.form.loads_stack or what.is_open_flag):
            self.off.set(mark.clock, bool(mark.state.flags & INTERRUPT_FLAG), what)
        elif what.form.turns_interrupts and not what.is_open_flag:
            self.off.set(mark.clock, bool(what.form.octets[-1] & 1), what)

    def called(self, frame: Frame, mark: Mark) -> None:
        """A call was followed."""
        frame.under, nest = self._fresh, self._nests.setdefault(frame.segment, [])
        while nest and nest[-1].level <= frame.level:
            nest.pop().is_passed = True
        nest.append(frame)
        if frame.is_entry and frame.type is not None:
            frame.line = self.requests.line_of(frame.type)
            if frame.line:
                frame.rise, frame.line.waits = frame.line.waits, None
        self._fresh = frame
        self._begins(mark)
        if frame.type is not None:
            self.off.set(mark.clock, False, mark.what)

    def _begins(self, mark: Mark) -> None:
        """What begins next may be the first instruction of a call that has had none."""
        frame = self._fresh
        if frame and mark.next and mark.next[1]:
            self._fresh = None
            if frame.line and mark.next[1] == frame.target:
                frame.line.is_taken(mark.next[0], frame.rise)

    def returned(self, frame: Frame | None, mark: Mark) -> None:
        """A return was followed."""
        if frame is None:
            self.strays += 1
            return
        nest = self._nests[frame.segment]
        if nest and nest[-1] is frame:
            nest.pop()
        routine, took = self.routine(frame), mark.clock - frame.clock
        routine.calls += 1
        routine.took.add(took, frame.clock)
        routine.own.add(took - self.spans.since(frame.clock), frame.clock)
        routine.stack = max(routine.stack, frame.above - self.stack.lowest(frame.segment, frame.clock))
        if frame.is_entry and mark.next:
            self.spans.add(frame.clock, mark.next[0])
        self._fresh = frame.under
        self._begins(mark)

    def routine(self, frame: Frame) -> Routine:
        """What a call reached."""
        assert frame.target
        return self.routines.setdefault((frame.type, frame.is_entry, frame.target), Routine())

    def end(self) -> None:
        """Tells the calls apart that haven't returned: those whose return address may still be on the stack are under way."""
        for frames in self._open.values():
            for frame in frames:
                routine = self.routine(frame)
                routine.calls += 1
                is_passed = frame.is_passed or frame.segment == self.stack.segment and frame.level < self.stack.level
                (routine.otherwise if is_passed else routine.unended).append(frame.clock)


class Following:
    """A run that is followed, piece by piece. `calls` is what it came to, whole after `end`."""

    def __init__(self, files: Files, first: int) -> None:
        with contextlib.ExitStack() as begun:
            self._events, self._states = (begun.enter_context(ProbeSession(files)) for _ in range(2))
            self._events.go_to(first)
            self._marks = Marks()
            self.clock = first
            (state,) = states_in(self._states.registers_at([first]))
            self.calls = Calls(first, state, Chips(self._states.answers(['chips'])))
            self._begun = begun.pop_all()  # what a refusal up to here has closed

    def __enter__(self) -> Following:
        return self

    def __exit__(self, *_: object) -> None:
        self._begun.close()

    def run(self, end: int) -> Iterator[int]:
        """Follows the clocks up to the end, and tells how far it has come."""
        while self.clock < end:
            clocks = min(PIECE, end - self.clock)
            lines = self._events.lines(clocks, KINDS)
            with uninterrupted():
                self._follow(self._marks.of(lines))
                self.clock += clocks
            yield self.clock

    def end(self) -> Calls:
        """What it came to, up to where it is."""
        self._follow(self._marks.rest())
        self.calls.end()
        return self.calls

    def _follow(self, marks: list[Mark]) -> None:
        """Follows marks, once SS, SP and the flags are known that their bytes don't tell."""
        asking = [each for each in marks if each.asks()]
        for mark, state in zip(asking, states_in(self._states.registers_at([each.clock + 1 for each in asking]))):
            mark.state = state
        for mark in marks:
            self.calls.follow(mark)
