"""The board as an editor's debugger moves it: by instructions, over calls and halts, and out of routines, forth and
back. It decides nothing: each place is that of a session of pcprobe."""
from __future__ import annotations

import time
from typing import Callable, Collection, Iterator

from toolbox.command import Sorry
from toolbox.events import clock_of
from toolbox.followed import MOST_PIECE, STACKED, FollowedBoard
from toolbox.following import Follower, Out
from toolbox.forms import CALLING, form_of, signed
from toolbox.listing import Listing, physical
from toolbox.places import Event, is_repeated
from toolbox.program import Files
from toolbox.session_board import MOST_STOPS, place_of
from toolbox.watches import MEMORY, watch_of
from toolbox.way_back import paced

MOST_BREAKPOINTS = MOST_STOPS - 1  # one is left for a long way out of a call
FIRST_PIECE = 1000  # clocks that are followed at first
# What ends a way out of a routine before it returns.
ENDS = {'jammed': 'the processor has jammed, and nothing returned', 'halted for good': 'halted with interrupts off, and nothing returned'}
IF = 0x200


class Machine(FollowedBoard):
    """The board with its listing."""

    def __init__(self, files: Files, listing: Listing, budget: int, poll: Callable[[], None] = lambda: None) -> None:
        super().__init__(files, budget, poll)
        self.listing = listing
        self.known: dict[int, Event] = {}
        self.why = ''  # why the last way over or out of a routine ended: 'returned', 'stop', 'far', or as `ended` tells

    def trail(self) -> list[Event]:
        """The last instruction starts and entries. What they tell of instructions is kept for disassembly."""
        found = super().trail()
        self.known.update((event.address, event) for event in found if event.entry is None)
        return found

    def stack(self, count: int) -> list[tuple[int, int, str]]:
        """So many words from SS:SP on: how far from there each stands, itself, and the label of one that leads to code of the program."""
        registers, listing = self.registers(), self.listing
        octets = self.dump(physical(registers['SS'], registers['SP']), min(2 * count, 0x10000 - registers['SP']))
        words = [(at, int.from_bytes(octets[at : at + 2], 'little')) for at in range(0, len(octets) - 1, 2)]
        places = [(registers['CS'], word) if word and listing.has(physical(registers['CS'], word)) else None for _, word in words]
        return [(at, word, listing.label_before(*place) if place else '') for (at, word), place in zip(words, places)]

    def step(self) -> Event | None:
        """Makes one instruction, iteration or entry, and returns what began. A halted processor goes on to its
        interrupt."""
        if self.is_halted and self.clock < self.budget:
            self.leave_halt((), self.budget)
            if self.clock == self.budget:
                return None
        here = self.clock
        self.one('step')
        return next((event for event in self.trail() if event.clock >= here), None)

    def step_own(self) -> Event | None:
        """As `step`, but over what the services do, out of them, and from power-on to where the program begins."""
        self.why = 'returned'
        if self.is_before:
            self.run([self.first_stop()], self.budget)
            return None
        begun = None if self.is_served_here else self.step()
        while self.why == 'returned' and not self.is_own:
            self.out()
        return begun

    def back(self) -> None:
        """To where the processor was free before, within a halt to its HLT, and from the program's own instructions or its end to the
        last of these."""
        own = self.own_trail() if self.ram_end and self.is_own else []
        if own:
            self.go_to(own[-1].clock)
        elif self.is_halted:
            self.go_to(self.trail()[-1].clock)
        elif not self.step_back():
            raise Sorry('this is the start of the run')

    def to_stops(self, way: Callable[[], object], wanted: Collection[str]) -> str | None:
        """A way, at most to one of these stops: to find them, it is gone once more. A place at its end is no stop before it."""
        here, _ = self.clock, way()
        if wanted and (there := self.clock) > here:
            self.go_to(here)
            met = self.run(wanted, there)
            if met and not (place_of(met) and self.clock == there):
                self.why = 'stop'
                return met
        return None

    def next(self) -> None:
        """Makes one instruction with all that it calls, an interrupt that comes first, and all its repeats."""
        if self.is_before:
            self.step_own()
            return
        here, self.why = self.clock, 'returned'
        while begun := self.step():
            self.over(begun)
            if begun.entry is None or self.why != 'returned':
                break
        if self.why == 'far' or not begun and self.clock >= self.budget:
            self.why = self.ended(here)

    def over(self, begun: Event) -> None:
        """Over all that an instruction or entry does which has just been made: what it calls, and its repeats."""
        self.why = 'returned'
        if begun.entry is not None or form_of(begun.octets).does in (*CALLING, 'may-enter'):
            self._over_call(begun.clock)
        elif is_repeated(begun.text):
            self._over_repeats(begun)

    def _over_call(self, begun: int) -> None:
        """Over what an instruction or entry that began at a clock has called, if it has called something."""
        after = self.clock
        for beginning in self._beginning, self._taken:
            self.go_to(begun)
            follower = beginning()
            self._follow(follower, after)
            if not follower.nest:
                return
            out = Out(follower, follower.nest[-1], beginning == self._taken)
            self._end(out)
            if not out.unsure:
                return

    def _over_repeats(self, begun: Event) -> None:
        """To where another instruction begins than a repeat, over interrupts that come first."""
        repeats = b' %04X:%04X ' % (begun.segment, begun.offset)
        while found := next((line for lines in self._pieces(self.budget) for line in lines if repeats not in line), None):
            self.go_to(clock_of(found))
            if b' entry ' not in found:
                return
            self.one('step')
            self._over_call(clock_of(found))
            if self.why != 'returned':
                return
        self.why = 'far'

    def _taken(self) -> Follower:
        """The calls under way, which are followed on from here."""
        follower, self._known = self.follower(), (-1, None)
        return follower

    def out(self) -> None:
        """Runs to where the routine has returned, or dropped its address; at most to a jam, a halt for good, or the budget."""
        here, follower = self.clock, self._taken()
        self._end(Out(follower, follower.nest[-1] if follower.nest else None))
        if self.why == 'returned':
            self._known = self.clock, follower
        else:
            self.why = self.ended(here)

    def _pieces(self, end: int) -> Iterator[list[bytes]]:
        """What begins up to a clock, to which the board goes past all stops, piece by piece."""
        length = FIRST_PIECE
        while self.clock < end:
            begun = time.monotonic()
            yield self.lines(min(length, end - self.clock), STACKED)
            self.poll()
            length = min(paced(length, time.monotonic() - begun), MOST_PIECE)

    def _end(self, out: Out) -> None:
        """Goes on to where a call has ended, at most to the budget."""
        self.why, here = 'returned', self.clock
        for lines in self._pieces(self.budget):
            ended = next((mark.clock for mark in self._marks(lines) if out.ends(mark)), None)
            if ended is not None:
                self.go_to(ended)
                self.one('step')
                return
            if not lines and self._ends():
                break
            if self.clock - here > MOST_PIECE:
                self._skip(out)
        self.why = 'far'

    def _skip(self, out: Out) -> None:
        """Goes on as long as no return can have ended a call: nothing is pushed to where its address lies, and SP isn't
        above that."""
        stack, level = out.follower.stack, out.frame.level if out.frame else out.intact
        place = physical(stack.segment, level % 0x10000)
        stop = watch_of(place, 2, is_each_write=True) if out.is_own and place + 1 < MEMORY else ''
        while stop and self.clock < self.budget:
            self.want([stop])
            here, end, met = self.clock, min(self.clock + MOST_PIECE, self.budget), None
            while self.clock < end and met != stop:
                met = self.go_on(end)
            now = self.registers()
            if met == stop or now['SS'] != stack.segment or signed(now['SP'] - level) > 0:
                self.go_to(here)
                return
            stack.level = level + signed(now['SP'] - level)
            self.poll()

    def _ends(self) -> str:
        """`jammed` or `halted for good`, if nothing more will happen, or nothing."""
        if self.is_halted:
            return '' if self.registers()['FL'] & IF else 'halted for good'
        return 'jammed' if self.state() == 'jammed' else ''

    def ended(self, here: int) -> str:
        """What ended a way that led from a clock to no return: `jammed` and `halted for good` at the clock at which
        that began, else `far`."""
        trail, kind = self.trail(), self._ends() or 'far'
        if kind != 'far' and trail and trail[-1].clock >= here:
            self.go_to(trail[-1].clock)
            self.one('step')
        return kind
