"""Follows a run by the lines of the probe's `events` (docs/probe.md): when an instruction begins, which return ends
which call, how long a request waits, and who wrote a byte last. It starts nothing: lines go in, and, for what no line
tells, the registers at some clocks.

`begin_in(lines, place)` is the clock at which the instruction at a place begins; not where the processor is merely free
there, halted, or enters an interrupt. `writer_in(trail)` is what wrote a byte last, of the trail at a stop on its writes
or changes. `lost_in(lines, lost_before)` are the clocks at which codes of keys were lost.

`Marks().of(lines)` reads lines of `starts` and `entries`, of `wires` and `ports=20-21` if they are wanted, as marks:
what there is to follow. A mark whose `asks_for_stack()` is true gets its `state`, the registers one clock after it,
before it is followed; with `asks()` also where flags and targets are wanted.

`Follower(state)` takes the marks from a clock on, whose registers `state` has. Its `nest` are the calls under way that
it has seen, the innermost last, each a `Frame`; what was called before isn't known. `Out(follower, frame).ends(mark)`
follows a mark and says whether it ends that frame's call: by the return that takes its address from where the call has
put it, also a string's behind that address if the routine has taken it by POP and puts another one there, or jumps
there by a register; by a return from above it, if the address was dropped; or by a load of SP to above it, no higher
than the stack is known to have been. Interrupts, calls on the way, other tasks' stacks and words that were pushed to be
jumped to don't count. Without a frame it is the routine that runs at the state: a return ends it that takes its address
from at or above SP, where nothing has been pushed since.
`Requests(controller)` takes wires and ports, and tells each request's rise, fall and acceptance.

The cases in tests/following, which any other implementation can be held against, are lines and answers."""
from __future__ import annotations

import re
from bisect import bisect_left
from dataclasses import dataclass, field
from typing import Iterable, NamedTuple, Sequence, TypeVar

from toolbox.forms import CALLING, Far, Form, far_in, form_of, is_by_frame, learn, signed
from toolbox.listing import physical

LEVELS = {'IR0': 0, 'IR1': 1}
OF_AN_INTERRUPT = 6  # bytes that it pushes


class State(NamedTuple):
    """SS, SP, the flags, and CS with IP."""

    segment: int
    pointer: int
    flags: int
    place: Far


STATE = re.compile(rb'SP=(....) .*\nCS=(....) .* SS=(....) IP=(....) FL=(....)')


def states_in(octets: bytes) -> list[State]:
    """The registers of answers to `regs`."""
    numbers = ([int(each, 16) for each in words] for words in STATE.findall(octets))
    return [State(segment, pointer, flags, (code, offset)) for pointer, code, segment, offset, flags in numbers]


class Start(NamedTuple):
    """An instruction begins that there is something to follow in, and whether its bytes leave open what SS and SP, or the flags, are
    after it."""

    place: Far
    form: Form
    is_open_stack: bool
    is_open_flag: bool

    @staticmethod
    def of(place: Far, form: Form) -> Start | Far:
        """An instruction, or its place alone if there is nothing to follow."""
        is_open = form.loads_stack or form.does == 'may-enter'
        is_plain = form.does in PLAIN or form.does == 'jump' and form.to != 'register'
        if is_plain and not (is_open or form.sp or form.turns_interrupts):
            return place
        return Start(place, form, is_open, form.turns_interrupts and form.sp != 0)


class Entry(NamedTuple):
    """An interrupt is entered between two instructions."""

    type: int


class Wire(NamedTuple):
    """A request line takes a level."""

    level: int
    is_high: bool


class Port(NamedTuple):
    """A port of the interrupt controller is read or written."""

    number: int
    value: int
    is_write: bool


What = Start | Entry | Wire | Port
T = TypeVar('T')
PLAIN = ('next', 'branch', 'halt', 'repeat', 'nothing')


class Mark:
    """A line in which there is something to follow; what begins next, an instruction with its place or an entry without
    one; and the registers after it, if nothing else tells them."""

    __slots__ = 'clock', 'what', 'next', 'state'

    def __init__(self, clock: int, what: What) -> None:
        self.clock, self.what = clock, what
        self.next: tuple[int, Far | None] | None = None
        self.state: State | None = None

    @property
    def does(self) -> str:
        """What an instruction does; an entry is as INT."""
        return self.what.form.does if type(self.what) is Start else 'enter' if type(self.what) is Entry else ''

    def asks_for_stack(self) -> bool:
        """Whether SS and SP after it are wanted, which its bytes don't tell."""
        return type(self.what) is Start and self.what.is_open_stack

    def asks(self) -> bool:
        """Whether the registers after it are wanted: SS, SP and the flags, or where a call leads if an interrupt is
        entered there first."""
        if type(self.what) is Start and (self.what.is_open_stack or self.what.is_open_flag):
            return True
        return self.does in CALLING and (self.next is None or self.next[1] is None)

    def target(self) -> Far | None:
        """Where a call leads, if that is known."""
        return self.next[1] if self.next and self.next[1] else self.state.place if self.state else None


def octets_in(rest: bytes) -> bytes:
    """The bytes of a line of `starts`, of what it tells after its clock."""
    return bytes.fromhex(rest[rest.rindex(b' ') + 1 :].decode('ascii'))


def what_in(rest: bytes) -> What | Far | None:
    """What a line tells after its clock; a place if an instruction begins in which there is nothing to follow."""
    words = rest.split()
    if words[0] == b'start':
        return Start.of(far_in(words[1].decode('ascii')), form_of(octets_in(rest)))
    if words[0] == b'entry':
        return Entry(int(words[1], 16))
    if words[0] == b'wire':
        name = words[1].decode('ascii')
        return Wire(LEVELS[name], words[2] == b'1') if name in LEVELS else None
    return Port(int(words[1], 16), int(words[2], 16), words[0] == b'out') if words[0] in (b'in', b'out') else None


class Marks:
    """The marks of a run's lines, each once what begins next is known."""

    def __init__(self) -> None:
        self._known: dict[bytes, What | Far | None] = {}
        self._held: list[Mark] = []
        self._waits: Mark | None = None

    def of(self, lines: list[bytes]) -> list[Mark]:
        """Those of the next lines, and of lines before that waited for what begins next."""
        rests = [line[line.index(b' ') :] for line in lines]
        known, marks, waits, first = self._learnt(rests), self._held, self._waits, 0
        for line, rest in zip(lines, rests):
            what = known[rest]
            if type(what) is tuple:
                if waits:
                    waits.next, waits = (int(line[: -len(rest)]), what), None
                continue
            if what is None:
                continue
            mark = Mark(int(line[: -len(rest)]), what)
            if type(what) is Start or type(what) is Entry:
                if waits:
                    waits.next = mark.clock, what.place if type(what) is Start else None
                waits, first = mark, len(marks)
            marks.append(mark)
        self._waits, self._held = waits, marks[first:] if waits else []
        return marks[:first] if waits else marks

    def _learnt(self, rests: list[bytes]) -> dict[bytes, What | Far | None]:
        """What lines tell after their clocks."""
        new = set(rests) - self._known.keys()
        learn(octets_in(rest) for rest in new if rest.startswith(b' start'))
        self._known.update((rest, what_in(rest)) for rest in new)
        return self._known

    def rest(self) -> list[Mark]:
        """Those after which nothing begins any more."""
        held, self._held, self._waits = self._held, [], None
        return held


def begin_in(lines: Iterable[bytes], place: Far) -> int | None:
    """The clock at which the instruction at a place first begins, of lines of `starts`; those of `entries` and `states` tell of none."""
    wanted = b' start %04X:%04X ' % place
    return next((int(line[: line.index(b' ')]) for line in lines if wanted in line), None)


def writer_in(trail: Sequence[T]) -> T | None:
    """What wrote a byte last: of the trail at a stop on its writes or changes, which holds one clock after."""
    return trail[-1] if trail else None


def lost_in(lines: Iterable[bytes], lost_before: int = 0) -> list[int]:
    """The clocks at which codes of keys were lost, of lines of `keys` from power-on on: no line tells of those stamped
    0, which the keyboard has counted there already."""
    return [0] * lost_before + [int(line[: line.index(b' ')]) for line in lines if line.endswith(b' lost')]


class Frame:
    """A call under way: when it began, what called, where it leads, its type if it is an interrupt's, where its return
    address lies, its length, and the stack before it. It is lifted once the routine has taken its address by POP,
    passed once the routine has jumped to that, or something was called from above it. If it is an interrupt that was
    entered before a call's first instruction, that call is under it."""

    __slots__ = 'clock', 'what', 'target', 'type', 'line', 'rise', 'place', 'segment', 'level', 'above', 'pushed', 'under', 'is_lifted', 'is_passed'

    def __init__(self, mark: Mark, stack: Stack, moves: int) -> None:
        assert isinstance(mark.what, (Start, Entry))
        self.clock, self.what, self.target = mark.clock, mark.what, mark.target()
        self.type = mark.what.form.type if isinstance(mark.what, Start) else mark.what.type
        self.above, self.pushed = stack.level, -moves
        stack.move(mark.clock, moves)
        self.place, self.segment, self.level = stack.place, stack.segment, stack.level
        self.line: Line | None = None
        self.rise: int | None = None
        self.under: Frame | None = None
        self.is_lifted = self.is_passed = False

    @property
    def is_entry(self) -> bool:
        """Whether it is an interrupt that was entered between two instructions."""
        return type(self.what) is Entry


class Stack:
    """SS and SP. Of each segment SP is kept as a number that goes on below 0 and above 65,535, and how low it came
    since when."""

    def __init__(self, segment: int, pointer: int) -> None:
        self.segment, self.level = segment, pointer
        self._levels, self._lows = dict[int, int](), dict[int, tuple[list[int], list[int]]]()

    @property
    def place(self) -> int:
        """The address of the word on top."""
        return physical(self.segment, self.level % 0x10000)

    def move(self, clock: int, by: int) -> None:
        """SP goes up, or down, by so many bytes."""
        self.level += by
        if by < 0:
            self._is_low(clock)

    def load(self, clock: int, segment: int, pointer: int) -> None:
        """Both have these values."""
        self._levels[self.segment] = self.level
        near = self._levels.get(segment, pointer)
        self.segment, self.level = segment, near + signed(pointer - near)
        self._is_low(clock)

    def _is_low(self, clock: int) -> None:
        clocks, lows = self._lows.setdefault(self.segment, ([], []))
        while lows and lows[-1] >= self.level:
            clocks.pop()
            lows.pop()
        clocks.append(clock)
        lows.append(self.level)

    def lowest(self, segment: int, since: int) -> int:
        """How low SP came in a segment since a clock at which it was noted."""
        clocks, lows = self._lows[segment]
        return lows[bisect_left(clocks, since)]


class Follower:
    """The calls under way on the present stack, `nest`, and the one that the last mark has ended, `ended`, if it
    has."""

    def __init__(self, state: State) -> None:
        self.stack = Stack(state.segment, state.pointer)
        self.nest = list[Frame]()
        self.ended: Frame | None = None
        self._open = dict[int, list[Frame]]()  # by where their return addresses lie
        self.base = state.pointer  # how high the present stack is known to be, beside what its calls tell
        self._left = dict[Far, tuple[list[Frame], int]]()  # the nests and bases of other stacks, by SS and SP as they were left

    def follow(self, mark: Mark) -> None:
        """The next mark."""
        what, self.ended = mark.what, None
        if type(what) is Start:
            self._start(mark, what.form)
        elif type(what) is Entry:
            self._call(mark, -OF_AN_INTERRUPT)

    def _start(self, mark: Mark, form: Form) -> None:
        """An instruction."""
        does, moves = form.does, form.sp or 0
        if does in CALLING:
            self._call(mark, moves)
        elif does == 'return':
            self._return(mark, moves)
        elif does == 'jump':
            self._jump()
        elif does == 'may-enter':
            if mark.state and signed(mark.state.pointer - self.stack.level) == moves:
                self._call(mark, moves)
        elif form.loads_stack:
            if mark.state:
                self._load(mark.clock, form.octets, mark.state.segment, mark.state.pointer)
        elif moves:
            if form.pops_register and self.nest and self.nest[-1].level == self.stack.level:
                self.nest[-1].is_lifted = self.nest[-1].pushed == 2
            self.stack.move(mark.clock, moves)

    def _call(self, mark: Mark, moves: int) -> None:
        """A call, or an interrupt, whose return address is on the stack."""
        frame, nest = Frame(mark, self.stack, moves), self.nest
        self._open.setdefault(frame.place, []).append(frame)
        while nest and nest[-1].level <= frame.level - nest[-1].is_lifted:  # over its own place a lifted one may call
            nest.pop()
        nest.append(frame)
        self.called(frame, mark)

    def _return(self, mark: Mark, moves: int) -> None:
        """A return, which takes its address from the top of the stack."""
        frames, nest, level = self._open.get(self.stack.place), self.nest, self.stack.level
        frame = self.ended = frames.pop() if frames else None
        while nest and nest[-1].level <= level:
            nest.pop()
        if frames and frames[-1].is_lifted and frame:  # a call from where the address was taken that lay there before
            nest.append(frames[-1])
        self.returned(frame, mark)
        self.stack.move(mark.clock, moves)

    def _jump(self) -> None:
        """A jump to where a register says: a return, if the routine has taken its address by POP."""
        if self.nest and self.nest[-1].is_lifted and self.stack.level == self.nest[-1].level + 2:
            self.ended = self.nest.pop()
            self.ended.is_passed, self.ended.is_lifted = True, False

    def _load(self, clock: int, octets: bytes, segment: int, pointer: int) -> None:
        """SS or SP is loaded: back to another task's stack; within the present one, by which calls below are dropped; or to
        a stack of which nothing is known."""
        stack, nest, level, here = self.stack, self.nest, self.stack.level, (self.stack.segment, self.stack.level % 0x10000)
        stack.load(clock, segment, pointer)
        top = max([self.base, *(frame.above for frame in nest[:1])])
        is_within = (segment, pointer) not in self._left and level <= stack.level <= top
        if segment == here[0] and (is_within or is_by_frame(octets)):
            while nest and nest[-1].level < stack.level:
                nest.pop()
        else:
            self._left[here] = nest, self.base
            self.nest, self.base = self._left.pop((segment, pointer), ([], stack.level))

    def called(self, frame: Frame, mark: Mark) -> None:
        """A call was followed."""

    def returned(self, frame: Frame | None, mark: Mark) -> None:
        """A return was followed: of this call, or of none that is known. The stack is as it was before."""


class Out:
    """The way out of a call that the follower has in its nest, or without a frame out of the routine that runs. If what
    called before isn't known, it may be `unsure` whether SP was loaded to above the call or to another stack."""

    def __init__(self, follower: Follower, frame: Frame | None = None, is_known: bool = True) -> None:
        self.follower, self.frame, self.is_known, self.unsure = follower, frame, is_known, False
        self._nest = follower.nest
        self.intact = follower.stack.level  # from there on upwards nothing has been pushed since

    @property
    def is_own(self) -> bool:
        """Whether the stack is the one on which it began."""
        return self.follower.nest is self._nest

    def ends(self, mark: Mark) -> bool:
        """Follows a mark, and tells whether it ends the call, or whether that can't be told."""
        follower, frame, does, stack = self.follower, self.frame, mark.does, self.follower.stack
        level, segment, is_own = stack.level, stack.segment, self.is_own
        follower.follow(mark)
        if frame and follower.ended is frame:
            return True
        if does == 'return':
            return is_own and level >= self.intact and (frame is None or level > frame.level)
        is_load = type(mark.what) is Start and mark.what.form.loads_stack
        if is_load and frame and is_own and stack.segment == segment and stack.level > frame.level:
            self.unsure = not self.is_own and not self.is_known
            return self.unsure or self.is_own
        if is_own and stack.level < level:
            self.intact = max(self.intact, level)
        return False


@dataclass
class Tally:
    """How often something was measured: the least and the most, the sum, the clock of the most, the first of equals,
    and the first clock."""

    times: int = 0
    least: int = 0
    most: int = -1
    sum: int = 0
    at: int = 0
    first: int = 0

    def add(self, value: int, clock: int) -> None:
        """One more."""
        self.least = min(self.least, value) if self.times else value
        self.first = self.first if self.times else clock
        if value > self.most:
            self.most, self.at = value, clock
        self.times += 1
        self.sum += value


@dataclass
class Line:
    """A request line: since when a request waits, the latencies of those that were taken, how long those stood that
    fell before they were taken, how many were taken by a poll or forgotten at an initialisation, and entries that no
    rise was seen of."""

    waits: int | None = None
    taken: Tally = field(default_factory=Tally)
    fell: Tally = field(default_factory=Tally)
    polled: int = 0
    forgotten: int = 0
    unseen: int = 0

    @property
    def has_come(self) -> bool:
        """Whether it ever rose, or was taken."""
        return bool(self.waits is not None or self.taken.times or self.fell.times or self.polled or self.forgotten or self.unseen)

    def is_taken(self, clock: int, rise: int | None) -> None:
        """The handler begins of a request, which is as old as its rise."""
        if rise is None:
            self.unseen += 1
        else:
            self.taken.add(clock - rise, rise)


class Requests:
    """The interrupt controller as far as it remembers requests. One whose line falls isn't remembered. `controller` has
    the words of its line of `chips`."""

    def __init__(self, controller: dict[str, str]) -> None:
        self.lines = [Line() for _ in range(8)]
        self.base = int(controller['vector'], 16) & 0xF8
        self._awaits, self._is_polled = controller['awaits'], controller['P'] == '1'
        self._icw1 = 0

    def wire(self, clock: int, wire: Wire) -> None:
        """A line takes a level."""
        line = self.lines[wire.level]
        if not wire.is_high and line.waits is not None:
            line.fell.add(clock - line.waits, clock)
        line.waits = clock if wire.is_high else None

    def line_of(self, type_: int) -> Line | None:
        """The line that enters this type, or none."""
        level = type_ - self.base
        return self.lines[level] if 0 <= level < 8 and (type_ != 1 or self.lines[level].waits is not None) else None

    def port(self, port: Port) -> None:
        """A port is read or written."""
        if not port.is_write:
            self._read(port.value)
        elif port.number == 0x21:
            self._word(port.value)
        elif port.value & 0x10:
            self._initialise(port.value)
        elif port.value & 0x08 and self._awaits == 'none':
            self._is_polled = bool(port.value & 0x04)

    def _initialise(self, value: int) -> None:
        self._icw1, self._awaits, self._is_polled = value, 'ICW2', False
        for line in self.lines:
            line.forgotten += line.waits is not None
            line.waits = None

    def _word(self, value: int) -> None:
        if self._awaits == 'ICW2':
            self.base = value & 0xF8
            self._awaits = 'ICW3' if not self._icw1 & 2 else 'ICW4' if self._icw1 & 1 else 'none'
        elif self._awaits == 'ICW3':
            self._awaits = 'ICW4' if self._icw1 & 1 else 'none'
        else:
            self._awaits = 'none'

    def _read(self, value: int) -> None:
        if self._is_polled and value & 0x80:
            line = self.lines[value & 7]
            line.polled += 1
            line.waits = None
        self._is_polled = False
