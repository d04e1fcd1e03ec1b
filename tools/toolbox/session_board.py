"""The board at a clock, over sessions of pcprobe: what tools/dbg, tools/gdb, editors and the desk share of stops, ways to a
clock, and beginnings anew. It decides nothing: each place is that of a session."""
from __future__ import annotations

import threading
import time
from dataclasses import dataclass, replace
from typing import TYPE_CHECKING, Callable, Collection, Iterable, Iterator, TypeVar

from toolbox.changes import Changes, Deed
from toolbox.command import Sorry
from toolbox.forms import Far
from toolbox.listing import physical
from toolbox.places import Event, event_of
from toolbox.faults import KINDS, fault_in
from toolbox.program import BEFORE_START, LAST_CLOCK, Files, ProbeSession, Refusal, apart
from toolbox.report import registers_of
from toolbox.runfile import add_keys
from toolbox.watches import changed, watched_by
from toolbox.way_back import last_stop, paced

if TYPE_CHECKING:
    from toolbox.conditions import Asked

MOST_STOPS, MOST_LISTED = 16, 4096
NONE = 'no instruction of the 8086'
MOST_PASSED = 64  # stops that nobody wants any more, before a session without them is begun
FIRST_PIECE = 1 << 16
LOGGED_AT_ONCE = 100_000  # clocks
PASSED_AT_ONCE = 1 << 20  # clocks that are gone past stops without a new session
TRIED_AT_ONCE = 100  # clocks of a key
T = TypeVar('T')
HLT, ROM = b'\xF4', 0xF0000  # from there on no byte changes but by `set`
MEMORY, SET_AT_ONCE = 1 << 20, 16
KEY_REFUSED, SET_REFUSED = ({number: kind[place] for number, kind in KINDS.items() if kind[place]} for place in (3, 4))


class Gone(Sorry):
    """The session's process has ended by itself."""


class Paused(Sorry):
    """The run is to end where it is."""


class Left(Paused):
    """The client has left."""


@dataclass(frozen=True)
class Moments:
    """Neighbouring clocks of a key with which a run ends at one stop, or at none, and the least and the greatest clock of its end."""

    first: int
    last: int
    stop: str | None = None
    least: int = 0
    greatest: int = 0

    def with_next(self, later: Moments) -> Moments | None:
        """These and those that follow, if runs end alike with them."""
        if self.stop != later.stop:
            return None
        return replace(self, last=later.last, least=min(self.least, later.least), greatest=max(self.greatest, later.greatest))


def refused(answer: str) -> str:
    """An answer that isn't a refusal, but for one that is expected."""
    if answer.startswith('fault') and answer != BEFORE_START:
        raise Sorry(f'the debugger refuses: {answer}')
    return answer


def break_at(place: Far) -> str:
    """The stop at which the processor is free at a CS:IP."""
    return 'break {:X}:{:X}'.format(*place)


def place_of(stop: str) -> Far | None:
    """Its CS:IP, or none of a stop of another kind."""
    word, _, place = stop.partition(' ')
    segment, _, offset = place.partition(':')
    return (int(segment, 16), int(offset, 16)) if word == 'break' else None


class SessionBoard:
    """A board. A stop is the debugger's command that sets it. Those of a session can't be taken out: places that nobody wants any
    more are passed, and where they are many, or the sixteen used up, a session is begun anew. `poll` is called between the pieces
    of a run, and raises Paused to end it. Where keys are typed, the run file is a copy. What is set belongs to the run: a session
    that is begun anew is changed so at the same clocks, and a way back to before a change undoes it, which `undone` tells."""

    def __init__(self, files: Files, budget: int, poll: Callable[[], None] = lambda: None) -> None:
        self._files, self.budget, self.poll = files, budget, poll
        self._typed, self._typing = list[tuple[int, int]](), threading.Lock()  # keys that the run file hasn't yet
        self._stops, self._piece = list[str](), FIRST_PIECE
        self.asked: dict[str, list[Asked]] = {}  # what stops ask besides
        self._halts = dict[int, bool]()  # whether HLT stands at an address of ROM
        self.changes, self.undone = Changes(), list[str]()  # the latter: what ways back undid, in words
        self._forget()
        with apart():
            self._session = ProbeSession(files)
        try:
            self._session.many('regs')
        except BaseException:
            self._session.close()
            raise

    def _forget(self, is_other: bool = True) -> None:
        """The registers and the trail are asked for once at each clock: what a board holds there is determined, until keys change, it
        is changed, or of other files."""
        self._halts.clear()
        self._registers, self._trail = (-1, dict[str, int]()), (-1, list[Event]())

    @property
    def clock(self) -> int:
        """Where the board stands."""
        return self._session.clock

    @property
    def files(self) -> Files:
        """The board's files. The run file has the keys that were typed, so that what is begun anew of it has them."""
        with self._typing:
            if self._typed:
                add_keys(self._files.run_file, self._typed)
                self._typed = []
        return self._files

    def close(self) -> None:
        """Ends the session."""
        self._session.close()

    # Questions

    def _talk(self, ask: Callable[[], T]) -> T:
        """What the session answers, unless its process has ended."""
        try:
            return ask()
        except (Paused, Refusal):
            raise
        except (Sorry, OSError) as error:
            raise Gone(f"the board's process has ended: {error}") from None

    def answer(self, command: str) -> str:
        """The line that answers a command, a refusal too."""
        return self._talk(lambda: self._session.one(command))

    def one(self, command: str) -> str:
        """The line that answers a command; a refusal, but for one that is expected, as a sentence."""
        return refused(self.answer(command))

    def many(self, command: str) -> list[str]:
        """The lines that answer a command, or a sentence for a refusal."""
        lines = self._many(command)
        if len(lines) == 1:
            refused(lines[0])
        return lines

    def _many(self, command: str) -> list[str]:
        """The lines that answer a command, a refusal too. On a long way back the session answers nothing else."""
        if not self._session.is_idle:
            raise Sorry('the board goes back; pause first')
        return self._talk(lambda: self._session.many(command))

    def dump(self, address: int, count: int) -> bytes:
        """Bytes from a physical address on, as many as there are."""
        return self._talk(lambda: self._session.dump(address, count))

    def listed(self, place: Far, count: int) -> Iterator[tuple[int, bytes, str]]:
        """So many instructions from a place on, as memory has them now: each with its offset, its bytes and its text; of a byte with which
        none begins, the byte alone."""
        segment, offset = place
        for first in range(0, count, MOST_LISTED):
            for line in self.many(f'list {segment:X}:{offset:X} {min(count - first, MOST_LISTED)}'):
                far, digits, text = line.split(' ', 2)
                octets, at = bytes.fromhex(digits), int(far[5:], 16)
                yield at, octets, NONE if text.startswith('DB ') else text
                offset = (at + len(octets)) % 0x10000

    def registers(self) -> dict[str, int]:
        """The registers."""
        if self._registers[0] != self.clock:
            self._registers = self.clock, registers_of(self.many('regs'))
        return self._registers[1]

    def place(self) -> Far:
        """CS and IP."""
        registers = self.registers()
        return registers['CS'], registers['IP']

    def trail(self) -> list[Event]:
        """The last instruction starts and entries."""
        if self._trail[0] != self.clock:
            self._trail = self.clock, [event_of(line) for line in self.many('trail')]
        return self._trail[1]

    def chips(self) -> list[str]:
        """What the chips hold, a line for each chip and counter."""
        return self.many('chips')

    @property
    def is_halted(self) -> bool:
        """Whether the processor is halted, behind its HLT."""
        is_likely = any(event.octets[-1:] == HLT for event in self.trail()[-1:])
        return is_likely and self.chips()[-1].startswith('processor halted busy 0 ')

    def log(self, end: int, kinds: str) -> Iterator[str]:
        """What happens up to a clock, to which the board goes past all stops, as lines of the probe's events."""
        while self.clock < end:
            command = f'events {min(LOGGED_AT_ONCE, end - self.clock)} {kinds}'
            *lines, last = self._talk(lambda words=command: self._session.happenings(words))  # type: ignore[misc]
            refused(last)
            yield from lines
            self.poll()

    def lines(self, clocks: int, kinds: str) -> list[bytes]:
        """What happens in so many clocks, past all stops, as lines of the probe's events."""
        return self._talk(lambda: self._session.lines(clocks, kinds)) if clocks else []

    def end_instruction(self) -> None:
        """Ends what is under way, as where a byte has just been written, so that a step makes the next instruction."""
        if ' busy 0 ' not in self.chips()[-1]:
            self.one('step')

    def happened(self, kinds: str) -> list[str]:
        """What happened in the clock that led to the present one, as lines of the probe's events; stops are passed. To a change's
        clock none led."""
        if self.clock == self.changes.first:
            return []
        self.one('back 1')
        *lines, last = self._talk(lambda: self._session.happenings(f'events 1 {kinds}'))
        refused(last)
        return lines

    def state(self) -> str:
        """Running, halted or jammed."""
        return self.chips()[-1].split()[1]

    def type(self, code: int, clock: int | None = None) -> int:
        """Types a key, which comes at this clock, else at the next one; returns its stamp."""
        answer = self.answer(f'key {code:X}' if clock is None else f'key {code:X} {clock}')
        fault = fault_in(answer)
        if fault and fault.number in KEY_REFUSED:
            raise Sorry(KEY_REFUSED[fault.number].format(code=code, clock=self.clock))
        stamp = int(refused(answer).split()[2])
        if self.changes.deeds:
            self.changes.type(f'key {code:X} {stamp}')
        else:
            with self._typing:
                self._typed.append((stamp, code))
        self._forget(is_other=False)
        return stamp

    def type_all(self, keys: list[tuple[int, int]]) -> list[tuple[int, int]]:
        """Types codes at clocks that rise; none of them, if the last one comes too late."""
        if keys[-1][0] > LAST_CLOCK:
            raise Sorry(KEY_REFUSED[42])
        return [(self.type(code, stamp), code) for stamp, code in keys]

    # Changes

    def set_register(self, name: str, word: int) -> None:
        """A register gets a word, by its name in `regs`."""
        self._set(f'set {name} {word:X}')

    def set_bytes(self, address: int, octets: bytes) -> None:
        """Bytes get these values, from a physical address on; all of them, or none."""
        if not octets or not 0 <= address <= MEMORY - len(octets):
            raise Sorry(f'{len(octets)} bytes from {address:05X} on: at least one can be set, up to FFFFF')
        before, begun = self.dump(address, len(octets)), False
        for at in range(0, len(octets), SET_AT_ONCE):
            try:
                begun |= self._set(f'set {address + at:X} {octets[at : at + SET_AT_ONCE].hex(" ").upper()}')
            except Sorry:
                if begun:
                    self.undo()
                elif at:
                    self.set_bytes(address, before[:at])
                raise

    def set_by(self, command: str) -> str:
        """What `set` says is done; where the board stands."""
        self._set(command)
        return f'clock {self.clock}'

    def _set(self, command: str) -> bool:
        """Changes the board as it stands; whether that is a change of its own, and not one more at the clock of the last."""
        self._make(command)
        is_new = self.changes.take(self.clock, command)
        self._are_others()
        return is_new

    def _make(self, command: str) -> None:
        """Gives the session a command that changes it."""
        answer = self.answer(command)
        fault = fault_in(answer)
        if fault and fault.number in SET_REFUSED:
            raise Sorry(SET_REFUSED[fault.number])
        refused(answer)

    def _are_others(self) -> None:
        """The board was changed at the present clock, so what is known of it and of later ones holds no more."""
        self._forget(is_other=False)
        for one in (one for them in self.asked.values() for one in them):
            one.forget_after(self.clock)

    def undo(self) -> str:
        """Goes back to before the last change; what that was, in words. One that the session doesn't keep any more is left out of
        another that is begun."""
        if not self.changes.deeds:
            raise Sorry('nothing was set that could be undone')
        clock, what, deeds = self.changes.first, self.changes.last(), list(self.changes.deeds)
        is_kept = self.one('undo') != BEFORE_START
        self.changes.undo()
        if not is_kept:
            self.begin_anew(self._stops, clock, deeds=deeds[: len(self.changes.deeds)])
        self._are_others()
        return f'clock {clock}: undone: {what}'

    def _undo_on_the_way(self) -> None:
        """Undoes the change to which a way back has come."""
        self.undone.append(self.undo())

    def undo_changes(self, count: int) -> None:
        """Undoes so many changes, as a way back does."""
        for _ in range(count):
            self._undo_on_the_way()

    def mark(self) -> tuple[int, list[Deed]]:
        """Where the board stands, and how it was changed."""
        return self.clock, list(self.changes.deeds)

    def return_to(self, mark: tuple[int, list[Deed]]) -> None:
        """The board as it was marked, from a way on which changes may have been undone."""
        clock, deeds = mark
        if deeds == self.changes.deeds:
            self.go_to(clock)
        else:
            self.undone.clear()
            self.begin_anew(self._stops, clock, deeds=deeds)

    def stand_as(self, other: SessionBoard, clock: int | None = None, go: Callable[[int], object] | None = None) -> None:
        """Goes to where another board of the same files stands, or to an earlier clock, by those of its changes that this one hasn't."""
        to, go = other.clock if clock is None else clock, go or self.go_to
        left = other.changes.deeds[len(self.changes.deeds) :]
        self.changes.make([deed for deed in left if deed[0] <= to], go, self._make)
        self._are_others()
        go(to)

    def moments(self, code: int, first: int, last: int, clocks: int, stops: list[str], second: tuple[int, int] | None = None) -> Iterator[Moments]:
        """How a run of so many clocks would end, by these stops alone, if a key came at the first of these clocks, at the next one, and
        so on up to the last; and a second key, if its code is given, so many clocks after it. The board stays as it is."""
        if self._stops != stops:
            self.begin_anew(stops)
        end, before = self.clock + clocks, None
        after = f' {second[0]:02X} {second[1]}' if second else ''
        told = second[0] if second and 1 <= code & 0x7F <= 0x53 else code  # the code of a refusal
        while first <= last:
            to = min(last, first + TRIED_AT_ONCE - 1) if first <= end else last
            for line in self._many(f'moments {code:02X} {first} {to} {clocks}{after}'):
                found = self._moments_in(line, told)
                joined = before.with_next(found) if before else found
                if before and not joined:
                    yield before
                before = joined or found
            first = to + 1
            self.poll()
        if before:
            yield before

    def _moments_in(self, line: str, code: int) -> Moments:
        """What a line of the answer tells."""
        fault = fault_in(line)
        if fault and fault.number in KEY_REFUSED:
            raise Sorry(KEY_REFUSED[fault.number].format(code=code, clock=self.clock))
        words = refused(line).split()
        first, last = map(int, words[:2])
        if words[2] == 'none':
            return Moments(first, last)
        return Moments(first, last, self._stops[int(words[3]) - 1], *map(int, words[4:]))

    # Stops

    def begin_anew(self, stops: Iterable[str] = (), clock: int | None = None, files: Files | None = None, deeds: list[Deed] | None = None) -> None:
        """A session at this clock, else at the present one, with these stops alone, and with the board's changes up to there, or these
        ones; of other files, if they are given, which have all keys. The stops are set there, so that none is met on the way. Until it
        stands there, the old one stays; if the way is ended beyond that one's clock, it is the new one's."""
        to, them, ended, changes = self.clock if clock is None else clock, list(stops), None, Changes()
        deeds = [one for one in (self.changes.deeds if deeds is None else deeds) if one[0] <= to and not (files and one[1].startswith('key'))]
        is_other, files = files is not None, files or self.files
        with apart():
            session = ProbeSession(files)
        try:
            try:
                changes.make(deeds, lambda clock: self._run_by_pieces(session, clock), lambda command: refused(session.one(command)))
                self._run_by_pieces(session, to)
            except Paused as paused:
                if isinstance(paused, Left) or session.clock <= self.clock:
                    raise
                ended = paused
            for stop in them:
                refused(session.stop(stop))
        except BaseException:
            session.close()
            raise
        old, self._session, self._stops, self._files, self.changes = self._session, session, them, files, changes
        self._forget(is_other)
        old.close()
        if ended:
            raise ended

    def want(self, stops: Collection[str]) -> None:
        """Sees to it that the session stops at these. Of the stops that hold at a clock the first is told, so that one which isn't
        wanted could hide one that is, and those that aren't places stand before or behind these as is wanted; but no two places hold
        at once."""
        more = [each for each in stops if each not in self._stops]
        them = [*self._stops, *more]
        unwanted = next((at for at, each in enumerate(them) if each not in stops), len(them))
        is_in_order = [place_of(each) is None for each in them if each in stops] == [place_of(each) is None for each in stops]
        if len(them) > MOST_STOPS or not is_in_order or not all(map(place_of, them[unwanted:])):
            self.begin_anew(stops)
            return
        for stop in more:
            self.one(stop)
            self._stops.append(stop)

    # Ways

    def _run_a_piece(self, session: ProbeSession, end: int) -> str:
        """What answers a piece of a run, at most to this clock. The next one is as long as suits."""
        begun = time.monotonic()
        answer = self._talk(lambda: session.go(min(self._piece, end - session.clock)))
        if not answer.startswith('stop'):
            self._piece = paced(self._piece, time.monotonic() - begun)
        return answer

    def _run_by_pieces(self, session: ProbeSession, end: int) -> None:
        """A session without stops goes on to this clock."""
        while session.clock < end:
            self._run_a_piece(session, end)
            self.poll()

    def _stop_in(self, answer: str) -> str | None:
        """The stop that an answer tells."""
        words = answer.split()
        return self._stops[int(words[1]) - 1] if words[0] == 'stop' else None

    def go_on(self, end: int) -> str | None:
        """Goes on to the session's next stop, at most to this clock, and returns it."""
        while self.clock < end:
            met = self._stop_in(self._run_a_piece(self._session, end))
            if met:
                return met
            self.poll()
        return None

    def go_to(self, clock: int) -> None:
        """The board at this clock, earlier or later, past all stops."""
        while clock < self.changes.first:
            self._undo_on_the_way()
        if clock < self.clock:
            self.one(f'back {self.clock - clock}')
        elif clock > self.clock and self._stops and clock - self.clock > PASSED_AT_ONCE:
            self.begin_anew(self._stops, clock)
        elif clock > self.clock and self._stops:
            self.lines(clock - self.clock, 'keys')
        else:
            self.go_on(clock)

    def run(self, wanted: Collection[str], end: int) -> str | None:
        """Goes on to one of these stops where what it asks holds, at most to this clock, and returns it. In a halt the place behind the HLT
        is none."""
        self.want(wanted)
        passed, since = 0, self.clock
        while self.clock < end:
            met = self.go_on(end)
            if met and place_of(met) and self._is_behind_a_halt() and self.is_halted:
                met = self.leave_halt(wanted, end)
                self.want(wanted)
            elif met and met not in wanted:
                passed += 1
                self._pass(passed, wanted)
            if met and met in wanted:
                if met := self._met_of(met, wanted, since):
                    return met
                self.poll()
        return None

    def is_met(self, stop: str, since: int | None = None) -> bool:
        """Whether one of those who want a stop, to which the board has come, wants it here. Since a clock it has been met whenever it
        held; without one the board goes back."""
        asked = self.asked.get(stop)
        return asked is None or any([wish.is_met(self, stop, since) for wish in asked])

    def _met_of(self, first: str, wanted: Collection[str], since: int | None = None) -> str | None:
        """The first stop that is met where this one was told. Others on what happens may hold there too, which aren't told: no place does,
        since an instruction is under way then."""
        others = [other for other in wanted if other != first and other in self.asked and not place_of(first) and self._has_happened(other)]
        return next((stop for stop, is_met in [(stop, self.is_met(stop, since)) for stop in (first, *others)] if is_met), None)

    def _has_happened(self, stop: str) -> bool:
        """Whether a stop on what happens holds here."""
        if watched_by(stop) and self.clock == self.changes.first:
            return False
        return bool(changed(self, stop) if watched_by(stop) else stop.startswith('when ') and self.happened(stop.removeprefix('when ')))

    def _is_behind_a_halt(self) -> bool:
        """Whether HLT stands before CS:IP, as it does if the processor is halted there."""
        segment, offset = self.place()
        address = physical(segment, (offset - 1) % 0x10000)
        if address < ROM:
            return self.dump(address, 1) == HLT
        if address not in self._halts:
            self._halts[address] = self.dump(address, 1) == HLT
        return self._halts[address]

    def _pass(self, passed: int, wanted: Collection[str]) -> None:
        """Passes a stop that nobody wants any more; after many of them there are none."""
        if passed == MOST_PASSED:
            self.begin_anew(wanted)
        self.poll()

    def leave_halt(self, wanted: Collection[str], end: int) -> str | None:
        """From within a halt to where the interrupt that ends it begins to be taken, at most to this clock, or to one of these stops,
        which it returns. The place behind the HLT is none: there it would hold at each clock."""
        here, kept, length, woken = self.clock, [stop for stop in wanted if place_of(stop) != self.place()], FIRST_PIECE, end
        while self.clock < end:
            if lines := self.lines(min(length, end - self.clock), 'states'):
                woken = int(lines[0].split()[0])
                break
            self.poll()
            length *= 2
        self.go_to(here if kept else woken)
        if kept and self.place() in map(place_of, self._stops):
            self.begin_anew(kept)
        while self.clock < woken:
            self.want(kept)
            if (met := self.go_on(woken)) in kept:
                return met
        return None

    def back_to(self, wanted: Collection[str]) -> str | None:
        """Goes back to the last earlier clock at which one of these stops held, and returns it; without one to the first clock."""
        self.want(wanted)
        passed = 0
        while wanted and self.clock:
            met = self._stop_in(self._last_stop())
            if met is None and self.changes.deeds:
                self._undo_on_the_way()
                continue
            if met is None:
                break
            if place_of(met) and self._is_behind_a_halt() and self.is_halted:
                self.go_to(self.trail()[-1].clock)
            elif met in wanted:
                if met := self._met_of(met, wanted):
                    return met
                self.poll()
                continue
            passed += 1
            self._pass(passed, wanted)
        self.go_to(0)
        return None

    def step_back(self) -> bool:
        """To the last earlier clock at which the processor was free; whether there is one."""
        while self.one('back step') == BEFORE_START:
            if not self.changes.deeds:
                return False
            self._undo_on_the_way()
        return True

    def _last_stop(self) -> str:
        """The answer to `back stop`. Where it is ended before, the board stands where it was, or on the way there."""

        def is_ended() -> bool:
            try:
                self.poll()
            except Left:
                raise
            except Paused:
                return True
            return False

        self._session, answer, changes = self._talk(lambda: last_stop(self._session, self.files, self.changes, is_ended))
        if not answer:
            self._stops, self.changes = [], changes
            self._forget(is_other=False)
            raise Paused('paused')
        return refused(answer)
