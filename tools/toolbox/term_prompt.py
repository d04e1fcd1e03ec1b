"""The prompt of tools/term: commands that move the board, set stops, type keys and set the pace."""
from __future__ import annotations

import inspect
from typing import Callable

from toolbox.command import Sorry, write_text
from toolbox.keying import key_lines, type_words
from toolbox.places import address_of, count_of, event_text, far_of, number_of
from toolbox.runfile import read_run_file, text_of
from toolbox.session_board import break_at, place_of
from toolbox.term_board import Live


class Closed(Exception):
    """The prompt is left: to go on, or for good."""

    def __init__(self, is_for_good: bool) -> None:
        super().__init__()
        self.is_for_good = is_for_good


class Commands:
    """The commands. The first words of each one's docstring are its use."""

    def __init__(self, board: Live) -> None:
        self._board = board

    def answer(self, line: str) -> list[str]:
        """A command's answer."""
        name, *words = line.split() or ['go']
        command: Callable[..., list[str]] | None = getattr(self, f'do_{name}', None)
        if command is None:
            raise Sorry(f'{name} is no command; help lists them')
        least = len(inspect.signature(command).parameters) - len(command.__defaults__ or ())
        if not least <= len(words) <= len(inspect.signature(command).parameters):
            raise Sorry(f'use: {(command.__doc__ or "").partition(":")[0]}')
        return command(*words)

    def do_go(self) -> list[str]:
        """go, or a blank line: the board goes on"""
        raise Closed(False)

    def do_quit(self) -> list[str]:
        """quit, q: ends, and writes the run file with the keys that were typed"""
        raise Closed(True)

    do_q = do_quit

    def do_step(self, times: str = '1') -> list[str]:
        """step [N], step in: makes one instruction, or N, over the services or into them; of a halted or jammed processor a clock"""
        for _ in range(1 if times == 'in' else counted(times)):
            if times == 'in' or not self._board.ram_end or self._board.ending():
                self._board.one('step')
            else:
                self._board.step_own()
            self._board.poll()
        return [self._board.place_text()]

    def do_back(self, times: str = '1') -> list[str]:
        """back [N]: goes back by one instruction, iteration or interrupt's entry, or N"""
        self._board.back_by(counted(times))
        return [self._board.place_text()]

    def do_to(self, clock: str) -> list[str]:
        """to CLOCK: goes to this clock, earlier or later, past all stops"""
        self._board.go_to(counted(clock, 0))
        return [self._board.place_text()]

    def do_last(self) -> list[str]:
        """last: goes back to the last earlier clock at which a stop held"""
        here, board = self._board.clock, self._board
        if not board.stops:
            raise Sorry('there is no stop; break, byte, sound and halted add one')
        met = board.back_to(board.stops)
        if met is None:
            board.go_to(here)
            raise Sorry('no stop held at any earlier clock')
        return [f'{self._said(met)}, {board.place_text()}']

    def do_break(self, place: str) -> list[str]:
        """break PLACE: stops where the processor is free at PLACE: a label, label+N, :LINE, SEGMENT:OFFSET"""
        return self._added(break_at(far_of(self._board.listing, place)))

    def do_byte(self, address: str, value: str) -> list[str]:
        """byte ADDRESS VALUE: stops at each clock at which a byte of memory has this value"""
        return self._added(f'byte {address_of(self._board.listing, address):X} {number_of(value, 0xFF):X}')

    def do_sound(self) -> list[str]:
        """sound: stops at each clock at which the speaker is high"""
        return self._added('sound')

    def do_halted(self) -> list[str]:
        """halted: stops at each clock at which the processor is halted"""
        return self._added('halted')

    def _added(self, stop: str) -> list[str]:
        self._board.add_stop(stop)
        return [f'stop {len(self._board.stops)}: {self._said(stop)}']

    def do_stops(self) -> list[str]:
        """stops: lists the stops"""
        return [f'stop {number}: {self._said(stop)}' for number, stop in enumerate(self._board.stops, 1)] or ['no stops']

    def do_clear(self, which: str) -> list[str]:
        """clear N, clear all: removes a stop, or all"""
        stops = self._board.stops
        gone = [stop for number, stop in enumerate(stops, 1) if which in ('all', str(number))]
        if not gone:
            raise Sorry(f'there is no stop {which}; stops lists them')
        self._board.drop_stops(gone)
        return self.do_stops()

    def _said(self, stop: str) -> str:
        """A stop with its label."""
        place = place_of(stop)
        return f'{stop} {self._board.listing.label_before(*place)}'.rstrip() if place else stop

    def do_key(self, what: str, clock: str = '') -> list[str]:
        """key CODE|SIGN [CLOCK]: types a scan code of two hexadecimal digits, a sign or a name as f1 or ctrl+], at a clock or the next one"""
        return [type_words(self._board, [what, clock][: 1 + bool(clock)])]

    def do_keys(self, path: str = '') -> list[str]:
        """keys [FILE]: the run's keys, those that were typed among them; or writes a run file with them"""
        if not path:
            return key_lines(self._board) or ['no keys']
        write_text(path, text_of(read_run_file(self._board.files.run_file) | {'budget': self._board.clock}))
        return [f'the run up to clock {self._board.clock:,} is in {path}']

    def do_drop(self) -> list[str]:
        """drop: takes the keys out that are still to come, as after going back"""
        return [f'{self._board.drop_later():,} key codes dropped']

    def do_speed(self, pace: str = '') -> list[str]:
        """speed real, speed fast: at a board's pace, or as fast as it goes"""
        if pace not in ('', 'real', 'fast'):
            raise Sorry('the pace is real, 4.77 million clocks a second, or fast')
        self._board.is_fast = pace == 'fast' if pace else not self._board.is_fast
        return [f'the pace is {"fast" if self._board.is_fast else "real"}']

    def do_regs(self) -> list[str]:
        """regs: the registers, and the next instruction's place"""
        return [*self._board.many('regs'), self._board.place_text()]

    def do_trail(self, which: str = '') -> list[str]:
        """trail, trail all: the last 32 instruction starts and interrupts, with their source lines, without the services' or with them"""
        trail = self._board.trail() if which == 'all' else self._board.own_trail()
        return [event_text(self._board.listing, each) for each in trail] or ['nothing yet']

    def do_chips(self) -> list[str]:
        """chips: what the chips hold; docs/probe.md tells the words"""
        return self._board.chips()

    def do_help(self) -> list[str]:
        """help: these commands"""
        uses = {getattr(self, name).__doc__ or '' for name in dir(self) if name.startswith('do_')}
        return ['Ctrl+] leads here from the screen, and a blank line back. Ctrl+C ends what lasts.', *sorted(uses)]


def counted(text: str, least: int = 1) -> int:
    """A count or a clock."""
    return count_of(text, 'count', least)
