"""Random sessions of tools/dbg, an editor's adapter, tools/gdb and zebludor.py, and what tools/moments and tools/trace measure: each
command is answered again by fresh runs of pcprobe from power-on, with none of the code that follows calls for the tools.

python3 -m tests.test_sessions COUNT [SEED] in tools/: so many of each, from a seed on; what the tools start Python for is done there by
threads"""
from __future__ import annotations

import contextlib
import io
import os
import random
import re
import socket
import struct
import subprocess
import sys
import traceback
import unittest
from dataclasses import dataclass
from typing import Iterator
from unittest import mock

from tests import test_dap, test_gdb
from tests.support import ToolCase
from tests.test_calls import program
from tests.test_dap import Client as Editor

import zebludor
from toolbox import moments
from toolbox.dap.adapter import Adapter
from toolbox.framing import reading, writing
from toolbox.gdb.board import Board
from toolbox.gdb.stub import NAMES, Stub
from toolbox.gdb.wire import Wire
from toolbox.listing import listing_of
from toolbox.program import Files, path
from toolbox.runfile import DEFAULTS, read_run_file, text_of
from toolbox.threads import begin

# A routine within another, whose address it drops.
DROPPING = 'whole:  NOP\n        CALL part\n        NOP\n        RET\npart:   NOP\n        ADD SP,2\n        RET\n'
CLOCKS, COMMANDS, BUDGET = 2500, 12, 100_000
IN_THE_GATE = 20  # sessions of each kind
SEEN = re.compile(r'^[0-9A-F]{5} .*: (clock \d+), .*')
SHOWN = re.compile(rf'clock |AX=|CS=|\d+ keys|{SEEN.pattern}')
PREFIXES, REPEATS, POPS = b'\x26\x2E\x36\x3E\xF0\xF2\xF3', b'\xF2\xF3', range(0x58, 0x60)
STRINGS, HLT = (*range(0xA4, 0xA8), *range(0xAA, 0xB0)), b'\xF4'


@dataclass
class Call:
    """A call: the number of the event that made it, the place of its return address in SS, and the number of the event
    that ended it."""

    at: int
    slot: int
    end: int | None = None


class Truth:
    """What a run is, by fresh runs of pcprobe. Of a run file's end nothing is known: commands stay before it."""

    def __init__(self, files: Files) -> None:
        self.files, self.words = files, [path('pcprobe'), *files.words('')[1:]]
        lines = [line.split() for line in self.ask(f'events {CLOCKS} starts entries')[:-1]]
        self.clocks = [int(line[0]) for line in lines]
        self.octets = [bytes.fromhex(line[3]) if line[1] == 'start' else b'' for line in lines]  # of an entry none
        self.places = [line[2] if line[1] == 'start' else '' for line in lines]
        steps = [b - a for a, b in zip([0, *self.clocks], [*self.clocks, CLOCKS])]
        answers = '\n'.join(self.ask(*(f'go {step}\nregs' for step in steps)))
        self.stacks = [int(each, 16) or 0x10000 for each in re.findall(r'SP=(....)', answers)]
        self.calls = list[Call]()
        for number, octets in enumerate(self.octets):
            self._follow(number, octets.lstrip(PREFIXES))

    def ask(self, *commands: str) -> list[str]:
        """The lines that a fresh run answers."""
        given = '\n'.join(commands) + '\n'
        return subprocess.run(self.words, input=given, capture_output=True, text=True, check=True).stdout.splitlines()

    def clock(self, *commands: str) -> int:
        """The clock to which commands lead."""
        return int(self.ask(*commands)[-1].split()[-1])

    def registers(self, clocks: set[int], *questions: str) -> dict[int, list[str]]:
        """The registers at clocks, and what else is asked there, by one run that goes on from each of them to the next."""
        there = sorted(clocks)
        text = '\n'.join(self.ask(*(f'go {b - a}\n' + '\n'.join(('regs', *questions)) for a, b in zip([0, *there], there))))
        return dict(zip(there, (each.splitlines() for each in re.split(r'^clock \d+\n', text, flags=re.M)[1:])))

    def bytes(self, clock: int, address: int, count: int) -> bytes:
        """Memory at a clock."""
        return octets_of(self.ask(f'go {clock}', f'dump {address:X} {count}')[1:])

    def _follow(self, number: int, code: bytes) -> None:
        """Notes a call, or what ends calls."""
        before, after = self.stacks[number], self.stacks[number + 1]
        is_call = not code or code[0] in (0xE8, 0x9A, 0xCC, 0xCD) or code[0] == 0xFF and code[1] >> 3 & 7 in (2, 3)
        if is_call or code[0] in (0xCE, 0xD4, 0xF6, 0xF7) and before - after == 6:
            self.calls.append(Call(number, after))
        elif code[0] in (0xC2, 0xC3, 0xCA, 0xCB, 0xCF):
            taken = [call for call in self.calls if call.end is None and call.slot == before][-1:]
            for call in self.calls:
                if call in taken or call.end is None and call.slot < before:
                    call.end = number
        elif code[0] == 0xBC:  # MOV SP, as when a wild jump has begun the program anew: what lies below is gone
            for call in [call for call in self.calls if call.end is None and call.slot < after]:
                call.end = number
        elif code[0] == 0xFF and code[1] >= 0xE0:
            for call in [call for call in self.calls if call.end is None and call.slot == before - 2][-1:]:
                call.end = number

    def under_way(self, clock: int) -> list[Call]:
        """The calls under way, the innermost first."""
        return [call for call in reversed(self.calls) if self.clocks[call.at] < clock and (call.end is None or self.clocks[call.end] >= clock)]

    def hard(self) -> list[int]:
        """Clocks at which the way out of a routine is easily mistaken: a POP begins behind which it calls, or is interrupted, before it
        returns; or another's return will end it, since its address is dropped."""
        found = list[int]()
        for number, (clock, octets) in enumerate(zip(self.clocks, self.octets)):
            call = next(iter(self.under_way(clock)), None) if octets and 300 < clock < CLOCKS - 500 else None
            if call and call.end is not None:
                is_dropped = sum(each.end == call.end for each in self.calls) > 1
                if is_dropped or octets[0] in POPS and any(number < each.at < call.end for each in self.calls):
                    found.append(clock)
        return found

    def near_halts(self) -> list[int]:
        """Clocks soon before a halt, which is easily taken for a beginning."""
        return [clock - 6 for clock, octets in zip(self.clocks, self.octets) if octets == HLT and 300 < clock < CLOCKS - 900]

    def after(self, call: Call) -> int | None:
        """The clock to which the end of a call leads, if it comes."""
        return None if call.end is None or call.end + 1 == len(self.clocks) else self.clocks[call.end + 1]

    def over(self, clock: int) -> int | None:
        """Over what begins at a clock."""
        if clock not in self.clocks:
            return self.clock(f'go {clock}', 'step')
        number = self.clocks.index(clock)
        if call := next((call for call in self.calls if call.at == number), None):
            return self.after(call)
        octets, rest = self.octets[number], self.octets[number].lstrip(PREFIXES)
        if not set(octets[: len(octets) - len(rest)]) & set(REPEATS) or rest[0] not in STRINGS:
            return self.clock(f'go {clock}', 'step')
        later = number + 1
        while later < len(self.clocks) and self.places[later] in ('', self.places[number]):
            entered = next((call for call in self.calls if call.at == later), None)
            if entered and entered.end is None:
                return None
            later = entered.end + 1 if entered and entered.end is not None else later + 1
        return self.clocks[later] if later < len(self.clocks) else None

    def over_interrupts(self, clock: int) -> int | None:
        """Over what is under way or halted, and interrupts that come first, and what begins then."""
        here: int | None = clock if clock in self.clocks else next((each for each in self.clocks if each > clock), None)
        while here is not None and here in self.clocks and not self.octets[self.clocks.index(here)]:
            here = self.over(here)
        return None if here is None else self.over(here)

    def out(self, clock: int) -> int | None:
        """Out of the routine that runs at a clock."""
        return next((self.after(call) for call in self.under_way(clock)), None)

    def end(self, clock: int) -> list[int]:
        """The budget, to which a halted processor goes, if nothing begins up to there."""
        is_over = len(self.ask(f'go {clock}', f'events {BUDGET - clock} starts entries')) == 2
        return [BUDGET] if is_over else []

    def lost(self, clock: int) -> str:
        """What `state` tells of lost keys: those of clock 0, of which no line tells, and the others."""
        at_0 = next(line for line in self.ask('chips') if line.startswith('keyboard ')).split()
        clocks = [0] * int(at_0[at_0.index('lost') + 1])
        clocks += [int(line.split()[0]) for line in self.ask(f'events {clock} keys') if line.endswith(' lost')]
        return f'{len(clocks)} keys lost' + (f', the first by clock {clocks[0]}, the last by clock {clocks[-1]}' if clocks else '')

    def begun(self, place: str, stamp: int) -> int | None:
        """How many clocks after a key the instruction at a place begins next."""
        lines = [line.split() for line in self.ask(f'key 1E {stamp}', f'events {CLOCKS} starts')[1:-1]]
        return next((int(line[0]) - stamp for line in lines if int(line[0]) > stamp and line[2] == place), None)

    def latencies(self) -> tuple[list[int], list[int]]:
        """Of the timer's requests how long each one waited until its handler began, or until it fell before. One that a poll takes does
        neither."""
        taken, fell, waits, rise, place, is_polled = list[int](), list[int](), None, None, '', False
        for clock, what, *words in map(str.split, self.ask(f'events {CLOCKS} starts entries wires ports=20-20')[:-1]):
            if what == 'start' and rise is not None and words[0] == place:
                taken, rise = [*taken, int(clock) - rise], None
            elif what == 'entry' and words == ['08']:
                rise, waits = waits, None
                place = '{1:04X}:{0:04X}'.format(*struct.unpack('<HH', self.bytes(int(clock), 0x20, 4)))
            elif what == 'in' and is_polled:
                waits, is_polled = waits if words[1] != '80' else None, False
            elif what == 'out' and int(words[1], 16) & 0x1C == 0x0C:  # the next read is a poll
                is_polled = True
            elif [what, *words] == ['out', '0020', '13']:  # an initialisation forgets
                waits = None
            elif [what, words[0]] == ['wire', 'IR0']:
                fell += [] if waits is None else [int(clock) - waits]
                waits = int(clock) if words[1] == '1' else None
        return taken, fell

    def last_write(self, clock: int, address: int) -> int | None:
        """The last earlier clock behind one in which a byte was written."""
        lines = self.ask(f'events {clock} writes={address:X}-{address:X}')[:-1]
        return next((at for line in reversed(lines) if (at := int(line.split()[0]) + 1) < clock), None)


def octets_of(dump: list[str]) -> bytes:
    """The bytes of a dump's lines."""
    return b''.join(bytes.fromhex(line.partition(':')[2]) for line in dump)


class NearAdapter:
    """An adapter in a thread, with what the tests ask of a process."""

    def __init__(self, room: str) -> None:
        (given, asked), (answers, to) = os.pipe(), os.pipe()
        self.stdin, self.stdout, self.stderr = open(asked, 'wb'), open(answers, 'rb'), io.BytesIO()  # pylint: disable=consider-using-with

        def serve() -> None:
            messages = reading(given)
            with open(given, 'rb'), open(to, 'wb'):
                Adapter(messages, writing(to), room).serve()
                while messages.get() is not None:
                    pass  # a file is closed only when nobody reads it any more

        self.thread = begin(serve)

    def kill(self) -> None:
        """A thread can't be ended; the client's limit of time ends nothing."""

    def wait(self) -> int:
        """Waits for its end."""
        self.thread.join()
        return 0


class NearEditor(Editor):
    """An editor whose adapter is in this process."""

    def started(self, room: str, *words: str) -> NearAdapter:
        return NearAdapter(room)


class NearClient(test_gdb.Client):
    """A client of gdb's protocol whose server is a thread of this process."""

    def __init__(self, files: Files) -> None:
        self.socket, served = socket.socketpair()
        self.held, self.shown = b'', ''

        def serve() -> None:
            board = Board(files, BUDGET)
            try:
                Stub(Wire(served), board, listing_of(files)).serve()
            finally:
                board.close()
                served.close()

        self.thread = begin(serve)

    def close(self) -> None:
        super().close()
        self.thread.join()


def frames_of(records: bytes, stack: int) -> list[int]:
    """Where the frames end that gdb is told, but for the outermost one, by records and SP."""
    ends = list[int]()
    for end, back_by, _, number in struct.iter_unpack('<iiII', records[: len(records) // 16 * 16]):
        ends.append((stack + end) % 0x10000)
        stack = (stack + back_by) % 0x10000
        if number <= 16 * len(ends):
            break
    return ends[:-1]


class NearWorker:
    """What tries moments, in this process."""

    def __init__(self, of: tuple[moments.Plan, str]) -> None:
        self.plan, self.room = of

    def ask(self, numbers: list[int]) -> Iterator[int]:
        """When the place begins, of each of these."""
        for number in numbers:
            files = self.plan.files_of(number, self.room)._replace(run_file=f'{self.room}/it.json')
            yield moments.clocks_of(self.plan, files, number, self.plan.asked.place or '')

    def end(self) -> None:
        """Nothing is under way."""


class Sessions(ToolCase):
    """A session of each kind."""

    is_near = False  # whether threads stand for processes of Python

    def setUp(self) -> None:
        super().setUp()
        self.asked, self.served = list[str](), test_gdb.Served('client')  # which serves gdb's protocol in the same folder
        self.served.room = self.room
        self.addCleanup(self.served.doCleanups)

    def truth(self, seed: int) -> tuple[Truth, random.Random]:
        """A random program and run, of which no routine drops the stack by loading SP, and half drop an address, and dice for what is asked."""
        seed = seed * 3 + 1
        dice = random.Random(seed)
        stamps = [0] * dice.choice((0, 0, 17, 18, 19)) + sorted(dice.sample(range(300, CLOCKS), 4))
        keys = [[each, dice.choice((0x1E, 0x9E))] for each in stamps]
        run = text_of(DEFAULTS | {'ram': 128, 'budget': BUDGET, 'keys': keys})
        text = program(seed)
        if dice.random() < 0.5:
            text = text.replace('again:  INC DI\n', 'again:  INC DI\n        CALL whole\n').replace('leaf:  ', f'{DROPPING}leaf:  ')
        return Truth(Files(self.file('it.asm', text), self.file('it.json', run))), dice

    def dbg(self, seed: int) -> None:
        """A session of tools/dbg."""
        truth, dice = self.truth(seed)
        clock, commands, clocks, by, top = 0, list[str](), list[int](), dict[int, str](), 0x500 + truth.calls[0].slot
        hard = truth.hard()
        for _ in range(COMMANDS):
            to = dice.randrange(300, CLOCKS - 500)
            command = dice.choice(('to', 'go', 'step', 'next', 'next', 'finish', 'finish', 'back', 'last write'))
            if clock in hard:
                command = 'finish'
            elif hard and dice.random() < 0.3:
                command, to = 'to', dice.choice(hard)
            there = {
                'to': lambda: to,
                'go': lambda: clock + 40,
                'step': lambda: truth.clock(f'go {clock}', 'step'),
                'next': lambda: truth.over(clock),
                'finish': lambda: truth.out(clock),
                'back': lambda: next((each for each in reversed(truth.clocks) if each < clock), None),
                'last write': lambda: truth.last_write(clock, top),
            }[command]()
            if there is None or there > CLOCKS - 500:
                command, there = 'to', to
            clock = there
            commands += [{'to': f'to {clock}', 'go': 'go 40', 'last write': f'last write {top:05X}'}.get(command, command), 'regs']
            if command == 'last write':
                by[len(clocks)] = f'by clock {[each for each in truth.clocks if each < clock][-1]}'
            clocks.append(clock)
        registers = truth.registers(set(clocks))
        wanted = [line for at, each in enumerate(clocks) for line in (f'clock {each}', *([by[at]] if at in by else []), *registers[each])]
        wanted += [f'clock {clock}', truth.lost(clock)]
        out = self.called('dbg', truth.files.file, truth.files.run_file, given='\n'.join([*commands, 'state', '']))[0]
        self.asked += [command.split()[0] for command in commands]
        found = [SEEN.sub(r'by \1', line).split(': ')[0] for line in out.splitlines() if SHOWN.match(line)]
        self.assertEqual(found, wanted, (seed, commands))

    def editor(self, seed: int) -> None:
        """A session of an editor."""
        truth, dice = self.truth(seed)
        client = (NearEditor if self.is_near else Editor)(self.room)
        client.launch(truth.files.file, run=truth.files.run_file, stopOnEntry=True)
        client.event('stopped')
        clock, said, hard = 0, list[tuple[str, int]](), truth.hard()
        for _ in range(COMMANDS):
            to = dice.choice([each for each in truth.clocks if 300 < each < CLOCKS - 500] or truth.clocks)
            command = dice.choice(('toClock', 'next', 'next', 'stepOut', 'stepOut'))
            if clock in hard:
                command = 'stepOut'
            elif hard and dice.random() < 0.3:
                command, to = 'toClock', dice.choice(hard)
            there = {'toClock': lambda: to, 'next': lambda: truth.over_interrupts(clock), 'stepOut': lambda: truth.out(clock)}[command]()
            if there is None or there > CLOCKS - 500:
                command, there = 'toClock', to
            clock = there
            said.append((command, clock))
            if command == 'toClock':
                client.ask('toClock', clock=clock)
                client.event('stopped')
            else:
                client.move(command)
            self.assertEqual(client.clock(), clock, (seed, said))
            frames = client.ask('stackTrace', threadId=1)['stackFrames']
            self.assertEqual(len(frames), 1 + len(truth.under_way(clock)), (seed, said, frames))
        self.assertEqual(client.leave(), 0)

    def debugger(self, seed: int) -> None:
        """A session of gdb's protocol: registers, and where the frames end that gdb is told."""
        truth, dice = self.truth(seed)
        client = NearClient(truth.files) if self.is_near else self.served.client(truth.files.file, truth.files.run_file)
        said, clock, seen = list[str](), 0, list[tuple[int, list[int]]]()
        for _ in range(COMMANDS):
            command = dice.choice(('monitor', 's', 's', 'bs', 'monitor')) if clock else 'monitor'
            said.append(command)
            if command == 'monitor':
                clock = dice.randrange(300, CLOCKS - 500)
                client.monitor(f'to {clock}')
            elif command == 'bs':
                clock = truth.clock(f'go {clock}', 'back step')
                client.ask('bs')
            else:
                clock = int(client.monitor('go 0').split()[-1])
                client.ask('s')
                there = int(client.monitor('go 0').split()[-1])
                steps = [truth.clock(f'go {clock}', *['step'] * count) for count in (1, 2)]
                self.assertIn(there, (*steps, *truth.clocks, *truth.end(clock)), (seed, said))
                clock = there
            there = client.registers()[:14]
            seen.append((clock, there))
            stack = there[NAMES.index('SP')] - 16 * there[NAMES.index('SS')]
            ends = frames_of(bytes.fromhex(client.ask('mf0000010,400')), stack)
            self.assertEqual(ends, [call.slot % 0x10000 for call in truth.under_way(clock)], (seed, said))
        client.ask('k')
        client.close()
        registers = truth.registers({clock for clock, _ in seen})
        self.assertEqual([there for _, there in seen], [test_gdb.told_as(registers[clock]) for clock, _ in seen], (seed, said))

    def python(self, seed: int) -> None:
        """A session of zebludor.py."""
        truth, dice = self.truth(seed)
        fields = read_run_file(truth.files.run_file)
        said, clock, seen = list[str](), 0, list[tuple[int, dict[str, int], bytes]]()
        with open(truth.files.file, encoding='ascii') as file, zebludor.Session(file.read(), probe=True, **fields) as session:
            for _ in range(COMMANDS):
                command, count = dice.choice(('go', 'step', 'back', 'back_step', 'events')), dice.randrange(1, 90)
                command = 'go' if clock < 200 else 'back' if clock > CLOCKS - 500 else command
                said.append(f'{command} {count}')
                if command in ('go', 'back'):
                    clock += count if command == 'go' else -count
                    getattr(session, command)(count)
                elif command == 'events':
                    found = session.events(count, 'starts', 'writes')
                    lines = truth.ask(f'go {clock}', f'events {count} starts writes')[1:-1]
                    self.assertEqual(found, [zebludor.happening_of(line) for line in lines], (seed, said))
                    clock += count
                else:
                    clock = truth.clock(f'go {clock}', command.replace('_', ' '))
                    getattr(session, command)()
                self.assertEqual(session.clock, clock, (seed, said))
                seen.append((clock, session.registers, session.dump(0x8C0, 64)))
        lines = truth.registers({clock for clock, *_ in seen}, 'dump 008C0 64')
        wanted = [(clock, zebludor.registers_of(lines[clock][:2]), octets_of(lines[clock][2:])) for clock, *_ in seen]
        self.assertEqual(seen, wanted, (seed, said))

    def measures(self, seed: int) -> None:
        """How long a key keeps a place away, by tools/moments, and how long the timer's requests wait, by tools/trace."""
        truth, dice = self.truth(seed)
        run = self.file('short.json', text_of(read_run_file(truth.files.run_file) | {'budget': CLOCKS}))
        place, first = dice.choice([each for each in truth.places if each]), dice.choice(truth.near_halts() or range(300, CLOCKS - 900))
        words = ['--measure', place, truth.files.file, run, '--key', '1E', '--at', f'{first}..{first + 5}', '--jobs', '1']
        with self.near_workers() if self.is_near else contextlib.nullcontext():
            out = self.called('moments', *words)[0]
        came = [clocks for stamp in range(first, first + 5) if (clocks := truth.begun(place, stamp)) is not None]
        found = re.findall(r'(\d+) came to|^(?:least|most) (\d+) ', out, re.M)
        self.assertEqual([int(a or b) for a, b in found], [len(came), *([min(came), max(came)] if came else [])], (seed, place, first))
        out = self.called('trace', '--calls', truth.files.file, run)[0]
        taken, fell = truth.latencies()
        row = re.search(r'^08 IR0 +(\d+) +(\S+) +(\S+)', out, re.M)
        measured = [str(len(taken)), *([str(min(taken)), str(max(taken))] if taken else ['-', '-'])]
        self.assertEqual([*row.groups()] if row else ['0', '-', '-'], measured, seed)
        stood = re.search(r'IR0: fell again before it was taken (?:once|(\d+) times), first at \d+; it had stood for (\d+)(?: to (\d+))? clocks', out)
        shown = [int(stood[1] or 1), int(stood[2]), int(stood[3] or stood[2])] if stood else []
        self.assertEqual(shown, [len(fell), min(fell), max(fell)] if fell else [], seed)
        self.asked += ['came'] * bool(came) + ['taken'] * bool(taken) + ['fell'] * bool(fell)

    @staticmethod
    @contextlib.contextmanager
    def near_workers() -> Iterator[None]:
        """Moments are tried in this process."""
        with mock.patch.object(moments.Plan, 'words', lambda *of: of), mock.patch.object(moments, 'Worker', NearWorker):
            yield

    def test_dbg(self) -> None:
        for seed in range(IN_THE_GATE):
            self.dbg(seed)
        self.assertGreater(min(self.asked.count(command) for command in ('next', 'finish', 'back', 'last')), IN_THE_GATE // 3, self.asked)

    def test_editors(self) -> None:
        for seed in range(IN_THE_GATE):
            self.editor(100 + seed)

    def test_gdb(self) -> None:
        for seed in range(IN_THE_GATE):
            self.debugger(200 + seed)

    def test_python(self) -> None:
        for seed in range(IN_THE_GATE):
            self.python(300 + seed)

    def test_measures(self) -> None:
        for seed in range(IN_THE_GATE):
            self.measures(400 + seed)
        self.assertGreater(min(self.asked.count(each) for each in ('came', 'taken', 'fell')), IN_THE_GATE // 10, self.asked)

    def many(self, count: int, first: int) -> int:
        """So many of each kind, by hand; returns how many differ, each of which is told. Beside other work an adapter may need an hour."""
        differ, test_dap.SECONDS, test_gdb.SECONDS, self.is_near = 0, 3600, 3600, True
        for done, seed in enumerate(range(first, first + count), 1):
            for ask in (self.dbg, self.editor, self.debugger, self.python, self.measures):
                try:
                    ask(seed)
                except Exception:  # pylint: disable=broad-exception-caught
                    differ += 1
                    print(f'seed {seed}, {ask.__name__}:', traceback.format_exc(), flush=True)
            print(f'seed {seed}: {5 * done} sessions, {differ} differ', flush=True)
        return differ


if __name__ == '__main__':
    if sys.argv[1:2] and sys.argv[1].isdecimal():
        them = Sessions('test_dbg')
        them.setUp()
        sys.exit(them.many(int(sys.argv[1]), int(sys.argv[2]) if sys.argv[2:] else 0) > 0)
    else:
        unittest.main()
