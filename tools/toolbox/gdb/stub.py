"""Answers to gdb's requests from a board's (gdb's manual, "Remote Protocol", "Packets")."""
from __future__ import annotations

import functools
import re
from typing import Callable

from toolbox.command import Sorry
from toolbox.conditions import Asked
from toolbox.edits import assign
from toolbox.gdb.board import Board, Met
from toolbox.gdb.bytecode import Condition
from toolbox.gdb.features import CLOCK, FIRST_OWN, OWN, UNKNOWN, WORD_OF_FRAMES, description, without_value
from toolbox.gdb.frames import RECORD, RECORDS, Frames
from toolbox.gdb.judged import Judges
from toolbox.gdb.wire import MOST_BYTES, Wire
from toolbox.gdb.written import differing, write_memory, write_register, written_register
from toolbox.keying import key_lines, type_words
from toolbox.lasts import last_of
from toolbox.listing import Listing, physical
from toolbox.places import far_of_address
from toolbox.program import BEFORE_START, LAST_CLOCK
from toolbox.session_board import MOST_STOPS, Gone, Paused, SessionBoard, break_at
from toolbox.watches import MEMORY, NO_READS, command_of, watch_of, watched_by, what_was_seen

# The order of the `g` packet. Those that point into a segment are told as physical addresses, so that gdb finds code and stack.
NAMES = ('AX', 'CX', 'DX', 'BX', 'SP', 'BP', 'SI', 'DI', 'IP', 'FL', 'CS', 'SS', 'DS', 'ES')
SEGMENT_OF = {'SP': 'SS', 'BP': 'SS', 'IP': 'CS'}
INTERRUPTED, ILLEGAL, TRAP, TIME_IS_UP = 2, 4, 5, 24  # signals, by gdb's own numbers
MOST_MEMORY = MOST_BYTES // 4
STOPS, MOVES = ('break', 'byte', 'sound', 'halted', 'changes', 'when'), ('to', 'go', 'step', 'back')
RUNS = ('counts', 'signals', 'events')  # of the probe, which pass breakpoints
FULL = f'the board has room for {MOST_STOPS} stops'


def word_of(value: int) -> str:
    """A register as a packet has it."""
    return value.to_bytes(4, 'little').hex()


def condition_of(text: str) -> Condition:
    """A breakpoint's condition, as `X`, its length, and its bytes."""
    length, _, digits = text[1:].partition(',')
    if len(digits) != 2 * int(length, 16):
        raise Sorry('the condition is broken')
    return Condition(bytes.fromhex(digits))


class Stub:
    """A session with gdb over a wire. The board has no coprocessor; the place of its status word tells gdb where the record of the
    present frame stands, beyond memory, by which it finds the callers: so `next` goes over them, and `finish` back."""

    def __init__(self, wire: Wire, board: Board, listing: Listing) -> None:
        self._wire, self._board, self._listing = wire, board, listing
        self._addresses = dict[int, list[Condition]]()  # of breakpoints, with their conditions, one of which is to hold
        self._watches, self._may_be_within = list[str](), False  # the latter: an instruction may be under way
        self._told = set[int]()
        self._frames, self._records, self._judges = Frames(), (-1, b''), Judges()  # the second of a clock
        self.has_ended, self._last, self._state = False, 'S05', 'running'
        self._is_extended = False  # gdb may begin anew, and come back to a board that it has left
        self._can_name_breaks = False
        board.poll = self._poll

    def _poll(self) -> None:
        """Between the pieces of a run: an interrupt ends it."""
        if self._wire.is_interrupted():
            raise Paused('interrupted')

    def serve(self) -> None:
        """Answers until the client goes, or the board has died, which it is told."""
        while not self.has_ended:
            request = self._wire.receive()
            try:
                answer = self.answer(request)
            except Sorry as sorry:
                answer = self._sorry(request, sorry)
            self._wire.send(answer)
            if request == 'QStartNoAckMode':
                self._wire.has_acknowledgements = False

    def _sorry(self, request: str, sorry: Sorry) -> str:
        """The answer where the board gave none. One that has died has no more to say."""
        text = re.sub(r'[^ -~]|[$#}*]', ' ', str(sorry))
        if isinstance(sorry, Gone):
            self.has_ended = True
            if self._is_run(request):
                self.tell('the board has died: its process was ended from outside')
                return 'X09'
        if self._is_run(request):
            self.tell(text)
            return self._stopped(TRAP)
        return f'E.{text}'

    @staticmethod
    def _is_run(request: str) -> bool:
        """Whether a request's answer is a stop."""
        return request[:1] in tuple('cCsS') or request in ('bc', 'bs')

    def tell(self, text: str) -> None:
        """Shows a line in gdb, while it waits for an answer."""
        self._wire.send('O' + f'{text}\n'.encode('utf-8', 'replace').hex())

    def answer(self, request: str) -> str:
        """The answer to a request; to one that isn't known it is empty, as the protocol has it."""
        first = request[:1]
        if self._is_run(request):
            return self._run(request)
        if first == 'g':
            found = self._registers(self._board)
            return ''.join(word_of(found[number]) for number in range(len(NAMES))) + 2 * UNKNOWN
        if first == 'p':
            return self._register(request[1:])
        if first == 'm':
            return self._memory(request[1:])
        if first in ('Z', 'z'):
            return self._breakpoint(request)
        if first in ('G', 'P', 'M', 'X'):
            return self._write(request)
        if first in ('q', 'Q'):
            return self._question(request)
        if first in ('H', 'T'):
            return 'OK'
        if request == '?':
            return self._last
        if first in ('D', 'k') or request.startswith('vKill'):
            self.has_ended = not self._is_extended
            return 'OK'
        if request == '!':
            self._is_extended = True
            return 'OK'
        if request.startswith(('vRun;', 'vAttach;')) and self._is_extended:
            return self._begun(request.startswith('vRun'))
        return ''

    def _begun(self, is_anew: bool) -> str:
        """The board from its start, or as it stands."""
        self._state = 'running'
        if is_anew:
            self._addresses.clear()
            self._watches.clear()
            self._board.asked = {}
            self._board.go_to(0)
        return self._stopped(TRAP)

    def _question(self, request: str) -> str:
        """Answers to requests that begin with q."""
        name = re.split('[:,;]', request, maxsplit=1)[0]
        if name == 'qSupported':
            self._can_name_breaks = 'swbreak+' in request
            return f'PacketSize={MOST_BYTES // 2:x};ReverseStep+;ReverseContinue+;QStartNoAckMode+;swbreak+;ConditionalBreakpoints+;qXfer:features:read+'
        if name == 'qRcmd':
            return self._monitor(request.partition(',')[2])
        if name == 'qXfer':
            return self._described(request)
        return {'QStartNoAckMode': 'OK', 'qAttached': '1', 'qC': 'QC1', 'qfThreadInfo': 'm1', 'qsThreadInfo': 'l'}.get(name, '')

    @staticmethod
    def _registers(board: SessionBoard) -> dict[int, int]:
        """The registers by their numbers: those of `g`, but FS and GS, which the 8086 hasn't, and the board's own."""
        found = board.registers()
        of_gdb = (physical(found[SEGMENT_OF[name]], found[name]) if name in SEGMENT_OF else found[name] for name in NAMES)
        return dict(enumerate(of_gdb)) | dict(enumerate(map(found.__getitem__, OWN.values()), FIRST_OWN)) | {CLOCK: board.clock}

    def _register(self, text: str) -> str:
        """A register by its number."""
        number = int(text, 16) if re.fullmatch('[0-9a-f]{1,4}', text) else CLOCK + 1
        if number == WORD_OF_FRAMES:
            return word_of(RECORD)
        value = self._registers(self._board).get(number)
        if value is None:
            return without_value(number) or 'E01'
        return word_of(value) if number < len(NAMES) else value.to_bytes(8 if number == CLOCK else 2, 'little').hex()

    def _write(self, request: str) -> str:
        """Registers or memory as gdb wants them. What was known of callers may hold no more."""
        self._records, first = (-1, b''), request[0]
        if first in 'MX':
            write_memory(self._board, request)
        elif first == 'P':
            self._write_register(*written_register(request[1:]))
        else:
            for number, value in differing(request[1:], self._registers(self._board), len(NAMES)).items():
                self._write_register(number, value)
        return 'OK'

    def _write_register(self, number: int, value: int) -> None:
        """A register, by its number."""
        if number == CLOCK:
            raise Sorry('the clock is where the board stands: "monitor to CLOCK" goes there')
        own = list(OWN.values())[number - FIRST_OWN : number - FIRST_OWN + 1] if number >= FIRST_OWN else []
        if number >= len(NAMES) and not own:
            raise Sorry('the 8086 has no such register')
        name = own[0] if own else NAMES[number]
        write_register(self._board, self._listing, name, value, '' if own else SEGMENT_OF.get(name, ''))

    @staticmethod
    def _described(request: str) -> str:
        """A part of the target's description."""
        found = re.fullmatch('qXfer:features:read:target.xml:([0-9a-f]{1,8}),([0-9a-f]{1,8})', request)
        if not found:
            return 'E00' if request.startswith('qXfer:features:') else ''
        first, count = (int(number, 16) for number in found.groups())
        text = description()
        return ('m' if first + count < len(text) else 'l') + text[first : first + count]

    def _memory(self, text: str) -> str:
        """Bytes of memory, as many as there are."""
        found = re.fullmatch('([0-9a-f]{1,16}),([0-9a-f]{1,8})', text)
        if not found:
            return 'E01'
        address, count = int(found[1], 16), min(int(found[2], 16), MOST_MEMORY)
        if address >= RECORDS:
            if self._records[0] != self._board.clock:
                self._records = self._board.clock, self._frames.records(self._board)
            octets = self._records[1]
            return octets[address - RECORDS : address - RECORDS + count].hex() or 'E01'
        return self._board.dump(address, count).hex() if address < MEMORY else 'E01'

    def _breakpoint(self, request: str) -> str:
        """Puts in a breakpoint, with its conditions, or takes it out. One beyond memory is never met."""
        if request[1:2] in tuple('234'):
            return self._watchpoint(request)
        found = re.fullmatch('([zZ])([01]),([0-9a-f]{1,16}),[0-9a-f]+((;X[0-9a-f]+,[0-9a-f]*)*)', request)
        if not found:
            return '' if re.match('[zZ][5-9]', request) else 'E01'
        address = int(found[3], 16)
        if found[1] == 'z':
            self._addresses.pop(address, None)
            self._judges.leave(address)
        elif self._judges.put(address, list(map(condition_of, found[4].split(';')[1:]))):
            pass
        elif address < MEMORY:
            if address not in self._addresses and self._is_full():
                return f'E.{FULL}'
            self._addresses[address] = list(map(condition_of, found[4].split(';')[1:]))
        return 'OK'

    def _is_full(self) -> bool:
        """Whether no further stop has room."""
        return len(self._addresses) + len(self._watches) + len(self._board.named) >= MOST_STOPS

    def _watchpoint(self, request: str) -> str:
        """Watches bytes for changes, or no longer; reads aren't watched."""
        found = re.fullmatch('([zZ])([234]),([0-9a-f]{1,16}),([0-9a-f]{1,8})', request)
        if not found:
            return 'E01'
        if found[2] != '2':
            return f'E.{NO_READS}'
        stop = watch_of(int(found[3], 16), int(found[4], 16))
        if found[1] == 'z':
            self._watches = [watch for watch in self._watches if watch != stop]
        elif stop not in self._watches:
            if self._is_full():
                return f'E.{FULL}'
            self._watches.append(stop)
        return 'OK'

    def _holds(self, condition: Condition, board: SessionBoard) -> bool:
        """Whether a breakpoint's condition does."""
        register = self._registers(board).__getitem__
        return condition.holds(register, lambda address, count: board.dump(address, count) if address < MEMORY else b'')

    def _breaks(self, is_back: bool = False) -> list[str]:
        """The stops that watchpoints and breakpoints are, those that always count first. Where it is a guess by which CS one is come to, that
        is told once."""
        self._board.asked = {}
        for watch in self._watches:
            if asked := self._judges.asked(watched_by(watch)[0], self._holds, is_back):
                self._board.asked[watch] = list(map(Asked, asked))
        found = sorted(self._watches, key=self._board.asked.__contains__)
        for address in sorted(self._addresses):
            segment, offset, is_known = far_of_address(self._listing, address, self._board.registers()['CS'])
            if address in self._frames.returns:
                (segment, offset), is_known = self._frames.returns[address], True
            found.append(break_at((segment, offset)))
            if conditions := self._addresses[address]:
                self._board.asked[found[-1]] = [Asked(functools.partial(self._holds, condition)) for condition in conditions]
            if not is_known and address not in self._told:
                self._told.add(address)
                self.tell(f'breakpoint at {address:05x}: where CS:IP is {segment:04X}:{offset:04X}; by another CS it is passed')
        return found

    def _run(self, request: str) -> str:
        """A run, forth or back, from an address on if one is told."""
        if found := re.fullmatch('[cs]([0-9a-f]{1,16})|[CS]..;([0-9a-f]{1,16})', request):
            self._write_register(NAMES.index('IP'), int(found[1] or found[2], 16))
        elif not re.fullmatch('[cs]|[CS].{0,2}|b[cs]', request):
            return 'E01'
        if request == 'bs':
            self._state, before = 'running', self._watched()
            return self._stopped(TRAP, self._changed_since(before)) if self._board.step_back() else self._stopped(TRAP, 'replaylog:begin;')
        if request[0] in 'sS':
            return self._step()
        before, is_back = self._board.clock, request == 'bc'
        met = self._board.back(self._breaks(is_back)) if is_back else self._board.go(self._breaks())
        return self._shown(met) or self._ended(met, before)

    def _shown(self, met: Met) -> str:
        """The stop that gdb has to see before this one, and passes without a word; nothing, if there is none."""
        watch = next((watch for watch in self._watches if met.how == 'watch' and met.number in watched_by(watch)), None)
        passed = self._judges.passed.pop(watched_by(watch)[0], None) if watch else None
        if passed is None:
            return ''
        if self._board.undone:  # the later clock is another board's by now
            return self._stopped(TRAP)
        self._board.go_to(passed)
        self._may_be_within = True
        return self._stopped(TRAP, f'watch:{met.number:x};')

    def _watched(self) -> list[tuple[int, bytes]]:
        """The watched bytes as they stand, with the address of the first."""
        return [(places[0], self._board.dump(places[0], len(places))) for places in map(watched_by, self._watches)]

    def _changed_since(self, before: list[tuple[int, bytes]]) -> str:
        """The first of the watched bytes that has changed meanwhile, as a stop tells it."""
        pairs = (zip(range(first, first + len(then)), then, now) for (first, then), (_, now) in zip(before, self._watched()))
        return next((f'watch:{at:x};' for pair in pairs for at, then, now in pair if then != now), '')

    def _step(self) -> str:
        """A step; from within a halt to the interrupt, and from within an instruction, as after a change of a watched byte, to the end of
        the next one. One of a single clock makes it likely that the processor is jammed."""
        before, watched = self._board.clock, self._watched()
        if before < self._board.budget and self._board.is_halted:
            met = self._board.wake(self._breaks())
            self._state = 'running'
            return self._stopped(TRAP, self._changed_since(watched)) if met.how == 'woken' else self._ended(met, before)
        if self._may_be_within:
            self._board.end_instruction()
            self._may_be_within = False
        self._board.one('step')
        is_clock = self._board.clock == before + 1
        state = self._board.state() if is_clock else 'halted' if self._board.is_halted else 'running'
        if state not in ('running', self._state):
            self.tell(f'clock {self._board.clock}: the processor is {state}')
        self._state = state
        # Beyond the budget nothing ends a halt: without this signal gdb's `next` and `finish` would go on for ever.
        otherwise = TIME_IS_UP if state == 'halted' and self._board.clock > self._board.budget else TRAP
        return self._stopped(ILLEGAL if state == 'jammed' else otherwise, self._changed_since(watched))

    def _ended(self, met: Met, before: int) -> str:
        """How a run that began at a clock ended, told with the present one."""
        here, self._may_be_within = f'clock {self._board.clock}', met.how != 'break'
        if met.how == 'begin':
            self.tell(f'{here}: the beginning')
            return self._stopped(TRAP, 'replaylog:begin;')
        if met.how == 'break':
            self.tell(here)
            return self._stopped(TRAP, 'swbreak:;' if self._can_name_breaks else '')
        if met.how == 'watch':
            stops = [watch for watch in self._watches if met.number in watched_by(watch)] if self._board.clock > before else []
            self.tell(f'{here}: {what_was_seen(self._board, self._listing, stops[0])}' if stops else here)
            return self._stopped(TRAP, f'watch:{met.number:x};')
        if met.how == 'stop':
            self.tell(f'{here}: stop {met.number} ({self._board.named[met.number - 1]})')
            return self._stopped(TRAP)
        self._state = self._board.state()
        what = "the end of the run file's budget" if met.how == 'budget' else 'interrupted'
        if self._board.clock < before:
            what += f' on the way to clock {before}, where it was'
        self.tell(f'{here}: {what}; the processor is {self._state}')
        signal = INTERRUPTED if met.how == 'interrupt' else TIME_IS_UP
        return self._stopped(ILLEGAL if self._state == 'jammed' and met.how == 'budget' else signal)

    def _stopped(self, signal: int, why: str = '') -> str:
        """A stop, which `?` asks for again, behind what a way back has undone."""
        self._tell_undone()
        self._last = f'T{signal:02x}'
        return self._last + why + 'thread:1;'

    def _tell_undone(self) -> None:
        """Tells what a way back has undone."""
        while self._board.undone:
            self.tell(self._board.undone.pop(0))

    def _monitor(self, text: str) -> str:
        """A command of the debugger, with its answer shown as it comes."""
        try:
            command = ' '.join(bytes.fromhex(text).decode('ascii').split(' ')).strip()
        except ValueError:
            return 'E.no command of the debugger'
        words = command.split() or ['']
        if words[0] in ('', 'help') or not command.isprintable():
            self.tell(
                'commands: '
                + ', '.join((*STOPS, *MOVES, 'clock', 'last', 'set', 'undo', 'key', 'keys', 'regs', 'screen', 'dump', 'trail', 'chips'))
                + ' (docs/debugger.md)'
            )
        elif words[0] == 'quit':
            self.tell("gdb's own quit ends the session")
        elif words == ['exit']:
            self.has_ended = True
        elif words[0] in (*STOPS, 'dump'):
            self.tell(self._named(command))
        elif words[0] in MOVES:
            answer = self._moved(words)
            self._tell_undone()
            self.tell(answer)
        elif words == ['clock']:
            self.tell(f'clock {self._board.clock}')
        elif words[0] == 'key':
            self.tell(self._or_why(lambda: type_words(self._board, words[1:])))
        elif words[0] in ('set', 'undo'):
            self._state, self._may_be_within = 'running', True
            self.tell(self._or_why(lambda: self._changed(command)))
        elif words[0] == 'last':
            self._state, self._may_be_within = 'running', True
            answer = self._or_why(lambda: last_of(self._board, self._listing, words[1:]))
            self._tell_undone()
            self.tell(answer)
        elif words == ['keys']:
            self.tell('\n'.join(key_lines(self._board)) or 'no keys')
        elif words[0] in RUNS:
            self.tell(f"{words[0]} passes gdb's breakpoints: ./pcprobe FILE RUN answers it")
        else:
            self.tell('\n'.join(line.rstrip() for line in self._board.many(command)))
        return 'OK'

    def _named(self, command: str) -> str:
        """The answer to a command in which places may stand."""
        try:
            command = command_of(self._board, self._listing, command)
        except Gone:
            raise
        except Sorry as sorry:
            return str(sorry)
        return '\n'.join(self._board.many(command)) if command.startswith('dump') else self._board.name(command)

    def _changed(self, command: str) -> str:
        """The answer to `set`, as the debugger takes it or with `=`, and to `undo`."""
        if command == 'undo':
            return self._board.undo()
        if '=' in command:
            return assign(self._board, self._listing, command.removeprefix('set'))
        return self._board.set_by(command)

    def _or_why(self, answer: Callable[[], str]) -> str:
        """The answer to a command that changes what comes, or why nothing is changed. What is known of a later clock isn't known any
        more."""
        self._records = (-1, b'')
        try:
            return answer()
        except Gone:
            raise
        except Sorry as sorry:
            return str(sorry)

    def _moved(self, words: list[str]) -> str:
        """The answer to a command that moves the board. Breakpoints are gdb's: here they are passed."""
        self._state, self._may_be_within = 'running', True
        if words[0] == 'to':
            return self._gone_to(words[1:])
        if words[0] == 'go' and len(words) == 2 and re.fullmatch('[0-9]{1,13}', words[1]):
            return self._answered(self._board.go([], self._board.clock + int(words[1])))
        if words == ['back', 'stop']:
            here, met = self._board.mark(), self._board.back([])
            if met.how == 'begin':
                self._board.return_to(here)
                return BEFORE_START
            return self._answered(met)
        if words == ['back', 'step']:
            return f'clock {self._board.clock}' if self._board.step_back() else BEFORE_START
        if words[0] == 'back' and len(words) == 2 and re.fullmatch('[1-9][0-9]{0,12}', words[1]) and int(words[1]) <= self._board.clock:
            return self._gone_to([str(self._board.clock - int(words[1]))])
        return self._board.answer(' '.join(words))

    def _gone_to(self, words: list[str]) -> str:
        """The board at a clock, earlier or later, past all stops; or where an interrupt has ended the way."""
        if len(words) != 1 or not re.fullmatch('[0-9]{1,13}', words[0]) or int(words[0]) > LAST_CLOCK:
            return f'to CLOCK: a decimal number up to {LAST_CLOCK}'
        try:
            self._board.go_to(int(words[0]))
        except Paused:
            return f'interrupted, clock {self._board.clock}'
        return f'clock {self._board.clock}'

    def _answered(self, met: Met) -> str:
        """A run's end, as the debugger tells it."""
        return f'stop {met.number} clock {self._board.clock}' if met.how == 'stop' else f'clock {self._board.clock}'
