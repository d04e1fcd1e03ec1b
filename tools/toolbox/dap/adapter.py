"""The Debug Adapter Protocol's requests, answered by a session of pcprobe."""
from __future__ import annotations

import base64
import contextlib
import os
import queue
import re
import subprocess
from typing import Any, Callable

from toolbox import guests
from toolbox.chips import Chips
from toolbox.command import PYTHON, Sorry
from toolbox.conditions import Asked, count_of
from toolbox.dap import console
from toolbox.dap.board import ENDS, MOST_BREAKPOINTS, Machine
from toolbox.dap.sources import Sources, path_in
from toolbox.dap.values import Disassembly, Expression
from toolbox.dap.variables import Variables
from toolbox.data_labels import is_code
from toolbox.edits import Target, as_said, set_target, target_of, values_of
from toolbox.forms import Far
from toolbox.framing import Broken, Read
from toolbox.guests import Guest
from toolbox.listing import Line, Listing, listing_of, physical
from toolbox.places import far_of, far_of_address
from toolbox.program import LAST_CLOCK, TOP, Files, copied, is_hex_name
from toolbox.runfile import text_of
from toolbox.runs import budget_of
from toolbox.scancodes import strokes_of
from toolbox.session_board import Gone, Left, Paused, SessionBoard, break_at, place_of
from toolbox.watches import NO_READS, changed, watch_of, what_was_seen

Fields = dict[str, Any]
THREAD = 1
# What may end a run beside breakpoints, if it is wanted.
FILTERS = {'jammed': 'The processor has jammed', 'halted for good': 'Halted with interrupts off', 'key lost': 'A key was lost'}
CAPABILITIES = {
    'supportsConfigurationDoneRequest': True,
    'supportsStepBack': True,
    'supportsEvaluateForHovers': True,
    'supportsReadMemoryRequest': True,
    'supportsWriteMemoryRequest': True,
    'supportsSetVariable': True,
    'supportsSetExpression': True,
    'supportsDisassembleRequest': True,
    'supportsInstructionBreakpoints': True,
    'supportsFunctionBreakpoints': True,
    'supportsTerminateRequest': True,
    'supportsSteppingGranularity': True,
    'supportsConditionalBreakpoints': True,
    'supportsHitConditionalBreakpoints': True,
    'supportsLogPoints': True,
    'supportsDataBreakpoints': True,
    'exceptionBreakpointFilters': [{'filter': name, 'label': label, 'default': False} for name, label in FILTERS.items()],
}
BESIDE_A_RUN = re.compile(r'pause|disconnect|terminate|threads|set\w*Breakpoints')


def field(fields: Fields, name: str, kind: type, default: Any = None) -> Any:
    """A request's field, if it is of this kind; without a default it has to be there."""
    found = fields.get(name)
    if found is None and default is not None:
        return default
    if not isinstance(found, kind) or isinstance(found, bool) and kind is int:
        raise Sorry(f'the field "{name}" is missing, or no {kind.__name__}')
    return found


def first_lost(of: SessionBoard, begun: int) -> int | None:
    """The first clock above one at which another key was lost, if one was up to where a board stands."""
    with contextlib.closing(SessionBoard(of.files, of.clock)) as board:
        board.stand_as(of, begun)
        return next((int(line.split()[0]) for line in board.log(of.clock, 'keys') if line.endswith(' lost')), None)


class Adapter:
    """One client's session, from its first message to its last."""

    def __init__(self, messages: queue.Queue[Read], write: Callable[[Fields], None], room: str) -> None:
        self.messages, self.write, self.room = messages, write, room
        self.machine: Machine | None = None
        self.program, self.line_base, self.is_entry = '', 1, False
        self.sources: Sources | None = None
        self.variables: Variables | None = None
        self.breakpoints = dict[str, dict[str, int]]()  # by kind: 'line' and a source, 'function', 'instruction', 'data'
        self.asked = dict[str, dict[str, Asked]]()  # what each asks besides its place
        self.filters, self.has_uris, self.knows = set[str](), False, Fields()
        self.sent, self.count, self.is_running, self.is_over, self.is_paused, self.screen = 0, 0, False, False, False, ''

    def serve(self) -> None:
        """Answers messages until the client leaves."""
        try:
            while not self.is_over:
                self.take(self.messages.get())
        finally:
            if self.machine:
                self.machine.close()

    def take(self, message: Read) -> None:
        """Answers one message; what is broken has an error for an answer."""
        if message is None:
            self.is_over = True
        elif isinstance(message, Broken):
            self.answer({}, {}, message.why)
        elif message.get('type') == 'request':
            self.request(message)

    def answer(self, request: Fields, body: Fields, error: str = '') -> None:
        """The response to a request."""
        number, command = request.get('seq'), request.get('command')
        response: Fields = {
            'type': 'response',
            'request_seq': number if isinstance(number, int) else 0,
            'success': not error,
            'command': command if isinstance(command, str) else '',
            'body': body,
        }
        if error:
            response |= {'message': error, 'body': {'error': {'id': 1, 'format': re.sub(r'[{}]', '', error), 'showUser': True}}}
        self.send(response)

    def send(self, message: Fields) -> None:
        """Writes a message with its own number."""
        self.sent += 1
        self.write({'seq': self.sent} | message)

    def event(self, name: str, body: Fields | None = None) -> None:
        """An event."""
        self.send({'type': 'event', 'event': name, 'body': body or {}})

    def output(self, text: str, category: str = 'console', at: Fields | None = None) -> None:
        """Text for the user."""
        self.event('output', {'category': category, 'output': text} | (at or {}))

    def request(self, request: Fields) -> None:
        """Answers a request, and does then what it has started."""
        command, then = request.get('command'), None
        try:
            method = getattr(self, f'on_{command}', None) if isinstance(command, str) and command.isalpha() else None
            if method is None:
                raise Sorry(f'{command} is no request that is known here')
            if self.is_running and not BESIDE_A_RUN.fullmatch(f'{command}'):
                raise Sorry('the board runs; pause first')
            found = method(field(request, 'arguments', dict, {}))
            body, then = found if isinstance(found, tuple) else (found, None)
            self.answer(request, body)
        except Gone as gone:
            self.answer(request, {}, str(gone))
            self.end(gone)
        except Sorry as sorry:
            self.answer(request, {}, str(sorry))
        except (TypeError, ValueError, KeyError, IndexError, AttributeError, RecursionError, OverflowError) as error:
            self.answer(request, {}, f"{command} isn't as the protocol has it: {type(error).__name__}")
        if then:
            self.move(then)

    def end(self, gone: Gone) -> None:
        """The board is no more."""
        self.output(f'{gone}\n', 'important')
        if self.machine:
            self.machine.close()
        self.machine = None
        self.event('exited', {'exitCode': 1})
        self.event('terminated')

    def poll(self) -> None:
        """Between the pieces of a run: answers what has come meanwhile."""
        while not self.messages.empty():
            self.take(self.messages.get())
        if self.is_over:
            raise Left
        if self.is_paused:
            raise Paused

    def move(self, what: Callable[[], tuple[str, str]]) -> None:
        """Lets the board move, and tells where it has stopped and why."""
        self.is_running, self.is_paused = True, False
        try:
            reason, text = what()
        except Paused:
            reason, text = 'pause', f'clock {self.board().clock}: paused'
        except Gone as gone:
            return self.end(gone)
        except Sorry as sorry:
            reason, text = 'pause', str(sorry)
        finally:
            self.is_running = False
        if not self.is_over:
            self.stopped(reason, text)

    def stopped(self, reason: str, text: str) -> None:
        """Tells a stop, and the screen if it is another."""
        self.tell_edited()
        here, lines = list[str](), list[str]()
        self.tell_undone()
        try:
            here, lines = self.holding(reason), self.board().many('screen')
        except Gone as gone:
            return self.end(gone)
        except Sorry as sorry:
            self.output(f'{sorry}\n', 'important')
        screen = '\n'.join(line.rstrip() for line in lines).rstrip()
        if screen != self.screen:
            self.screen = screen
            edge = '-' * 80
            self.output(f'screen at clock {self.board().clock}\n{edge}\n{screen}\n{edge}\n', 'stdout')
        hit = [self.breakpoints[kind][stop] for kind, them in self.asked.items() for stop in here if stop in them and self.is_hit(them[stop])]
        body = {'reason': reason, 'description': text, 'text': text, 'threadId': THREAD, 'allThreadsStopped': True}
        self.event('stopped', body | ({'hitBreakpointIds': hit} if hit else {}))

    def tell_undone(self) -> None:
        """Tells what a way back has undone."""
        while self.machine and self.machine.undone:
            self.output(f'{self.machine.undone.pop(0)}\n', 'important')

    def holding(self, reason: str) -> list[str]:
        """The stops that hold where the board has stopped at one."""
        if reason == 'data breakpoint':
            return [stop for stop in self.breakpoints.get('data', {}) if changed(self.board(), stop)]
        return [break_at(self.board().place())] if reason.endswith('breakpoint') else []

    def is_hit(self, asked: Asked) -> bool:
        """Whether the board is where a breakpoint that asks this stops it, as far as its condition goes."""
        return asked.log is None and (asked.holds is None or asked.holds(self.board()))

    def board(self) -> Machine:
        """The board, once there is one."""
        if self.machine is None:
            raise Sorry('no board is launched')
        return self.machine

    # beginning and end

    def on_initialize(self, given: Fields) -> Fields:
        self.line_base = 1 if given.get('linesStartAt1', True) else 0
        self.has_uris, self.knows = given.get('pathFormat') == 'uri', given
        return CAPABILITIES

    def on_launch(self, given: Fields) -> tuple[Fields, None]:
        if self.machine:
            raise Sorry('a board is launched already')
        self.breakpoints, self.asked = {}, {}
        self.program = os.path.realpath(path_in(field(given, 'program', str)))
        is_hex = field(given, 'hex', bool, is_hex_name(self.program))
        self.is_entry = field(given, 'stopOnEntry', bool, False)
        guest = self.guest(given, is_hex)
        run_file = self.run_file(given, guest)
        symbols = os.path.realpath(path) if (path := field(given, 'symbols', str, '')) else None
        made = guests.made_with(guest, self.room, run_file) if guest.is_one else None
        files = made or copied(Files(self.program, run_file, is_hex, symbols), self.room)
        try:
            budget, listing = budget_of(files), listing_of(files)
            places = [os.path.realpath(path_in(source)) for source in field(given, 'sources', list, []) if isinstance(source, str)]
            self.sources = Sources(self.program, listing, places, self.has_uris)
            self.machine = Machine(files, listing, budget, self.poll)
            self.variables = Variables(self.machine, self.knows)
        except Sorry as sorry:
            raise self.explained(run_file, is_hex, sorry) from None
        self.event('initialized')
        return {}, None

    on_attach = on_launch

    def guest(self, given: Fields, is_hex: bool) -> Guest:
        """The program as its name, its look or the launch says that it has services, or none; by its look that is told."""
        services, args = given.get('services'), field(given, 'args', str, '')
        language = field(given, 'language', str, '')
        if language and language not in guests.LANGUAGES:
            raise Sorry(f'"language" is one of {", ".join(guests.LANGUAGES)}')
        is_bare = services is False or is_hex
        guest = guests.looked_at(Guest(self.program, args or None, services is True, False, language or None, is_bare))
        if guest.is_seen:
            otherwise = '"services": false', '"language": "nasm" or "dialect"'
            self.output(guests.said_of(guest, os.path.basename(self.program), *otherwise) + '\n')
        return guest

    def run_file(self, given: Fields, guest: Guest) -> str:
        """The run file that is named, or one of the keys and budget that are."""
        if given.get('run'):
            return os.path.realpath(field(given, 'run', str))
        fields = guests.fields_for(guest, None, guests.typed(guest, strokes_of(field(given, 'keys', str, ''))))
        fields['budget'] = field(given, 'budget', int, fields['budget'])
        path = f'{self.room}/own.json'
        with open(path, 'w', encoding='utf-8') as file:
            file.write(text_of(fields))
        return path

    def explained(self, run_file: str, is_hex: bool, sorry: Sorry) -> Sorry:
        """Tells by tools/why what is refused, each line of a source at its place, and gives the first of it."""

        def listed(*words: str) -> subprocess.CompletedProcess[str]:
            whole = [PYTHON, '-S', f'{TOP}/tools/why', *words]
            return subprocess.run(whole, stdin=subprocess.DEVNULL, capture_output=True, text=True, errors='replace', check=False)

        first = ''
        if not is_hex:
            for line in listed('--lines', '--', self.program).stdout.splitlines():
                number, kind, text = line.removeprefix(f'{self.program}:').split(': ', 2)
                at = {'source': Sources(self.program, Listing(), [], self.has_uris).described(''), 'line': int(number) - 1 + self.line_base}
                self.output(f'{line}\n', 'stderr', at)
                first = first or (f'{os.path.basename(self.program)}, line {number}: {text}' if kind == 'error' else '')
        if not first:
            reasons = listed('run', *(['--hex'] if is_hex else []), '--', self.program, run_file).stderr.splitlines()
            lines = [reason.removeprefix('why: ') for reason in reasons if reason.startswith('why: ')]
            self.output(''.join(f'{reason}\n' for reason in lines) or f'{sorry}\n', 'stderr')
            first = lines[0] if lines else str(sorry)
        return Sorry(first)

    def on_configurationDone(self, _: Fields) -> tuple[Fields, Callable[[], tuple[str, str]]]:
        board = self.board()

        def begin() -> tuple[str, str]:
            if board.is_before:
                board.step_own()
            return 'entry', 'the start of the program' if board.clock else 'the start of the run'

        return {}, begin if self.is_entry else self.run_on

    def on_disconnect(self, _: Fields) -> Fields:
        self.is_over = True
        return {}

    def on_terminate(self, given: Fields) -> Fields:
        self.event('exited', {'exitCode': 0})
        self.event('terminated')
        return self.on_disconnect(given)

    # breakpoints

    def wanted(self) -> list[str]:
        """The stops of all breakpoints. Of those that hold at a clock the first is told: those that ask nothing more stand first."""
        them = dict.fromkeys(stop for kind in ('data', *self.breakpoints) for stop in self.breakpoints.get(kind, ()))
        return sorted(them, key=lambda stop: (bool(place_of(stop)), stop in self.board().asked))

    def set_breakpoints(self, kind: str, asked: list[Any], stop_of: Callable[[Any], tuple[str, Fields]]) -> Fields:
        """Puts these breakpoints for those of a kind, and tells of each where it is, or why it is nowhere."""
        self.breakpoints[kind], self.asked[kind], answers = {}, {}, list[Fields]()
        for point in asked:
            self.count += 1
            try:
                stop, more = stop_of(point)
                wants = self.wants(point)
                if len({*self.wanted(), stop}) > MOST_BREAKPOINTS:
                    raise Sorry(f'there are {MOST_BREAKPOINTS} breakpoints already, the most that go')
                number = self.breakpoints[kind].setdefault(stop, self.count)
                self.asked[kind].setdefault(stop, wants)
                place = place_of(stop)
                answers.append({'id': number, 'verified': True} | ({'instructionReference': f'0x{physical(*place):05X}'} if place else {}) | more)
            except Sorry as sorry:
                answers.append({'id': self.count, 'verified': False, 'message': str(sorry)})
        stops = {stop: [them[stop] for them in self.asked.values() if stop in them] for stop in self.wanted()}
        self.board().asked = {stop: them for stop, them in stops.items() if all(wish.holds or wish.count or wish.log for wish in them)}
        return {'breakpoints': answers}

    def wants(self, breakpoint: Any) -> Asked:
        """What a breakpoint asks besides its place. What can't be evaluated is refused here."""
        condition, count, log = (field(breakpoint, name, str, '').strip() for name in ('condition', 'hitCondition', 'logMessage'))
        board, listing = self.board(), self.board().listing
        parts = re.split(r'\{([^{}]*)\}', log)
        for text in [*([condition] if condition else []), *parts[1::2]]:
            Expression(board, listing, text).value()

        def tell(at: SessionBoard) -> None:
            shown = [Expression(at, listing, part).value().shown() if number % 2 else part for number, part in enumerate(parts)]
            self.output(''.join([*shown, '\n']), 'stdout')

        holds = (lambda at: Expression(at, listing, condition).holds()) if condition else None
        return Asked(holds, count_of(count) if count else None, tell if log else None)

    def on_setBreakpoints(self, given: Fields) -> Fields:
        source = field(given, 'source', dict)
        asked, sources = field(given, 'breakpoints', list, [{'line': line} for line in given.get('lines') or []]), self.of_launch()
        name = sources.named(source)
        if name is None:
            return {'breakpoints': [{'verified': False, 'message': sources.unlike(source)} for _ in asked]}
        self.tell_edited()
        return self.set_breakpoints(f'line {name}', asked, lambda point: self.of_line(name, field(point, 'line', int) + 1 - self.line_base))

    def of_line(self, name: str, number: int) -> tuple[str, Fields]:
        """The place of a source's line, or that of the next line with code."""
        lines = self.board().listing.of_file(name)
        if not lines:
            raise Sorry('this Intel HEX has no source lines; symbols may name the listing that its assembler wrote')
        here = lines[number - 1] if 1 <= number <= len(lines) else None
        found = here if here and here.address else next((line for line in lines[max(0, number - 1) :] if is_code(line)), None)
        if found is None or found.address is None or number < 1:
            raise Sorry(f'no line of the source from {number} on places an instruction')
        more: Fields = {'line': found.number - 1 + self.line_base, 'source': self.of_launch().described(name)}
        if found is not here:
            more['message'] = f'line {number} places nothing, so this is at line {found.number}'
        return break_at(found.address), more

    def on_setFunctionBreakpoints(self, given: Fields) -> Fields:
        listing = self.board().listing
        return self.set_breakpoints('function', field(given, 'breakpoints', list), lambda point: (break_at(far_of(listing, field(point, 'name', str))), {}))

    def on_setInstructionBreakpoints(self, given: Fields) -> Fields:
        def stop_of(point: Any) -> tuple[str, Fields]:
            address = self.address(field(point, 'instructionReference', str)) + field(point, 'offset', int, 0)
            return break_at(self.far(address)), {}

        return self.set_breakpoints('instruction', field(given, 'breakpoints', list), stop_of)

    def on_dataBreakpointInfo(self, given: Fields) -> Fields:
        """What can be watched of a variable or an expression: bytes of memory, by their address and number."""
        name, number = field(given, 'name', str), field(given, 'variablesReference', int, 0)
        board, variables = self.board(), self.variables
        try:
            places = variables.places(number, name) if number and variables else None
            if places is None:
                places = Expression(board, board.listing, name).value().places()
        except Sorry as sorry:
            return {'dataId': None, 'description': str(sorry)}
        if not places:
            return {'dataId': None, 'description': f'{name} has no place in memory'}
        described = f'{name}: {len(places)} byte{"s" if len(places) > 1 else ""} from {places[0]:05X}'
        return {'dataId': f'{places[0]:05X} {len(places)}', 'description': described, 'accessTypes': ['write'], 'canPersist': False}

    def on_setDataBreakpoints(self, given: Fields) -> Fields:
        def stop_of(point: Any) -> tuple[str, Fields]:
            found = re.fullmatch(r'([0-9A-F]{5}) (\d{1,5})', field(point, 'dataId', str))
            if not found:
                raise Sorry(f'{point["dataId"]} is no data that can be watched')
            if field(point, 'accessType', str, 'write') != 'write':
                raise Sorry(NO_READS)
            return watch_of(int(found[1], 16), int(found[2])), {}

        return self.set_breakpoints('data', field(given, 'breakpoints', list), stop_of)

    def on_setExceptionBreakpoints(self, given: Fields) -> Fields:
        asked = field(given, 'filters', list, [])
        self.filters = {name for name in asked if name in FILTERS}
        answers = [{'verified': True} if name in FILTERS else {'verified': False, 'message': f'{name} is none of {", ".join(FILTERS)}'} for name in asked]
        return {'breakpoints': answers}

    def far(self, address: int) -> Far:
        """CS:IP of a physical address: a line's or label's there, else by the present CS."""
        here = self.board().registers()['CS']
        segment, offset, is_known = far_of_address(self.board().listing, address, here)
        if not is_known and segment != here:
            raise Sorry(f"{address:05X}h can't be reached with the present CS, {here:04X}h")
        return segment, offset

    def address(self, text: str) -> int:
        """The physical address of a reference: 0x and its digits, or a place."""
        if re.fullmatch(r'0[xX][0-9A-Fa-f]{1,8}', text):
            return int(text, 16)
        return physical(*far_of(self.board().listing, text))

    # moving

    def why_stopped(self, met: str | None, reason: str, text: str) -> tuple[str, str]:
        """Why the board stands where it does."""
        if met:
            kinds = [kind for kind, them in self.breakpoints.items() if met in them]
            name = f'{kinds[0]} breakpoint' if kinds and kinds[0] in ('function', 'instruction', 'data') else 'breakpoint'
            what = '' if place_of(met) else f', {what_was_seen(self.board(), self.board().listing, met)}'
            return name, f'clock {self.board().clock}: {name}{what}'
        ending = self.board().ending()
        if ending or self.board().clock >= self.board().budget:
            return 'pause', f'the run ends at clock {self.board().clock}, {ending or self.board().state()}'
        return reason, f'clock {self.board().clock}: {text}'

    def told_of_a_way(self, met: str | None, text: str) -> tuple[str, str]:
        """Why a way over or out of a routine ended."""
        board = self.board()
        if board.why in ENDS:
            return 'pause', f'clock {board.clock}: {board.ending() or ENDS[board.why]}'
        return self.why_stopped(met, 'step', text)

    def run_on(self) -> tuple[str, str]:
        board, begun, met = self.board(), self.board().clock, None
        while met is None and board.clock < board.budget:
            # Breakpoints may change while it runs.
            met = board.run(self.wanted(), board.budget)
            met = met if met in self.wanted() else None
        if met is None and board.ending():
            board.ended(begun)
        return self.exception(begun) or self.why_stopped(met, 'pause', 'the run ends')

    def exception(self, begun: int) -> tuple[str, str] | None:
        """What is wanted beside breakpoints, if the run from a clock on came to it; the board is where that began then."""
        board = self.board()
        kind = Chips(board.chips()).state if self.filters else 'running'
        if 'key lost' in self.filters and (clock := first_lost(board, begun)):
            board.go_to(clock)
            return 'exception', f'clock {clock}: {FILTERS["key lost"]}'
        if kind in self.filters and board.trail()[-1].clock >= begun:
            board.go_to(board.trail()[-1].clock)
            if kind == 'jammed':  # behind the last that began
                board.one('step')
            return 'exception', f'clock {board.clock}: {FILTERS[kind]}'
        return None

    def unless_ended(self) -> Machine:
        """The board, unless it has run to the budget's end: beyond it goes by single steps alone."""
        board = self.board()
        if board.clock >= board.budget:
            raise Sorry(f'the run ends at clock {board.budget}; step, or go back')
        return board

    def on_continue(self, _: Fields) -> tuple[Fields, Callable[[], tuple[str, str]]]:
        self.unless_ended()
        return {'allThreadsContinued': True}, self.run_on

    def by_lines(self, given: Fields, step: Callable[[], object]) -> None:
        """Steps on until another line of several files, as those of C, begins; else, or if instructions are asked for, makes one."""
        board, line = self.board(), self.line_here()
        step()
        while line and given.get('granularity') != 'instruction' and board.clock < board.budget and board.why not in ENDS:
            here = self.line_here()
            if here is None or (here.number, here.source) != (line.number, line.source):
                break
            self.poll()
            step()

    def line_here(self) -> Line | None:
        """The line of several files to which the next instruction belongs."""
        return self.board().listing.modules.get(physical(*self.board().place()))

    def on_next(self, given: Fields) -> tuple[Fields, Callable[[], tuple[str, str]]]:
        board = self.board()
        return {}, lambda: self.told_of_a_way(self.way(lambda: self.by_lines(given, board.next)), 'step')

    def on_stepIn(self, given: Fields) -> tuple[Fields, Callable[[], tuple[str, str]]]:
        board = self.board()

        def step() -> None:
            board.why = 'returned'
            move = board.step if given.get('granularity') == 'instruction' else board.step_own
            move()

        return {}, lambda: self.told_of_a_way(self.way(lambda: self.by_lines(given, step)), 'step')

    def on_stepOut(self, _: Fields) -> tuple[Fields, Callable[[], tuple[str, str]]]:
        board = self.unless_ended()
        return {}, lambda: self.told_of_a_way(self.way(board.out), 'step out')

    def way(self, way: Callable[[], object]) -> str | None:
        """A way by instructions, at most to a breakpoint. An instruction that is under way, as at data that has changed, ends first."""
        board = self.board()
        board.end_instruction()
        return board.to_stops(way, self.wanted())

    def on_stepBack(self, _: Fields) -> tuple[Fields, Callable[[], tuple[str, str]]]:
        board = self.board()
        if board.clock == 0:
            raise Sorry('this is the start of the run')

        def back() -> tuple[str, str]:
            board.back()
            return 'step', f'clock {board.clock}: step back'

        return {}, back

    def on_reverseContinue(self, _: Fields) -> tuple[Fields, Callable[[], tuple[str, str]]]:
        board = self.board()
        if board.clock == 0:
            raise Sorry('this is the start of the run')

        def back() -> tuple[str, str]:
            met = board.back_to(self.wanted())
            return self.why_stopped(met, 'entry', 'no breakpoint was passed before: the start of the run')

        return {}, back

    def on_pause(self, _: Fields) -> Fields:
        self.is_paused = True
        return {}

    # looking

    def of_launch(self) -> Sources:
        """The sources of the board, once there is one."""
        if self.sources is None:
            raise Sorry('no board is launched')
        return self.sources

    def tell_edited(self) -> None:
        """Tells of each file that was edited since the launch, once after each change."""
        for path in self.of_launch().edited():
            self.output(
                f'{os.path.basename(path)} was edited since the launch. Lines and breakpoints are those of the launch; launch again to run what the file says now.\n',
                'important',
            )

    def on_source(self, given: Fields) -> Fields:
        text = self.of_launch().text(field(given, 'sourceReference', int))
        if text is None:
            raise Sorry('there is no such source')
        return {'content': text}

    def on_threads(self, _: Fields) -> Fields:
        return {'threads': [{'id': THREAD, 'name': '8086'}]}

    def on_stackTrace(self, given: Fields) -> Fields:
        board = self.board()
        frames = [self.frame(number, place) for number, place in enumerate([board.place(), *board.callers()], 1)]
        first, count = field(given, 'startFrame', int, 0), field(given, 'levels', int, 0)
        return {'stackFrames': frames[first : first + count if count else None], 'totalFrames': len(frames)}

    def frame(self, number: int, place: Far | None) -> Fields:
        """A frame: the label, and the source line that placed what stands there; or that callers aren't known."""
        if place is None:
            return {'id': number, 'name': 'unknown', 'line': 0, 'column': 0, 'presentationHint': 'label'}
        listing, address = self.board().listing, physical(*place)
        name = listing.label_before(*place) or '{:04X}:{:04X}'.format(*place)
        frame: Fields = {'id': number, 'name': name, 'line': 0, 'column': 0, 'instructionPointerReference': f'0x{address:05X}'}
        line = listing.line_from(address)
        if line and self.board().dump(address, len(line.shown)) == line.shown:
            frame |= {'line': line.number - 1 + self.line_base, 'column': self.line_base, 'source': self.of_launch().described(line.source)}
        return frame

    def on_scopes(self, _: Fields) -> Fields:
        self.board()
        return {'scopes': Variables.scopes()}

    def on_variables(self, given: Fields) -> Fields:
        which, first, count = field(given, 'variablesReference', int), field(given, 'start', int, 0), field(given, 'count', int, 0)
        if self.variables is None:
            raise Sorry('no board is launched')
        return {'variables': self.variables.of(which, first, count)}

    def on_setVariable(self, given: Fields) -> Fields:
        which, name, board = field(given, 'variablesReference', int), field(given, 'name', str), self.board()
        assert self.variables
        self.give(self.variables.target(which, name), field(given, 'value', str))
        shown = next((one for one in self.variables.of(which, 0, 0) if one['name'] == name), {'value': str(board.clock)})
        return {key: shown[key] for key in ('value', 'type', 'variablesReference', 'memoryReference') if key in shown}

    def on_setExpression(self, given: Fields) -> Fields:
        text, board = field(given, 'expression', str).strip(), self.board()
        self.give(target_of(board, board.listing, text), field(given, 'value', str))
        return {'value': Expression(board, board.listing, text).value().shown()}

    def give(self, target: Target, text: str) -> None:
        """What the client shows, or one of its expressions, gets a value."""
        board = self.board()
        set_target(board, target, [value.number for value in values_of(board, board.listing, as_said(text))])
        self.tell_changed()

    def tell_changed(self) -> None:
        """Tells a client that asks again then that the board is another."""
        if self.knows.get('supportsInvalidatedEvent'):
            self.event('invalidated', {'areas': ['all']})

    def on_writeMemory(self, given: Fields) -> Fields:
        address = self.address(field(given, 'memoryReference', str)) + field(given, 'offset', int, 0)
        octets = base64.b64decode(field(given, 'data', str), validate=True)
        if octets:
            self.board().set_bytes(address, octets)
            self.tell_changed()
        return {'bytesWritten': len(octets)}

    def on_toClock(self, given: Fields) -> tuple[Fields, Callable[[], tuple[str, str]]]:
        """A request of our own: to a clock, earlier or later, past all breakpoints."""
        board, clock = self.board(), field(given, 'clock', int)
        if not 0 <= clock <= LAST_CLOCK:
            raise Sorry(f'a clock lies from 0 to {LAST_CLOCK}')

        def go() -> tuple[str, str]:
            board.go_to(clock)
            return 'goto', f'clock {board.clock}'

        return {}, go

    def on_evaluate(self, given: Fields) -> Fields | tuple[Fields, Callable[[], tuple[str, str]]]:
        text, board = field(given, 'expression', str).strip(), self.board()
        if given.get('context') == 'repl' and (found := re.fullmatch(r'to\s+([\d,_]+)', text)):
            body, then = self.on_toClock({'clock': int(re.sub('[,_]', '', found[1]) or -1)})
            return {'result': f'to clock {found[1]}', 'variablesReference': 0}, then
        if given.get('context') == 'repl' and text == 'undo':
            undone = board.undo()
            return {'result': undone, 'variablesReference': 0}, lambda: ('goto', undone)
        if given.get('context') == 'repl' and (way := console.way(board, text, self.wanted(), lambda line: self.output(f'{line}\n', 'stdout'))):
            return {'result': text, 'variablesReference': 0}, way
        if given.get('context') == 'repl' and (shown := console.answer(board, text)) is not None:
            if text.startswith('set '):
                self.tell_changed()
            return {'result': shown, 'variablesReference': 0}
        if self.variables and (named := self.variables.named(text)):
            return {'result': named['value']} | {key: one for key, one in named.items() if key not in ('name', 'value')}
        value = Expression(board, board.listing, text).value()
        at = {} if value.address is None else {'memoryReference': f'0x{value.address:05X}'}
        return {'result': value.shown(), 'variablesReference': 0} | at

    def on_readMemory(self, given: Fields) -> Fields:
        address = self.address(field(given, 'memoryReference', str)) + field(given, 'offset', int, 0)
        count = field(given, 'count', int)
        if not 0 <= count <= 1 << 20:
            raise Sorry('count goes from 0 to 1048576')
        is_there = 0 <= address < 1 << 20
        octets = self.board().dump(address, count) if is_there and count else b''
        return {'address': f'0x{max(address, 0):05X}', 'data': base64.b64encode(octets).decode(), 'unreadableBytes': count - len(octets)}

    def on_disassemble(self, given: Fields) -> Fields:
        count = field(given, 'instructionCount', int)
        if not 0 <= count <= 10000 or abs(field(given, 'instructionOffset', int, 0)) > 10000:
            raise Sorry('instructionCount goes to 10000')
        address = self.address(field(given, 'memoryReference', str)) + field(given, 'offset', int, 0)
        self.board().trail()
        instructions = []
        for row in Disassembly(self.board()).rows(address, field(given, 'instructionOffset', int, 0), count):
            instruction: Fields = {'address': f'0x{max(row.address, 0):05X}', 'instruction': row.text or '??', 'instructionBytes': row.octets.hex(' ').upper()}
            if row.line:
                instruction |= {'location': self.of_launch().described(row.line.source), 'line': row.line.number - 1 + self.line_base}
            instructions.append(instruction | ({} if row.text and not row.text.startswith('DB ') else {'presentationHint': 'invalid'}))
        return {'instructions': instructions}
