"""Stops on what happens: bytes that change or are written, in all debuggers, held against single steps over random programs."""
from __future__ import annotations

import os
import random
import time
from typing import Any

from tests import test_gdb
from tests.desk_engine import Engine, with_node
from tests.support import ToolCase, children, example, processor_seconds
from tests.test_dap import Client as Editor
from tests.test_held import WATCHED, Stepped

from toolbox.command import Sorry
from toolbox.dap.board import Machine
from toolbox.gdb.board import Board
from toolbox.listing import Listing, listing_of
from toolbox.program import Files
from toolbox.runfile import read_run_file
from toolbox.session_board import SessionBoard
from toolbox.watches import changed, kind_of, watch_of, watched_by, what_was_seen, written

LOOP_CLOCKS = 10_000_000
# The word changes at about clock 9,040,000; before and after no byte does.
LATE = """        MOV BX,0
        MOV DX,0
again:  ADD AX,BX
        XOR AX,BX
        LOOP again
        INC DX
        CMP DX,6
        JNZ again
        MOV [1234h],DX
stay:   ADD AX,BX
        LOOP stay
        JMP SHORT stay"""
# A byte is written as it stands, then with another value; a write to ROM; a word of which the high byte changes.
WRITES = """        MOV AX,50h
        MOV DS,AX
        MOV [0],AL
        MOV [0],AL
        MOV BYTE [0],51h
        MOV BX,CS
        MOV DS,BX
        MOV [0],AL
        MOV DS,AX
        MOV WORD [0],151h
        HLT"""


class Held(Stepped):
    """What single steps show."""

    def test_random_programs(self) -> None:
        """A hundred of them: forth to each change and back over all of them; gdb's to before each one on the way back."""
        met = 0
        for seed in range(100):
            address, count = random.Random(seed).choice(WATCHED)
            steps = self.steps(seed, address, count)
            stop, board = watch_of(address, count), Board(self.program_files(seed), steps.clocks[-2])
            wanted = [clock for clock in steps.changes if clock <= board.budget]
            try:
                ends = list[int]()
                if seed % 2:
                    while board.run([stop], board.budget):
                        ends.append(board.clock)
                        self.assertTrue(changed(board, stop))
                        self.assertEqual(board.clock, ends[-1])
                else:
                    while (found := board.go([stop])).how == 'watch':
                        self.assertIn(found.number, watched_by(stop))
                        ends.append(board.clock)
                self.assertEqual(ends, wanted, (seed, stop))
                back = list[int]()
                if seed % 2:
                    while board.back_to([stop]):
                        back.append(board.clock)
                    wanted = [clock for clock in wanted if clock < board.budget]
                else:
                    while board.back([stop]).how == 'watch':
                        back.append(board.clock + 1)
                self.assertEqual(back[::-1], wanted, (seed, stop))
                met += len(wanted)
            finally:
                board.close()
        self.assertGreater(met, 500)

    def test_writes(self) -> None:
        """Each change is a write, and what is written stands there then; of ROM nothing changes."""
        met = 0
        for seed in range(0, 100, 7):
            for address, count in ((0xCF0, 16), (0x400, 5)):
                steps = self.steps(seed, address, count)
                stop, ends = watch_of(address, count, True), list[int]()
                board = SessionBoard(self.program_files(seed), steps.clocks[-2])
                try:
                    while board.run([stop], board.budget):
                        found = written(board, watched_by(stop))
                        self.assertTrue(found)
                        for each in found:
                            self.assertEqual(board.dump(each.address, 1)[0], each.value)
                        if any(each.before != each.after for each in found):
                            ends.append(board.clock)
                        met += 1
                finally:
                    board.close()
                self.assertEqual(ends, [clock for clock in steps.changes if clock <= board.budget], (seed, stop))
        self.assertGreater(met, 100)

    def test_ways_over_and_out(self) -> None:
        """An editor's way over an instruction ends at the first change on it, if there is one, else where it ends otherwise."""
        ended = 0
        for seed in range(0, 100, 10):
            dice = random.Random(seed)
            address, count = dice.choice(WATCHED[:3])
            steps = self.steps(seed, address, count)
            board, stop = Machine(self.program_files(seed), Listing(), steps.clocks[-2]), watch_of(address, count)
            before = [clock - 1 for clock in steps.changes if clock < steps.clocks[-40]]
            try:
                for here in dice.sample(before, min(3, len(before))) + dice.sample(steps.clocks[:-40], 3):
                    board.go_to(here)
                    board.next()
                    there = board.clock
                    board.go_to(here)
                    met = board.to_stops(board.next, [stop])
                    first = next((clock for clock in steps.changes if here < clock <= there), None)
                    self.assertEqual((met, board.clock), (stop, first) if first else (None, there), (seed, here))
                    ended += first is not None
            finally:
                board.close()
        self.assertGreater(ended, 10)

    def test_how_fast_it_is(self) -> None:
        """The first change in ten million clocks, and the last one before their end: a second of the processors each, at most."""

        def spent() -> float:
            return time.process_time() + sum(map(processor_seconds, children(os.getpid())))

        files = Files(*self.program(LATE, LOOP_CLOCKS))
        board = SessionBoard(files, LOOP_CLOCKS)
        self.addCleanup(board.close)
        stop, before = watch_of(0x1234, 2), spent()
        self.assertEqual(board.run([stop], LOOP_CLOCKS), stop)
        forth, first = spent() - before, board.clock
        self.assertGreater(first, 9_000_000)
        self.assertIsNone(board.run([stop], LOOP_CLOCKS))
        before = spent()
        self.assertEqual((board.back_to([stop]), board.clock), (stop, first))
        self.assert_within(max(forth, spent() - before), 1)
        self.assertIn('01234 was 00, is 06: clock', what_was_seen(board, listing_of(files), stop))


class Words(ToolCase):
    """What is said."""

    def dbg(self, files: tuple[str, str], *commands: str) -> list[str]:
        """The answers' lines."""
        return self.called('dbg', *files, given='\n'.join(commands) + '\n')[0].splitlines()

    def test_dbg(self) -> None:
        lines = self.dbg(
            example('ticks'), 'watch B0000', 'go', 'go', 'step', 'last', 'last b0000', 'last B0000', 'clear 1', 'when entries', 'go', 'last write B0000'
        )
        tick = 'F600:0058 tick ES: INC BYTE [00000h] | 41: tick: INC BYTE ES:[0]'
        first = 'B0000 was 00, is 30: clock 884, F600:0041 card+16 ES: MOV WORD [00000h],00730h | 30: MOV WORD ES:[0],0730h'
        self.assertEqual(lines[0], 'stop 1: watch B0000 1')
        self.assertTrue(lines[1].startswith('stop 1 (watch B0000 1), clock 885: F600:0048 card+1D'))
        self.assertEqual((lines[2], lines[4]), (first, f'B0000 was 30, is 31: clock 1009, {tick}'))
        self.assertEqual([line.split(':')[0] for line in lines[5:9]], ['clock 1032', 'stop 1 (watch B0000 1), clock 1010', 'B0000 was 30, is 31', 'clock 885'])
        self.assertEqual(lines[9:12], [first, 'nothing changed there before this clock', 'no stops'])
        self.assertEqual((lines[12], lines[14]), ('stop 2: when entries', '948 entry 08'))
        self.assertEqual(lines[15].split(':')[0], 'clock 885')

    def test_writes_in_dbg(self) -> None:
        """A write of what stands there, one that changes it, one to ROM, and a word of which one byte changes."""
        files = self.program(WRITES)
        lines = self.dbg(files, 'watch 500 2', 'watch 500 2 --writes', 'watch F0000 --writes', *['go'] * 6)
        seen = [(line.split()[1], after.split(':')[0]) for line, after in zip(lines[3:], lines[4:]) if line.startswith('stop')]
        self.assertEqual(
            seen,
            [
                ('1', '00500 was 00, is 50'),
                ('2', '00500 is 50, as before'),
                ('1', '00500 was 50, is 51'),
                ('3', 'F0000 start is B8, as before'),
                ('1', '00501 was 00, is 01'),
            ],
        )
        self.assertIn('50 is not taken there', lines[lines.index(next(line for line in lines if line.startswith('F0000'))) :][0])
        lines = self.dbg(files, 'log writes starts 60', 'log writes=start-F000:0010 1000', 'log ports=20-21 0')
        self.assertEqual(sum(' write 00500 ' in line for line in lines), 3)
        self.assertRegex('\n'.join(lines), r'(?m)^ +\d+ start F000:0000 B85000 start \| 3: MOV AX,50h$')
        self.assertRegex('\n'.join(lines), r'(?m)^ +\d+ write F0000 50 start$')
        refusals = (
            ('watch 500 0', 'is no number of bytes'),
            ('watch 500 65537', '1 to 65536 can be watched'),
            ('watch FFFFF 2', '1 to 65536 can be watched, up to FFFFF'),
            ('watch', 'use: watch'),
            ('watch nowhere', 'no label'),
            ('when', 'use: when'),
            ('when all', 'is none of starts'),
            ('when starts=5', 'is none of starts'),
            ('when ports=21-20', 'ports=21-20: 21 comes after 20, and a range begins with its lowest'),
            ('when ports=10000', '10000 is no hexadecimal number up to FFFF'),
            ('log ports=21-20 5', '21 comes after 20'),
            ('log writes', 'use: log'),
            ('log writes=F-0 10', 'writes=F-0: F comes after 0'),
            ('last write', 'no label'),
            ('last 500', 'nothing changed there'),
        )
        for (command, why), told_of_it in zip(refusals, self.dbg(files, *(asked for asked, _ in refusals)), strict=True):
            self.assertIn(why, told_of_it, command)

    def test_kinds(self) -> None:
        self.assertEqual(kind_of('writes=a-b', {'a': 0x500, 'b': 0x50F}.__getitem__), 'writes=500-50F')
        self.assertEqual([kind_of(kind, int) for kind in ('starts', 'ports=60', 'ports=20h-21', 'writes')], ['starts', 'ports=60-60', 'ports=20-21', 'writes'])
        self.assertEqual(
            [list(watched_by(stop)) for stop in ('changes B0000', 'changes B0000 2', 'when writes=B0000-B0001', 'when keys', 'break F000:0')][2:],
            [[0xB0000, 0xB0001], [], []],
        )
        with self.assertRaises(Sorry):
            watch_of(0xFFFFF, 2)

    def test_sixteen_stops(self) -> None:
        """A seventeenth is refused in a sentence, whatever it is; all others stay."""
        commands = ['break tick', 'watch B0000', 'watch B0002 2 --writes', 'when keys', *(f'watch {0x500 + at:X}' for at in range(12))]
        refused = ('watch 600', 'when wires', 'break card', 'sound', 'byte 0 1')
        lines = self.dbg(example('ticks'), *commands, *(word for more in refused for word in (more, 'stops')), 'go')
        stops, answers = lines[:16], lines[16:101]
        self.assertEqual(answers, ['there are 16 stops, the most that go; clear N removes one', *stops] * 5)
        self.assertEqual(lines[101].split(',')[0], 'stop 2 (watch B0000 1)')


class Gdb(ToolCase):
    """Watchpoints over the wire."""

    serve, client, leave = test_gdb.Served.serve, test_gdb.Served.client, staticmethod(test_gdb.Served.leave)

    def test_watchpoints(self) -> None:
        client = self.client(*example('ticks'))
        self.assertEqual(client.ask('Z2,b0000,1'), 'OK')
        for request, wanted, clock in (
            ('c', 'T05watch:b0000;thread:1;', 885),
            ('c', 'T05watch:b0000;thread:1;', 1010),
            ('s', 'T05thread:1;', 1036),
            ('bc', 'T05watch:b0000;thread:1;', 1009),
            ('s', 'T05watch:b0000;thread:1;', 1032),
            ('bs', 'T05watch:b0000;thread:1;', 1009),
            ('bc', 'T05watch:b0000;thread:1;', 884),
            ('c', 'T05watch:b0000;thread:1;', 885),
            ('bc', 'T05watch:b0000;thread:1;', 884),
            ('bc', 'T05replaylog:begin;thread:1;', 0),
        ):
            self.assertEqual((client.ask(request), client.monitor('clock')), (wanted, f'clock {clock}\n'), request)
        self.assertEqual(client.ask('z2,b0000,1'), 'OK')
        self.assertEqual(client.monitor('changes B0000'), 'stop 1\n')
        client.shown = ''
        client.ask('c')
        self.assertEqual(client.shown, 'clock 885: stop 1 (changes B0000)\n')
        for request in ('Z3,b0000,1', 'Z4,b0000,1'):
            self.assertEqual(client.ask(request), "E.reads aren't watched, only changes and writes")
        for request in ('Z2,b0000', 'Z2,x,1', 'Z2,b0000,0', 'Z2,fffff,2', 'Z2,b0000,10001', 'z9,0,1'):
            self.assertIn(client.ask(request)[:1], ('E', ''), request)

    def test_sixteen(self) -> None:
        """Breakpoints, watchpoints and the stops of monitor together; all that were taken are met."""
        client = self.client(*example('ticks'))
        client.monitor('halted')
        self.assertEqual([client.ask(f'Z2,{0x500 + at:x},1') for at in range(7)], ['OK'] * 7)
        self.assertEqual([client.ask(f'Z0,{0xf0100 + at:x},1') for at in range(7)], ['OK'] * 7)
        self.assertEqual(client.ask('Z2,b0000,1'), 'OK')
        full = 'E.the board has room for 16 stops'
        self.assertEqual([client.ask(packet) for packet in ('Z2,b0002,1', 'Z0,f6058,1', 'Z2,b0000,1')], [full, full, 'OK'])
        self.assertEqual(client.ask('c'), 'T05watch:b0000;thread:1;')

    def test_gdb_itself(self) -> None:
        """The first change, the next ones, and back over them; reads are refused in a sentence."""
        typed = ('watch *(char*)0xb0000', *['continue'] * 3, 'reverse-continue', 'reverse-continue', 'stepi', 'rwatch *(char*)0xb0000', 'awatch tick')
        printed = self.gdb_on(example('ticks'), *typed)
        if test_gdb.GDB:
            pattern = '.*'.join(f"Old value = {a} .*New value = {b} " for a, b in ((0, 48), (48, 49), (49, 50), (50, 49), (49, 48), (48, 49)))
            self.assertRegex(printed, f'(?s){pattern}')
            self.assertEqual(printed.count("Reads aren't watched, only changes"), 2)

    def gdb_on(self, files: tuple[str, str], *typed: str) -> str:
        """What gdb prints, if it is there."""
        return self.tool('gdb', *files, '-batch', *(word for line in typed for word in ('-ex', line)))[0] if test_gdb.GDB else ''


class Dap(ToolCase):
    """Data breakpoints."""

    def client(self, source: str, run: str) -> Editor:
        """An editor whose board stands at its start."""
        client = Editor(self.room)
        self.addCleanup(client.watch.cancel)
        client.launch(source, run=run, stopOnEntry=True)
        client.event('stopped')
        return client

    def test_data_breakpoints(self) -> None:
        source, run = example('ticks')
        client = self.client(source, run)
        self.assertTrue(client.ask('initialize', adapterID='zebludor')['supportsDataBreakpoints'])
        self.assertIsNone(client.ask('dataBreakpointInfo', name='AX')['dataId'])
        self.assertIsNone(client.ask('dataBreakpointInfo', variablesReference=1, name='AX')['dataId'])
        self.assertIn('frob', client.ask('dataBreakpointInfo', name='frob')['description'])
        self.assertEqual(client.ask('dataBreakpointInfo', name='WORD 0:[8]')['dataId'], '00008 2')
        answer = client.ask('setDataBreakpoints', breakpoints=[{'dataId': 'B0000 1'}, {'dataId': '00500 2', 'accessType': 'readWrite'}, {'dataId': 'x'}])
        first, *others = answer['breakpoints']
        self.assertTrue(first['verified'])
        self.assertEqual(
            [(point['verified'], point['message']) for point in others],
            [(False, "reads aren't watched, only changes and writes"), (False, 'x is no data that can be watched')],
        )
        for command, clock, line in (('continue', 885, 31), ('continue', 1010, 42), ('next', 1036, 43), ('continue', 1398, 42), ('reverseContinue', 1010, 42)):
            stop = client.move(command)
            self.assertEqual((client.clock(), client.line()), (clock, line), command)
            if command != 'next':
                self.assertEqual((stop['reason'], stop['hitBreakpointIds']), ('data breakpoint', [first['id']]))
        self.assertIn('B0000 was 30, is 31: clock 1009, F600:0058 tick', stop['text'])
        client.ask('setDataBreakpoints', breakpoints=[{'dataId': 'B0000 1', 'condition': 'BYTE ES:[0] = 33h'}, {'dataId': 'B0000 2', 'hitCondition': '3'}])
        self.assertEqual([(client.move('continue')['reason'], client.clock()) for _ in range(2)], [('data breakpoint', 1398), ('data breakpoint', 1798)])
        many = client.ask('setDataBreakpoints', breakpoints=[{'dataId': f'{0x500 + at:05X} 1'} for at in range(16)])['breakpoints']
        self.assertEqual([point['verified'] for point in many], [True] * 15 + [False])
        self.assertIn('the most that go', many[15]['message'])
        self.assertEqual(client.leave(), 0)

    def test_labels(self) -> None:
        """A variable of the scope of data, as a whole and by an element."""
        lines = (
            'MOV AX,SEG n\n        MOV DS,AX\n        MOV [n+2],AX\n        INC BYTE [b]\n        HLT\nENDS\nSEGMENT D AT 50h\nn:      DW 1,2,3\nb:      DB 7'
        )
        source, run = self.program(f'        {lines}')
        client = self.client(source, run)
        data = next(scope['variablesReference'] for scope in client.ask('scopes', frameId=1)['scopes'] if scope['name'] == 'Data')
        array = next(variable['variablesReference'] for variable in client.ask('variables', variablesReference=data)['variables'] if variable['name'] == 'n')
        ids = [client.ask('dataBreakpointInfo', variablesReference=at, name=name)['dataId'] for at, name in ((data, 'n'), (array, '[1]'), (data, 'b'))]
        self.assertEqual(ids, ['00500 6', '00502 2', '00506 1'])
        points = client.ask('setDataBreakpoints', breakpoints=[{'dataId': data_id} for data_id in ids])['breakpoints']
        self.assertEqual([client.move('continue')['hitBreakpointIds'] for _ in range(2)], [[point['id'] for point in points[:2]], [points[2]['id']]])
        self.assertEqual(client.leave(), 0)


@with_node
class Desk(ToolCase):
    """The board of the desk's page."""

    def test_a_byte(self) -> None:
        engine, (source, run) = Engine(), example('ticks')
        self.addCleanup(engine.close)
        with open(source, encoding='utf-8') as file:
            board = engine.ask({'do': 'open', 'source': file.read(), 'run': read_run_file(run)})['board']

        def ask(word: str, **fields: Any) -> Any:
            return engine.to_the_end({'do': word, 'board': board, **fields})

        def on() -> Any:
            return ask('run', to=3000, ms=200)

        self.assertEqual(ask('stops', stops=['changes B0000', 'halted', 'tick'])['stops'][1], ['changes B0000 1', '', None])
        self.assertIn('can be watched', ask('stops', stops=['changes FFFFF 2'])['sorry'])
        ask('stops', stops=['changes B0000'])
        view = on()
        self.assertEqual((view['why'], view['clock']), ('stop', 885))
        self.assertIn('B0000 was 00, is 30: clock 884', view['told'])
        self.assertEqual([on()['clock'] for _ in range(2)], [1010, 1398])
        view = ask('step')
        self.assertEqual((view['clock'], view['line']), (1424, 43))
        view = ask('last')
        self.assertEqual((view['clock'], view['told'][:30]), (1398, 'B0000 was 31, is 32: clock 139'))
        self.assertEqual([ask('who', address=0xB0000)['clock'] for _ in range(2)], [1398, 1398])
        ask('go to', clock=1300)
        view = ask('who', address=0xB0000, count=2)
        self.assertEqual((view['clock'], view['told'].partition(':')[0]), (1010, 'B0000 was 30, is 31'))
        self.assertIn('nothing has changed 00500 up to here', ask('who', address=0x500)['sorry'])
        self.assertEqual(ask('look')['clock'], 1010)
        self.assertIn('15 stops are the most', ask('stops', stops=[f'changes {at:X}' for at in range(16)])['sorry'])
        ask('stops', stops=['byte B0000 32', 'changes B0000'])
        self.assertEqual(
            [(answer['clock'], answer['told'][:19]) for answer in (on() for _ in range(2))],
            [(1398, 'B0000 was 31, is 32'), (1798, 'B0000 was 32, is 33')],
        )
