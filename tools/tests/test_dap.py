"""tools/dap, by a client of the tests' own, over the built program; each place is held against a session of debug."""
from __future__ import annotations

import base64
import json
import os
import random
import signal
import subprocess
import sys
import tempfile
import threading
import time
import unittest
import unittest.mock
from typing import Any

from tests.protocol import types
from tests.support import SECONDS, SLOW, TOOLS, ToolCase, example, not_run, rooms_in

from toolbox.framing import Broken, Reader
from toolbox.places import is_repeated, operation_of, value_number
from toolbox.program import Files, Session, path
from toolbox.report import registers_of

Fields = dict[str, Any]


class Client:
    """An editor, as far as the protocol goes. Where the protocol's types are installed, each message is held against them: what the
    adapter sends, and each request that it answers with success."""

    def __init__(self, room: str, *words: str) -> None:
        """With words, these start the adapter."""
        self.adapter = self.started(room, *words)
        self.count, self.events, self.requests = 0, list[Fields](), dict[int, Fields]()
        self.is_held = True  # whether requests are; none is that is wrong on purpose
        assert self.adapter.stdout
        self.reader = Reader(self.adapter.stdout.fileno())
        self.watch = threading.Timer(SECONDS, self.adapter.kill)
        self.watch.daemon = True  # a test that fails doesn't wait for it
        self.watch.start()

    def started(self, room: str, *words: str) -> Any:
        """The adapter, a process."""
        return subprocess.Popen(
            words or [sys.executable, '-S', f'{TOOLS}/dap'],
            stdin=subprocess.PIPE,
            stdout=subprocess.PIPE,
            stderr=subprocess.PIPE,
            cwd=room,
            env=os.environ | {'XDG_RUNTIME_DIR': room},
        )

    def raw(self, octets: bytes) -> None:
        """Sends bytes."""
        assert self.adapter.stdin
        self.adapter.stdin.write(octets)
        self.adapter.stdin.flush()

    def send(self, command: str, **arguments: Any) -> int:
        """Sends a request, and returns its number."""
        self.count += 1
        self.requests[self.count] = {'seq': self.count, 'type': 'request', 'command': command, 'arguments': arguments}
        body = json.dumps(self.requests[self.count]).encode()
        self.raw(b'Content-Length: %d\r\n\r\n%b' % (len(body), body))
        return self.count

    def read(self) -> Fields:
        """The next message."""
        message = self.reader.next()
        assert isinstance(message, dict), self.adapter.stderr and self.adapter.stderr.read()
        if known := types():
            asked = self.requests.get(message.get('request_seq', 0)) if message.get('success') and self.is_held else None
            wrong = known.wrong_message(message) + (known.wrong_message(asked) if asked else [])
            assert not wrong, (wrong, message, asked)
        return message

    def response(self, number: int) -> Fields:
        """The response to a request; events on the way are kept."""
        while True:
            message = self.read()
            if message['type'] == 'event':
                self.events.append(message)
            elif message['request_seq'] == number:
                return message

    def ask(self, command: str, **arguments: Any) -> Fields:
        """The body that answers a request."""
        answer = self.response(self.send(command, **arguments))
        assert answer['success'], answer
        return answer['body']

    def refused(self, command: str, **arguments: Any) -> str:
        """Why a request is refused."""
        answer = self.response(self.send(command, **arguments))
        assert not answer['success'], answer
        return answer['message']

    def event(self, name: str) -> Fields:
        """The next event of this name."""
        while True:
            found = next((event for event in self.events if event['event'] == name), None)
            if found:
                self.events.remove(found)
                return found['body']
            message = self.read()
            if message['type'] == 'event':
                self.events.append(message)

    def launch(self, source: str, *lines: int, **more: Any) -> list[Fields]:
        """Begins as an editor does, and returns its breakpoints."""
        self.ask('initialize', adapterID='zebludor', linesStartAt1=True)
        self.ask('launch', program=source, **more)
        self.event('initialized')
        points = self.lines(source, *lines)
        self.ask('setExceptionBreakpoints', filters=[])
        self.ask('configurationDone')
        return points

    def lines(self, source: str, *lines: int) -> list[Fields]:
        """Sets breakpoints by line."""
        return self.ask('setBreakpoints', source={'path': source}, breakpoints=[{'line': line} for line in lines])['breakpoints']

    def move(self, command: str) -> Fields:
        """Moves, and returns the stop."""
        self.ask(command, threadId=1)
        return self.event('stopped')

    def variables(self, which: int) -> dict[str, str]:
        """A scope's variables."""
        return {variable['name']: variable['value'] for variable in self.ask('variables', variablesReference=which)['variables']}

    def clock(self) -> int:
        """Where the board stands."""
        return int(self.variables(3)['clock'])

    def line(self) -> int:
        """The present line."""
        return self.ask('stackTrace', threadId=1)['stackFrames'][0]['line']

    def leave(self) -> int:
        """Disconnects, and returns the adapter's status."""
        self.ask('disconnect')
        return self.end()

    def end(self) -> int:
        """Closes the streams and waits."""
        assert self.adapter.stdin and self.adapter.stdout and self.adapter.stderr
        try:
            self.adapter.stdin.close()
        except BrokenPipeError:
            pass
        status = self.adapter.wait()
        self.watch.cancel()
        self.complaints = self.adapter.stderr.read().decode()
        self.adapter.stdout.close()
        self.adapter.stderr.close()
        return status


class Words(unittest.TestCase):
    """What needs no board."""

    def test_operations(self) -> None:
        self.assertEqual([operation_of(text) for text in ('REP MOVSW', 'ES: INC BYTE [00000h]', 'HLT', 'LOCK XCHG AX,BX')], ['MOVSW', 'INC', 'HLT', 'XCHG'])
        self.assertEqual([is_repeated(text) for text in ('REP ES: MOVSW', 'MOVSW', 'REPNE SCASB')], [True, False, True])
        self.assertEqual([value_number(text) for text in ('0B8h', '0x10', '101b', '17')], [0xB8, 0x10, 5, 17])

    def test_the_protocols_types(self) -> None:
        """What is held against them is found: a field too few, too many, of another type; a word that isn't one of them."""
        known = types()
        if known is None:
            not_run("messages against the protocol's types; apt install node-vscode-debugprotocol")
            return
        stopped = {'seq': 1, 'type': 'event', 'event': 'stopped', 'body': {'reason': 'step', 'hitBreakpointIds': [1]}}
        done = {'seq': 1, 'type': 'response', 'request_seq': 1, 'success': True, 'command': 'source', 'body': {'content': ''}}
        for right in (
            stopped,
            done,
            done | {'command': 'pause', 'body': {}},
            {'seq': 1, 'type': 'request', 'command': 'launch', 'arguments': {'program': 'x'}},
        ):
            self.assertEqual(known.wrong_message(right), [])
        for wrong in (
            stopped | {'body': {}},
            stopped | {'body': {'reason': 'step', 'threadId': '1'}},
            stopped | {'body': {'reason': 'step', 'hitBreakpointIds': [1, 'x']}},
            stopped | {'body': {'reason': 'step', 'colour': 1}},
            stopped | {'event': 'frob'},
            done | {'body': {}},
            done | {'request_seq': True},
            done | {'success': False, 'body': {'error': {'id': 1}}},
            {'seq': 1, 'type': 'request', 'command': 'launch', 'arguments': {'noDebug': 'x'}},
            {'seq': 1, 'type': 'event', 'event': 'output', 'body': {'output': '', 'group': 'middle'}},
        ):
            self.assertEqual(len(known.wrong_message(wrong)), 1, wrong)

    def test_messages(self) -> None:
        with tempfile.TemporaryFile() as file:
            file.write(
                b'Content-Length: 2\r\n\r\n{}Content-Length: 1\r\n\r\n[X: 1\r\n\r\nContent-Length: 3000000\r\n\r\n'
                + b' ' * 3000000
                + b'Content-Length: 2\r\n\r\n[]Content-Length: 2\r\nX: y\r\n\r\n{}'
                + b'x' * 9000
                + b'\r\nContent-Length: 2\r\n\r\n{}Content-Length: 9\r\n\r\n{'
            )
            file.seek(0)
            reader = Reader(file.fileno())
            found = [reader.next() for _ in range(8)]
        kinds = ['broken' if isinstance(message, Broken) else message for message in found]
        self.assertEqual(kinds, [{}, 'broken', 'broken', 'broken', 'broken', {}, {}, None])


class Sessions(ToolCase):
    """Sessions on the examples."""

    def client(self) -> Client:
        client = Client(self.room)
        self.addCleanup(client.watch.cancel)
        return client

    def agrees(self, client: Client, name: str) -> None:
        """Registers and memory are those of a session that goes there directly."""
        registers = {register: int(value.split('h')[0], 16) for register, value in client.variables(1).items()}
        body = client.ask('readMemory', memoryReference='0xB0000', count=64)
        with Session(Files(*example(name))) as session:
            session.many('regs')
            session.go_to(client.clock())
            self.assertEqual(registers, registers_of(session.many('regs')))
            self.assertEqual(base64.b64decode(body['data']), session.dump(0xB0000, 64))

    def test_forth_and_back(self) -> None:
        client, (source, run) = self.client(), example('ticks')
        points = client.launch(source, 41, 40, run=run, stopOnEntry=True)
        self.assertEqual([(point['verified'], point['line']) for point in points], [(True, 41), (True, 41)])
        self.assertIn('line 40 places nothing', points[1]['message'])
        self.assertEqual(client.event('stopped')['reason'], 'entry')
        self.assertEqual((client.clock(), client.line()), (0, 51))
        clocks = []
        for command in ('continue', 'continue', 'reverseContinue', 'stepBack', 'stepIn', 'next', 'continue', 'continue', 'continue'):
            clocks.append((client.move(command)['reason'], client.clock()))
            self.agrees(client, 'ticks')
        self.assertEqual(clocks[:5], [('breakpoint', 1009), ('breakpoint', 1397), ('breakpoint', 1009), ('step', 948), ('step', 1009)])
        self.assertEqual(clocks[6], ('breakpoint', 1397))
        self.assertEqual(client.leave(), 0)
        self.assertEqual(rooms_in(self.room), [])

    def test_a_program_with_services(self) -> None:
        """It begins at its first line, steps go over what the services do, forth and back, and its end is told."""
        lines = ' MOV AH,9', ' MOV DX,text', ' INT 21h', ' MOV AX,4C03h', ' INT 21h', "text: DB 'Hello$'", 'ENDS'
        source = self.file('it.asm', '\n'.join(('SEGMENT MAIN AT 100h', ' ORG 100h', 'start: NOP', *lines, '')))
        client = self.client()
        points = client.launch(source, 7, stopOnEntry=True)
        self.assertEqual([(point['verified'], point['line']) for point in points], [(True, 7)])
        self.assertIn('it.asm runs with the services (docs/services.md); "services": false runs it without', client.event('output')['output'])
        self.assertEqual((client.event('stopped')['reason'], client.line()), ('entry', 3))
        for command, line in (('stepIn', 4), ('next', 5), ('stepIn', 6), ('stepIn', 7), ('stepBack', 6), ('stepBack', 5), ('continue', 7), ('next', 8)):
            client.move(command)
            self.assertEqual(client.line(), line, command)
        self.assertIn('Hello', client.event('output')['output'])
        stop = client.move('continue')
        self.assertIn('ended with exit code 3', stop['text'])
        clock = client.clock()
        self.assertLess(clock, 100_000)
        self.assertEqual((client.move('stepBack')['reason'], client.line()), ('step', 8))
        self.assertIn('ended with exit code 3', client.move('stepIn')['text'])
        self.assertEqual(client.clock(), clock)
        client.move('stepBack')
        client.ask('stepIn', threadId=1, granularity='instruction')
        client.event('stopped')
        self.assertEqual(client.ask('stackTrace', threadId=1)['stackFrames'][0]['name'], 'dos_dos')
        self.assertEqual(client.leave(), 0)
        self.assertEqual(rooms_in(self.room), [])

    def test_services_said_otherwise(self) -> None:
        source = self.file('it.asm', 'SEGMENT MAIN AT 100h\n ORG 100h\nstart: MOV AH,8\n INT 21h\n INT 20h\nENDS\n')
        client = self.client()
        client.launch(source, keys='x', services=True, args='tail')
        self.assertIn('ended by INT 20h', client.event('stopped')['text'])
        self.assertEqual(client.leave(), 0)
        bare = self.client()
        bare.launch(source, services=False)
        self.assertIn('the run ends at clock 10000000, jammed', bare.event('stopped')['text'])
        self.assertEqual(bare.leave(), 0)

    def test_random_walks(self) -> None:
        """Forty moves forth and back each; at some of them the board is held against a session that goes there directly."""
        for name, line in (('ticks', 44), ('fibonacci', 48), ('clock', 41), ('strings', 20)):
            moves, client = random.Random(name), self.client()
            client.launch(example(name)[0], line, run=example(name)[1], stopOnEntry=True)
            client.event('stopped')
            for count in range(1, 41):
                kind = moves.choice(('continue', 'next', 'stepIn', 'stepIn', 'stepOut', 'stepBack', 'reverseContinue'))
                if client.response(client.send(kind, threadId=1))['success']:
                    client.event('stopped')
                if count % 8 == 0:
                    self.agrees(client, name)
            self.assertEqual(client.leave(), 0)

    def test_the_end_and_the_start(self) -> None:
        client, (source, run) = self.client(), example('hello')
        client.launch(source, run=run)
        self.assertIn('the run ends at clock 100, halted', client.event('stopped')['text'])
        self.assertIn('HI\n', client.event('output')['output'])
        self.assertIn('the run ends at clock 100', client.refused('continue', threadId=1))
        self.assertEqual(client.move('reverseContinue')['reason'], 'entry')
        self.assertEqual(client.clock(), 0)
        self.assertIn('start of the run', client.refused('stepBack', threadId=1))
        self.assertEqual(client.leave(), 0)

    def test_calls_interrupts_and_repeats(self) -> None:
        lines = (
            '        MOV SP,400h\n        MOV DI,0\n        MOV CX,900\n        CALL some\n        REP STOSB\n        HLT\n'
            'some:   MOV AX,5\nagain:  DEC AX\n        JNZ again\n        RET'
        )
        source, run = self.program(lines, 100000)
        client = self.client()
        client.launch(source, 6, run=run)
        client.event('stopped')
        self.assertEqual(client.line(), 6)
        seen = []
        for command in ('next', 'next', 'stepBack', 'reverseContinue', 'stepIn', 'next', 'stepOut'):
            client.move(command)
            seen.append(client.line())
        self.assertEqual(seen, [7, 8, 7, 6, 9, 10, 7])
        client.lines(source, 11)
        client.move('reverseContinue')
        frames = client.ask('stackTrace', threadId=1)['stackFrames']
        self.assertEqual([(frame['name'], frame['line']) for frame in frames], [('again+1', 11), ('start+C', 7)])
        self.assertEqual(client.leave(), 0)

    def test_callers_by_the_chain(self) -> None:
        """Behind a long loop the trail tells no caller; BP does, and where it doesn't there is none."""
        lines = (
            '        MOV SP,400h\n        CALL outer\n        HLT\nouter:  PUSH BP\n        MOV BP,SP\n        CALL inner\n        POP BP\n        RET\n'
            'inner:  PUSH BP\n        MOV BP,SP\n        MOV CX,100\nhere:   LOOP here\n        NOP\n        POP BP\n        RET'
        )
        source, run = self.program(lines, 10000)
        client = self.client()
        client.launch(source, 15, run=run)
        client.event('stopped')
        self.assertEqual([frame['line'] for frame in client.ask('stackTrace', threadId=1)['stackFrames']], [15, 9, 5])
        client.move('stepOut')
        self.assertEqual(client.line(), 9)
        self.assertEqual(client.leave(), 0)
        client = self.client()
        client.launch(example('nested')[0], 30, run=example('nested')[1])
        client.event('stopped')
        self.assertEqual([frame['line'] for frame in client.ask('stackTrace', threadId=1)['stackFrames']], [30])
        self.assertEqual(client.leave(), 0)

    def test_looking(self) -> None:
        client, (source, run) = self.client(), example('ticks')
        client.launch(source, 41, run=run)
        client.event('stopped')
        for text, wanted in (
            ('AX', '0B000h'),
            ('tick', '00058h (88)'),
            ('BYTE ES:[0]', "030h (48) '0'"),
            ('AX+2*3', '0B006h'),
            ('WORD CS:[tick]', '0FE26h'),
            ('IF', '000h (0)'),
            ('-1+tick', '00057h'),
            ("'A'", '041h'),
        ):
            self.assertIn(wanted, client.ask('evaluate', expression=text, context='watch')['result'], text)
        for text in ('nope', '', '1 2', '[', 'BYTE', '(1', '@', '1+', '((((' * 80):
            client.refused('evaluate', expression=text, context='hover')
        self.assertIn('AX=B000', client.ask('evaluate', expression='regs', context='repl')['result'])
        self.assertEqual(client.variables(2)['IF'], '0')
        rows = client.ask('disassemble', memoryReference='0xF6058', instructionOffset=-2, instructionCount=5)['instructions']
        self.assertEqual(
            [(row['address'], row['instruction']) for row in rows],
            [('0xF6055', 'HLT'), ('0xF6056', 'JMP SHORT idle'), ('0xF6058', 'INC BYTE ES:[0]'), ('0xF605D', 'MOV AL,20h'), ('0xF605F', 'OUT 20h,AL')],
        )
        last = client.ask('readMemory', memoryReference='0xFFFFF', count=4)
        self.assertEqual((len(base64.b64decode(last['data'])), last['unreadableBytes']), (1, 3))
        answer = client.ask('setInstructionBreakpoints', breakpoints=[{'instructionReference': '0xF605F'}, {'instructionReference': '0x50000'}])
        self.assertEqual([point['verified'] for point in answer['breakpoints']], [True, False])
        self.assertEqual(client.move('continue')['reason'], 'instruction breakpoint')
        client.ask('setFunctionBreakpoints', breakpoints=[{'name': 'tick'}, {'name': 'F600:61'}, {'name': 'nope'}])
        client.move('continue')
        self.assertEqual(client.line(), 44)
        self.assertEqual(client.leave(), 0)

    def test_changes(self) -> None:
        """Registers, halves, flags, data and its elements, the stack, memory; undone by the console, and by a step back over them."""
        lines = (
            '        MOV SP,400h\n        MOV AX,1234h\n        PUSH AX\n        CALL inner\n        HLT\ninner:  NOP\n        NOP\n        RET\nENDS\n'
            "SEGMENT MINE AT 40h\nname:   DB 'HI',0\ncount:  DW 65535\nlist:   DW 1,2,3"
        )
        client = self.client()
        source, run = self.program(lines)
        client.ask('initialize', adapterID='zebludor', supportsVariableType=True, supportsMemoryReferences=True, supportsInvalidatedEvent=True)
        client.ask('launch', program=source, run=run)
        client.lines(source, 8)
        client.ask('configurationDone')
        client.event('stopped')
        before, names = client.clock(), [frame['name'] for frame in client.ask('stackTrace', threadId=1)['stackFrames']]
        for which, name, value, shown in (
            (1, 'AX', '5', '0005h'),
            (1, 'FL', 'F0D7h SF', 'F0D7h SF ZF AF PF CF'),
            (2, 'ZF', '0', '0'),
            (4, 'count', 'count+1', '00004h (4)'),
            (4, 'name', "'A', 42h", "41 42 00  'AB.'"),
            (4, 'list', '7, 8', '0007 0008 0003'),
            (9, '[2]', '-1', '0FFFFh (65535)'),
            (5, 'SP+2', '0ABCDh', 'ABCDh'),
        ):
            answer = client.ask('setVariable', variablesReference=which, name=name, value=value)
            self.assertEqual((answer['value'], client.event('invalidated')), (shown, {'areas': ['all']}), name)
        self.assertEqual(client.ask('setExpression', expression='BYTE SS:[SP+3]', value='1')['value'], '001h (1)')
        self.assertEqual(client.ask('setExpression', expression='CL', value='0FFh')['value'], '0FFh (255)')
        octets = bytes(range(40))
        self.assertEqual(client.ask('writeMemory', memoryReference='0x500', offset=3, data=base64.b64encode(octets).decode()), {'bytesWritten': 40})
        self.assertEqual(base64.b64decode(client.ask('readMemory', memoryReference='0x503', count=40)['data']), octets)
        self.assertEqual(client.ask('evaluate', expression='set [count] = 5', context='repl')['result'], '00403: 05 00')
        now = client.variables(1)
        self.assertEqual((now['AX'], now['CX'], now['FL'], client.clock()), ('0005h', '00FFh', 'F097h SF AF PF CF', before))
        self.assertEqual([frame['name'] for frame in client.ask('stackTrace', threadId=1)['stackFrames']], names)
        for command, given, why in (
            ('setVariable', {'variablesReference': 1, 'name': 'AX', 'value': '70000'}, 'no number of 16 bits'),
            ('setVariable', {'variablesReference': 2, 'name': 'ZF', 'value': '2'}, '0 or 1'),
            ('setVariable', {'variablesReference': 3, 'name': 'clock', 'value': '5'}, "can't be set"),
            ('setVariable', {'variablesReference': 4, 'name': 'nope', 'value': '5'}, "can't be set"),
            ('setVariable', {'variablesReference': 1, 'name': 'AX', 'value': ''}, '1 to 200 words'),
            ('setExpression', {'expression': 'AX+1', 'value': '1'}, 'no register, and no place'),
            ('writeMemory', {'memoryReference': '0xFFF8', 'data': base64.b64encode(bytes(20)).decode()}, 'no byte can be set there'),
            ('writeMemory', {'memoryReference': '0xFFFFF', 'data': 'AAAA'}, 'up to FFFFF'),
            ('writeMemory', {'memoryReference': '0x500', 'data': 'A'}, "isn't as the protocol has it"),
        ):
            self.assertIn(why, client.refused(command, **given), given)
        client.move('stepIn')
        client.events.clear()
        client.move('stepBack')
        self.assertEqual((client.clock(), client.variables(1)['AX']), (before, '0005h'))
        client.move('stepBack')
        self.assertIn('undone: AX 5, ', client.event('output')['output'])
        self.assertLess(client.clock(), before)
        here = client.clock()
        client.ask('setVariable', variablesReference=1, name='AX', value='5')
        self.assertEqual(client.ask('evaluate', expression='undo', context='repl')['result'], f'clock {here}: undone: AX 5')
        self.assertEqual((client.event('stopped')['reason'], client.variables(1)['AX']), ('goto', '1234h'))
        self.assertIn('nothing was set', client.refused('evaluate', expression='undo', context='repl'))
        self.assertEqual(client.leave(), 0)

    def test_data(self) -> None:
        """The labels of data with type, value and memory, as far as the client takes them; arrays in parts; stack, screen and state."""
        lines = (
            '        MOV SP,400h\n        MOV AX,1234h\n        PUSH AX\n        HLT\nENDS\nSEGMENT MINE AT 40h\n'
            "name:   DB 'HI',0\ncount:  DW 65535\nlist:   DW 1,2,3\nlarge:  DD 12345678h\nover:   DB 65"
        )
        client = self.client()
        source, run = self.program(lines)
        client.ask('initialize', adapterID='zebludor', supportsVariableType=True, supportsMemoryReferences=True)
        client.ask('launch', program=source, run=run)
        client.ask('configurationDone')
        client.event('stopped')
        scopes = {one['name']: one['variablesReference'] for one in client.ask('scopes', frameId=1)['scopes']}
        rows = client.ask('variables', variablesReference=scopes['Data'])['variables']
        self.assertEqual(
            [(one['name'], one['type'], one['value'], one['memoryReference']) for one in rows],
            [
                ('name', 'DB[3], 3 bytes', "48 49 00  'HI.'", '0x00400'),
                ('count', 'DW, 2 bytes', '0FFFFh (65535)', '0x00403'),
                ('list', 'DW[3], 6 bytes', '0001 0002 0003', '0x00405'),
                ('large', 'DD, 4 bytes', '012345678h (305419896)', '0x0040B'),
                ('over', 'DB, 1 byte', "041h (65) 'A'", '0x0040F'),
            ],
        )
        parts = client.ask('variables', variablesReference=rows[2]['variablesReference'], start=1, count=1)['variables']
        self.assertEqual([(one['name'], one['value'], one['memoryReference']) for one in parts], [('[1]', '00002h (2)', '0x00407')])
        for one in (parts[0], rows[1], rows[4]):
            self.assertEqual(client.ask('evaluate', expression=one['evaluateName'], context='watch')['result'], one['value'])
        self.assertEqual(client.variables(scopes['Stack'])['SP+0'], '1234h')
        self.assertEqual((client.variables(scopes['Board'])['state'], len(client.variables(scopes['Screen']))), ('halted', 25))
        client.refused('variables', variablesReference=99)
        self.assertEqual(client.leave(), 0)
        client = self.client()
        client.launch(source, run=run, stopOnEntry=True)
        client.event('stopped')
        self.assertEqual({name for one in client.ask('variables', variablesReference=4)['variables'] for name in one} & {'type', 'memoryReference'}, set())
        self.assertEqual(client.leave(), 0)

    def test_an_edited_source(self) -> None:
        """It is told once after each change of what the file says, and not after one of its time."""
        source, run = self.program('again:  INC AX\n        JMP SHORT again')
        client = self.client()
        client.launch(source, run=run, stopOnEntry=True)
        client.event('stopped')

        def warned() -> int:
            client.move('stepIn')
            client.lines(source, 3)
            return sum('was edited since the launch' in event['body'].get('output', '') for event in client.events)

        self.assertEqual(warned(), 0)
        os.utime(source, ns=(1, 1))
        self.assertEqual(warned(), 0)
        with open(source, 'a', encoding='utf-8') as file:
            file.write('; more\n')
        self.assertEqual((warned(), warned()), (1, 1))
        os.remove(source)
        self.assertEqual(warned(), 1)
        self.assertEqual(client.leave(), 0)

    def test_a_refused_source(self) -> None:
        source, run = self.program('        MOV AX,0x10\n        FROB\n        INT 21')
        client = self.client()
        client.ask('initialize', adapterID='zebludor')
        self.assertIn('it.asm, line 3: BadLine: hexadecimal', client.refused('launch', program=source, run=run))
        outputs = [client.event('output') for _ in range(3)]
        self.assertEqual([output['line'] for output in outputs], [3, 4, 5])
        self.assertEqual([output['output'].rstrip() for output in outputs], self.tool('why', '--lines', source, status=1)[0].splitlines())
        self.assertIn('no board', client.refused('continue', threadId=1))
        self.assertIn("can't be read", client.refused('launch', program='nothing.asm', run=run))
        bad = self.file('bad.json', '{}')
        self.assertIn('bad.json', client.refused('launch', program=example('hello')[0], run=bad))
        deep, pipe = self.file('deep.json', '{"keys":' + '[' * 1_000_000), f'{self.room}/pipe.asm'
        os.mkfifo(pipe)
        self.assertIn('(fault 31, NotJson)', client.refused('launch', program=example('hello')[0], run=deep))
        self.assertIn('it is a FIFO, and no file', client.refused('launch', program=pipe, run=run))
        self.assertEqual(client.leave(), 0)

    def test_pauses_and_new_breakpoints(self) -> None:
        source, run = self.program('again:  INC AX\n        JMP SHORT again', 1 << 39)
        client = self.client()
        client.launch(source, run=run)
        self.assertIn('pause first', client.refused('stepIn', threadId=1))
        client.ask('pause', threadId=1)
        self.assertEqual(client.event('stopped')['reason'], 'pause')
        client.ask('continue', threadId=1)
        client.ask('setBreakpoints', source={'path': source}, breakpoints=[{'line': 3}])
        client.ask('pause', threadId=1)
        client.event('stopped')
        self.assertEqual(client.move('continue')['reason'], 'breakpoint')
        self.assertEqual(client.line(), 3)
        self.assertEqual(client.leave(), 0)

    def test_a_pause_on_a_long_way_back(self) -> None:
        slow = self.file('pcprobe', SLOW)
        os.chmod(slow, 0o755)
        program = self.file('it.hex', ':00000001FF\n')
        with unittest.mock.patch.dict(os.environ, {'PCPROBE': slow}):
            client = self.client()
        client.launch(program, budget=5000, stopOnEntry=True)
        client.event('stopped')
        points = client.ask('setInstructionBreakpoints', breakpoints=[{'instructionReference': '0x00500'}])['breakpoints']
        self.assertTrue(points[0]['verified'])
        client.move('continue')
        client.ask('reverseContinue', threadId=1)
        self.assertIn('pause first', client.refused('stackTrace', threadId=1))
        client.ask('pause', threadId=1)
        self.assertEqual(client.event('stopped')['text'], 'clock 5000: paused')
        client.ask('reverseContinue', threadId=1)
        self.assertEqual(client.end(), 0)  # one that goes on the way
        self.assertEqual(rooms_in(self.room), [])

    def test_keys_of_the_console(self) -> None:
        """They come at their stamps; a label of this name is none."""
        client = self.client()
        source, run = example('keys')
        client.launch(source, 40, run=run, stopOnEntry=True)
        client.event('stopped')

        def answer(text: str) -> str:
            return client.ask('evaluate', expression=text, context='repl')['result']  # type: ignore[no-any-return]

        self.assertEqual(answer('key h 900'), 'key 23 at clock 900, A3 at clock 1400')
        self.assertIn('         900 23 h down', answer('keys'))
        self.assertIn('0005Ch', answer('key'))
        self.assertIn('keyboard latch', answer('chips'))
        self.assertIn('no key sends 54', client.refused('evaluate', expression='key 54', context='repl'))
        for clock in (1300, 800, 1300):
            client.ask('toClock', clock=clock)
            client.event('stopped')
            self.assertEqual(answer('screen')[:1], 'H' if clock == 1300 else '')
        self.assertEqual(client.leave(), 0)

    def test_to_a_clock(self) -> None:
        """By the console and by a request, earlier and later, past breakpoints; a way that lasts is paused where it is."""
        client = self.client()
        source, run = example('ticks')
        client.launch(source, 41, run=run, stopOnEntry=True)
        client.event('stopped')
        for clock in (1797, 1000, 0, 1234):
            if clock % 2:
                client.ask('toClock', clock=clock)
            else:
                client.ask('evaluate', expression=f'to {clock:,}', context='repl')
            stop = client.event('stopped')
            self.assertEqual((stop['reason'], stop['text']), ('goto', f'clock {clock}'))
            self.agrees(client, 'ticks')
        for bad in (-1, (1 << 40) + 1, 'x'):
            self.assertTrue(client.refused('toClock', clock=bad))
        self.assertIn('to is no register', client.refused('evaluate', expression='to the end', context='repl'))
        busy, long = self.program('again:  INC AX\n        JMP SHORT again', 1 << 40)  # which no leap passes
        other = self.client()
        other.launch(busy, run=long, stopOnEntry=True)
        other.event('stopped')
        other.ask('toClock', clock=1 << 39)
        time.sleep(0.2)
        other.ask('pause', threadId=1)
        self.assertEqual(other.event('stopped')['reason'], 'pause')
        self.assertTrue(0 < other.clock() < 1 << 39)
        self.assertEqual((client.leave(), other.leave()), (0, 0))

    def test_exceptions(self) -> None:
        """A jam, a halt for good and a lost key end a run where they begin, if they are wanted; and the adapter's end is told."""
        keys = ','.join(f'[{100 + i},30]' for i in range(18))
        for lines, run, kind, clock in (
            ('        NOP\n        DB 0Fh', '[]', 'jammed', 18),  # JMP FAR takes 15 clocks, NOP 3
            ('        INC AX\n        CLI\n        HLT', '[]', 'halted for good', None),
            ('        STI\nstay:   HLT\n        JMP SHORT stay', f'[{keys}]', 'key lost', 116),
        ):
            source, _ = self.program(lines)
            run_file = self.file('k.json', f'{{"version":1,"ram":64,"sw1":0,"sw2":0,"budget":1000,"keys":{run}}}')
            client, trail = self.client(), self.pcboard('debug', source, run_file, given='go 1000\ntrail\n').stdout.splitlines()
            clock = clock or int(trail[-1].split()[0])  # that of HLT
            client.launch(source, run=run_file, stopOnEntry=True)
            client.event('stopped')
            (point,) = client.ask('setExceptionBreakpoints', filters=[kind])['breakpoints']
            self.assertTrue(point['verified'])
            stop = client.move('continue')
            self.assertEqual((stop['reason'], stop['text'].partition(':')[0]), ('exception', f'clock {clock}'), stop)
            (point,) = client.ask('setExceptionBreakpoints', filters=['frob'])['breakpoints']
            self.assertIn('none of jammed', point['message'])
            client.move('reverseContinue')
            self.assertEqual(client.move('continue')['text'].partition(',')[0], 'the run ends at clock 1000')
            client.ask('terminate')
            self.assertEqual(client.event('exited'), {'exitCode': 0})
            self.assertEqual(client.end(), 0)

    def test_uris(self) -> None:
        """Where an editor speaks of files so: in the launch, at breakpoints, and in what it is told."""
        with tempfile.TemporaryDirectory(prefix='a b') as room:
            with open(example('ticks')[0], encoding='utf-8') as file, open(f'{room}/it.asm', 'w', encoding='utf-8') as to:
                to.write(file.read())
            uri = f'file://{room}/it.asm'.replace(' ', '%20')
            client = self.client()
            client.ask('initialize', adapterID='zebludor', pathFormat='uri')
            client.ask('launch', program=uri, run=example('ticks')[1])
            (point,) = client.lines(uri, 41)
            self.assertEqual((point['verified'], point['source']['path']), (True, uri))
            client.ask('configurationDone')
            self.assertEqual(client.event('stopped')['reason'], 'breakpoint')
            self.assertEqual(client.ask('stackTrace', threadId=1)['stackFrames'][0]['source']['path'], uri)
            self.assertEqual(client.leave(), 0)

    def test_seventeen_breakpoints_and_halts(self) -> None:
        client, (source, run) = self.client(), example('ticks')
        points = client.launch(source, *range(8, 31), run=run, stopOnEntry=True)
        self.assertEqual(len({point['line'] for point in points if point['verified']}), 15)
        client.event('stopped')
        client.lines(source, 39)
        client.move('continue')
        self.assertEqual(client.line(), 39)
        with Session(Files(source, run)) as session:
            session.many('regs')
            session.go_to(client.clock() - 1)
            self.assertIn('IRET', session.many('trail')[-1])
        self.assertEqual(client.leave(), 0)

    def test_keys_hex_and_symbols(self) -> None:
        source, run = example('monitor')
        symbols = self.file('monitor.sym', 'F600:0000 start\nF600:0003 third\n')
        client = self.client()
        client.launch(source.replace('.asm', '.hex'), run=run, symbols=symbols, stopOnEntry=True)
        client.event('stopped')
        client.move('stepIn')
        self.assertIn('start', client.ask('stackTrace', threadId=1)['stackFrames'][0]['name'])
        self.assertEqual(client.leave(), 0)
        client = self.client()
        client.launch(example('keys')[0], keys='a', budget=5000)
        self.assertIn('clock 5000', client.event('stopped')['text'])
        self.assertEqual(client.leave(), 0)

    def test_broken_requests(self) -> None:
        client, (source, run) = self.client(), example('hello')
        for octets in (
            b'Content-Length: 3\r\n\r\n{a}',
            b'Nothing: 1\r\n\r\n',
            b'Content-Length: 2\r\n\r\n[]',
            b'Content-Length: 10000000\r\n\r\n' + b'a' * 10000000,
            b'Content-Length: 4\r\n\r\n\xff\xfe\xff\xff',
        ):
            client.raw(octets)
            self.assertFalse(client.response(0)['success'])
        self.assertIn('no request that is known', client.refused('frobnicate'))
        self.assertIn('no board', client.refused('stackTrace', threadId=1))
        client.launch(source, run=run, stopOnEntry=True)
        client.event('stopped')
        for command, given in (
            ('setBreakpoints', {}),
            ('setBreakpoints', {'source': 3}),
            ('readMemory', {'memoryReference': 3}),
            ('readMemory', {'memoryReference': '0x0', 'count': -1}),
            ('variables', {'variablesReference': 'x'}),
            ('disassemble', {'memoryReference': '0x0', 'instructionCount': 10**9}),
            ('launch', {'program': source}),
            ('setFunctionBreakpoints', {'breakpoints': 3}),
            ('evaluate', {'expression': ['x']}),
        ):
            client.refused(command, **given)
        self.assertFalse(client.lines(source, 99999)[0]['verified'])
        self.assertFalse(client.lines('/nothing.asm', 1)[0]['verified'])
        body = b'{"seq":7000,"type":"request","command":"threads"}'
        message = b'Content-Length: %d\r\n\r\n%b' % (len(body), body)
        for half in (message[:9], message[9:40], message[40:] + message[:30]):
            client.raw(half)
            time.sleep(0.05)
        self.assertTrue(client.response(7000)['success'])
        self.assertEqual(client.end(), 0)
        self.assertEqual(rooms_in(self.room), [])

    def test_nothing_is_left(self) -> None:
        for number in (signal.SIGTERM, signal.SIGINT, None):
            client = self.client()
            client.launch(*self.program('again: JMP SHORT again', 1 << 39)[:1], run=self.program('again: JMP SHORT again', 1 << 39)[1])
            client.ask('threads')
            if number:
                client.adapter.send_signal(number)
            self.assertIn(client.end(), (0, 130))
            self.assertEqual(client.complaints, '')
            self.assertEqual(rooms_in(self.room), [])

    def test_a_board_that_dies(self) -> None:
        pid = f'{self.room}/pid'
        killed = self.file('pcprobe', f'#!/bin/sh\necho $$ > {pid}\nexec {path("pcprobe")} "$@"\n')
        os.chmod(killed, 0o755)
        client, (source, run) = None, example('hello')
        with unittest.mock.patch.dict(os.environ, {'PCPROBE': killed}):
            client = self.client()
        client.launch(source, run=run, stopOnEntry=True)
        client.event('stopped')
        with open(pid, encoding='ascii') as file:
            os.kill(int(file.read()), signal.SIGKILL)
        self.assertIn("board's process has ended", client.refused('stackTrace', threadId=1))
        client.event('terminated')
        self.assertIn('no board', client.refused('stackTrace', threadId=1))
        self.assertEqual(client.leave(), 0)


if __name__ == '__main__':
    unittest.main()
