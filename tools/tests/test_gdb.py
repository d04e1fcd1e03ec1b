"""tools/gdb: by a client of the tests' own, by hostile ones, and by gdb itself where it is installed."""
from __future__ import annotations

import contextlib
import io
import os
import random
import re
import shutil
import signal
import socket
import subprocess
import sys
import unittest
import unittest.mock

from tests.support import SECONDS, SLOW, STORED, TOOLS, TOP, ToolCase, children, example, is_at_work, is_there, name_of, processor_seconds, rooms_in, until

from toolbox.command import Sorry
from toolbox.gdb import door
from toolbox.gdb.elf import sleb, uleb
from toolbox.gdb.flow import outermost
from toolbox.gdb.stub import NAMES
from toolbox.gdb.wire import Gone, framed, unescaped
from toolbox.listing import Line, Listing, listing_of
from toolbox.places import far_of_address
from toolbox.program import Files, Session
from toolbox.report import registers_of

GDB = shutil.which('gdb')
LONG = '{"version":1,"ram":64,"sw1":0,"sw2":0,"budget":1000000000000,"keys":[]}'
RUN = '{"version":1,"ram":64,"sw1":0,"sw2":0,"budget":100000,"keys":[]}'
BUSY = 'again:  INC AX\n        JMP SHORT again'
# A handler that calls a routine, every 65,536 clocks; what it interrupts was called just before, and that one's caller at the beginning.
HANDLED = """        XOR AX,AX
        MOV SS,AX
        MOV DS,AX
        MOV SP,1000h
        MOV AL,13h
        OUT 20h,AL
        MOV AL,8
        OUT 21h,AL
        MOV AL,1
        OUT 21h,AL
        MOV AL,0FEh
        OUT 21h,AL
        MOV AL,34h
        OUT 43h,AL
        MOV AL,0
        OUT 40h,AL
        MOV AL,40h
        OUT 40h,AL
        MOV WORD [20h],handler
        MOV WORD [22h],SEG handler
        CALL whole
        HLT
whole:  STI
again:  CALL waits
        INC WORD [500h]
        JMP SHORT again
waits:  HLT
        RET
handler: PUSH AX
        CALL key
        MOV AL,20h
        OUT 20h,AL
        POP AX
        IRET
key:    INC WORD [502h]
        RET"""
CALLS = """        MOV SP,400h
        CALL near
        CALL far_on
here:   INT 3
        PUSH AX
        PUSH AX
        CALL takes
        CALL takes2
        HLT
near:   NOP
        CALL inner
        RET
far_on: CALL FAR away
        RET
inner:  MOV CX,2
again:  LOOP again
        RET
takes:  NOP
        RET 2
takes2: NOP
        RET 2
away:   NOP
        RETF
trap:   NOP
        IRET
ENDS
SEGMENT VECTORS AT 0
        DW 0,0,0,0,0,0,trap,0F000h
"""


class Words(unittest.TestCase):
    """Packets, numbers and places by themselves."""

    def test_packets(self) -> None:
        self.assertEqual(framed('OK'), b'$OK#9a')  # as gdb's manual has it
        self.assertEqual(unescaped(b'a}\x03b}\x04'), b'a#b$')

    def test_numbers(self) -> None:
        """The examples of the DWARF 3 standard, 7.6."""
        self.assertEqual([uleb(number).hex() for number in (2, 127, 128, 129, 12857)], ['02', '7f', '8001', '8101', 'b964'])
        self.assertEqual([sleb(number).hex() for number in (2, -2, 127, -127, 128, -128, -129)], ['02', '7e', 'ff00', '817f', '8001', '807f', 'ff7e'])

    def test_places(self) -> None:
        line = Line(1, 'a: NOP', (0xF000, 0x10), b'\x90')
        listing = Listing([line], {0xF0010: line}, {'b': (0x50, 4)})
        for address, wanted in ((0xF0010, (0xF000, 0x10, True)), (0x504, (0x50, 4, True)), (0xFFFF2, (0xFFFF, 2, False)), (0xF0123, (0xF000, 0x123, False))):
            self.assertEqual(far_of_address(listing, address, 0xFFFF), wanted)


class Flow(ToolCase):
    """Code to which no call leads."""

    def test_outermost(self) -> None:
        """By jumps and what stands after calls, from FFFF:0000 on; without what is called, also by a jump, and without handlers."""
        lines = (
            '        CALL one\n        JMP SHORT more\n        NOP\nmore:   JZ less\n        JMP two\nless:   LOOP more\n        JMP FAR last\n'
            'one:    INC AX\n        JMP SHORT two\nhandle: IRET\ntwo:    RET\nlast:   HLT\n        JMP SHORT last'
        )
        source, run = self.program(lines)
        found = listing_of(Files(source, run))
        first = {address: line.number for address, line in found.at.items()}
        self.assertEqual(sorted(first[one] for one, _ in outermost(found)), [3, 4, 6, 7, 8, 9, 14, 15, 18])


class Client:
    """A client that speaks the protocol, with acknowledgements."""

    def __init__(self, port: int) -> None:
        self.socket = socket.create_connection(('127.0.0.1', port), SECONDS)
        self.socket.setsockopt(socket.IPPROTO_TCP, socket.TCP_NODELAY, 1)
        self.held, self.shown = b'', ''

    def close(self) -> None:
        self.socket.close()

    def byte(self) -> bytes:
        if not self.held:
            self.held = self.socket.recv(1 << 16)
            if not self.held:
                raise EOFError
        found, self.held = self.held[:1], self.held[1:]
        return found

    def packet(self) -> str:
        """The next packet; what is shown meanwhile is kept."""
        while True:
            while self.byte() != b'$':
                pass
            text = b''
            while (sign := self.byte()) != b'#':
                text += sign
            assert framed(text.decode())[-2:] == self.byte() + self.byte()
            try:
                self.socket.sendall(b'+')
            except OSError:
                pass  # who has said the last word may be gone
            if text[:1] == b'O' and text != b'OK':
                self.shown += bytes.fromhex(text[1:].decode()).decode()
            else:
                return text.decode()

    def ask(self, request: str) -> str:
        self.socket.sendall(framed(request))
        return self.packet()

    def monitor(self, command: str) -> str:
        """What a command of the debugger shows."""
        self.shown = ''
        assert self.ask('qRcmd,' + command.encode().hex()) == 'OK'
        return self.shown

    def registers(self) -> list[int]:
        text = bytes.fromhex(self.ask('g').rstrip('x'))
        return [int.from_bytes(text[at : at + 4], 'little') for at in range(0, len(text), 4)]


class Doors(ToolCase):
    """Who is let in, by the listener alone."""

    def door(self, of_room: bool = False) -> door.Door:
        """One at a port of the system's choice, or in the test's folder."""
        found = door.in_room(self.room) if of_room else door.at_port(0)
        self.addCleanup(found.close)
        return found

    def comes(self, to: door.Door, family: int = socket.AF_INET) -> socket.socket:
        """A client that has come to a door."""
        line = socket.socket(family)
        self.addCleanup(line.close)
        places = {socket.AF_INET: '127.0.0.1', socket.AF_INET6: '::ffff:127.0.0.1'}
        line.connect(to.target if family == socket.AF_UNIX else (places[family], to.listener.getsockname()[1]))
        return line

    def test_whose_connection_it_is(self) -> None:
        """By the kernel's tables, also of a client that speaks the newer protocol; of one that is ending they tell no user."""
        entrance = self.door()
        for family in (socket.AF_INET, *((socket.AF_INET6,) if os.path.exists('/proc/net/tcp6') else ())):
            line = self.comes(entrance, family)
            connection = entrance.listener.accept()[0]
            self.addCleanup(connection.close)
            self.assertEqual(door.user_of(connection), os.geteuid())
            line.shutdown(socket.SHUT_WR)
            self.assertIsNone(door.user_of(connection))
            line.close()
            self.assertIsNone(door.user_of(connection))
        with unittest.mock.patch.multiple(door, TABLE='/proc/none', SECOND_TABLE='/proc/none'):
            line = self.comes(entrance)
            with contextlib.redirect_stderr(io.StringIO()) as printed:
                entrance.take(is_busy=False)  # where there is no table nobody is let in
            self.assertEqual((line.recv(1), printed.getvalue()), (b'', 'gdb: a client whose user is unknown was sent away\n'))
            with self.assertRaisesRegex(Sorry, "can't be served"):
                door.at_port(0)

    def test_a_client_that_keeps_silent(self) -> None:
        """Who comes meanwhile has to wait, and is served once it is let go; so many may."""
        for family in (socket.AF_INET, socket.AF_UNIX):
            entrance = self.door(family == socket.AF_UNIX)
            silent, *others = [self.comes(entrance, family) for _ in range(2)]
            first = entrance.next(None)
            assert first
            self.addCleanup(first.close)
            with unittest.mock.patch.object(door, 'SECONDS_TO_SPEAK', 0):
                wire = door.Heard(first, entrance)
                others[0].sendall(framed('g'))
                entrance.take(is_busy=False)
                others += [self.comes(entrance, family) for _ in range(door.MOST_WAITING)]
                for _ in range(door.MOST_WAITING):
                    entrance.take(is_busy=False)
                self.assertEqual(others[-1].recv(1), b'')
                with self.assertRaises(Gone):
                    wire.receive()
            second = entrance.next(None)
            assert second
            self.addCleanup(second.close)
            self.assertEqual(door.Heard(second, entrance).receive(), 'g')
            silent.close()

    def test_one_that_has_gone(self) -> None:
        """Nobody stands before the door: it isn't waited for."""
        self.door().take(is_busy=False)


def told_as(lines: list[str]) -> list[int]:
    """The registers of a session as gdb is told them, but for FS and GS, which it hasn't."""
    found = registers_of(lines)
    for name, segment in (('SP', 'SS'), ('BP', 'SS'), ('IP', 'CS')):
        found[name] = (16 * found[segment] + found[name]) % (1 << 20)
    return [found[register] for register in NAMES]


class Served(ToolCase):
    """Clients of the tests' own."""

    def serve(self, file: str, run: str, *words: str) -> tuple[subprocess.Popen[str], int]:
        """The tool as it serves, with its port."""
        tool = subprocess.Popen(
            [sys.executable, '-S', f'{TOOLS}/gdb', '--serve', file, run, *words],
            stdout=subprocess.PIPE,
            stderr=subprocess.PIPE,
            text=True,
            env=os.environ | {'XDG_RUNTIME_DIR': self.room},
        )
        self.addCleanup(self.leave, tool)
        assert tool.stdout
        script = tool.stdout.readline().split()[-1]
        with open(script, encoding='utf-8') as text:
            return tool, int(text.read().strip().rpartition(':')[2])

    @staticmethod
    def leave(tool: subprocess.Popen[str]) -> None:
        if tool.poll() is None:
            tool.terminate()
        tool.communicate()

    def client(self, file: str, run: str, *words: str) -> Client:
        self.tool_process, self.port = self.serve(file, run, *words)
        client = Client(self.port)
        self.addCleanup(client.close)
        return client

    def next_client(self) -> Client:
        """The one that attaches after one that is gone."""
        found = list[Client]()

        def is_there() -> bool:
            try:
                found.append(Client(self.port))
            except OSError:
                return False
            return True

        self.assertTrue(until(is_there))
        self.addCleanup(found[0].close)
        return found[0]

    def leaves(self, client: Client) -> None:
        """It detaches, which ends the tool."""
        self.assertEqual(client.ask('D;1'), 'OK')
        self.assert_nothing_left()

    def assert_nothing_left(self, status: int = 0) -> None:
        """That the tool ends, with its board, and leaves no file."""
        self.assertEqual(self.tool_process.wait(SECONDS), status)
        self.assertEqual(rooms_in(self.room), [])

    def board_of(self) -> int:
        """The board's process."""
        return children(self.tool_process.pid)[0]

    def test_forth_and_back(self) -> None:
        client = self.client(*example('ticks'))
        self.assertIn('ReverseContinue+', client.ask('qSupported:swbreak+'))
        self.assertEqual(client.ask('Z0,f6058,1'), 'OK')
        for request, wanted, shown in (
            ('c', 'T05swbreak:;thread:1;', 'clock 1009\n'),
            ('c', 'T05swbreak:;thread:1;', 'clock 1397\n'),
            ('bs', 'T05thread:1;', ''),
            ('bc', 'T05swbreak:;thread:1;', 'clock 1009\n'),
            ('bc', 'T05replaylog:begin;thread:1;', 'clock 0: the beginning\n'),
            ('bs', 'T05replaylog:begin;thread:1;', ''),
            ('s', 'T05thread:1;', ''),
        ):
            client.shown = ''
            self.assertEqual((client.ask(request), client.shown), (wanted, shown), request)
        self.assertEqual(client.registers()[8], 0xF6000)
        self.assertEqual(client.ask('z0,f6058,1'), 'OK')
        self.assertEqual(client.ask('c'), 'T18thread:1;')
        self.assertIn("clock 100000: the end of the run file's budget; the processor is halted", client.shown)
        self.assertEqual(client.ask('m' + 'fffff,10'), 'ff')
        self.assertEqual(client.ask('D'), 'OK')
        self.assert_nothing_left()

    def test_stops_of_monitor_come_first(self) -> None:
        client = self.client(*example('ticks'))
        client.ask('Z0,f6058,1')
        self.assertEqual(client.ask('c'), 'T05thread:1;')  # a client that knows no swbreak isn't told of one
        self.assertEqual(client.monitor('byte B0000 31'), 'stop 1\n')
        client.shown = ''
        client.ask('c')
        self.assertEqual(client.shown, 'clock 1010: stop 1 (byte B0000 31)\n')
        client.ask('z0,f6058,1')
        self.assertEqual(client.monitor('back 10'), 'clock 1000\n')
        self.assertEqual(client.monitor('go 1000'), 'stop 1 clock 1010\n')
        self.assertEqual(client.monitor('go x'), 'fault 51 BadCommand\n')
        self.assertIn("gdb's own quit", client.monitor('quit'))

    def test_keys_of_monitor(self) -> None:
        """A key comes at its stamp, after a way back and in a session that is begun anew too; what the probe runs is none of gdb's."""
        client = self.client(*example('keys'))
        self.assertEqual(client.monitor('go 700'), 'clock 700\n')
        self.assertEqual(client.monitor('key h 900'), 'key 23 at clock 900, A3 at clock 1400\n')
        self.assertEqual(client.monitor('key 23'), 'key 23 at clock 701\n')
        for command, answer in (
            ('key', 'use: key CODE'),
            ('key 54', 'no key sends 54'),
            ('key 23 700', 'a key comes at a later clock'),
            ('events 5 starts', 'passes'),
        ):
            self.assertIn(answer, client.monitor(command))
        self.assertEqual(client.monitor('clock'), 'clock 700\n')
        self.assertIn('         900 23 h down\n', client.monitor('keys'))
        self.assertIn('keyboard latch', client.monitor('chips'))
        screens = list[str]()
        for commands in (('go 900',), ('back 1500', 'go 1500'), ('byte B0000 48', 'to 0', 'to 1600')):
            for command in commands:
                client.monitor(command)
            screens.append(client.monitor('screen').split('\n')[0])
            self.assertEqual(client.monitor('clock'), 'clock 1600\n')
        self.assertEqual(screens, ['HH'] * 3)

    def test_more_stops_than_sixteen(self) -> None:
        client = self.client(*example('fibonacci'))
        for place in range(40):
            client.ask(f'Z0,{0x100 + place:x},1')
            client.ask('Z0,f0002,1')
            client.ask('c')
            client.ask('bc')
            client.ask(f'z0,{0x100 + place:x},1')
        self.assertEqual([client.ask(f'Z0,{0x100 + i:x},1')[:2] for i in range(16)], ['OK'] * 15 + ['E.'])

    def test_conditions(self) -> None:
        """They come with a breakpoint as bytecode, one of which is to hold; of hits that don't count nothing is told."""
        client = self.client(*self.program(BUSY, 100_000))
        self.assertIn('ConditionalBreakpoints+', client.ask('qSupported:swbreak+'))
        for number in (7, 9):  # its first register's 16 bits are this
            self.assertEqual(client.ask(f'Z0,f0001,1;X9,2600002a10220{number}1327;X9,2600002a1022ff1327'), 'OK')
            client.shown = ''
            self.assertTrue(client.ask('c').startswith('T05'))
            self.assertEqual((client.registers()[0], client.shown.count('clock')), (number, 1))
        self.assertTrue(client.ask('c').startswith('T05'))
        self.assertEqual(client.registers()[0], 0xFF)
        self.assertTrue(client.ask('bc').startswith('T05'))
        self.assertEqual(client.registers()[0], 9)
        for broken in ('X2,27', 'X1,ff', 'X0,', 'Xg,27'):
            self.assertTrue(client.ask(f'Z0,f0001,1;{broken}').startswith('E'), broken)

    def test_begins_anew(self) -> None:
        """By `vRun` of the extended protocol, in which neither kill nor detach ends the board; `monitor exit` does."""
        client = self.client(*example('ticks'))
        self.assertEqual(client.ask('vRun;'), '')
        self.assertEqual((client.ask('!'), client.ask('Z0,f6058,1'), client.ask('c')), ('OK', 'OK', 'T05thread:1;'))
        self.assertEqual((client.ask('vKill;1'), client.ask('vRun;'), client.monitor('clock')), ('OK', 'T05thread:1;', 'clock 0\n'))
        self.assertEqual((client.ask('c')[:3], client.monitor('clock')), ('T18', 'clock 100000\n'))  # gdb puts its breakpoints in anew
        client.monitor('to 77')
        self.assertEqual((client.ask('D;1'), client.ask('vAttach;1'), client.monitor('clock')), ('OK', 'T05thread:1;', 'clock 77\n'))
        client.close()
        after = self.next_client()
        self.assertEqual((after.monitor('clock'), after.ask('?')), ('clock 77\n', 'S05'))
        after.monitor('exit')
        self.assert_nothing_left()

    def test_to_a_clock(self) -> None:
        """Earlier and later, past breakpoints and stops; an interrupt ends the way where it is."""
        files = example('ticks')
        client = self.client(*files)
        self.assertEqual((client.ask('Z0,f6058,1'), client.monitor('byte B0000 31'), client.monitor('clock')), ('OK', 'stop 1\n', 'clock 0\n'))
        with Session(Files(*files)) as direct:
            for clock in (1797, 1000, 0, 1234, 5):
                direct.go_to(clock)
                self.assertEqual((client.monitor(f'to {clock}'), client.monitor('clock')), (f'clock {clock}\n',) * 2)
                self.assertEqual(client.registers()[:14], told_as(direct.many('regs')))
        for bad in ('to', 'to x', f'to {(1 << 40) + 1}', 'to 1 2'):
            self.assertIn('a decimal number', client.monitor(bad))
        self.assertEqual(client.monitor('clock'), 'clock 5\n')
        busy = self.client(*self.program(BUSY, 1 << 40))
        busy.socket.sendall(framed('qRcmd,' + b'to 1000000000000'.hex()))
        self.assertTrue(is_at_work(self.tool_process.pid))
        busy.socket.sendall(b'\x03')
        self.assertEqual(busy.packet(), 'OK')
        self.assertRegex(busy.shown, r'^interrupted, clock [1-9]\d+\n$')

    def test_what_is_written(self) -> None:
        """Registers one by one and together, those that are addresses too; memory; and a place to go on from."""
        client = self.client(*example('ticks'))
        client.monitor('to 1000')
        before = client.registers()[:14]
        for request, wanted in (
            ('P0=34120000', {'AX': 0x1234}),
            ('P1=ffff0000', {'CX': 0xFFFF}),
            ('P9=d7ff0000', {'FL': 0xFFD7}),
            ('P4=00020000', {'SP': 0x200}),
            ('P8=5f600f00', {'IP': 0x5F}),
            ('P8=f0ff0f00', {'CS': 0xFFFF, 'IP': 0}),
            ('P20=0700', {'IP': 7}),
            ('P21=0800', {'SP': 8}),
            ('P22=0900', {'BP': 9}),
        ):
            self.assertEqual(client.ask(request), 'OK', request)
            self.assertLessEqual(wanted.items(), registers_of(client.monitor('regs').splitlines()).items(), request)
        self.assertIn('undone: AX 1234, CX FFFF', client.monitor('undo'))
        self.assertEqual(client.registers()[:14], before)
        self.assertEqual(client.ask('G' + ''.join(value.to_bytes(4, 'little').hex() for value in [7, *before[1:9], 0xF002, *before[10:]]) + 16 * '0'), 'OK')
        self.assertEqual(client.monitor('undo'), 'clock 1000: undone: AX 7, FL F002\n')
        for request, address, octets in (('M400,2:4142', 0x400, '4142'), ('Xf6058,1:\x7d\x03', 0xF6058, '23'), ('X0,0:', 0x400, '4142')):
            self.assertEqual((client.ask(request), client.ask(f'm{address:x},{len(octets) // 2}')), ('OK', octets))
        self.assertEqual(client.ask('cf6055')[:3], 'T18')
        self.assertEqual(client.monitor('to 999'), 'clock 1000: undone: 400 41 42, F6058 23, IP 55\nclock 999\n')
        for request in (
            'P0=00000100',
            'P0=00',
            'P4=00000f00',
            'Pe=00000000',
            'P7f=00000000',
            'G00',
            'M500,1:',
            'M500,1:zz',
            'M500,2:00',
            'Ma0000,1:00',
            'Mfffff,2:0000',
            'X',
            'M',
        ):
            self.assertEqual(client.ask(request)[:1], 'E', request)
        self.assertEqual(client.registers()[8], 0xF6058)
        self.leaves(client)

    def test_set_and_undo_of_monitor(self) -> None:
        """As the debugger takes it, or with =; a way back over a change tells of it, one that leads to nothing leaves it."""
        client = self.client(*example('ticks'))
        client.monitor('to 1000')
        for command, shown in (
            ('set AX 5', 'clock 1000'),
            ('set AL = 7', 'AL = 007h (7)'),
            ('set [tick] = 90h', 'F6058: 90'),
            ('go 5', 'clock 1005'),
            ('set BX 1', 'clock 1005'),
            ('back 6', 'clock 1005: undone: BX 1\nclock 1000: undone: AX 5, AX 7, F6058 90\nclock 999'),
            ('set BX 1', 'clock 999'),
            ('back step', 'clock 999: undone: BX 1\nclock 948'),
            ('set BX 1', 'clock 948'),
            ('byte 400 77', 'stop 1'),
            ('back stop', 'fault 54 BeforeStart'),
            ('undo', 'clock 948: undone: BX 1'),
            ('undo', 'nothing was set that could be undone'),
            ('set AX', 'the debugger refuses: fault 51 BadCommand'),
            ('set A0000 1', 'no byte can be set there: beside RAM, text memory (B0000 to B0FFF) and ROM (F0000 to FFFFF) nothing keeps one'),
        ):
            self.assertEqual(client.monitor(command), f'{shown}\n', command)
        client.monitor('set BX 1')
        client.shown = ''
        self.assertEqual((client.ask('bs'), client.shown), ('T05thread:1;', 'clock 948: undone: BX 1\n'))
        self.leaves(client)

    def test_an_interrupt(self) -> None:
        client = self.client(self.program(BUSY)[0], self.file('long.json', LONG))
        client.socket.sendall(framed('c'))
        self.assertTrue(is_at_work(self.tool_process.pid))
        client.socket.sendall(b'\x03')
        self.assertEqual(client.packet(), 'T02thread:1;')
        self.assertIn('interrupted; the processor is running', client.shown)

    def test_a_jam(self) -> None:
        client = self.client(*self.program('        NOP\n        DB 0Fh', 1000))
        self.assertEqual(client.ask('c'), 'T04thread:1;')
        self.assertIn('the processor is jammed', client.shown)

    def test_clocks_before_a_boundary(self) -> None:
        """What is left of a step, and the next one, aren't steps of a jammed processor."""
        for budget in range(182, 187):
            client = self.client(*self.program(BUSY, budget))
            client.ask('c')
            self.assertIn('the processor is running', client.shown)

    def test_hostile_clients(self) -> None:
        client = self.client(*example('hello'))
        wanted = client.registers()
        client.socket.sendall(b'junk\x03+++$g#00')  # a wrong sum
        self.assertEqual(client.byte(), b'-')
        client.socket.sendall(b'$' + b'a' * 10_000_000 + b'#00')
        self.assertEqual(client.byte(), b'-')
        for request in ('', 'vMustReplyEmpty', 'nope', 'qNope', 'Z5,0,1', 'vCont?'):
            self.assertEqual(client.ask(request), '', request)
        for request in ('m', 'mx,y', 'm100000,1', 'pff', 'p', 'Z0,', 'zz', 'Z0,zz,1'):
            self.assertRegex(client.ask(request), '^(E|$)', request)
        self.assertEqual(client.ask('m0,ffffffff'), client.ask('m0,4000'))
        for text in ('zz', '676f0a', 'ff'):
            client.ask(f'qRcmd,{text}')
        for request in ('cz', 's-1', 'C05;z', 'S05;'):
            self.assertEqual(client.ask(request), 'E01', request)
        self.assertEqual(client.registers(), wanted)
        other = Client(self.port)  # which is sent away
        self.addCleanup(other.close)
        self.assertEqual(other.socket.recv(1), b'')
        self.assertEqual(client.registers(), wanted)
        client.socket.sendall(b'$g')  # half a packet, and gone
        client.close()
        self.leaves(self.next_client())

    def test_one_that_goes_in_a_run(self) -> None:
        client = self.client(self.program(BUSY)[0], self.file('long.json', LONG))
        client.socket.sendall(framed('c'))
        self.assertTrue(is_at_work(self.tool_process.pid))
        client.close()
        after = self.next_client()
        self.assertGreater(int(after.monitor('clock').split()[1]), 0)  # where the run has come to
        self.leaves(after)

    def test_one_that_never_speaks(self) -> None:
        client = self.client(*example('hello'))
        client.close()
        again = Client(self.port)
        self.addCleanup(again.close)
        self.assertEqual(again.ask('?'), 'S05')

    def test_a_board_that_dies(self) -> None:
        client = self.client(*example('hello'))
        client.ask('g')
        os.kill(self.board_of(), signal.SIGKILL)
        self.assertEqual(client.ask('s'), 'X09')
        self.assertIn('the board has died', client.shown)
        self.assert_nothing_left()

    def test_ended_from_outside(self) -> None:
        for sign, status in ((signal.SIGINT, 130), (signal.SIGTERM, 143)):
            client = self.client(*example('hello'))
            client.ask('g')
            self.tool_process.send_signal(sign)
            self.assert_nothing_left(status)

    def test_an_interrupt_on_a_long_way_back(self) -> None:
        """A way back can't be ended; so another board takes the place of one that is on it."""
        slow = self.file('pcprobe', SLOW)
        os.chmod(slow, 0o755)
        with unittest.mock.patch.dict(os.environ, {'PCPROBE': slow}):
            client = self.client(self.file('it.hex', ':00000001FF\n'), self.file('long.json', LONG), '--hex')
        self.assertEqual(client.monitor('go 5000'), 'clock 5000\n')
        first = self.board_of()
        client.ask('Z0,500,1')
        client.socket.sendall(framed('bc') + b'\x03')
        self.assertEqual(client.packet(), 'T02thread:1;')
        self.assertIn('clock 5000: interrupted', client.shown)
        self.assertNotEqual(self.board_of(), first)
        self.assertEqual(client.monitor('go 5'), 'clock 5005\n')
        client.socket.sendall(framed('bc'))
        self.assertTrue(until(lambda: len(children(self.tool_process.pid)) == 2))  # the other board is beside it
        client.close()  # one that goes on the way
        after = self.next_client()
        self.assertEqual(after.monitor('clock'), 'clock 5005\n')
        self.leaves(after)

    def test_an_interrupt_on_a_very_long_way_back(self) -> None:
        """Where the other board is still far from the clock, it stays where it has come to."""
        slow = self.file('pcprobe', SLOW.replace('clock += int(more[0])', 'clock += int(more[0]); time.sleep(6 * (clock == 1 << 20))'))
        os.chmod(slow, 0o755)
        with unittest.mock.patch.dict(os.environ, {'PCPROBE': slow}):
            client = self.client(self.file('it.hex', ':00000001FF\n'), self.file('long.json', LONG), '--hex')
        client.monitor('go 1000000000')
        client.ask('Z0,500,1')
        client.socket.sendall(framed('bc') + b'\x03')
        self.assertEqual(client.packet(), 'T02thread:1;')
        self.assertIn('clock 1048576: interrupted on the way to clock 1000000000, where it was', client.shown)
        self.assertEqual(client.monitor('go 0'), 'clock 1048576\n')

    def test_here_alone(self) -> None:
        self.client(*example('hello'))
        with open('/proc/net/tcp', encoding='ascii') as file:
            rows = [line.split() for line in file if f':{self.port:04X} ' in line]
        self.assertEqual({row[1] for row in rows if row[3] == '0A'} - {f'0100007F:{self.port:04X}'}, set())

    def test_random_walks(self) -> None:
        """The end of each has the registers and memory of a session that goes there directly."""
        chance = random.Random(53)
        for name in ('ticks', 'fibonacci', 'nested', 'keys'):
            files = example(name)
            client = self.client(*files)
            client.ask('Z0,f0020,1')
            with Session(Files(*files)) as direct:
                for _ in range(5):
                    client.monitor('to 0')
                    requests = [chance.choice(('s', 's', 's', 'bs', 'bs', 'bc', 'c')) for _ in range(40)]
                    for request in requests:
                        client.ask(request)
                    direct.go_to(int(client.monitor('go 0').split()[-1]))
                    self.assertEqual(client.registers()[:14], told_as(direct.many('regs')), (name, requests))
                    for address in (0, 0x400, 0xB0000):
                        self.assertEqual(client.ask(f'm{address:x},400'), direct.dump(address, 1024).hex(), (name, requests))
            client.ask('k')
            client.close()

    def test_speed(self) -> None:
        """No step walks the run again: of the processors' time it takes less than that would."""
        client = self.client(self.program(BUSY)[0], self.file('long.json', LONG))

        def spent() -> float:
            return sum(map(processor_seconds, (self.tool_process.pid, *children(self.tool_process.pid))))

        client.monitor('go 10000000')
        for request, most in (('s', 1), ('bs', 4)):
            before = spent()
            for _ in range(5):
                client.ask(request)
                client.ask('g')
            self.assert_within((spent() - before) / 5, most, request)

    def test_refusals(self) -> None:
        self.assertIn('fault 3', self.tool('gdb', '--serve', example('hello')[1], example('hello')[1], status=2)[1])
        self.assertIn("can't be read", self.tool('gdb', 'no.asm', example('hello')[1], status=3)[1])
        self.assertIn('no words', self.tool('gdb', '--serve', *example('hello'), '-batch', status=2)[1])
        self.assertIn("can't be served", self.tool('gdb', '--serve', '99999', *example('hello'), status=2)[1])


class Gdb(ToolCase):
    """gdb itself. Where it isn't installed that is told, and nothing tried."""

    def gdb(self, files: tuple[str, str], *commands: str, words: tuple[str, ...] = ()) -> str:
        """What gdb prints."""
        if not is_there('gdb', 'gdb on the board', 'gdb'):
            return ''
        given = [word for command in commands for word in ('-ex', command)]
        out, err = self.tool('gdb', *files, *words, '-nx', '-batch', *given)
        return out + err

    def test_a_session(self) -> None:
        printed = self.gdb(
            example('ticks'),
            'break tick',
            'continue',
            'x/i $pc',
            'stepi',
            'p/x $pc',
            'reverse-stepi',
            'continue',
            'list',
            'reverse-continue',
            'reverse-continue',
            'x/2xb 0xf6058',
            'monitor regs',
            'continue',
            'set {char}0x500 = 1',
            'x/bx 0x500',
            'set $ax = 5',
            'set $bh = 6',
            'info registers ax bx',
            'set {char}&tick = 0x90',
            'x/i &tick',
            'jump *0xf6061',
            'monitor clock',
            'monitor to 1000',
            'monitor set AX 7',
            'monitor undo',
            'set {char}0xa0000 = 1',
            'monitor go 0',
        )
        for wanted in (
            (
                'Breakpoint 1, tick () at',
                '=> 0xf6058 <tick>:	inc    BYTE PTR es:0x0',
                '= 0xf605d',
                '41\ttick:   INC BYTE ES:[0]',
                'No more reverse-execution history.',
                '0xf6058 <tick>:	0x26	0xfe',
                'CS=FFFF DS=0000 ES=0000 SS=0000 IP=0000',
                '0x500:	0x01',
                'ax             0x5                 5',
                'bx             0x6ff               1791',
                '0xf6058 <tick>:	nop',
                'clock 1397',
                'clock 1009: undone: 500 01, AX 5, BX 6FF, F6058 90, IP 61',
                'undone: AX 7',
                'Cannot access memory at address 0xa0000',
            )
            if GDB
            else ()
        ):
            self.assertIn(wanted, printed)

    def started(self, *commands: str) -> subprocess.Popen[str]:
        """gdb on a run that lasts, in a group of its own, as at a terminal."""
        given = [word for command in (*commands, 'echo ready\\n', 'continue', 'monitor go 0') for word in ('-ex', command)]
        files = self.program(BUSY)[0], self.file('long.json', LONG)
        tool = subprocess.Popen(
            [sys.executable, '-S', f'{TOOLS}/gdb', *files, '-nx', '-batch', *given],
            stdout=subprocess.PIPE,
            stderr=subprocess.STDOUT,
            text=True,
            start_new_session=True,
            env=os.environ | {'XDG_RUNTIME_DIR': self.room},
        )
        self.addCleanup(Served.leave, tool)
        assert tool.stdout
        while 'ready' not in tool.stdout.readline():
            self.assertIsNone(tool.poll())
        self.assertTrue(is_at_work(tool.pid))
        return tool

    def test_a_board_that_was_ended(self) -> None:
        """Nobody is there any more, which is told at once."""
        if not is_there('gdb', 'gdb on the board', 'gdb'):
            return
        files = self.program(BUSY)
        tool = subprocess.Popen(
            [sys.executable, '-S', f'{TOOLS}/gdb', *files, '-nx', '-q', '-ex', 'monitor exit', '-ex', 'echo ready\n'],
            stdin=subprocess.PIPE,
            stdout=subprocess.PIPE,
            stderr=subprocess.STDOUT,
            text=True,
            env=os.environ | {'XDG_RUNTIME_DIR': self.room},
        )
        self.addCleanup(Served.leave, tool)
        assert tool.stdout
        while 'ready' not in tool.stdout.readline():
            self.assertIsNone(tool.poll())
        printed, _ = tool.communicate(f'disconnect\ntarget extended-remote {self.room}/zebludor/{rooms_in(self.room)[0]}/gdb\n', timeout=SECONDS)
        self.assertIn('Connection refused', printed)

    def test_control_c(self) -> None:
        if not is_there('gdb', 'gdb on the board', 'gdb'):
            return
        tool = self.started()
        os.killpg(tool.pid, signal.SIGINT)
        printed, _ = tool.communicate(timeout=SECONDS)
        for wanted in ('interrupted; the processor is running', 'Program received signal SIGINT', 'clock '):
            self.assertIn(wanted, printed)
        self.assertEqual((tool.returncode, rooms_in(self.room)), (0, []))

    def test_nothing_is_left(self) -> None:
        """Whichever of the two others is killed."""
        for name in ('gdb', 'pcprobe') if GDB else ():
            with self.subTest(name):
                tool = self.started()
                theirs = {name_of(process): process for process in children(tool.pid)}
                os.kill(next(process for whose, process in theirs.items() if whose.startswith(name)), signal.SIGKILL)
                tool.communicate(timeout=SECONDS)
                self.assertEqual(rooms_in(self.room), [])
                self.assertTrue(until(lambda: not any(os.path.exists(f'/proc/{process}') for process in theirs.values())))

    def test_each_answer(self) -> None:
        """What gdb comes to is what the debugger's own commands come to."""
        files = example('ticks')
        moves = (
            ('break *0xf6058', 'break F600:58'),
            ('continue', 'go 100000'),
            ('stepi', 'step'),
            ('stepi', 'step'),
            ('reverse-stepi', 'back step'),
            ('continue', 'go 100000'),
            ('reverse-continue', 'back stop'),
            ('monitor back 10', 'back 10'),
            ('monitor step', 'step'),
        )
        typed = [line for move, _ in moves for line in (move, 'monitor go 0', 'monitor regs', 'x/16xb 0xb0000')]
        printed = self.gdb(files, *typed)
        found, wanted = re.findall(r'^clock (\d+)\n(AX=.*)\n(CS=.*)$', printed, re.M), list[tuple[str, ...]]()
        octets = re.findall(r'^0xb0000.*:((?:\t0x..){8})\n0xb0008.*:((?:\t0x..){8})$', printed, re.M)
        memory = list[tuple[str, ...]]()
        with Session(Files(*files)) as session:
            session.many('regs')
            for _, command in moves:
                session.one(command)
                wanted.append((str(session.clock), *session.many('regs')))
                rows = ''.join(f'\t0x{octet:02x}' for octet in session.dump(0xB0000, 16))
                memory.append((rows[:40], rows[40:]))
        self.assertEqual((found, octets), (wanted, memory) if GDB else ([], []))

    def shows(self, block: str, files: tuple[str, str], *words: str) -> None:
        """Each line that a block of the page shows is printed."""
        lines = [text for text in block.splitlines() if not text.startswith('$ ')]
        typed = [text.removeprefix('(gdb) ') for text in lines if text.startswith('(gdb) ')]
        self.assertGreater(len(typed), 4)
        printed = self.gdb(files, *typed, words=words)
        for line in lines if GDB else []:
            if not line.startswith('(gdb) '):
                self.assertIn(line, printed)

    def test_the_page(self) -> None:
        with open(f'{TOP}/docs/editors.md', encoding='utf-8') as file:
            blocks = re.findall(r'^```\n(\$ .*?\n\(gdb\) .*?)^```', file.read(), re.M | re.S)
        self.assertEqual(len(blocks), 3)
        os.symlink(f'{TOP}/examples', f'{self.room}/examples')
        subprocess.run(blocks[0].splitlines()[0].removeprefix('$ '), shell=True, cwd=self.room, check=True)
        self.shows(blocks[0], (f'{self.room}/lost.asm', f'{TOP}/examples/clock.json'))
        self.shows(blocks[1], example('first'))
        self.shows(blocks[2], (f'{STORED}/c/sums.hex', self.file('run.json', RUN)), '--hex', '--symbols', f'{STORED}/c/sums.map')

    def test_a_walk(self) -> None:
        """Each of five walks by gdb, each from where the last one ended, ends where a session has the same registers and memory."""
        chance, looks = random.Random(8086), ('echo here:\\n', 'monitor go 0', 'p/x $pc', 'p/x $esp', 'x/16xb 0x400', 'monitor regs', 'echo gone:\\n')
        kinds = ('stepi', 'stepi', 'stepi', 'reverse-stepi', 'reverse-stepi', 'continue', 'reverse-continue')
        for name, label in (('ticks', 'tick'), ('fibonacci', 'digit'), ('nested', 'tick'), ('keys', 'key')) if GDB else ():
            walks = [[chance.choice(kinds) for _ in range(40)] for _ in range(5)]
            printed = self.gdb(example(name), f'break {label}', *(step for steps in walks for step in (*steps, *looks)))
            ends = re.findall(r'^clock (\d+)\n(AX=.*)\n(CS=.*)$', printed, re.M)
            shown = re.findall(r'^here:\n(.*?)^gone:\n', printed, re.M | re.S)
            with Session(Files(*example(name))) as direct:
                for steps, (clock, *lines), looked in zip(walks, ends, shown, strict=True):
                    direct.go_to(int(clock))
                    self.assertEqual(direct.many('regs'), lines, steps)
                    registers = told_as(lines)
                    memory = re.sub('..', r'\t0x\g<0>', direct.dump(0x400, 16).hex())
                    for wanted in (f'= {registers[8]:#x}\n', f'= {registers[4]:#x}\n', memory[:40], memory[40:]):
                        self.assertIn(wanted, looked, steps)

    def test_run_anew(self) -> None:
        """What everyone types: from the start to the first breakpoint, also after kill; and an attach after a detach."""
        if not is_there('gdb', 'gdb on the board', 'gdb'):
            return
        begin = ('break tick', 'continue', 'continue', 'run', 'monitor clock', 'kill', 'run', 'monitor clock', 'stepi', 'detach', 'attach 1')
        printed = self.gdb(example('ticks'), *begin, 'monitor clock', 'checkpoint')
        self.assertEqual(re.findall(r'^clock (\d+)$', printed, re.M), ['1009', '1397', '1009', '1009', '1009', '1009', '1032'])
        self.assertIn('"monitor to CLOCK" goes there', printed)

    def test_the_machine(self) -> None:
        """The 8086's own registers, flags by their bits, what it hasn't as unavailable; and no warning at the beginning."""
        if not is_there('gdb', 'gdb on the board', 'gdb'):
            return
        files = example('ticks')
        printed = self.gdb(files, 'break tick if $ip == 0x58', 'continue', 'p $ip', 'p/x $sp16', 'p/x $bp16', 'p $eflags', 'p $fs', 'p $st0', 'info registers')
        with Session(Files(*files)) as session:
            session.go_to(1009)
            registers = registers_of(session.many('regs'))
        flags = ' '.join(
            name for name, bit in {'CF': 0, 'PF': 2, 'AF': 4, 'ZF': 6, 'SF': 7, 'TF': 8, 'IF': 9, 'DF': 10, 'OF': 11}.items() if registers['FL'] >> bit & 1
        )
        values = [str(registers['IP']), f'{registers["SP"]:#x}', f'{registers["BP"]:#x}', f'[ {flags} ]', '<unavailable>', '<unavailable>']
        self.assertEqual(re.findall(r'^\$\d+ = (.*)$', printed, re.M), values)
        self.assertEqual(len(re.findall(r'^clock \d', printed, re.M)), 1)
        self.assertRegex(printed, r'\nfs +<unavailable>\ngs +<unavailable>\nip +0x58 ')
        self.assertNotIn('OS ABI', printed)

    def test_a_condition(self) -> None:
        """As gdb hands it over, forth and back."""
        if not is_there('gdb', 'gdb on the board', 'gdb'):
            return
        printed = self.gdb(
            self.program(BUSY, 100_000), 'break *0xf0001 if $eax == 77', 'continue', 'p $ax', 'condition 1 $eax > 3 && $eax < 9', 'reverse-continue', 'p $ax'
        )
        self.assertEqual(re.findall(r'^\$\d+ = (\d+)$', printed, re.M), ['77', '8'])
        self.assertEqual(printed.count('clock '), 2)

    def test_hex(self) -> None:
        source, run = self.program('        NOP\n        HLT')
        text = self.file('it.hex', self.pcboard('asm', source).stdout)
        printed = self.gdb((text, run), 'break *0xf0000', 'continue', 'p/x $pc', words=('--hex',))
        for wanted in ('where CS:IP is F000:0000; by another CS it is passed', '= 0xf0000') if GDB else ():
            self.assertIn(wanted, printed)

    def test_over_calls(self) -> None:
        """`next` goes over what a line calls, near, far or by INT, takes arguments from the stack or not; `step` goes in, `finish` out."""
        source, run = self.program(CALLS)
        typed = ['stepi', *['next'] * 9, 'reverse-continue', 'break away', 'continue', 'backtrace', 'finish', 'next', 'step', 'finish', 'monitor go 0']
        printed = self.gdb((source, run), *typed)
        with Session(Files(source, run)) as session:
            session.many('break F000:B')
            clock = session.one('go 1000').split()[-1]
        stops = [int(number) for number in re.findall(r'^(\d+)\t', printed, re.M)]
        self.assertEqual(stops, [34, 3, 4, 5, 6, 7, 8, 9, 10, 11, 12, 34, 24, 16, 6, 26, 7] if GDB else [])
        for wanted in ('#0  away () at it.asm:24\n#1  0x000f001e in far_on () at it.asm:15', f'\nclock {clock}\n') if GDB else ():
            self.assertIn(wanted, printed)

    def test_callers(self) -> None:
        """All callers are known at each instruction of a routine, and `finish` leads there; code that nothing calls has none, and gdb
        doesn't take its stack for a broken one."""
        typed = [
            'break again',
            'continue',
            'backtrace',
            'delete',
            'finish',
            'backtrace',
            'finish',
            'backtrace',
            'break away',
            'continue',
            'stepi',
            'finish',
            'monitor go 0',
        ]
        answer = self.gdb(self.program(CALLS), *typed)
        stops = [int(one) for one in re.findall(r'^(\d+)\t', answer, re.M)]
        self.assertEqual(stops, [34, 18, 14, 5, 24, 25, 16] if GDB else [])
        outer = '#{}  0x000f0006 in start () at it.asm:4\n'.format
        inner = '#0  again () at it.asm:18\n#1  0x000f0018 in near () at it.asm:13\n' + outer(2)
        for wanted in (inner, '#0  near () at it.asm:14\n' + outer(1), '\n#0  start () at it.asm:5\n') if GDB else ():
            self.assertIn(wanted, answer)
        self.assertNotIn('corrupt', answer)
        answer = self.gdb(example('ticks'), 'backtrace', 'break idle', 'continue', 'backtrace', 'up', 'finish', 'monitor go 0')
        loop = '        MOV SP,400h\n        CALL outer\n        HLT\nouter:  PUSH AX\n        CALL inner\n        POP AX\n        RET\ninner:  PUSH CX\n'
        loop += '        MOV CX,100\nhere:   LOOP here\n        POP CX\n        RET'
        far = self.gdb(self.program(loop, 100_000), 'break it.asm:13', 'continue', 'backtrace', 'finish', 'finish')
        for wanted in (
            ('#0  here () at it.asm:13\n#1  0x000f000b in outer () at it.asm:7\n#2  0x000f0006 in start () at it.asm:4', '\n8\t', '\n5\t') if GDB else ()
        ):
            self.assertIn(wanted, far)
        for wanted in ('#0  idle () at ticks.asm:38\n', 'Initial frame selected; you cannot go up', 'not meaningful in the outermost frame') if GDB else ():
            self.assertIn(wanted, answer)
        self.assertNotIn('corrupt', answer)

    def test_out_of_a_handler(self) -> None:
        """`up` and `finish` lead out of a handler and what it has called; a caller of long ago, which nothing shows any more, is told as
        unknown, and nothing is run up to it."""
        if not is_there('gdb', 'gdb on the board', 'gdb'):
            return
        files = self.program(HANDLED, 10_000_000)
        typed = ('monitor to 5000000', 'break key', 'continue', *['up'] * 3, 'backtrace', 'frame 0', *['finish'] * 3, 'backtrace', 'finish', 'advance waits')
        printed = self.gdb(files, *typed)
        frames = [('key', 'key:'), ('handler', '        CALL key'), ('waits', 'waits:'), ('again', 'again:')]
        with open(files[0], encoding='ascii') as file:
            lines = file.read().splitlines()
        numbers = [next(at for at, line in enumerate(lines, 1) if line.startswith(begin)) for _, begin in frames]
        shown = [f'#{at}  {"" if not at else "0x[0-9a-f]{8} in "}{name} \\(\\) at it.asm:{numbers[at]}\n' for at, (name, _) in enumerate(frames)]
        self.assertRegex(printed, f'{"".join(shown)}#4  0x[0-9a-f]{{8}} in unknown caller \\(\\)\n')
        self.assertRegex(printed, r'\n#0  again \(\) at it.asm:\d+\n#1  0x[0-9a-f]{8} in unknown caller \(\)\n(?!#)')
        self.assertEqual(printed.count("the caller isn't known, so nothing can be run up to it"), 1)
        stops = [int(one) for one in re.findall(r'^(\d+)\t', printed, re.M)]
        self.assertEqual(stops[-4:], [numbers[1] + 1, numbers[2] + 1, numbers[3] + 1, numbers[2]])
        self.assertNotIn('corrupt', printed)


if __name__ == '__main__':
    unittest.main()
