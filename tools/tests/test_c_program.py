"""A C program in ROM by its Intel HEX and symbols: tools/gdb, tools/dap and Emacs' dap-mode on it. HEX and symbols are stored; where
the compiler is installed they are made again."""
from __future__ import annotations

import base64
import os
import re
import shutil
import subprocess
import unittest
from typing import Any

from tests.support import STORED, TOP, ToolCase, is_there, not_run
from tests.test_dap import Client
from tests.test_editors import MODE_CLIENT, batch, has_dap_mode

from toolbox.intel_hex import image_of, parts_of
from toolbox.program import Files, Session
from toolbox.symbols import symbols_of

PROGRAM, EMACS = f'{STORED}/c', f'{TOP}/editors/emacs.el'
HEX, MAP = f'{PROGRAM}/sums.hex', f'{PROGRAM}/sums.map'
SUM, MAIN = 'F000:44', 'F000:67'
RUN = '{"version":1,"ram":64,"sw1":0,"sw2":0,"budget":20000,"keys":[]}'


class Symbols(unittest.TestCase):
    """What the files hold."""

    def test_symbols(self) -> None:
        with open(HEX, encoding='ascii') as file:
            found = symbols_of(MAP, image_of(file.read())).labels
        self.assertEqual((found['_sum'], found['_main'], found['_total']), ((0xF000, 0x44), (0xF000, 0x67), (0, 0x508)))

    def test_parts(self) -> None:
        with open(HEX, encoding='ascii') as file:
            found = parts_of(image_of(file.read()))
        self.assertEqual({address: len(octets) for address, octets in found.items()}, {0xFFFF0: 5, 0xF0000: 248})
        self.assertEqual(found[0xF0000][0xF0:0xF4], b'SUM ')


class Compiled(ToolCase):
    """The stored files are those of the C program."""

    def test_they_are_made_of_the_program(self) -> None:
        wanted = {'bcc': 'bcc', 'as86': 'bin86', 'ld86': 'bin86', 'objcopy': 'binutils'}
        if not all(is_there(command, 'the stored files of a C program', package) for command, package in wanted.items()):
            return
        room = shutil.copytree(PROGRAM, f'{self.room}/c')
        for name in ('sums.hex', 'sums.map'):
            os.remove(f'{room}/{name}')
        subprocess.run([f'{room}/make', 'sums', room], check=True)
        for name in ('sums.hex', 'sums.map'):
            with open(f'{room}/{name}', encoding='ascii') as made, open(f'{PROGRAM}/{name}', encoding='ascii') as stored:
                self.assertEqual(*(re.sub('Total memory.*', '', file.read()) for file in (made, stored)))


class Debugged(ToolCase):
    """By each of the debuggers, held against the board's own."""

    def setUp(self) -> None:
        super().setUp()
        self.run_file = self.file('run.json', RUN)

    def session(self, *commands: str) -> list[str]:
        """The answers of the debugger, each with what it comes to in the last line."""
        with Session(Files(HEX, self.run_file, True)) as session:
            session.many('regs')
            return [session.one(command) for command in commands]

    def clocks(self, *commands: str) -> list[str]:
        """Where the debugger stands behind each of these commands, but for those that set a stop."""
        return [answer.split()[-1] for answer in self.session(*commands) if 'clock' in answer]

    def test_it_runs(self) -> None:
        report = self.pcboard('run', '--hex', HEX, self.run_file).stdout
        self.assertIn('\nscreen\nSUM 55 ', report)

    def test_gdb(self) -> None:
        if not is_there('gdb', 'a C program in gdb', 'gdb'):
            return
        typed = (
            'break *_sum',
            'continue',
            'monitor go 0',
            'x/i $pc',
            'reverse-stepi',
            'monitor go 0',
            'x/i $pc',
            'stepi',
            'continue',
            'monitor go 0',
            'backtrace',
            'delete',
            'finish',
            'x/i $pc',
            'next',
            'x/i $pc',
            'tbreak *_main',
            'reverse-continue',
            'monitor go 0',
            'nexti 25',
            'x/i $pc',
            'nexti',
            'x/i $pc',
            'x/4cb &_text',
            'x/dh &_total',
            'info symbol 0xf0050',
        )
        out, err = self.tool('gdb', HEX, self.run_file, '--hex', '--symbols', MAP, '-nx', '-batch', *(word for line in typed for word in ('-ex', line)))
        printed = out + err
        clocks = self.clocks(f'break {SUM}', 'go 20000', 'back step', 'step', 'go 20000', f'break {MAIN}', 'back stop', 'back stop')
        wanted = ([clocks[0]] * 2, [clocks[1]], [clocks[3]] * 2)
        found = re.findall(r'^clock (\d+)$', printed, re.M)
        self.assertEqual(found[:5], [clock for them in wanted for clock in them])
        self.assertIn(clocks[5], found)
        for line in (
            '=> 0xf0044 <_sum>:\tpush   bp',
            '=> 0xf009e <_main+55>:\tcall   0xf0044 <_sum>',
            '#0  0x000f0044 in _sum ()\n#1  0x000f005e in _sum ()\n#2  0x000f00a1 in _main ()\n#3  0x000f002a in _start ()\n',
            '=> 0xf005e <_sum+26>:\tinc    sp',
            '=> 0xf00a1 <_main+58>:\tinc    sp',
            "0x500 <_text>:\t83 'S'\t85 'U'\t77 'M'\t32 ' '",
            '<_total>:\t',
            '_sum + 12 in section .text',
        ):
            self.assertIn(line, printed)

    def test_dap(self) -> None:
        os.makedirs(f'{self.room}/tmp', exist_ok=True)
        client = Client(self.room)
        self.addCleanup(client.watch.cancel)
        client.launch(HEX, run=self.run_file, symbols=MAP, stopOnEntry=True)
        client.event('stopped')
        points = client.ask('setFunctionBreakpoints', breakpoints=[{'name': '_sum'}])['breakpoints']
        self.assertEqual([point['instructionReference'] for point in points], ['0xF0044'])
        clocks = []
        for command in ('continue', 'stepBack', 'stepIn', 'stepIn', 'reverseContinue', 'continue', 'continue'):
            client.move(command)
            clocks.append(str(client.clock()))
        commands = (f'break {SUM}', 'go 20000', 'back step', 'step', 'step', 'back stop', 'go 20000', 'go 20000')
        self.assertEqual(clocks, self.clocks(*commands))
        self.assertEqual(self.names(client), ['_sum', '_sum+1A', '_sum+1A', '_main+3A', '_stop'])
        client.ask('setFunctionBreakpoints', breakpoints=[])
        for command, wanted in (('stepOut', '_sum+1A'), ('stepOut', '_sum+1A'), ('stepOut', '_main+3A')):
            client.move(command)
            self.assertEqual(self.names(client)[0], wanted)
        client.move('stepBack')
        client.move('stepBack')
        self.assertEqual(client.ask('evaluate', expression='WORD [_total]', context='watch')['result'], '00000h (0)')
        self.assertEqual(client.ask('evaluate', expression="BYTE [_text+1]", context='hover')['result'], "055h (85) 'U'")
        self.assertEqual(base64.b64decode(client.ask('readMemory', memoryReference='_text', count=4)['data']), b'SUM ')
        rows = client.ask('disassemble', memoryReference='0xF0044', instructionCount=3)['instructions']
        self.assertEqual([row['instruction'] for row in rows], ['PUSH BP', 'MOV BP,SP', 'PUSH DI'])
        client.move('continue')
        self.assertIn('SUM 55\n', self.screens(client))
        self.assertEqual(client.leave(), 0)
        self.assertEqual(os.listdir(f'{self.room}/tmp'), [])

    @staticmethod
    def names(client: Client) -> list[str]:
        """The frames' names."""
        return [frame['name'] for frame in client.ask('stackTrace', threadId=1)['stackFrames']]

    @staticmethod
    def screens(client: Client) -> str:
        """What was told of the screen so far."""
        outputs: list[dict[str, Any]] = [event['body'] for event in client.events if event['event'] == 'output']
        return ''.join(output['output'] for output in outputs)

    def test_dap_mode(self) -> None:
        if not has_dap_mode():
            not_run('a C program in Emacs with dap-mode; apt install emacs-nox elpa-dap-mode')
            return
        lines = batch(self.room, '-l', MODE_CLIENT, EMACS, HEX, self.run_file, '_sum', MAP)
        clocks = self.clocks(f'break {SUM}', 'go 20000', 'step', 'step', 'back step', 'back step', 'go 20000', 'back stop')
        self.assertEqual([line.split()[-2] for line in lines[:8]], ['0', *clocks])
        self.assertEqual([line.split()[-1] for line in lines[1:3] + lines[7:8]], ['_sum', '_sum+1', '_sum'])
        self.assertEqual(lines[8:], ['00044h (68)', 'AAAAAA==', 'gone'])


if __name__ == '__main__':
    unittest.main()
