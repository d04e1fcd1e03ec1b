"""tools/dbg, over the built program; and what it knows of places."""
import json
import os
import pty
import re
import select
import stat
import subprocess
import sys
import time
import unittest
from unittest import mock

from tests.support import SECONDS, SLOW, TOOLS, ToolCase, example, is_at_work

from toolbox.command import Sorry
from toolbox.listing import Line, Listing, code_of, label_in, line_of
from toolbox.places import address_of, event_of, far_of, line_at, number_of
from toolbox.program import path
from toolbox.report import report_of
from toolbox.runfile import DEFAULTS, text_of


class Places(unittest.TestCase):
    """Places and events, over stored lines."""

    def setUp(self) -> None:
        line = line_of(2, 'F000:002B F4                idle:   HLT')
        self.listing = Listing([Line(1, '; none', None, b''), line], {0xF002B: line}, {'idle': (0xF000, 0x2B)})

    def test_places(self) -> None:
        for text, wanted in (('idle', 0xF002B), ('IDLE+2', 0xF002D), (':1', 0xF002B), ('F000:10', 0xF0010), ('b0000', 0xB0000)):
            self.assertEqual(address_of(self.listing, text), wanted)
        for text in ('nope', ':3', '12345:0', 'idle+x'):
            with self.assertRaises(Sorry):
                far_of(self.listing, text)
        self.assertEqual([number_of(digits) for digits in ('0B8h', '0x10', 'ff')], [0xB8, 0x10, 0xFF])

    def test_labels_and_comments(self) -> None:
        self.assertEqual(code_of(" DB ';' ; it"), " DB ';'")
        self.assertEqual([label_in(line) for line in ('a: NOP', ' ES: MOVSB', '; b: x', ' x EQU 1')], ['a', None, None, None])
        self.assertEqual(self.listing.label_before(0xF000, 0x2D), 'idle+2')
        self.assertEqual(self.listing.label_before(0xF000, 0x2A), '')

    def test_events(self) -> None:
        event = event_of('141 F000:002B F4 HLT')
        self.assertEqual((event.clock, event.address, event.text, event.entry), (141, 0xF002B, 'HLT', None))
        self.assertEqual(line_at(self.listing, event), self.listing.lines[1])
        self.assertIsNone(line_at(self.listing, event_of('141 F000:002B 90 NOP')))
        self.assertEqual(event_of('143 F000:002C entry 08').entry, 8)


class Sessions(ToolCase):
    """Sessions on the examples."""

    def dbg(self, name: str, *commands: str) -> list[str]:
        """The answers' lines."""
        return self.called('dbg', *example(name), given='\n'.join(commands) + '\n')[0].splitlines()

    def test_stops_are_cleared(self) -> None:
        answers = self.dbg('ticks', 'break tick', 'byte b0000 31', 'go', 'clear 2', 'go', 'stops', 'go')
        self.assertEqual(
            answers[:3],
            [
                'stop 1: break F600:0058 tick',
                'stop 2: byte B0000 31',
                'stop 1 (break F600:0058 tick), clock 1009: F600:0058 tick | 41: tick:   INC BYTE ES:[0]',
            ],
        )
        self.assertEqual(
            [line.split(': ')[0] for line in answers[3:]],
            ['stop 1', 'stop 1 (break F600:0058 tick), clock 1397', 'stop 1', 'stop 1 (break F600:0058 tick), clock 1797'],
        )

    def test_goes_back(self) -> None:
        answers = self.dbg('ticks', 'to 1797', 'back', 'to 56', 'step', 'back 2')
        self.assertEqual([line.split(': ')[0] for line in answers], ['clock 1797', 'clock 1736', 'clock 56', 'clock 60', 'clock 41'])

    def test_goes_back_beyond_the_trail(self) -> None:
        answers = self.dbg('fibonacci', 'step 100', 'back 90', 'back 11', 'where', 'sound', 'back 11', 'where', 'back 10', 'back')
        (tenth,) = self.dbg('fibonacci', 'step 10')
        none = 'only {} instructions and interrupts began before this clock'
        self.assertEqual(answers[1:7], [tenth, none.format(10), tenth, 'stop 1: sound', none.format(10), tenth])
        self.assertEqual([line.split(': ')[0] for line in answers[7:]], ['clock 0', 'no instruction began before this clock'])

    def test_goes_back_to_the_last_stop(self) -> None:
        answers = self.dbg('ticks', 'last', 'break tick', 'last', 'go', 'go', 'go', 'last', 'last', 'last', 'to 1400', 'last', 'go')
        stop, none = 'stop 1 (break F600:0058 tick), clock {}', 'no stop held at any earlier clock'
        wanted = ['there is no stop; break, watch, when, byte, sound and halted add one', 'stop 1', none]
        wanted += [*(stop.format(clock) for clock in (1009, 1397, 1797, 1397, 1009)), none, 'clock 1400', stop.format(1397), stop.format(1797)]
        self.assertEqual([line.split(': ')[0] for line in answers], wanted)

    def test_the_last_stop_has_its_number_here(self) -> None:
        """At 1397 two hold, of which the least is told."""
        answers = self.dbg('ticks', 'halted', 'byte b0000 31', 'break tick', 'clear 1', 'to 1398', 'last', 'clear 2', 'to 1398', 'last')
        self.assertEqual(
            [line.split(': ')[0] for line in answers[5:]],
            ['clock 1398', 'stop 2 (byte B0000 31), clock 1397', 'stop 3', 'clock 1398', 'stop 3 (break F600:0058 tick), clock 1397'],
        )

    def test_a_session_goes_back_by_itself(self) -> None:
        """It is begun anew where a stop is cleared, and for a much later clock past stops."""
        count = self.file('count', '')
        counted = self.file('pcprobe', f'#!/bin/sh\necho >> {count}\nexec {path("pcprobe")} "$@"\n')
        os.chmod(counted, 0o755)
        with mock.patch.dict(os.environ, {'PCPROBE': counted}):
            for commands, wanted in (
                (('to 1797', 'back', 'to 3', 'back 9'), 1),
                (('break tick', 'go', 'go', 'last', 'back', 'to 3'), 1),
                (('halted', 'to 1797'), 1),
                (('halted', 'to 2000000'), 2),
                (('halted', 'go', 'clear 1', 'clear all'), 2),
            ):
                self.file('count', '')
                self.dbg('ticks', *commands)
                with open(count, encoding='ascii') as file:
                    self.assertEqual(len(file.readlines()), wanted, commands)

    def test_changes(self) -> None:
        """They stay where the session is begun anew, and for what runs a board of its own; a way back undoes them, and says so."""
        answers = self.dbg(
            'ticks',
            *('to 1000', 'AX = 1234h', 'AL = 7', '[tick] = 90h', 'ZF = 1', 'regs', 'break tick', 'to 2000000', 'clear 1', 'state', 'u tick 1', 'undo'),
            *('to 1100', 'BX = 5', 'key a 3000', 'next', 'back 3', 'keys', 'to 1100', '[0:400] = 1, 2', 'last 400', 'to 1000', 'undo', 'AX = 70000', 'Q = 1'),
            *('AX = 5 5', '[A0000] = 1', '[nope] = 1', 'undo 1', 'log writes 300'),
        )
        for wanted in (
            'AX = 01234h (4660)',
            'AX=1207 BX=FFFF CX=0000 DX=03B8 SP=FFFA BP=0000 SI=0000 DI=0000',
            'F6058: 90',
            'ZF = 001h (1)',
            'set: PF AF ZF SF',
            'F600:0058 tick         90             NOP',
            'clock 1000: undone: AX 1234, AX 1207, F6058 90, FL F0D6',
            'BX = 00005h (5)',
            'clock 1100: undone: BX 5',
            'no keys',
            '00400: 01 02',
            'nothing changed there before this clock',
            'clock 1100: undone: 400 01 02',
            'nothing was set that could be undone',
            '70000 is no number of 16 bits',
            'Q is no register, flag, label or number',
            '5 is one word too many',
            'no byte can be set there: beside RAM, text memory (B0000 to B0FFF) and ROM (F0000 to FFFFF) nothing keeps one',
        ):
            self.assertIn(wanted, answers)
        self.assertRegex('\n'.join(answers), r'clock 2000000: (halted|running)')
        self.assertIn('\n', self.called('dbg', *example('ticks'), given='help set\nhelp undo\n')[0])

    def test_keys_that_are_typed(self) -> None:
        """They come at their stamps, also after a way back and where the session is begun anew; a report has them; what is written
        repeats the run."""
        run = self.file('none.json', text_of(DEFAULTS | {'budget': 9000}))
        out = f'{self.room}/typed.json'
        lines = ['to 2999', 'key 23', 'key i 5,000', 'key a3 4000', 'to 0', 'to 9000', 'screen', 'break key', 'to 4100', 'clear 1', 'to 9000']
        found = self.called('dbg', example('keys')[0], run, given='\n'.join([*lines, 'screen', 'keys', f'keys {out}', 'state']))[0].splitlines()
        self.assertEqual(found[1:4], ['key 23 at clock 3000', 'key 17 at clock 5000, 97 at clock 5500', 'key A3 at clock 4000'])
        stamps = [[3000, 0x23], [4000, 0xA3], [5000, 0x17], [5500, 0x97]]
        with open(out, encoding='utf-8') as file:
            self.assertEqual(json.load(file), DEFAULTS | {'budget': 9000, 'keys': stamps})
        report = report_of(self.pcboard('run', example('keys')[0], out).stdout)
        self.assertEqual(([line for line in found if line == 'HI'], report.text), (['HI'] * 2, 'HI'))
        self.assertIn('        3000 23 h down', found)
        self.assertIn('        5500 97 i up', found)
        self.assertIn(f'clock 9000: {report.state}', next(line for line in found if line.startswith('clock 9000: halted since')))

    def test_keys_that_are_refused(self) -> None:
        """Each in a sentence, and nothing changes."""
        found = self.dbg(
            'keys', 'to 700', 'key', 'key 54', 'key zz', 'key \u00e4', 'key 1E 700', 'key a 700', 'key 1E x', 'key 1E 1099511627777', 'key a 1099511627776'
        )
        found += self.dbg('keys', 'to 700', 'key f1', 'key 1 2,000', 'key 01 3000', 'key I 5000')
        self.assertEqual(
            [line.partition(':')[0] for line in found if not line.startswith('clock')],
            [
                'use',
                'no key sends 54',
                'zz is no key',
                '\u00e4 is no key',
                *['a key comes at a later clock than the present one, 700'] * 2,
                'x is no clock',
                *['no run goes beyond clock 2^40, and no key comes there'] * 2,
                'key 3B at clock 701, BB at clock 1201',
                'key 02 at clock 2000, 82 at clock 2500',
                'key 01 at clock 3000',
                'key 2A at clock 5000, 17 at clock 5001, 97 at clock 5501, AA at clock 5502',
            ],
        )
        memory = self.file('pcprobe', SLOW.replace("word == 'break'", "word == 'key'").replace("'stop 1'", "'fault 53 Memory'"))
        os.chmod(memory, 0o755)
        with mock.patch.dict(os.environ, {'PCPROBE': memory}):
            self.assertEqual(self.dbg('keys', 'key 1E', 'keys')[0], 'there is no memory for one more key, and none was typed')

    def test_goes_to_the_end(self) -> None:
        answers = self.dbg('hello', 'go', 'screen', 'state', 'go')
        self.assertIn('clock 100: F000:0017', answers[0])
        self.assertEqual(answers[3], 'HI')
        self.assertEqual(answers[5:8], ['clock 100: halted since clock 72', '0 keys lost', 'speaker low, 0 changes'])
        self.assertIn('the run file ends at clock 100', answers[-1])

    def test_keeps_the_clock_table(self) -> None:
        out, _ = self.called('dbg', *self.hello_by_c2(), given='go\nstate\nback\nto 70\nback\n')
        answers = out.splitlines()
        self.assertIn('clock 100: halted since clock 80', answers)
        self.assertEqual([line.split(': ')[0] for line in answers[-3:]], ['clock 79', 'clock 70', 'clock 67'])

    def test_tells_a_jam(self) -> None:
        files = self.program('        NOP\n        DB 0Fh', 100)
        out, _ = self.called('dbg', *files, given='go\nstate\nlist\n')
        self.assertIn('jammed since clock', out)
        self.assertIn('>    4 F000:0001', out)

    def test_tells_lost_keys(self) -> None:
        files = self.program('        HLT', 1000)
        keys = ','.join(f'[{100 + i},30]' for i in range(18))
        run = self.file('k.json', f'{{"version":1,"ram":64,"sw1":0,"sw2":0,"budget":1000,"keys":[{keys}]}}')
        out, _ = self.called('dbg', files[0], run, given='to 500\nstate\n')
        self.assertIn('2 keys lost, the first by clock 116, the last by clock 117', out)

    def test_source_and_memory(self) -> None:
        answers = self.dbg('ticks', 'list :41 1', 'dump tick 2', 'labels', 'trail', 'step', 'trail 1', 'regs')
        self.assertEqual(answers[0], '    41 F600:0058 tick:   INC BYTE ES:[0]')
        self.assertEqual(answers[1].split(), ['F6058:', '26', 'FE', '&.'])
        self.assertEqual(answers[5:8], ['F600:0058 tick', 'F600:0062 mc6845', 'nothing yet'])
        self.assertIn('| 51: JMP FAR start', answers[9])
        self.assertEqual(answers[-1], 'set: no flag')

    def test_a_place_without_a_line(self) -> None:
        """Its instructions are shown, and the session goes on."""
        answers = self.dbg('first', 'list 0050:0003 2', 'list B000:0 1', 'list start 1', 'list CS:IP 1', 'q', 'regs')
        no_line = 'no line of the source begins there; these instructions stand in memory:'
        self.assertEqual([answers[0], answers[3]], [no_line] * 2)
        self.assertEqual(
            [answers[at].split() for at in (1, 2)],
            [['0050:0003', 'start+3', 'D88ED0BC', 'ESC', '001h,WORD', '[BP+0BCD0h]'], ['0050:0007', 'start+7', 'E500', 'IN', 'AX,000h']],
        )
        self.assertEqual(answers[4].split(), ['B000:0000', '0000', 'ADD', '[BX+SI],AL'])
        self.assertEqual([line.split()[:2] for line in answers[5:]], [['3', '0050:0000'], ['>', '47']])

    def test_without_a_run_file(self) -> None:
        """It is that of tools/runfile, for dbg, trace, gdb and why."""
        source, _ = self.program('        HLT')
        self.assertIn('clock 10000000: ', self.called('dbg', source, given='go\n')[0])
        self.assertIn(' 10000000 halted\n', self.called('trace', source)[0])
        self.assertIn('clock 10000000\n', self.called('why', 'run', source)[0])
        self.assertEqual(self.tool('why', 'debug', source, given='go 30\n')[0], 'clock 30\n')

    def test_conditions(self) -> None:
        """Forth and back; a stop that holds beside one whose condition doesn't is told, whichever was set first."""
        answers = self.dbg(
            'ticks',
            'break tick if BYTE ES:[0] = 32h',
            'byte b0000 31',
            'go',
            'clear 2',
            'go',
            'last',
            'break tick if FROB = 1',
            'break tick if',
            'break tick',
            'stops',
            'go',
            'last',
            'last',
        )
        first = 'stop 1 (break F600:0058 tick if BYTE ES:[0] = 32h), clock 1797'
        self.assertEqual(answers[:2], ['stop 1: break F600:0058 tick if BYTE ES:[0] = 32h', 'stop 2: byte B0000 31'])
        self.assertEqual([line.split(': F600')[0] for line in answers[2:5:2]], ['stop 2 (byte B0000 31), clock 1010', first])
        self.assertEqual(answers[5:8], ['no stop held at any earlier clock', 'FROB is no register, flag, label or number', 'use: break PLACE [if CONDITION]'])
        other = 'stop 3 (break F600:0058 tick), clock '
        self.assertEqual([line.split(': F600')[0] for line in answers[-3:]], [f'{other}2197', first, f'{other}1397'])  # of two the least is told

    def test_hex_has_no_lines(self) -> None:
        source, run = example('monitor')
        out, _ = self.called('dbg', source.replace('.asm', '.hex'), run, '--hex', given='step\nlist\nbreak F600:0000\n')
        self.assertIn('Intel HEX has no source lines', out)
        self.assertIn('stop 1: break F600:0000', out)

    def test_refusals(self) -> None:
        answers = self.dbg('hello', 'frob', 'break nope', 'go x', 'clear 3', 'byte b0000 100', 'to 2000000000000', 'help go')
        for line, wanted in zip(answers, ('no command', 'no label', 'no number of clocks', 'no stop 3', 'up to FF', 'no clock', 'go [N]')):
            self.assertIn(wanted, line)
        self.assertIn("can't be read", self.tool('dbg', 'no.asm', 'no.json', status=3)[1])
        self.assertIn('fault 3', self.tool('dbg', example('hello')[1], example('hello')[1], status=2)[1])
        self.assertIn('--hex', self.tool('dbg', '--help')[0])

    def test_a_long_command(self) -> None:
        """It is refused, and isn't what a blank line gives again; of a long word the beginning is told."""
        answers = self.dbg('hello', 'clear 3', 'x' * 4097, '', 'y' * 4096)
        none, last = 'there is no stop 3; stops lists them', f'{"y" * 160} .. and 3,936 characters more is no command; help lists them'
        self.assertEqual(answers, [none, 'a command has at most 4,096 characters', none, last])

    def test_the_program_stays_what_it_was(self) -> None:
        files = self.program('        NOP\n        HLT')
        with subprocess.Popen([sys.executable, '-S', f'{TOOLS}/dbg', *files], stdin=subprocess.PIPE, stdout=subprocess.PIPE, text=True) as dbg:
            assert dbg.stdin and dbg.stdout
            print('halted\nto 21', file=dbg.stdin, flush=True)
            answers = [dbg.stdout.readline(), dbg.stdout.readline()]
            self.file('it.asm', 'not a program')
            print('to 19\nclear all\nstep', file=dbg.stdin, flush=True)
            answers += dbg.communicate()[0].splitlines()
        self.assertEqual([line.split(': ')[0].strip() for line in answers[1:]], ['clock 21', 'clock 19', 'no stops', 'clock 20'])

    def test_seventeen_stops(self) -> None:
        answers = self.dbg('hello', *['halted'] * 17, 'clear all', 'halted')
        self.assertIn('there are 16 stops', answers[16])
        self.assertEqual(answers[17:], ['no stops', 'stop 17: halted'])
        self.assertEqual(self.dbg('hello', *['halted'] * 17, 'stops')[-1], 'stop 16: halted')

    def test_moments(self) -> None:
        """Each line says what runs with the key do."""
        stops, up_to = ['halted', 'when keys'], 0
        lines = self.dbg('ticks', *stops, 'moments 1E 1 2000 1500')[2:]
        for line in lines:
            first, last, end = re.fullmatch(r' *(\d+) to +(\d+): (.*)', line).groups()  # type: ignore[union-attr]
            self.assertEqual(int(first), up_to + 1)
            up_to = int(last)
            for stamp in {int(first), (int(first) + up_to) // 2, up_to}:
                run = [answer for answer in self.dbg('ticks', *stops, f'key 1E {stamp}', 'go 1500') if ', clock ' in answer][-1]
                stop, least, greatest = re.fullmatch(r'(.*), clock (\d+)(?: to (\d+))?', end).groups()  # type: ignore[union-attr]
                self.assertTrue(run.startswith(f'{stop}, clock '), (line, stamp, run))
                self.assertIn(int(run.split('clock ')[1].split(':')[0]), range(int(least), int(greatest or least) + 1))
        self.assertEqual(up_to, 2000)

    def test_moments_of_two_keys(self) -> None:
        """The first one that comes is met; what can't be asked is told of the second, too."""
        asked = ('moments 1E 940 942 960 9E 3', 'moments 1E 5 6 1 9E', 'moments 1E 5 6 1 FF 1', 'moments FF 5 6 1 9E 1', 'moments 1E 5 6 1 9E 1 1')
        lines = self.dbg('ticks', 'when keys', *asked)[1:]
        self.assertEqual(lines[0], '      940 to       942: stop 1 (when keys), clock 940 to 942')
        for line, said in zip(lines[1:], ('how many clocks after the first', 'no key sends FF', 'no key sends FF', 'use: moments KEY FIRST')):
            self.assertIn(said, line)

    def test_moments_that_cant_be_asked(self) -> None:
        answers = self.dbg(
            'ticks', 'moments ctrl+c 1 2 3', 'moments 1E 0 5 5', 'moments FF 1 2 3', 'moments 1E 5 4 3', 'break tick if AX=5', 'moments 1E 1 2 3'
        )
        for line, said in zip(
            answers[:4] + answers[5:], ('ctrl+c is not one key', 'a key comes at a later clock', 'no key sends FF', '5 is after 4', 'clear 1 first')
        ):
            self.assertIn(said, line)


class Terminal(ToolCase):
    """Control-C on a terminal, by which nothing is lost."""

    def setUp(self) -> None:
        super().setUp()
        self.files = self.program('again:  INC AX\n        JMP SHORT again', 1 << 40)  # which no leap passes
        self.begin()
        self.addCleanup(self.leave)

    def begin(self) -> None:
        """Starts the debugger."""
        self.pid, self.terminal = pty.fork()
        if not self.pid:
            own = {'TERM': 'dumb', 'XDG_STATE_HOME': f'{self.room}/state'}
            os.execve(sys.executable, [sys.executable, '-S', f'{TOOLS}/dbg', *self.files], os.environ | own)
        self.shown = ''
        self.wait_for('dbg> ')

    def leave(self) -> None:
        """Ends the debugger."""
        os.close(self.terminal)
        os.waitpid(self.pid, 0)

    def wait_for(self, text: str, meanwhile: bytes = b'', pause: float = 20) -> str:
        """What is shown before a text; while nothing is for so many seconds, something is typed again and again."""
        end = time.monotonic() + SECONDS
        while text not in self.shown and time.monotonic() < end:
            if select.select([self.terminal], [], [], pause)[0]:
                self.shown += os.read(self.terminal, 4096).decode()
            elif meanwhile:
                os.write(self.terminal, meanwhile)
        self.assertIn(text, self.shown)
        before, _, self.shown = self.shown.partition(text)
        return before

    def say(self, command: str) -> str:
        """What a command shows behind its own line."""
        os.write(self.terminal, f'{command}\n'.encode())
        self.wait_for(command)
        return self.wait_for('dbg> ').partition('\n')[2].replace('\r', '')

    def test_ends_a_run(self) -> None:
        """Where it has come to, with its stops, if there are any."""
        for stops in ('no stops\n', 'stop 1: byte B0000 77\n'):
            for command, typed in (
                ('go 1000000000000', b'\x03\x03\x03'),
                ('to 1000000000000', b'\x03'),
                ('step 1000000000', b'\x03'),
                ('until 0:0', b'\x03'),
                ('finish', b'\x03'),
            ):
                self.say('to 1000')
                os.write(self.terminal, f'{command}\n'.encode())
                self.assertTrue(is_at_work(self.pid, 0.05))
                os.write(self.terminal, typed)
                self.wait_for('interrupted, ')
                there = self.wait_for('dbg> ').replace('\r', '')
                self.assertRegex(there, r'^clock \d+: F000:000(0 start \| 3: again:  INC AX|1 start\+1 \| 4: JMP SHORT again)\n$')
                self.assertGreater(int(there.split()[1].strip(':')), 1000, command)
                self.assertEqual((self.say('where'), self.say('stops')), (there, stops), command)
            self.say('byte b0000 77')

    def test_ends_a_way_back(self) -> None:
        """To a stop that never held: the board stays within the run, with its stop."""
        self.say('to 1000000000')
        self.say('byte b0000 77')
        os.write(self.terminal, b'last\n')
        self.assertTrue(is_at_work(self.pid))
        os.write(self.terminal, b'\x03')
        self.wait_for('interrupted, ')
        there = self.wait_for('dbg> ').replace('\r', '')
        self.assertEqual((self.say('where'), self.say('stops')), (there, 'stop 1: byte B0000 77\n'))
        self.assertIn('clock 20: ', self.say('to 20'))

    def test_what_was_typed_comes_back(self) -> None:
        """By the arrow key in the next session, for this user alone."""
        self.say('dump 12345 1')
        os.write(self.terminal, b'q\n')
        self.leave()
        path = f'{self.room}/state/zebludor/dbg/history'
        self.assertEqual([stat.S_IMODE(os.stat(name).st_mode) for name in (path, os.path.dirname(path))], [0o600, 0o700])
        self.begin()
        os.write(self.terminal, 2 * b'\x1b[A' + b'\n')
        self.wait_for('12345: ')

    def test_what_cannot_be_kept_is_told_once(self) -> None:
        """And what is there stays as it is."""
        os.makedirs(f'{self.room}/state/zebludor/dbg')
        path = self.file('state/zebludor/dbg/history', 'where\n')
        os.chmod(path, 0o400)
        self.assertIn(f"dbg: what you type isn't kept: {path} can't be written: it is read-only\n", self.say('where'))
        self.assertNotIn("isn't kept", self.say('where'))
        with open(path, encoding='ascii') as file:
            self.assertEqual(file.read(), 'where\n')

    def test_the_oldest_line_goes(self) -> None:
        """Of 1,000."""
        os.makedirs(f'{self.room}/state/zebludor/dbg')
        path = self.file('state/zebludor/dbg/history', ''.join(f'to {number}\n' for number in range(1000)))
        self.say('where')
        with open(path, encoding='ascii') as file:
            self.assertEqual(file.read().splitlines(), [*(f'to {number}' for number in range(1, 1000)), 'where'])

    def test_drops_a_line(self) -> None:
        before = self.say('to 1000')
        os.write(self.terminal, b'go 100000')
        self.wait_for('go 100000')
        os.write(self.terminal, b'\x03')
        # Python's reader of lines sees a control-C late that comes just before it begins to wait.
        self.wait_for('dbg> ', b'\x03')
        self.assertEqual(self.say('where'), before)


if __name__ == '__main__':
    unittest.main()
