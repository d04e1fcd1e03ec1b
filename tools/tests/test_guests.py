"""Programs for DOS and a BIOS by the tools: .COM, .EXE, first sectors, sources with services, NASM's and bcc's."""
from __future__ import annotations

import os
import random
import shlex
import struct
import subprocess
import sys
import unittest
from unittest import mock

from tests import dosbox
from tests.desk_engine import named_library
from tests.support import TOOLS, TOP, ToolCase, example, is_there

from toolbox import guests, loading, program, services
from toolbox.command import Sorry
from toolbox.intel_hex import image_of
from toolbox.runfile import DEFAULTS, text_of

# MOV DX,0109h; MOV AH,9; INT 21h; INT 20h; 'Hello, tail: $'
HELLO = bytes.fromhex('BA0B01B409CD21CD209090') + b'Hello$'
# MOV AX,2 (relocated); MOV DS,AX; MOV DX,0; MOV AH,9; INT 21h; MOV AX,4C07h; INT 21h; in the paragraph behind: 'Exe$'
MODULE = bytes.fromhex('B802008ED8BA0000B409CD21B8074CCD21').ljust(32, b'\x90') + b'Exe$'.ljust(16, b'\0')
SOURCE = """SEGMENT MAIN AT 100h
 ORG 100h
start: NOP
 MOV AH,9
 MOV DX,text
 INT 21h
 MOV AX,4C03h
 INT 21h
text: DB 'Hello$'
ENDS
"""


def exe(**more: int) -> bytes:
    """A right .EXE program: its header, one relocation, its module; or one with other fields in its header."""
    fields = {'last': 80, 'pages': 1, 'count': 1, 'header': 2, 'least': 0x10, 'most': 0xFFFF, 'ss': 3, 'sp': 0x100}
    fields |= {'sum': 0, 'ip': 0, 'cs': 0, 'table': 0x1C, 'overlay': 0} | more
    return b'MZ' + struct.pack('<13H', *fields.values()) + struct.pack('<HH', 1, 0) + MODULE


class Guests(ToolCase):
    """By the tools, as a user runs them."""

    def binary(self, name: str, octets: bytes) -> str:
        """Writes a file of bytes."""
        path = f'{self.room}/{name}'
        with open(path, 'wb') as file:
            file.write(octets)
        return path

    def refused(self, octets: bytes, name: str, *words: str) -> str:
        """The sentence with which tools/try refuses bytes."""
        out, err = self.called('try', self.binary(name, octets), *words, status=3 if len(octets) > 1 << 20 else 2)
        self.assertEqual(out, '')
        self.assertRegex(err, r'^try: [^\n]+\n\Z')
        return err

    def test_com(self) -> None:
        out, err = self.tool('try', self.binary('it.com', HELLO))
        self.assertRegex(out, r'^Hello\n\(ended by INT 20h, at clock [\d,]+\)\n\Z')
        self.assertEqual(err, '')
        self.assertEqual(self.called('try', self.binary('IT.COM', HELLO))[0], out)
        self.assertEqual(self.called('try', '--com', self.binary('other', HELLO))[0], out)

    def test_exe(self) -> None:
        """Its relocation adds the paragraph 0110h to the 2 at 0000:0001, so DS is that of the text."""
        for name in ('it.exe', 'it.com'):  # for DOS it is its first bytes that count
            out, err = self.called('try', self.binary(name, exe()))
            self.assertRegex(out, r'^Exe\n\(ended with exit code 7, at clock [\d,]+\)\n\Z')
            self.assertEqual(err, '')
        image = loading.exe('it', exe(), '', 640).image
        self.assertEqual([image[0x1100 + at] for at in range(3)], [0xB8, 0x12, 0x01])
        self.assertEqual(struct.unpack('<6H', bytes(image[0xFFFE0 + at] for at in range(12))), (0x100, 0, 0x110, 0x100, 0x113, 0xE0))
        self.assertEqual(loading.exe('it', exe(last=0)[:32] + MODULE.ljust(480, b'\0'), '', 640).image[0x1102], 1)

    def test_sector(self) -> None:
        # MOV AX,0E53h; INT 10h; MOV AX,0E00h + DL + '0'; INT 10h; INT 19h
        code = bytes.fromhex('B8530ECD1088D00430B40ECD10CD19')
        out, err = self.called('try', self.binary('it.bin', code.ljust(510, b'\0') + b'\x55\xAA'))
        self.assertRegex(out, r'^S0\n\(ended by INT 19h: there is no diskette to begin from, at clock [\d,]+\)\n\Z')
        self.assertEqual(err, '')

    def test_source(self) -> None:
        lines = " MOV AH,9\n MOV DX,text\n INT 21h\n MOV AX,4C03h\n INT 21h\ntext: DB 'Hello$'\n"
        plain = self.file('it.asm', f'SEGMENT MAIN AT 100h\n ORG 100h\nstart:{lines}ENDS\n')
        out, err = self.called('try', '--services', plain)
        self.assertRegex(out, r'^Hello\n\(ended with exit code 3, at clock [\d,]+\)\n\Z')
        self.assertEqual(err, '')
        # The far jump of a source that also runs alone says where it begins, here behind its data.
        far = self.file('far.asm', f"SEGMENT MAIN AT 50h\n DB 'data'\nstart: MOV AX,CS\n MOV DS,AX\n{lines}ENDS\nSEGMENT R AT 0FFFFh\n JMP FAR start\nENDS\n")
        self.assertEqual(self.called('try', '--services', far)[0].split('\n')[0], 'Hello')
        for at, wrong in (('0F600h', 'where the services stand'), ('0FFFFh', 'nothing but JMP FAR')):
            path = self.file('rom.asm', f'SEGMENT MAIN AT 100h\nstart: NOP\nENDS\nSEGMENT R AT {at}\n DB 1\nENDS\n')
            self.assertIn(wrong, self.called('try', '--services', path, status=2)[1])
        high = self.file('high.asm', 'SEGMENT MAIN AT 8F00h\nstart: NOP\nENDS\n')
        self.assertIn('no room', self.called('try', '--services', high, status=2)[1])
        bad = self.file('bad.asm', 'SEGMENT MAIN AT 100h\n MOV AX,0x1\n INT 21h\nENDS\n')
        refused = self.called('try', bad, '--bare', status=1)
        self.assertIn('fault 3', refused[1])
        for words in ([], ['--services']):
            self.assertEqual(self.called('try', bad, *words, status=1), refused)

    def test_the_look_of_a_source(self) -> None:
        """A call of INT 10h, 16h, 20h or 21h, however its number is written, and no byte at FFFF:0000."""
        main, reset = 'SEGMENT MAIN AT 100h\n ORG 100h\nstart:{}\nENDS\n', 'SEGMENT R AT 0FFFFh\n JMP FAR start\nENDS\n'
        for code, is_one in (
            (' INT 21h', True),
            (' MOV AX,BX\n INT 32 ; ends', True),
            ('\nx: int 16h', True),
            (' INT DOS\nDOS EQU 21h', True),
            (' INT 10h', True),
            (' INT 21', False),
            (' INT 1Ah', False),
            (' INT 3', False),
            (' NOP ; INT 21h', False),
            (" DB 0CDh,21h,' INT 21h'", False),
            (' INT 21h,', None),
        ):
            path = self.file('look.asm', main.format(code))
            self.assertIs(services.is_served(path), is_one, code)
            self.assertIs(services.is_served(self.file('reset.asm', main.format(code) + reset)), is_one and False, code)
        behind = 'SEGMENT R AT 0FFFEh\n ORG 0Fh\n DW 0\nENDS\n'  # its second byte stands at FFFF:0000
        self.assertIs(services.is_served(self.file('behind.asm', main.format(' INT 21h') + behind)), False)
        self.assertIsNone(services.is_served(f'{self.room}/nothing.asm'))

    def test_the_look_is_within_the_limits(self) -> None:
        """A stranger's file is assembled under them, also to see whether it calls the services."""
        path, seen = self.file('it.asm', SOURCE), list[list[int]]()
        with mock.patch.object(guests, 'is_served', lambda path: seen.append(list(program.zebludor._limits)) or services.is_served(path)):
            self.called('try', path, '--memory', '100')
            self.called('why', 'run', path, '--memory', '101')
            self.called('judge', self.file('it.page', 'exit = 3\n'), path, '--memory', '102')
        self.assertEqual(seen, [[100], [101], [102]])

    def test_the_pages_table(self) -> None:
        """Each of its rows by files."""
        with open(f'{TOP}/docs/services.md', encoding='utf-8') as page:
            table = page.read().partition('\n|FILE|has the services|\n|-|-|\n')[2].partition('\n\n')[0]
        source, reset = SOURCE, f'{SOURCE}SEGMENT R AT 0FFFFh\n JMP FAR start\nENDS\n'
        com, ended, jammed = self.binary('it.com', HELLO), '(ended', '(jammed'
        cases = {
            '`.com`': [([com], ended), ([self.binary('other', HELLO), '--com'], ended), ([self.binary('it.exe', exe())], ended)],
            'a source that calls': [([self.file('it.asm', source)], ended)],
            'a source with a byte there': [
                ([self.file('far.asm', reset), '--services'], ended),
                ([self.file('no.asm', source.replace('INT 21h', 'INT 27h')), '--services'], ended),
            ],
            'anything': [([self.file('bare.asm', source), '--bare'], jammed)],
            'Intel HEX': [([self.file('it.hex', ':00000001FF\n')], jammed)],
        }
        rows = [row.strip('|').split('|') for row in table.split('\n')]
        self.assertEqual(len(rows), len(cases))
        for (name, answer), (begin, runs) in zip(rows, cases.items()):
            self.assertTrue(name.startswith(begin), name)
            self.assertEqual('--services' in answer, '--services' in runs[0][0], name)
            for words, wanted in runs:
                self.assertTrue(self.called('try', *words)[0].split('\n')[-2].startswith(wanted), words)

    def test_every_tool_takes_it_without_a_word(self) -> None:
        """And says once that it did; with --services, which is no guess, it says nothing."""
        path, page = self.file('it.asm', SOURCE), self.file('it.page', 'exit = 3\n')
        for words, wanted in (
            (['try', path], 'ended with exit code 3'),
            (['why', 'run', path], 'Hello'),
            (['dbg', path], 'Hello'),
            (['trace', path], '| 6: INT 21h'),
            (['judge', page, path], '1 met, 0 not'),
            (['moments', page, path, '--key', '1E', '--at', '100000..100002'], '2 of 2 moments tried, 0 failed'),
            (['moments', '--measure', 'start', path, '--key', '1E', '--at', '1000..1002'], '2 came to start'),
            (['picture', '--ansi', '--of', path, self.file('run.json', text_of({**DEFAULTS, 'ram': 640}))], 'Hello'),
        ):
            ran = self.tool if words[0] == 'moments' else self.called  # which has processes of its own
            out, err = ran(*words, given='go\nscreen\n')
            self.assertIn(wanted, out, words)
            self.assertEqual(err, f'{words[0]}: {path} runs with the services (docs/services.md); --bare runs it without\n')
            self.assertEqual(ran(*words, '--services', given='go\nscreen\n'), (out, ''), words)
        for words in (['try', path], ['why', 'run', path], ['dbg', path], ['trace', path]):
            out, err = self.called(*words, '--bare', given='go\nstate\n')
            self.assertNotIn('with the services (', err)
            self.assertIn('jammed', out + err)
        for more in (['--services'], ['--com'], ['--args', 'x']):
            self.assertIn('--bare goes without', self.called('try', path, '--bare', *more, status=2)[1])

    def test_what_is_refused_has_the_same_words(self) -> None:
        """Of a line that the program refuses; no tool runs anything then, so none of the services' own words come first."""
        bad = self.file('bad.asm', SOURCE.replace('MOV AH,9', 'MUL [BX]'))
        page, sized = self.file('it.page', 'exit = 3\n'), 'hint: nothing tells the size'
        for words in (['try', bad], ['why', 'run', bad], ['try', bad, '--keep', 'kept', '--output', 'out'], ['try', bad, '--args', 'x']):
            out, err = self.called(*words, status=1)
            self.assertIn(sized, err)
            self.assertEqual(self.called(*words, '--services', status=1), (out, err))
        plain = self.called('judge', page, bad, '--bare', status=1)
        self.assertIn('refused: fault 5 BadForm line 4', plain[0])
        for words in ([], ['--services']):
            self.assertEqual(self.called('judge', page, bad, *words, status=1), plain)
            room = f'{self.room}/told{len(words)}'
            self.called('judge', '--class', page, bad, *words, '--feedback', room, status=1)
            with open(f'{room}/bad/feedback.txt', encoding='utf-8') as file:
                self.assertIn(sized, file.read())
        self.assertFalse(os.path.exists(f'{self.room}/kept.hex'))

    def test_feedback_runs_as_printed(self) -> None:
        """The two commands of a submission that failed, typed in the folder that holds it."""
        page, path = self.file('it.page', 'exit = 4\n'), self.file('it.asm', SOURCE)
        for words in ([], ['--services']):
            room = f'{self.room}/told{len(words)}'
            self.called('judge', '--class', page, path, *words, '--feedback', room, status=1)
            with open(f'{room}/it/feedback.txt', encoding='utf-8') as file:
                printed = [shlex.split(line) for line in file.read().splitlines() if line.startswith('  tools/')]
            ran = [subprocess.run([f'{TOOLS}/../{command}', *rest], cwd=room, capture_output=True, text=True, check=False) for command, *rest in printed]
            self.assertEqual([one.returncode for one in ran], [1, 0], [one.stderr for one in ran])
            self.assertIn('came ended with exit code 3', ran[0].stdout)
            self.assertIn('ended with exit code 3', ran[1].stdout)

    def test_lines_are_those_of_the_source(self) -> None:
        """In a table, and where a label of the services stands, no line is."""
        path = self.file('it.asm', SOURCE + '; Ende, fin\n')
        out, _ = self.called('trace', path)
        self.assertEqual([int(line.split(' | ')[1].split(':')[0]) for line in out.splitlines()[:-1]], [3, 4, 5, 6, 7, 8])
        self.assertEqual(out.splitlines()[-1], ' 10000000 ended with exit code 3')
        self.assertIn('FE00:0000', self.called('trace', path, '--all', '--to', '100')[0])
        self.assertEqual(self.called('trace', path, '--to', '100')[0], '      100 running\n')
        self.assertEqual(self.called('trace', path, '--coverage')[0], '6 of 6 lines of code ran\n')
        profile = self.called('trace', path, '--profile')[0].splitlines()
        self.assertEqual([line.split('|')[1] for line in profile if line.endswith('the services')], [' the services'])
        self.assertEqual(len(profile), 1 + 6 + 1)
        out, _ = self.called('dbg', path, given='list 11\nlist bios_over 2\n')
        self.assertIn('fin', out)
        self.assertIn('no line of the source begins there', out)

    def test_steps_go_over_the_services(self) -> None:
        """Forth, back and to the end, which is told; `in` goes into them, and the trail has them by `all` alone."""
        path = self.file('it.asm', SOURCE)
        said = 'step\nstep 3\nstep\ntrail 2\nback 2\nto 10000000\nwhere\nstate\nback\nstep in\ntrail 1\ntrail all\nfinish\nlabels\n'
        out = self.called('dbg', path, given=said)[0].splitlines()
        shown = ['3: start: NOP', '6: INT 21h', '7: MOV AX,4C03h', '5: MOV DX,text', '6: INT 21h', '5: MOV DX,text']
        self.assertEqual([line.split(' | ')[-1] for line in out[:6]], shown)
        self.assertRegex(out[6], r'^clock 10000000: ended with exit code 3, FE00:')
        self.assertEqual(out[6], out[7])
        self.assertRegex(out[8], r'^clock 10000000: ended with exit code 3, halted since clock \d{5}$')
        rest = '\n'.join(out[9:]).split('\n')
        at = next(number for number, line in enumerate(rest) if line.endswith('| 8: INT 21h'))
        self.assertIn('dos_dos', rest[at + 1])
        self.assertTrue(rest[at + 2].endswith('| 8: INT 21h'))
        self.assertTrue(any('bios_done' in line for line in rest[at + 3 : at + 35]))
        self.assertRegex(rest[at + 35], 'ended with exit code 3')
        self.assertEqual([line.split()[1] for line in rest[at + 36 :]], ['start', 'text'])

    def test_args(self) -> None:
        """The tail at 80h, by INT 21h function 40h."""
        # MOV CL,[80h]; MOV CH,0; MOV DX,81h; MOV BX,1; MOV AH,40h; INT 21h; INT 20h
        echo = self.binary('echo.com', bytes.fromhex('8A0E8000B500BA8100BB0100B440CD21CD20'))
        for args, wanted in (('a b', b' a b'), (' ' + 'y' * 125, b' ' + b'y' * 125)):
            self.called('try', echo, f'--args={args}', '--output', 'out')
            with open(f'{self.room}/out', 'rb') as file:
                self.assertEqual(file.read(), wanted)
        tails = (('', b''), (' x', b' x'), ('/s', b' /s'), ('x' * 125, b' ' + b'x' * 125), ('x' * 126, b'x' * 126), (' ' * 126, b' ' * 126))
        for args, wanted in tails:
            self.assertEqual(loading.tail_of(args), bytes([len(wanted)]) + wanted + b'\r')
        for args, why in (('x' * 127, '126 characters at most, and here are 127'), (' ' * 127, 'here are 127'), ('ä', 'printable'), ('a\n', 'printable')):
            with self.assertRaisesRegex(Sorry, why):
                loading.tail_of(args)
        self.assertIn('126 characters at most', self.called('try', echo, '--args', 'x' * 127, status=2)[1])
        self.assertIn('goes with', self.called('try', example('hello')[0], '--args', 'x', status=2)[1])
        self.assertIn('no command', self.called('try', self.binary('s.bin', b'\0' * 510 + b'\x55\xAA'), '--args', 'x', status=2)[1])

    def test_keys(self) -> None:
        # again: MOV AH,1; INT 21h; CMP AL,13; JNE again; INT 20h
        path = self.binary('keys.com', bytes.fromhex('B401CD213C0D75F8CD20'))
        self.assertEqual(self.called('try', path, '--keys', 'Hello, World!{enter}')[0].split('\n')[0], 'Hello, World!')
        long = 'The quick brown fox jumps over the lazy dog. ' * 3
        self.assertEqual(self.called('try', path, '--keys', long + '{enter}', '--output', 'out')[0].split('\n')[0], long[:80].rstrip())

    def test_output(self) -> None:
        """All that has scrolled away; of too much nothing is written."""
        # MOV CX,30; again: MOV DX,010Eh; MOV AH,9; INT 21h; LOOP again; INT 20h
        text = b'line\r\n$'
        return_lines = self.binary('lines.com', bytes.fromhex('B91E00BA0E01B409CD21E2F7CD20') + text)
        self.called('try', return_lines, '--output', 'out')
        with open(f'{self.room}/out', 'rb') as file:
            self.assertEqual(file.read(), text[:-1] * 30)
        # MOV AL,13; MOV DI,200h; MOV CX,FC01h; PUSH CX; REP STOSB; POP CX; MOV DX,200h; MOV BX,1; MOV AH,40h; INT 21h; INT 20h
        much = self.binary('much.com', bytes.fromhex('B00DBF0002B901FC51F3AA59BA0002BB0100B440CD21CD20'))
        _, err = self.called('try', much, '--output', 'much.out', '--budget', '66,000,000', status=2)
        self.assertIn('64,513 bytes, and the services keep the first 64,512', err)
        self.assertFalse(os.path.exists(f'{self.room}/much.out'))
        self.assertIn("can't be written", self.called('try', return_lines, '--output', 'no/out', status=3)[1])
        self.assertIn('goes with', self.called('try', example('hello')[0], '--output', 'out', status=2)[1])
        self.assertIn('had not begun', self.called('try', return_lines, '--output', 'out', '--budget', '5', status=2)[1])

    def test_keep(self) -> None:
        """What is kept gives the same screen by pcboard alone, and the tools know it again."""
        path = self.binary('it.com', HELLO)
        out, _ = self.called('try', path, '--keep', 'kept')
        ran = self.pcboard('run', '--hex', f'{self.room}/kept.hex', f'{self.room}/kept.json')
        self.assertEqual(ran.stdout.split('screen\n')[1].split('\n')[0].rstrip(), 'Hello')
        page = self.file('it.page', 'exit = 0\noutput = Hello\n')
        self.assertIn('2 met, 0 not', self.called('judge', page, 'kept.hex', 'kept.json', '--hex')[0])
        self.assertIn('Hello', out)
        self.assertIn("can't be written", self.called('try', path, '--keep', 'no/kept', status=3)[1])

    def test_what_is_not_served_is_told(self) -> None:
        # MOV AH,4Bh; INT 21h; INT 20h
        out, err = self.called('try', self.binary('open.com', bytes.fromhex('B44BCD21CD20')), '--keep', 'kept')
        wanted = "why: INT 21h function 4Bh, called at 0100:0102, isn't among the services (docs/services.md)\n"
        self.assertEqual((out.split(' at clock')[0], err), ('(ended by INT 20h,', wanted))
        self.assertEqual(self.called('why', 'run', '--hex', 'kept.hex', 'kept.json')[1], wanted)
        lost = self.called('try', self.binary('wait.com', bytes.fromhex('EBFE')), '--keys', 'x' * 20)[1]
        self.assertIn("5 keys were lost: the keyboard's buffer, which holds 15, was full", lost)

    def test_judge(self) -> None:
        page = self.file('it.page', 'exit = 7\noutput = Exe\nshows = Exe\nruns = start\n')
        wrong = self.file('no.page', 'exit = 8\noutput = Ex\n')
        path = self.binary('it.exe', exe())
        self.assertIn('4 met, 0 not', self.called('judge', page, path)[0])
        out, _ = self.called('judge', wrong, path, status=1)
        self.assertEqual(out, "no  exit = 8: came ended with exit code 7\nno  output = Ex: came 'Exe'\n0 met, 2 not\n")
        typed = self.file('keys.page', 'keys = ab\nshows = ab\nexit = 0\n')
        echo = self.binary('echo.com', bytes.fromhex('B401CD21B401CD21CD20'))
        self.assertIn('2 met', self.called('judge', typed, echo)[0])
        source = self.file('s.asm', 'SEGMENT MAIN AT 100h\n ORG 100h\nstart: MOV AX,4C07h\n INT 21h\nENDS\n')
        self.assertIn('1 met', self.called('judge', self.file('e.page', 'exit = 7\n'), source, '--services')[0])
        self.assertIn('no services', self.called('judge', self.file('e.page', 'exit = 7\n'), source, '--bare', status=1)[0])
        lines = self.binary('two.com', bytes.fromhex('BA0B01B409CD21CD209090') + b'one\r\n\ttwo\r\n$')
        self.assertIn('1 met', self.called('judge', self.file('l.page', 'output = one\\n\\ttwo\n'), lines)[0])
        for line, why in (('exit = x', 'no exit code'), ('exit = 256', 'no exit code'), ('output =', 'no expectation')):
            self.assertIn(why, self.called('judge', self.file('bad.page', line + '\n'), path, status=2)[1])
        running = self.binary('loop.com', b'\xEB\xFE')
        self.assertIn('came no end up to clock', self.called('judge', self.file('e.page', 'exit = 0\n'), running, status=1)[0])
        divided = self.binary('div.com', bytes.fromhex('B300F6F3'))
        self.assertIn('came ended by a division', self.called('judge', self.file('e.page', 'exit = 255\n'), divided, status=1)[0])

    def test_judge_a_class(self) -> None:
        page = self.file('it.page', 'exit = 7\n')
        files = [self.binary('a.exe', exe()), self.binary('b.com', HELLO), self.binary('c.exe', exe()[:20])]
        out, _ = self.tool('judge', '--class', page, *files, status=1)
        rows = [line.split('\t')[1:] for line in out.splitlines()[1:]]
        self.assertEqual([row[0] for row in rows], ['1', '0', '0'])
        source = self.file('it.asm', SOURCE.replace('4C03h', '4C07h'))
        out, err = self.called('judge', '--class', page, source, files[0])
        self.assertEqual([line.split('\t')[1] for line in out.splitlines()[1:]], ['1', '1'])
        self.assertIn('judge: 1 of 2 files ran with the services (docs/services.md); --bare runs all without\n', err)
        self.assertEqual(self.called('judge', '--class', page, source, files[0], '--bare', status=1)[1], '')
        self.assertIn('ends within its header', rows[2][2])

    def test_dbg(self) -> None:
        out, _ = self.called('dbg', self.binary('it.exe', exe()), given='break start\ngo\nbreak bios_over\ngo\nscreen\n')
        self.assertIn('0110:0000 start', out)
        self.assertIn('FE00:0006 bios_over', out)
        self.assertIn('Exe', out)
        self.assertIn('is empty', self.called('dbg', self.binary('e.com', b''), status=2)[1])

    def test_gdb_serves(self) -> None:
        path = self.binary('it.exe', exe())
        with subprocess.Popen([sys.executable, '-S', f'{TOOLS}/gdb', '--serve', '0', path], stdout=subprocess.PIPE, text=True) as process:
            assert process.stdout
            self.assertIn('gdb -x', process.stdout.readline())
            process.terminate()
        self.assertIn('is empty', self.called('gdb', '--serve', '0', self.binary('e.com', b''), status=2)[1])

    def test_desk_keeps_the_image(self) -> None:
        path = self.binary('it.exe', exe())
        self.assertIn('--keep NAME', self.called('desk', '--no-open', path, status=2)[1])
        words = [sys.executable, '-S', f'{TOOLS}/desk', '--no-open', path, '--keep', f'{self.room}/kept']
        with subprocess.Popen(words, stdout=subprocess.PIPE, text=True, env=os.environ | named_library(self.room)) as process:
            assert process.stdout
            self.assertIn('desk: http', process.stdout.readline())
            process.terminate()
        with open(f'{self.room}/kept.hex', encoding='ascii') as file:
            self.assertEqual(image_of(file.read())[0x1100], MODULE[0])
        seen = self.called('try', path)[0].split('\n')[0]
        self.assertIn(f'\n{seen:80}\n', self.pcboard('run', '--hex', f'{self.room}/kept.hex', f'{self.room}/kept.json').stdout)
        self.assertIn('is there already', self.called('desk', '--no-open', path, '--keep', 'kept', status=2)[1])
        bad = self.file('bad.asm', SOURCE.replace('MOV AH,9', 'MUL [BX]'))
        self.assertIn('fault 5 BadForm line 4', self.called('desk', '--no-open', bad, '--services', '--keep', 'bad', status=2)[1])
        for other in (['--keep', 'x'], ['--services'], [example('hello')[0], '--keep', 'x']):
            self.assertIn('go with a program with services', self.called('desk', '--no-open', *other, status=2)[1])

    def test_run_files(self) -> None:
        path = self.binary('it.com', HELLO)
        small = self.file('small.json', '{"version":1,"ram":128,"sw1":0,"sw2":0,"budget":1000000,"keys":[]}')
        self.assertIn('the services want 144 to 640 KB of RAM', self.called('try', path, '--run', small, status=2)[1])
        enough = self.file('enough.json', '{"version":1,"ram":144,"sw1":0,"sw2":0,"budget":1000000,"keys":[]}')
        self.assertEqual(self.called('try', path, '--run', enough)[0].split('\n')[0], 'Hello')
        self.assertIn('Hello', self.called('dbg', path, enough, given='go\nscreen\n')[0])

    def test_bad_bytes(self) -> None:
        self.assertIn('65,281 bytes, and a .COM program has at most 65,280', self.refused(b'\x90' * 65281, 'big.com'))
        self.called('try', self.binary('full.com', b'\xCD\x20'.ljust(65280, b'\0')))
        self.assertIn('--com', self.refused(b'\0' * 511, 'short.bin'))
        self.assertIn('--com', self.refused(b'\0' * 512, 'plain.bin'))
        self.assertIn('--com', self.refused(b'\0' * 513, 'long.bin'))
        self.assertIn('--com', self.refused(HELLO, 'it.exe'))
        self.assertIn('is empty', self.refused(b'', 'empty.com'))
        self.assertIn('more than 1,048,576 bytes', self.refused(b'\0' * 1048577, 'huge.com'))
        os.mkdir(f'{self.room}/folder.com')
        self.assertIn('Is a directory', self.called('try', 'folder.com', status=3)[1])
        self.assertIn("can't be read", self.called('try', 'nothing.exe', status=3)[1])
        self.assertIn('no Intel HEX', self.called('try', '--hex', self.binary('it.com', HELLO), status=2)[1])

    def test_headers_that_lie(self) -> None:
        for more, why in (
            ({'pages': 0}, "can't be"),
            ({'last': 512}, "can't be"),
            ({'header': 5}, "can't be"),
            ({'pages': 2}, 'ends early: its header says 592 bytes, and here are 80'),
            ({'last': 81}, 'ends early'),
            ({'table': 0x50}, 'end behind the file'),
            ({'count': 100}, 'end behind the file'),
            ({'least': 0xFFFF}, 'paragraphs of memory'),
            ({'ip': 0x30}, 'it begins at 0000:0030'),
            ({'cs': 0x100}, 'it begins at 0100:0000'),
            ({'ss': 0x9000}, 'its stack ends'),
        ):
            with self.assertRaisesRegex(Sorry, why, msg=str(more)):
                loading.exe('it.exe', exe(**more), '', 640)
        self.assertIn('ends early', self.refused(exe(last=81), 'it.exe'))
        outside = exe()[:28] + struct.pack('<HH', 0x2F, 0) + MODULE
        self.assertIn('relocation 1 is of 0000:002F, outside', self.refused(outside, 'it.exe'))
        # CS FFF0h and IP 100h is the module's beginning, as of a .COM program made an .EXE.
        self.assertEqual(self.called('try', self.binary('it.exe', exe(cs=0xFFF0, ip=0x100)))[0].split('\n')[0], 'Exe')


class Loading(unittest.TestCase):
    """Any bytes: a program, or a sentence."""

    def loaded(self, octets: bytes) -> bool:
        """Whether bytes are taken as an .EXE program. Whatever else comes but a sentence is a failure."""
        try:
            found = loading.exe('it.exe', octets, '', 640)
        except Sorry as sorry:
            self.assertTrue(str(sorry).startswith('it.exe'))
            return False
        self.assertLess(max(address for address in found.image if address < 0xF0000), 0x90000)
        return True

    def test_every_front_of_a_right_one(self) -> None:
        whole = exe()
        self.assertEqual([length for length in range(len(whole) + 1) if self.loaded(whole[:length])], [len(whole)])

    def test_random_headers(self) -> None:
        rng, taken = random.Random(8086), 0
        for _ in range(1000):
            octets = bytearray(exe())
            for _ in range(rng.randint(1, 3)):
                struct.pack_into('<H', octets, 2 * rng.randint(1, 15), rng.choice((rng.getrandbits(16), rng.getrandbits(4))))
            taken += self.loaded(bytes(octets))
        self.assertGreater(taken, 50)
        self.assertLess(taken, 950)

    def test_hex(self) -> None:
        image = {0: 1, 1: 2, 0xFFFF: 3, 0x10000: 4, 0x1000F: 5, 0xFFFFF: 6}
        text = loading.hex_of(image)
        self.assertEqual(image_of(text), image)
        self.assertTrue(all(sum(bytes.fromhex(record[1:])) % 256 == 0 for record in text.split()))


class Compiled(ToolCase):
    """NASM's and bcc's sources, where they are installed."""

    def test_nasm(self) -> None:
        path = self.file('it.asm', "org 100h\n mov ah,9\n mov dx,text\n int 21h\n mov ax,4c02h\n int 21h\ntext: db 'NASM$'\n")
        if not is_there('nasm', 'tools/try --nasm', 'nasm'):
            return
        out, err = self.called('try', '--nasm', path)
        self.assertRegex(out, r'^NASM\n\(ended with exit code 2, at clock [\d,]+\)\n\Z')
        self.assertEqual(err, '')
        _, err = self.called('try', '--nasm', self.file('bad.asm', 'mov ax\n'), status=2)
        self.assertIn('bad.asm:1: error', err)
        sector = self.file('boot.asm', "org 7c00h\n mov ax,0e42h\n int 10h\n int 18h\n times 510-($-$$) db 0\n dw 0aa55h\n")
        self.assertIn('ended by INT 18h', self.called('try', '--nasm', sector)[0])

    def test_bcc(self) -> None:
        path = self.file('it.c', 'main(argc, argv) int argc; char **argv; { printf("%s %d\\n", argv[1], argc); return 5; }\n')
        if not dosbox.has_bcc():
            return
        out, _ = self.called('try', '--bcc', path, '--args', 'one two')
        self.assertRegex(out, r'^one 3\n\(ended with exit code 5, at clock [\d,]+\)\n\Z')
        path = self.file('two.c', '#include <stdio.h>\nint twice(n) int n;\n{\n  return n + n;\n}\nmain()\n{\n  return twice(4);\n}\nint four = 4;\n')
        out, err = self.called('dbg', path, '--bcc', given='break twice\ngo\nfinish\nlabels\nquit\n')
        self.assertRegex(out, r'twice \| 4: return n \+ n\n(?s:.*)main\+\w+ \| 8: return twice\(4\)\n')
        self.assertEqual(sorted(line.split()[-1] for line in out.splitlines()[3:]), ['main', 'twice'])
        self.assertEqual(err, '')
        self.assertIn('bcc refuses', self.called('try', '--bcc', self.file('bad.c', 'main( {\n'), status=2)[1])

    def test_they_are_missing(self) -> None:
        path = self.file('it.asm', 'nop\n')
        with mock.patch.dict(os.environ, {'PATH': self.room, 'PCBOARD': program.path()}):
            for name in ('nasm', 'bcc'):
                self.assertIn(f"{name} isn't there; install it (Debian: apt-get install {name}", self.called('try', f'--{name}', path, status=2)[1])
            os.chmod(self.file('bcc', '#!/bin/sh\necho "ld86: cannot open input file crt0.o" >&2\nexit 1\n'), 0o755)
            self.assertIn('install it (Debian: apt-get install bcc elks-libc)', self.called('try', '--bcc', path, status=2)[1])


if __name__ == '__main__':
    unittest.main()
