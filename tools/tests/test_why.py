"""tools/why: its words beside the sources' own, and what it makes of refusals."""
import glob
import json
import os
import re
import unittest

from tests.support import TOP, ToolCase, example

from toolbox.faults import KINDS, Fault, fault_in
from toolbox.hints import hint_of

HINTS = (
    (3, ' MOV AX,0x10', '0x10'),
    (3, ' MOV AL,[es:bx]', 'before the brackets'),
    (3, ' MOV word ptr [BX],1', 'no PTR'),
    (3, ' MOV SI,offset msg', 'no OFFSET'),
    (3, '.loop: NOP', 'loop_1:'),
    (3, ' DB "hi"', 'single quotes'),
    (3, 'loop: NOP', 'LOOP is an instruction'),
    (4, "msg db 'hi'", 'msg: DB'),
    (7, ' MOV AX,B800h', '0B800h'),
    (5, ' SHL AX,4', 'by CL'),
    (5, ' MOV [BX],1', 'WORD or BYTE'),
    (5, ' MOV DS,0B000h', 'MOV ES,AX'),
    (8, ' OUT 3B8h,AL', 'through DX'),
    (8, ' JZ far_away', 'other way round'),
    (4, ' PUSHA', 'no such instruction'),
    (5, ' MOV EAX,1', '8 and 16 bits'),
    (5, ' ADD [BX],[SI]', 'once'),
    (3, ' section .text', 'SEGMENT name AT'),
    (4, 'start proc', 'plain label'),
    (4, ' times 3 db 0', 'DUP'),
    (11, ' NOP', 'in a segment'),
    (3, ' MOV AX,(1+2)', 'no parentheses'),
    (5, ' MOV AL,BX', 'one size'),
    (5, ' CMP 5,AX', 'takes the result'),
    (3, ' CALL sub', 'write sub_1'),
    (3, ' JMP mul', 'MUL is an instruction'),
    (3, ' MOV AX,[add]', 'write add_1'),
    (3, ' MOV AX,0FFFF', '0FFFFh'),
    (3, ' MOV AX,12AB', 'end with h'),
    (3, ' MOV AL,[AX]', 'but BX or BP'),
    (3, ' MOV AL,[SP]', 'but BX or BP'),
    (3, ' MOV AL,[BX+BP]', 'at most one'),
    (3, ' MOV AL,[SI+DI]', 'at most one'),
    (3, ' MOV AL,table[BX]', '[table+BX]'),
    (3, ' MOV AL,str[SI]', '[str+SI]'),
    (3, ' MOV AL,[BX][SI]', '[BX+SI]'),
    (3, ' MOV AL,[BX-SI]', 'never taken away'),
    (5, ' LEA AX,go', 'LEA AX,[go]'),
    (5, ' INC 5', 'no number'),
    (5, ' XCHG AX,5', 'no numbers'),
    (5, ' XCHG 5,AX', 'no numbers'),
    (3, " MOV AX,'AB'", '04241h'),
    (3, " DW 'ABC'", 'DB alone'),
    (5, ' NOT 1', 'no number'),
    (5, ' DIV 5', 'no number'),
    (3, '1: NOP', 'l1:'),
    (5, ' MOV DS,ES', 'through a general one'),
    (5, ' MOV CS,AX', 'far jump'),
    (5, ' JE FAR go', 'short alone'),
    (3, ' JMP SHORT AX', 'without SHORT'),
    (5, ' JE AX', 'without SHORT'),
    (3, '%include "a.inc"', 'no preprocessor'),
    (5, ' MOVSB ES:[DI],DS:[SI]', 'without operands'),
    (2, '\ufeffSEGMENT A AT 0', 'save it as UTF-8 without'),
    (4, ' MVO AX,1', 'is MOV meant?'),
    (8, ' MOV AL,300', '-128 to 255'),
    (5, ' TEST 5,AX', 'takes the result'),
    (2, ' NOP ; \u00e9', 'column 8'),
)


class Words(unittest.TestCase):
    """The table of faults."""

    def test_meanings_are_the_sources_own(self) -> None:
        texts = set()
        for path in glob.glob(f'{TOP}/crates/*/src/*.rt'):
            with open(path, encoding='utf-8') as source:
                texts.update(re.findall(r'#\[error\("(.*)"\)\]', source.read()))
        for number, kind in KINDS.items():
            self.assertIn(kind.meaning, texts, number)

    def test_names_are_those_of_the_page(self) -> None:
        with open(f'{TOP}/docs/formats.md', encoding='utf-8') as page:
            rows = re.findall(r'^\| (\d+) \| ([A-Z]\w+) \|', page.read(), re.M)
        self.assertEqual({int(number): name for number, name in rows}, {n: kind.name for n, kind in KINDS.items()})

    def test_reads_a_fault(self) -> None:
        self.assertEqual(fault_in('x\nfault 3 BadLine line 12\n'), Fault(3, 12))
        self.assertEqual(fault_in('fault 36 RamSize'), Fault(36, None))
        self.assertEqual(fault_in('stop 1\nfault 54 BeforeStart\n'), Fault(54, None))
        self.assertIsNone(fault_in('fault 3 BadLook line 1'))
        self.assertEqual(KINDS[53].meaning, 'out of memory')

    def test_hints(self) -> None:
        for number, line, wanted in HINTS:
            self.assertIn(wanted, hint_of(line, number) or '', line)
        self.assertIsNone(hint_of(" DB 'a \"quoted\" 0x10'", 6))
        self.assertEqual(hint_of(' JMP strat', 7, ['start: NOP']), 'no line defines strat; is start meant?')
        self.assertEqual(hint_of(' JMP nowhere', 7, ['now_here: NOP', 'nowhere2: NOP', 'x: NOP']), 'no line defines nowhere; is nowhere2 or now_here meant?')
        self.assertIn('no line defines start: ', hint_of(' JMP start', 7, ['other: NOP']) or '')
        self.assertIn('no line defines b; is B1 meant?', hint_of('a: MOV AX,b', 7, ['a: NOP', 'B1: NOP']) or '')

    def test_hints_that_misled(self) -> None:
        for number, line, never in (
            (5, ' MOV DS,ES', 'number'),
            (5, ' JE FAR go', '128'),
            (3, ' JMP SHORT AX', '128'),
            (3, '%include "a.inc"', 'quotes'),
            (5, ' MOVSB ES:[DI],DS:[SI]', 'go through'),
            (3, ' DB "100 % 3"', 'preprocessor'),
            (3, ' MOV AX,101b+(1)', 'end with h'),
        ):
            self.assertNotIn(never, hint_of(line, number) or '', line)


class Runs(ToolCase):
    """Over the built program."""

    def test_each_hinted_line_is_refused_so(self) -> None:
        for number, line, wanted in HINTS:
            if number in (7, 8, 11):
                continue
            source, run = self.program(line)
            fault = fault_in(self.pcboard('run', source, run).stderr)
            self.assertEqual(fault, Fault(number, 3), line)
            self.assertIn(wanted, hint_of(line, number) or '', line)

    def test_keeps_what_the_program_prints(self) -> None:
        files = example('hello')
        self.assertEqual(self.called('why', 'run', *files), (self.pcboard('run', *files).stdout, ''))
        self.assertEqual(self.tool('why', 'asm', files[0])[0], self.pcboard('asm', files[0]).stdout)

    def test_tells_the_field(self) -> None:
        source, run = example('hello')
        with open(run, encoding='utf-8') as file:
            good = json.load(file)
        for change, wanted in (
            ({'ram': '64'}, '"ram" is "64"'),
            ({'sw2': 32}, '"sw2" is 32, and has to be 0 to 31'),
            ({'keys': [[1]]}, 'entry 1 of "keys"'),
            ({'colour': 1}, '"colour" is unknown'),
            ({'keys': [[0, 300]]}, 'codes are 1 to 83'),
            ({'keys': [[9, 1], [8, 1]]}, 'stamped 9'),
            ({'budget': 2**41}, 'the most is'),
            ({'ram': 40}, '16, 32, 48'),
            ({'sw1': 1.5}, 'a point'),
        ):
            bad = self.file('bad.json', json.dumps(good | change))
            self.assertIn(wanted, self.called('why', 'run', source, bad, status=1)[1])
        del good['sw1']
        self.assertIn('"sw1" is missing', self.called('why', 'run', source, self.file('bad.json', json.dumps(good)), status=1)[1])
        self.assertIn('line 1, column', self.called('why', 'run', source, self.file('bad.json', '{"ram":64,}'), status=1)[1])

    def test_tells_a_field_by_its_version(self) -> None:
        source, run = example('hello')
        with open(run, encoding='utf-8') as file:
            good = json.load(file)
        for change, wanted in (
            ({'timer': '8254'}, 'version 1 has no field "timer": write "version":2'),
            ({'version': 2, 'timer': '8254'}, '"clocks" is missing; "clocks":"C1" would do'),
            ({'version': 2, 'timer': 8254, 'clocks': 'C1'}, '"timer" is 8254, and has to be "8253" or "8254"'),
            ({'version': 2, 'timer': '8253', 'clocks': 'c2'}, '"clocks" is "c2", and has to be "C1" or "C2"'),
            ({'version': 3}, '"version" is 3, and has to be 1 or 2'),
        ):
            bad = self.file('bad.json', json.dumps(good | change))
            self.assertIn(wanted, self.called('why', 'run', source, bad, status=1)[1])
        del good['version']
        bad = self.file('bad.json', json.dumps(good | {'timer': '8254', 'clocks': 'C2'}))
        err = self.called('why', 'run', source, bad, status=1)[1]
        self.assertIn('"version" is missing; "version":2 would do', err)
        self.assertNotIn('is unknown', err)

    def test_tells_the_file(self) -> None:
        source, run = example('hello')
        self.assertIn("nothing.json can't be opened: No such file", self.called('why', 'run', source, 'nothing.json', status=3)[1])
        self.assertIn("can't be opened: Is a directory", self.called('why', 'run', self.room, run, status=3)[1])
        os.symlink('nowhere', f'{self.room}/lost.asm')
        self.assertNotIn('hint', self.called('why', 'run', f'{self.room}/lost.asm', run, status=3)[1])
        self.assertIn('2 are wanted', self.called('why', 'run', status=2)[1])

    def test_tells_the_ram(self) -> None:
        source = self.file('low.asm', 'SEGMENT A AT 0F00h\nDB 1\nSEGMENT B AT 2000h\nDB 1\n'.replace('\nSEGMENT', '\nENDS\nSEGMENT'))
        err = self.called('why', 'run', source, example('hello')[1], status=1)[1]
        self.assertIn('a byte at 20000h: "ram":144 holds it', err)

    def test_tells_the_record(self) -> None:
        text = self.file('bad.hex', ':0100000001FF\n:00000001FF\n')
        err = self.called('why', 'run', text, example('hello')[1], '--hex', status=1)[1]
        self.assertIn('the last byte should be FE and is FF', err)
        self.assertIn('say --hex', self.called('why', 'run', self.file('bad', ':0100000001FF\n'), example('hello')[1], status=1)[1])
        self.assertIn('the source comes first', self.called('why', 'run', *reversed(example('hello')), status=1)[1])

    def test_tells_a_jam_and_a_blank_screen(self) -> None:
        run = example('hello')[1]
        source = self.file('no_reset.asm', 'SEGMENT A AT 0\nNOP\n')
        err = self.called('why', 'run', source, run)[1]
        self.assertIn('FFFF:0000 has FF FF', err)
        self.assertIn('perhaps the far jump is missing at which the processor begins', err)
        files = self.program(' NOP\n DB 0Fh', 100)
        self.assertIn('F000:0001 has 0F', self.called('why', 'run', *files)[1])
        files = self.program(' MOV AX,0B000h\n MOV ES,AX\n MOV WORD ES:[0],0741h\n HLT', 200)
        self.assertIn('written to port 3B8h', self.called('why', 'run', *files)[1])
        files = self.program(" MOV AX,0B000h\n MOV ES,AX\n MOV BYTE ES:[4],'A'\n HLT", 200)
        self.assertIn("text memory has 'A' at B0004h with the attribute 00h, which shows nothing", self.called('why', 'run', *files)[1])
        files = self.program(" MOV AX,0B000h\n MOV ES,AX\n MOV BYTE ES:[4],' '\n HLT", 200)
        self.assertEqual(self.called('why', 'run', *files)[1], '')
        binary = self.file('binary.asm', '\x1b[2J\x00' + 'x' * 400 + '\n')
        err = self.tool('why', 'asm', binary, status=1)[1]
        self.assertIn('    1 | \\x1b[2J\\x00xxx', err)
        self.assertRegex(err, r'x \.\. and \d+ characters more\n')

    def every(self, lines: str, status: int = 1) -> list[int]:
        """The line numbers that --all tells."""
        text = f'SEGMENT MAIN AT 0F000h\nstart: NOP\n{lines}\nENDS\n'
        out, _ = self.called('why', '--all', self.file('it.asm', text), status=status)
        return [int(number) for number in re.findall(r'it\.asm, line (\d+):', out)]

    def test_tells_every_refused_line(self) -> None:
        self.assertEqual(self.every(' NOP', 0), [])
        self.assertEqual(self.every(' FROB\n NOP\n MOV AX,0x10\n MOV [BX],1\n MOV AL,300\n JMP nowhere'), [3, 5, 6, 7, 8])
        self.assertEqual(self.every(' DB 0FFh,"x"\n MOV AX,5*2\nx: FROB\n JMP x\nx: NOP'), [3, 4, 5, 7])

    def test_what_follows_is_not_told(self) -> None:
        self.assertEqual(self.every("msg db 'hi'\n MOV AX,msg\n MOV AL,[msg]"), [3])
        self.assertEqual(self.every('size EQU 5*2\n DB size DUP(0)\n MOV CX,size\n ORG size-20'), [3])
        self.assertEqual(self.every('go: FROB\n JMP go\n JZ go'), [3])
        self.assertEqual(self.every('print proc\n RET\nprint endp\n CALL print'), [3, 5])
        self.assertEqual(self.every('ENDS\nSEGMENT B\nlater: NOP\n NOP\nENDS\nSEGMENT C AT 10h\n JMP FAR later\n FROB'), [4, 10])
        self.assertEqual(self.every('ENDS\n NOP\nx: NOP\nENDS\nSEGMENT C AT 10h\n FROB\n JMP x'), [4, 8])

    def test_all_ends_soon_and_refuses_else(self) -> None:
        numbers = self.every('\n'.join(f'n{i}: FROB {i}' for i in range(60)))
        self.assertEqual(numbers, list(range(3, 63)))
        self.assertIn("nothing.asm can't be opened", self.called('why', '--all', 'nothing.asm', status=3)[1])
        self.assertIn('--all FILE', self.called('why', '--all', status=2)[1])
        self.assertIn('1,048,576', self.called('why', '--all', self.file('long.asm', ';' * 1048577), status=1)[0])

    def test_tells_lines_as_compilers_do(self) -> None:
        text = 'SEGMENT MAIN AT 0F000h\nstart: NOP\n MOV AX,0x10\n FROB\nstart: HLT\n DB 256\nENDS\n'
        path = self.file('my source.asm', text)
        out, err = self.called('why', '--lines', path, status=1)
        matches = [re.fullmatch(r'(.+):(\d+): error: (\w+): (.+)', line) for line in out.splitlines()]
        self.assertEqual(
            [match and (match[1], match[2], match[3]) for match in matches],
            [(path, '3', 'BadLine'), (path, '4', 'UnknownName'), (path, '5', 'TwiceDefined'), (path, '6', 'OutOfRange')],
        )
        self.assertIn('hexadecimal numbers end with h', out)
        self.assertIn('the name is defined twice, first in line 2\n', out)
        self.assertEqual(err, '')
        self.assertEqual(self.called('why', '--lines', example('hello')[0]), ('', ''))
        self.assertIn("nothing.asm can't be opened", self.called('why', '--lines', 'nothing.asm', status=3)[1])
        self.assertIn('--lines FILE', self.called('why', '--lines', status=2)[1])
        long = self.file('long.asm', ';' * 1048577)
        self.assertEqual(self.called('why', '--lines', long, status=1)[0], f'{long}:1: error: SourceTooLong: the source has more than 1,048,576 bytes\n')

    def test_lines_are_those_of_all(self) -> None:
        """Of the lines of the hints, and of what no line has for its own."""
        lines = [line for number, line, _ in HINTS if number not in (7, 8, 11)]
        path = self.file('many.asm', 'SEGMENT MAIN AT 0F000h\nstart: NOP\n' + '\n'.join(lines) + '\nENDS\n')
        all_lines = re.findall(r'asm, line (\d+):.*\(fault \d+, (\w+)\)', self.called('why', '--all', path, status=1)[0])
        self.assertGreater(len(all_lines), 40)
        self.assertEqual(re.findall(r'^.*\.asm:(\d+): error: (\w+): ', self.called('why', '--lines', path, status=1)[0], re.M), all_lines)

    def test_reads_a_fault_and_refuses_else(self) -> None:
        source, _ = self.program(' MOV AX,0x10')
        out, _ = self.called('why', 'fault', source, given='fault 3 BadLine line 3\n')
        self.assertIn('MOV AX,0x10', out)
        self.assertIn('has no line "fault', self.called('why', 'fault', given='hello', status=2)[1])
        self.assertIn('is none of run', self.called('why', 'bake', status=2)[1])
        self.assertIn('tools/why run FILE [RUN]', self.called('why', '--help')[0])


if __name__ == '__main__':
    unittest.main()
