"""Why a run went nowhere: programs with one mistake each, what is told of them, and of each one that misses it narrowly."""
from __future__ import annotations

import glob
import os
import unittest

from tests.support import EXAMPLES, ToolCase, example

from toolbox.asking import lines_of
from toolbox.nowhere import told_of_run
from toolbox.program import Files, answer_of
from toolbox.report import report_of

VECTOR = 'ENDS\nSEGMENT VECTORS AT 0\n ORG {:X}h\n DW own,SEG own\n'
TICK = (
    ' MOV AL,13h\n OUT 20h,AL\n MOV AL,8\n OUT 21h,AL\n MOV AL,1\n OUT 21h,AL\n MOV AL,34h\n OUT 43h,AL\n MOV AL,100\n'
    ' OUT 40h,AL\n MOV AL,0\n OUT 40h,AL\n STI\nidle: HLT\n JMP SHORT idle\nown: IRET\n'
)
CODE_IN_RAM = 'JMP FAR there\nENDS\nSEGMENT CODE AT 50h\nthere: '

# A mistake's name, its program behind `start:`, what is told, and a program that misses it narrowly and isn't told so.
CASES: tuple[tuple[str, str, str, str], ...] = (
    ('DOS', ' MOV AH,9\n INT 21h\n HLT', 'enters interrupt 21; its vector, at 00084h, is 0000:0000', ' INT 21h\n HLT\nown: IRET\n' + VECTOR.format(0x84)),
    ('BIOS video', ' MOV AX,0E41h\n INT 10h\n HLT', 'at 00040h, is 0000:0000', ' INT 10h\n HLT\nown: IRET\n' + VECTOR.format(0x40)),
    ('BIOS keyboard', ' MOV AH,0\n INT 16h\n HLT', 'at 00058h, is 0000:0000', ' INT 16h\n HLT\nown: IRET\n' + VECTOR.format(0x58)),
    ('a tick without a handler', TICK, 'interrupt 08 came; its vector, at 00020h, is 0000:0000', TICK + VECTOR.format(0x20)),
    ('a division by 0', ' MOV AX,5\n MOV BL,0\n DIV BL\n HLT', 'has no quotient', ' MOV AX,5\n MOV BL,1\n DIV BL\n HLT'),
    ('a return without a call', ' RETF', 'led to 0000:0000', ' PUSH CS\n MOV AX,over\n PUSH AX\n RETF\nover: HLT'),
    ('a flag that never comes', 'over: TEST AL,1\n JZ over', 'off: nothing leads out', 'over: JMP SHORT over'),
    ('a flag that nothing sets', 'over: CMP BYTE [500h],0\n JZ over', 'off: nothing leads out', 'over: INC BYTE [500h]\n CMP BYTE [500h],0\n JMP over'),
    ('a counter set anew', 'over: MOV CX,10\n LOOP over', 'off: nothing leads out', ' MOV CX,0\nover: LOOP over'),
    ('a port that is none', 'over: IN AL,64h\n TEST AL,1\n JNZ over', 'nothing answers at port 64h', ' MOV CX,200\nover: IN AL,64h\n LOOP over'),
    (
        'a key that is polled',
        'over: IN AL,60h\n CMP AL,1\n JNZ over',
        'nothing leads out but what port 60h reads',
        'over: IN AL,60h\n INC BX\n CMP BX,5000\n JNZ over',
    ),
    (
        'CLI for STI',
        TICK.replace(' STI\n', ' CLI\n') + VECTOR.format(0x20),
        'with interrupts off',
        TICK.replace('idle: HLT', ' CLI\nidle: HLT') + VECTOR.format(0x20),
    ),
    ('no STI before a handler', TICK.replace(' STI\n', '') + VECTOR.format(0x20), 'with interrupts off', 'done: HLT\n JMP SHORT done'),
    ('past the end', CODE_IN_RAM + 'MOV AX,1\n MOV BX,AX', 'were 00 00', CODE_IN_RAM + 'ADD [BX+SI],AL\n ADD [BX+SI],AL\n ADD [BX+SI],AL\n HLT'),
    ('into data', CODE_IN_RAM + 'MOV AX,1\nroom: DW 500 DUP(0)', 'were 00 00', CODE_IN_RAM + 'ADD [BX+SI],AL\n JMP there'),
    ('colour memory by ES', ' MOV AX,0B800h\n MOV ES,AX\n MOV WORD ES:[0],741h\n HLT', 'ES is B800h', ' MOV AX,0B000h\n MOV ES,AX\n HLT'),
    ('colour memory by DS', ' MOV AX,0B800h\n MOV DS,AX\n MOV WORD [0],741h\n HLT', 'DS is B800h', ' MOV AX,0B800h\n HLT'),
    (
        'a label in ROM',
        ' MOV AX,CS\n MOV DS,AX\n INC BYTE [n]\n HLT\nn: DB 0',
        'ROM: what is written there is lost',
        ' MOV AX,CS\n MOV DS,AX\n MOV AL,[n]\n CMP BYTE [n],1\n HLT\nn: DB 0',
    ),
    ('a label in ROM by CS', ' MOV CS:[n],AX\n HLT\nn: DW 0', 'writes to F00', ' MOV AX,CS:[n]\n HLT\nn: DW 0'),
    (
        'a string in ROM',
        ' MOV AX,0F000h\n MOV ES,AX\n STOSB\n HLT',
        'ROM: what is written there is lost',
        ' MOV AX,0F000h\n MOV ES,AX\n XOR AX,AX\n MOV ES,AX\n STOSB\n HLT',
    ),
    ('no RAM there', ' MOV AX,2000h\n MOV ES,AX\n MOV ES:[BX],AX\n HLT', 'nothing answers there', ' MOV AX,0FFFh\n MOV ES,AX\n MOV ES:[0],AX\n HLT'),
    (
        'a string of many',
        ' MOV AX,0F000h\n MOV ES,AX\n MOV CX,2\nover: STOSB\n LOOP over\n HLT',
        'which is ROM',
        ' MOV AX,0F000h\n MOV ES,AX\n REP STOSB\n HLT',
    ),
    ('a stack in ROM', ' MOV AX,CS\n MOV SS,AX\n MOV SP,100h\n PUSH AX\n HLT', 'pushes to F00FEh, which is ROM', ' MOV AX,CS\n MOV SS,AX\n MOV SP,100h\n HLT'),
    (
        'a stack in code',
        CODE_IN_RAM + 'MOV AX,50h\n MOV SS,AX\n MOV SP,room\n PUSH AX\n PUSH AX\n HLT\nroom: DW 0,0',
        'line 10 (PUSH AX), 0050:0009 pushed over line 8 (MOV SP,room)',
        CODE_IN_RAM + 'MOV AX,50h\n MOV SS,AX\n MOV SP,room+4\n PUSH AX\n PUSH AX\n HLT\nroom: DW 0,0',
    ),
)
WAITING = ('instructions were the same', 'nothing leads out but what port')


class Nowhere(ToolCase):
    """Over the built program."""

    def why(self, files: Files) -> list[str]:
        """What is told of a run."""
        report = report_of(answer_of(files.words('run')))
        return lines_of(told_of_run(report, files))

    def test_each_mistake_is_told(self) -> None:
        for name, lines, wanted, near in CASES:
            with self.subTest(name):
                text = '\n'.join(self.why(Files(*self.program(lines, 20000))))
                self.assertIn(wanted, text)
                text = '\n'.join(self.why(Files(*self.program(near, 20000))))
                self.assertNotIn(wanted, text)

    def test_examples_wait_at_most(self) -> None:
        for path in sorted(glob.glob(f'{EXAMPLES}/*.asm')):
            name = os.path.basename(path)[:-4]
            for line in self.why(Files(*example(name))):
                self.assertTrue(any(words in line for words in WAITING) or line.startswith('  '), f'{name}: {line}')

    def test_a_small_ram(self) -> None:
        source, run = self.program(' PUSH AX\n HLT')
        small = self.file('small.json', '{"version":1,"ram":16,"sw1":0,"sw2":0,"budget":100,"keys":[]}')
        self.assertIn('RAM ends at 03FFFh', '\n'.join(self.why(Files(source, small))))
        self.assertEqual(self.why(Files(source, run)), [])

    def test_hex(self) -> None:
        source, run = self.program(' INT 21h')
        text = self.file('it.hex', self.pcboard('asm', source).stdout)
        self.assertIn('at 00084h, is 0000:0000', '\n'.join(self.why(Files(text, run, True))))
        self.assertIn('F000:0000 (INT 021h) enters interrupt 21; its vector', self.called('why', 'run', text, run, '--hex')[1])

    def test_where_it_went_astray(self) -> None:
        lines = self.why(Files(*self.program(CODE_IN_RAM + 'MOV CX,100\nover: LOOP over\n MOV BX,CX', 9000)))
        self.assertIn('MOV BX,CX', ' '.join(lines))
        lines = self.why(Files(*self.program(CODE_IN_RAM + 'MOV CX,100\nover: LOOP over\n MOV BX,CX', 1850)))
        self.assertIn('behind line 8 (MOV BX,CX), 0050:0005 came 0050:0007, where the program has no byte', ' '.join(lines))

    def test_a_return_that_led_astray(self) -> None:
        lines = self.why(Files(*self.program(CODE_IN_RAM + 'MOV AX,200h\n PUSH AX\n RET 2', 900)))
        self.assertIn('returned to 0050:0200, which line 7 (PUSH AX), 0050:0003 had pushed', ' '.join(lines))
        self.assertIn('(RET 2)', ' '.join(lines))

    def test_ends_that_are_none(self) -> None:
        """A loop that writes as it goes isn't said never to end, and one without a condition is an end of a program."""
        for lines in (
            'over: MOV BYTE [500h],1\n JC over\n JMP over',
            'over: OUT 61h,AL\n JC over\n JMP over',
            'over: PUSH AX\n POP AX\n JC over\n JMP over',
            'over: CALL sub1\n JC over\n JMP over\nsub1: RET',
        ):
            text = ' '.join(self.why(Files(*self.program(lines, 3000))))
            self.assertIn('perhaps the run waits for ever: the last 32 instructions were the same', text)
            self.assertNotIn('off: nothing leads out', text)
            self.assertEqual(self.why(Files(*self.program(lines.replace(' JC over\n', ''), 3000))), [])

    def test_a_jam_at_address_zero(self) -> None:
        """It is told at once, though the processor is there at each of a million clocks."""
        source, run = self.program(' MOV AX,5\n DIV BL\n HLT', 2_000_000)
        self.assertEqual(report_of(self.pcboard('run', source, run).stdout).state, 'jammed')
        self.assertIn('has no quotient', self.called('why', 'run', '--seconds', '20', source, run)[1])

    def test_a_delay_is_not_blamed(self) -> None:
        """A loop that will be left, by its count, a key, the timer or a handler, is none that goes nowhere."""
        for lines in (
            ' MOV CX,900\nover: NOP\n NOP\n LOOP over\n HLT',
            ' MOV CX,0\nover: LOOP over\n HLT',
            ' MOV BX,50000\nover: DEC BX\n JNZ over\n HLT',
            ' MOV BX,50\nouter: MOV CX,5000\nover: LOOP over\n DEC BX\n JNZ outer\n HLT',
            ' MOV AL,99h\n OUT 63h,AL\n MOV AL,40h\n OUT 61h,AL\nover: IN AL,60h\n TEST AL,AL\n JZ over\n HLT',
        ):
            self.assertEqual(self.why(Files(*self.program(lines, 2000))), [], lines)
        # Without port B an output, no key comes.
        text = ' '.join(self.why(Files(*self.program('over: IN AL,60h\n TEST AL,AL\n JZ over\n HLT', 3000))))
        self.assertIn('nothing leads out but what port 60h reads', text)

    def test_the_clocks_of_a_run_count(self) -> None:
        """A run that ends before it goes astray isn't told to."""
        source, run = self.program(' MOV CX,1000\nover: LOOP over\n INT 21h', 5000)
        self.assertNotIn('vector', '\n'.join(self.why(Files(source, run))))


if __name__ == '__main__':
    unittest.main()
