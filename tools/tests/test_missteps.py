"""Steps that are hardly meant: programs with one each, what is told of them, and of programs that miss it narrowly."""
from __future__ import annotations

import glob
import unittest

from tests.support import EXAMPLES, ToolCase, example

from toolbox.doubts import doubts
from toolbox.asking import lines_of
from toolbox.nowhere import told_of_run
from toolbox.program import Files, answer_of
from toolbox.report import report_of

TO_RAM = 'JMP FAR there\nENDS\nSEGMENT CODE AT 50h\nthere: MOV AX,CS\n'
IN_RAM = TO_RAM + ' MOV DS,AX\n MOV SS,AX\n MOV SP,top\n'
STACK = ' DW 32 DUP(0)\ntop:\n'
SCREEN = ' MOV AX,0B000h\n MOV ES,AX\n CLD\n MOV DI,0\n MOV AX,741h\n'
COUNTING = ' MOV CX,100\nover: LOOP over\n HLT\n'
TICK = (
    ' MOV AL,13h\n OUT 20h,AL\n MOV AL,8\n OUT 21h,AL\n MOV AL,1\n OUT 21h,AL\n MOV AL,34h\n OUT 43h,AL\n MOV AL,100\n'
    ' OUT 40h,AL\n MOV AL,0\n OUT 40h,AL\n STI\nidle: HLT\n JMP SHORT idle\nown: {}\nENDS\nSEGMENT VECTORS AT 0\n ORG 20h\n DW own,SEG own\n'
)
POLLING = ' MOV AL,99h\n OUT 63h,AL\n MOV AL,40h\n OUT 61h,AL\npoll: IN AL,60h\n TEST AL,AL\n JZ poll\n'

# A misstep's name, a program with it, what is told, and programs of which that isn't told.
CASES: tuple[tuple[str, str, str, tuple[str, ...]], ...] = (
    (
        'a label in a byte register',
        IN_RAM + ' MOV AL,hours\n HLT\nhours: DB 9\n' + STACK,
        'perhaps [hours] is meant: hours is a number here, its offset',
        (IN_RAM + ' MOV AL,[hours]\n HLT\nhours: DB 9\n' + STACK, IN_RAM + ' HLT\n MOV AL,hours\nhours: DB 9\n' + STACK),
    ),
    (
        'DS that nothing loads',
        TO_RAM + ' MOV BL,[month]\n HLT\nmonth: DB 4\n',
        'month is at 0050:0007',
        (TO_RAM + ' PUSH CS\n POP DS\n MOV BL,[month]\n HLT\nmonth: DB 4\n', ' MOV BL,[month]\n HLT\nENDS\nSEGMENT LOW AT 0\n ORG 600h\nmonth: DB 4\n'),
    ),
    (
        'strings that go down',
        SCREEN + ' STD\n MOV CX,3\nmore: STOSW\n LOOP more\n HLT',
        'the direction flag is 1',
        (SCREEN + ' STD\n MOV DI,4\n MOV CX,3\nmore: STOSW\n LOOP more\n HLT', SCREEN + ' MOV CX,3\nmore: STOSW\n LOOP more\n HLT'),
    ),
    (
        'words read from bytes',
        IN_RAM + ' MOV SI,list\n MOV CX,4\nmore: LODSW\n LOOP more\n HLT\nlist: DB 3,1,4,1\n' + STACK,
        'which is of bytes (DB), past its end',
        (
            IN_RAM + ' MOV SI,list\n MOV CX,2\nmore: LODSW\n LOOP more\n HLT\nlist: DB 3,1,4,1\n' + STACK,
            IN_RAM + ' MOV SI,list\n MOV CX,4\nmore: LODSW\n LOOP more\n HLT\nlist: DB 3,1,4,1\n DB 5,9,2,6\n' + STACK,
            IN_RAM + ' MOV SI,list\n MOV CX,4\nmore: LODSW\n LOOP more\n HLT\nlist: DW 3,1,4,1\n' + STACK,
        ),
    ),
    (
        'JMP for CALL',
        IN_RAM + ' MOV CX,900h\n PUSH CX\n JMP show\n POP CX\n HLT\nshow: RET\n' + STACK,
        'returned to 0050:0900, which line 11 (PUSH CX), 0050:000C had pushed at clock',
        (
            IN_RAM + ' MOV CX,900h\n PUSH CX\n CALL show\n POP CX\n HLT\nshow: RET\n' + STACK,
            IN_RAM + ' MOV AX,over\n PUSH AX\n RET\n NOP\nover: HLT\n' + STACK,
        ),
    ),
    (
        'a program that runs into its procedure',
        IN_RAM + ' CALL show\nshow: MOV BX,1\n RET\n' + STACK,
        'line 12 (RET), 0050:000F took its address from 00550h, where nothing had been pushed',
        (
            IN_RAM + ' CALL show\n HLT\nshow: MOV BX,1\n RET\n' + STACK,
            IN_RAM + ' CALL show\nshow: MOV BX,1\n RET\n' + STACK + ' DW over\nover: HLT\n',
            IN_RAM + ' PUSH AX\n CALL show\n CALL show\n PUSHF\n PUSH CS\n CALL over\n HLT\nover: IRET\nshow: RET\n' + STACK,
            IN_RAM + ' MOV BP,frame\n MOV SP,BP\n RET\nframe: DW over\nover: HLT\n' + STACK,
        ),
    ),
    ('RET for IRET', TICK.format('RET'), 'hint: IRET ends a handler', (TICK.format('IRET'),)),
    ('a handler without its POP', TICK.format('PUSH AX\n IRET'), 'where the program has no byte', (TICK.format('PUSH AX\n POP AX\n IRET'),)),
    (
        'a procedure without its POP',
        IN_RAM + ' CALL show\n HLT\nshow: PUSH SS\n RET\n' + STACK,
        'each PUSH has its POP',
        (IN_RAM + ' CALL show\n HLT\nshow: PUSH SS\n POP SS\n RET\n' + STACK,),
    ),
    ('an early push in ROM', ' MOV AX,CS\n MOV SS,AX\n MOV SP,200h\n PUSH AX\n' + COUNTING, 'pushes to F01FEh, which is ROM', (' PUSH AX\n' + COUNTING,)),
    (
        'an early write to ROM',
        ' MOV AX,CS\n MOV DS,AX\n INC BYTE [n]\n' + COUNTING + 'n: DB 0',
        'which is ROM: what is written there is lost',
        (' MOV AX,CS\n MOV DS,AX\n MOV AL,[n]\n' + COUNTING + 'n: DB 0',),
    ),
    (
        'a loop that begins with CX 0',
        SCREEN + ' MOV CX,0\nmore: STOSW\n LOOP more\n HLT',
        'came with CX 0, and so goes round 65,536 times',
        (SCREEN + ' STOSW\n MOV CX,0\nmore: LOOP more\n HLT',),
    ),
    (
        'data that run',
        IN_RAM + " MOV BX,1\nname: DB 'oops'\n" + STACK,
        "came line 11 (name: DB 'oops'), 0050:000C",
        (IN_RAM + " MOV BX,1\n HLT\nname: DB 'oops'\n" + STACK,),
    ),
    (
        'code that the program has changed',
        IN_RAM + ' MOV BYTE [next],60h\nnext: NOP\n HLT\n' + STACK,
        'became 60h at clock',
        (IN_RAM + ' MOV BYTE [next],90h\nnext: NOP\n HLT\n' + STACK,),
    ),
    ('a decimal INT', ' INT 21\n HLT', '21 is decimal, so this is interrupt 15h', (' INT 21h\n HLT', ' INT 15h\n HLT')),
)
# Right programs of which nothing is told.
RIGHT = (
    SCREEN + 'more: STOSW\n JMP more',
    ' MOV AX,0FFFFh\n MOV SS,AX\n MOV AX,0\n MOV SS,AX\n PUSH AX\n HLT',
    ' MOV SI,from\n MOV AX,CS\n MOV DS,AX\n MOV AX,60h\n MOV ES,AX\n MOV DI,0\n CLD\n MOV CX,3\n REP MOVSB\n JMP FAR 60h:0\nfrom: MOV AL,5\n HLT',
)
# What is done with a key's code in AL, and whether it is taken for a sign.
OF_CODES = (
    (" SUB AL,'0'\n HLT", True),
    (SCREEN.replace(' MOV AX,741h\n', '').replace(' MOV AX,0B000h\n', ' MOV BX,0B000h\n').replace('ES,AX', 'ES,BX') + ' STOSB\n HLT', True),
    (' MOV BX,0B000h\n MOV ES,BX\n MOV AL,5\n MOV ES:[0],AL\n HLT', False),
    (' DEC AL\n HLT', False),
    (" MOV AL,5\n SUB AL,'0'\n HLT", False),
)


class Missteps(ToolCase):
    """Over the built program."""

    def why(self, files: Files) -> str:
        """What is told of a run."""
        report = report_of(answer_of(files.words('run')))
        return '\n'.join(lines_of(told_of_run(report, files)))

    def test_each_misstep_is_told(self) -> None:
        for name, lines, wanted, others in CASES:
            with self.subTest(name):
                self.assertIn(wanted, self.why(Files(*self.program(lines, 3_000_000))))
                for other in others:
                    self.assertNotIn(wanted, self.why(Files(*self.program(other, 3_000_000))))

    def test_right_programs(self) -> None:
        for lines in RIGHT:
            self.assertNotIn('clock', self.why(Files(*self.program(lines, 200_000))), lines)

    def test_the_handler_of_a_ret_is_named(self) -> None:
        text = self.why(Files(*self.program(TICK.format('RET'), 200_000)))
        self.assertIn('line 18 (own: RET), F000:001C took the place that interrupt 08 had left at clock 103', text)
        self.assertNotIn('no STI', text)

    def test_scan_codes(self) -> None:
        for lines, is_told in OF_CODES:
            source, _ = self.program(POLLING + lines)
            run = self.file('keys.json', '{"version":1,"ram":64,"sw1":0,"sw2":0,"budget":20000,"keys":[[2000,5],[2500,133]]}')
            text = self.why(Files(source, run))
            self.assertEqual('takes 05h for a sign, and it is the scan code of the key 4, which line 7 (poll: IN AL,60h)' in text, is_told, lines)

    def test_where_a_long_run_went_astray(self) -> None:
        """The step that led out of the source is found by halving, if it is neither among the first clocks nor among the last."""
        source, run = self.program(IN_RAM + ' MOV CX,60000\nover: LOOP over\n PUSH SS\n RET\n' + STACK, 1_300_000)
        self.assertIn('line 13 (RET), 0050:000F led to', self.why(Files(source, run)))

    def test_lines_that_are_hardly_meant(self) -> None:
        lines = ['here: MOV AL,here', ' INT 21', ' INT 13', ' INT 33', ' REP MOV AX,BX', ' REP ES: MOVSB', ' REPE CMPSB', ' MOV AX,here', ' INT 21h ; INT 21']
        lines += [" CMP Al , 'a'-1+HERE - 2 ; it", ' MOV AL,here-here', ' MOV AL,[here+1]', ' MOV AL,BL', ' ADD AL,other']
        names = ['offset-in-byte', 'decimal-interrupt', 'decimal-interrupt', 'rep-without-string', 'offset-in-byte']
        self.assertEqual([(doubt.line, doubt.name) for doubt in doubts(lines)], list(zip((0, 1, 2, 4, 9), names)))
        source = self.file('it.asm', 'SEGMENT MAIN AT 50h\nhere: INT 21\n MOV AL,#5\n MOV AL,here\nENDS\n')
        out = self.called('why', '--lines', source, status=1)[0].splitlines()
        self.assertEqual([line.split(' ')[0:2] for line in out], [[f'{source}:3:', 'error:'], [f'{source}:2:', 'warning:'], [f'{source}:4:', 'warning:']])
        self.assertIn('INT 21h', out[1])
        self.assertIn('[here]', out[2])
        right = self.file('right.asm', 'SEGMENT MAIN AT 50h\nhere: INT 21\nENDS\n')
        self.assertIn(':2: warning: perhaps INT 21h is meant: 21 is decimal', self.called('why', '--lines', right)[0])
        self.assertIn('line 2: perhaps INT 21h is meant', self.called('why', '--all', right)[0])

    def test_no_line_of_the_examples_is_doubted(self) -> None:
        for path in glob.glob(f'{EXAMPLES}/**/*.asm', recursive=True):
            with open(path, encoding='utf-8') as file:
                self.assertEqual(list(doubts(file.read().split('\n'))), [], path)

    def test_an_example_that_runs_on(self) -> None:
        """What goes on writing after its screen is full isn't blamed."""
        source, _ = example('nested')
        run = self.file('long.json', '{"version":1,"ram":64,"sw1":0,"sw2":0,"budget":3000000,"keys":[]}')
        self.assertEqual(self.why(Files(source, run)), '')


if __name__ == '__main__':
    unittest.main()
