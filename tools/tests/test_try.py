"""tools/try, over the built program."""
import contextlib
import io
import json
import os
import re
import signal
import subprocess
import sys
import unittest

from tests.support import MEASURED, SECONDS, TOOLS, ToolCase, but_progress, example, is_at_work, until

from toolbox.command import waiting


# Asks tools for their help, one behind the other, with a zero between.
HELPS = """import runpy, sys
folder, *names = sys.argv[1:]
sys.path.insert(0, folder)
for name in names:
    print(end='' if name == names[0] else chr(0))
    sys.argv = [f'{folder}/{name}', '--help']
    try:
        runpy.run_path(sys.argv[0], run_name='__main__')
    except SystemExit as ended:
        assert not ended.code, name
"""
# A timer's tick wakes it once, and shows 1; then it halts for good.
WOKEN = """SEGMENT MAIN AT 0F000h
start:  MOV AL,14h
        OUT 43h,AL
        MOV AL,50
        OUT 40h,AL
        MOV AL,13h
        OUT 20h,AL
        MOV AL,8
        OUT 21h,AL
        MOV AL,1
        OUT 21h,AL
        MOV SP,1000h
        STI
        HLT
        CLI
        HLT
tick:   MOV AX,0B000h
        MOV ES,AX
        MOV DX,3B8h
        MOV AL,8
        OUT DX,AL
        MOV WORD ES:[0],0731h
        IRET
ENDS
SEGMENT VECTORS AT 0
        ORG 20h
        DW tick,SEG tick
ENDS
SEGMENT RESET AT 0FFFFh
        JMP FAR start
ENDS
"""


class Tries(ToolCase):
    """A source alone."""

    def test_shows_the_screen(self) -> None:
        self.assertEqual(self.tool('try', example('hello')[0]), ('HI\n(halted for good at clock 72)\n', ''))
        out, err = self.tool('try', example('tone')[0])
        self.assertEqual((out, err), ('(halted for good at clock 294, the screen is blank, 12 changes of the speaker)\n', ''))

    def test_types(self) -> None:
        out, _ = self.called('try', example('keys')[0], '--plain', '--keys', 'hello')
        self.assertEqual(out.splitlines()[0], 'HELLO')
        out, _ = self.called('try', example('keys')[0], '--plain', '--keys', 'x' * 60)
        self.assertEqual(out.splitlines(), ['X' * 60, '(waits for an interrupt after 10,000,000 clocks)'])

    def test_hex_by_its_name(self) -> None:
        source, _ = example('monitor')
        out, err = self.called('try', source.replace('.asm', '.hex'))
        self.assertEqual((out, err), ('>\n(still running after 10,000,000 clocks; --budget lets it run on)\n', ''))

    def test_writes_the_run_file(self) -> None:
        source, _ = example('hello')
        out, _ = self.called('try', source, '--budget', '1,234', '--keys', 'a', '--write', 'it.json')
        self.assertEqual(out, 'HI\n(halted for good at clock 72)\n')
        with open(f'{self.room}/it.json', encoding='utf-8') as file:
            self.assertEqual(json.load(file), {'version': 1, 'ram': 64, 'sw1': 0, 'sw2': 0, 'budget': 1234, 'keys': [[2000, 30], [2500, 158]]})
        self.called('try', source, '--run', 'it.json', '--write', 'other.json', '--budget', '99')
        with open(f'{self.room}/other.json', encoding='utf-8') as file:
            self.assertEqual(json.load(file)['keys'], [[2000, 30], [2500, 158]])

    def test_tells_why(self) -> None:
        source, _ = self.program(' MOV AX,0x10')
        out, err = self.called('try', source, status=1)
        self.assertEqual(out, '')
        self.assertIn('0x10', err)
        self.assertIn('enters interrupt 21', self.called('try', self.program(' INT 21h')[0])[1])

    def test_how_it_ended(self) -> None:
        """For good with interrupts off, whatever woke it before; else an interrupt is awaited; and what still runs may go on."""
        later = self.program(' STI\n HLT\n CLI\nlast: HLT')[0]
        self.assertIn('(waits for an interrupt after 10,000,000 clocks', self.called('try', later)[0])
        woken = self.file('woken.asm', WOKEN)
        self.assertIn('1\n(halted for good at clock ', self.called('try', woken)[0])
        self.assertIn('(still running after 300 clocks; --budget lets it run on', self.called('try', self.program('over: JMP over')[0], '--budget', '300')[0])
        self.assertIn('(jammed, at 10,000,000 clocks', self.called('try', self.file('jam.asm', 'SEGMENT A AT 0FFFFh\n DB 0Fh\nENDS\n'))[0])

    def test_the_screen_of_an_end_by_dos(self) -> None:
        """A program without services that ends by INT 20h runs on from 0000:0000; what it showed before is what counts."""
        spoils = ' MOV AX,0B000h\n MOV ES,AX\n MOV DX,3B8h\n MOV AL,8\n OUT DX,AL\n MOV WORD ES:[0],0741h\n MOV AX,ES\n MOV DS,AX\n XOR BX,BX\n XOR SI,SI\n MOV AL,1\n INT 2{}h'
        for end in (0, 1):
            out, err = self.called('try', self.program(spoils.format(end))[0])
            self.assertRegex(out, r'^A\n\(the screen of clock \d+; what ran then is none of the program\)\n\Z')
            self.assertIn(f'enters interrupt 2{end}', err)

    def test_many_changes(self) -> None:
        """A change of the speaker every four clocks costs little time and memory."""
        lines = ' MOV AL,99h\n OUT 63h,AL\n MOV AL,96h\n OUT 43h,AL\n MOV AL,2\n OUT 42h,AL\n MOV AL,3\n OUT 61h,AL\n HLT'
        ran = subprocess.run(
            [sys.executable, '-c', MEASURED, sys.executable, '-S', f'{TOOLS}/try', self.program(lines)[0]], capture_output=True, text=True, check=True
        )
        seconds, kilobytes = map(float, ran.stderr.split())
        self.assertIn('2499985 changes of the speaker', ran.stdout)
        self.assert_within(seconds, 20)
        self.assertLess(kilobytes, 256 * 1024)

    def test_refusals(self) -> None:
        source, _ = example('hello')
        self.assertIn("nothing.asm can't be opened", self.called('try', 'nothing.asm', status=3)[1])
        self.assertIn('x is no number', self.called('try', source, '--budget', 'x', status=2)[1])
        self.assertIn('from 0 on', self.called('try', source, '--budget', '-1', status=2)[1])
        self.assertIn('{nokey}', self.called('try', source, '--keys', '{nokey}', status=2)[1])
        self.assertIn("can't be written", self.called('try', source, '--write', 'no/it.json', status=3)[1])
        self.assertIn('--write', self.called('try', '--help')[0])

    def test_tells_how_far_it_is(self) -> None:
        with contextlib.redirect_stderr(io.StringIO()) as err, waiting('at work', 0.2) as say:
            say('half done')
            self.assertTrue(until(lambda: re.search(r'^at work: half done, \d+ s$', err.getvalue(), re.M)))
        with contextlib.redirect_stderr(io.StringIO()) as err, waiting('at work', SECONDS):
            pass
        self.assertEqual(err.getvalue(), '')

    def test_help_wants_no_program(self) -> None:
        names = ('try', 'why', 'judge', 'picture', 'trace')
        ran = subprocess.run([sys.executable, '-S', '-c', HELPS, TOOLS, *names], env={'PCBOARD': '/nowhere'}, stdout=subprocess.PIPE, text=True, check=True)
        for name, printed in zip(names, ran.stdout.split('\0'), strict=True):
            self.assertIn(f'usage: tools/{name}' if name != 'why' else 'tools/why run FILE [RUN]', printed)

    def test_an_interrupt_leaves_no_traceback(self) -> None:
        source, _ = self.program('over: INC WORD [0]\n JMP over')
        with subprocess.Popen(
            [sys.executable, '-S', f'{TOOLS}/try', source, '--budget', '1,099,511,627,776'],
            stdout=subprocess.PIPE,
            stderr=subprocess.PIPE,
            text=True,
            start_new_session=True,
        ) as process:
            self.assertTrue(is_at_work(process.pid))
            os.killpg(process.pid, signal.SIGINT)  # as a terminal does
            _, err = process.communicate(timeout=SECONDS)
            self.assertEqual((process.returncode, but_progress(err)), (130, ''))


if __name__ == '__main__':
    unittest.main()
