"""tools/judge, over stored reports and the built program."""
import os
import re
import signal
import subprocess
import sys
import unittest
from unittest import mock

from tests.support import SECONDS, STORED, TOOLS, ToolCase, but_progress, example, is_at_work, is_running

TYPED = """# A program that prints HELLO isn't enough.
run = small letters
plain keys = hello
budget = 50,000
shows = HELLO
not shown = WORLD
lost = 0

run = others
plain keys = zebra
shows = ZEBRA
never runs = nothing
"""


class Reports(ToolCase):
    """Over stored reports."""

    def judge(self, page: str, report: str, status: int) -> list[str]:
        """The lines of a page's judgement."""
        return self.called('judge', self.file('page', page), f'{STORED}/{report}.report', status=status)[0].splitlines()

    def test_all_met(self) -> None:
        page = (
            "# HI\n\nline 1 = HI\nline 1 = 'HI'\nshows = H\nAX = 0708\nAL = 8\nAH=07\nZF = 0\nstate = halted\nlost = 0\nclock = 100\nsound = 0\nline 2 = ''\n"
        )
        self.assertEqual(self.judge(page, 'hello', 0)[-1], '12 met, 0 not')

    def test_not_met(self) -> None:
        lines = self.judge('line 1 = HO\nshows = XY\nAX = 0709\nal = 9\nIF = 1\nstate = running\nline 1 = I\n', 'hello', 1)
        self.assertEqual(
            lines,
            [
                "no  line 1 = HO: came 'HI'",
                "no  shows = XY: came 'HI'",
                'no  AX = 0709: came 0708',
                'no  al = 9: came 08',
                'no  IF = 1: came 0',
                'no  state = running: came halted',
                "no  line 1 = I: came 'HI'",
                '0 met, 7 not',
            ],
        )

    def test_speaker(self) -> None:
        page = 'sound = 12\nspeaker at 73 = 0\nspeaker at 74 = 1\nspeaker at 95 = 1\nspeaker at 96 = 0\n'
        self.assertEqual(self.judge(page, 'tone', 0)[-1], '5 met, 0 not')

    def test_pages_that_are_none(self) -> None:
        for page, wanted in (
            ('AX 5\n', 'no expectation'),
            ('', 'no expectations'),
            ('line 26 = x\n', '1 to 25'),
            ('AX = zz\n', 'hexadecimal'),
            ('state = haltd\n', 'none of running'),
            ('runs = 5 6\n', 'is no label'),
            ('halted before = soon\n', 'decimal'),
            ('memory x = 5,6\n', 'hexadecimal byte'),
            ('run = a\nlost = 0\nrun = b\n', 'of the run b'),
            ('lost = 0\nram = 64\n', 'run = ITS NAME'),
            ('keys = {nokey}\nlost = 0\n', 'page, line 1'),
            ('ram = x\nlost = 0\n', 'x is no number'),
            ('not shown =\n', 'no expectation'),
            ('lost = x\n', 'decimal'),
            ('speaker at 5 = 2\n', '0 and 1'),
            ('memory 0 = 1\n', 'has no memory'),
        ):
            err = self.called('judge', self.file('page', page), f'{STORED}/hello.report', status=2)[1]
            self.assertIn(wanted, err)
        self.assertIn('is no report', self.called('judge', self.file('page', 'lost = 0'), self.file('r', 'x'), status=2)[1])

    def test_same(self) -> None:
        hello, tone = f'{STORED}/hello.report', f'{STORED}/tone.report'
        out, _ = self.called('judge', '--same', 'screen,speaker,tune,state,lost,clock,registers,AX,ZF', hello, hello)
        self.assertEqual(out.splitlines()[-1], '9 met, 0 not')
        out, _ = self.called('judge', '--same', 'screen,speaker,AX', hello, tone, status=1)
        self.assertEqual(out.splitlines()[:2], ["no  same screen: line 1: 'HI' and ''", 'no  same speaker: change 1: none and (74, 1)'])
        self.assertIn('nothing to compare', self.called('judge', '--same', 'taste', hello, tone, status=2)[1])

    def test_a_later_tune_is_the_same(self) -> None:
        with open(f'{STORED}/tone.report', encoding='utf-8') as file:
            text = file.read()
        path = self.file('later', re.sub(r'^(\d+) ([01])$', lambda match: f'{int(match[1]) + 100} {match[2]}', text, flags=re.M))
        out, _ = self.called('judge', '--same', 'tune,speaker', f'{STORED}/tone.report', path, status=1)
        self.assertEqual(out.splitlines()[0], 'ok  same tune')


class Runs(ToolCase):
    """Over the built program."""

    def test_memory(self) -> None:
        page = self.file('page', "memory b0000 = 31 07 20\nmemory START = B8 00 00\nmemory start+3 = 8E D0\nmemory 0 = 1\nAX = 0738\n")
        out, _ = self.called('judge', page, *example('fibonacci'), status=1)
        self.assertEqual(out.splitlines()[3:], ['no  memory 0 = 1: came 00', 'ok  AX = 0738', '4 met, 1 not'])

    def test_keeps_the_clock_table(self) -> None:
        page = self.file('page', "line 1 = HI\nstate = running\nmemory b0000 = 48 07 49 07\n")
        self.called('judge', page, *self.hello_by_c2(72))
        out, _ = self.called('judge', page, *self.hello_by_c2(71), status=1)
        self.assertEqual(out.splitlines()[0], "no  line 1 = HI: came ''")

    def test_a_text_in_memory(self) -> None:
        page = self.file('page', "memory codes+10 = 'QWERTYUIOP'\nmemory codes = 'x'\n")
        out, _ = self.called('judge', page, *example('keys'), status=1)
        self.assertEqual(out.splitlines()[:2], ["ok  memory codes+10 = 'QWERTYUIOP'", "no  memory codes = 'x': came '.'"])

    def test_hex_and_refusals(self) -> None:
        source, run = example('monitor')
        page = self.file('page', 'lost = 0\n')
        self.called('judge', '--hex', page, source.replace('.asm', '.hex'), run)
        self.assertIn('no  lost = 0: refused: fault 21', self.called('judge', '--hex', page, source, run, status=1)[0])
        self.assertIn('--same', self.called('judge', '--help')[0])

    def lines(self, page: str, *words: str, status: int = 0) -> list[str]:
        """The lines of a page's judgement."""
        return self.called('judge', self.file('page', page), *words, status=status)[0].splitlines()

    def test_what_ran_and_when(self) -> None:
        page = 'runs = start\nruns = digit+3\nnever runs = nowhere\nruns = nowhere\nhalted before = 20000\nclocks used = 1 to 99,999\nclocks used = 5\nhalted before = 5\nruns = :2\nnever runs = start\n'
        lines = self.lines(page, *example('fibonacci'), status=1)
        self.assertEqual([line[:2] for line in lines[:-1]], ['ok', 'ok', 'no', 'no', 'ok', 'ok', 'no', 'no', 'ok', 'no'], lines)
        self.assertIn('came no nowhere in', lines[2])
        self.assertRegex(lines[6], r'clocks used = 5: came \d+$')

    def test_the_first_instruction_ran(self) -> None:
        """It began at clock 0, unless the run ends there."""
        source = self.file('it.asm', 'SEGMENT M AT 0F000h\ngo:     HLT\nENDS\nSEGMENT R AT 0FFFFh\nfirst:  JMP FAR go\nENDS\n')
        for budget, came in (('100', 'clock 0'), ('0', 'never')):
            page = self.file('page', f'budget = {budget}\nruns = first\nruns = FFFF:0\nnever runs = first\n')
            out, _ = self.called('judge', page, source, status=1)
            self.assertEqual([line[:3] for line in out.splitlines()[:3]], ['no ', 'no ', 'ok '] if came == 'never' else ['ok ', 'ok ', 'no '])
            self.assertIn(came, out)

    def test_behind_a_halt_nothing_runs_by_itself(self) -> None:
        files = self.program(' STI\n HLT\nbehind: NOP\n HLT', 5000)
        self.assertEqual(self.lines('never runs = behind\nruns = start\n', *files)[-1], '2 met, 0 not')
        self.assertEqual(self.lines('runs = idle+1\nruns = tick\n', *example('ticks'))[-1], '2 met, 0 not')
        self.assertEqual(
            self.lines('halted before = 1000\n', *self.program('over: JMP over'), status=1)[0], 'no  halted before = 1000: came no halt up to clock 1000'
        )

    def test_several_runs(self) -> None:
        source, _ = example('keys')
        lines = self.lines(TYPED.replace('never runs = nothing\n', ''), source)
        self.assertEqual(lines[0], 'ok  small letters: shows = HELLO')
        self.assertEqual(lines[-1], '4 met, 0 not')
        constant = self.program(" MOV AX,0B000h\n MOV DS,AX\n MOV WORD [0],0748h\n MOV WORD [2],0745h\n MOV DX,3B8h\n MOV AL,8\n OUT DX,AL\n HLT")[0]
        lines = self.lines('run = a\nkeys = h\nshows = HE\nrun = b\nkeys = z\nshows = ZE\n', constant, status=1)
        self.assertEqual([line[:2] for line in lines], ['ok', 'no', '1 '])

    def test_fields(self) -> None:
        source, run = self.program(' PUSH AX\n HLT')
        self.assertEqual(self.lines('ram = 16\nbudget = 90\nmemory fffe = ff ff\nclock = 90\n', source, run)[-1], '2 met, 0 not')
        self.assertEqual(self.lines('clock = 100000\n', '--run', run, source, status=1)[-1], '0 met, 1 not')
        self.assertEqual(self.lines('clock = 10,000,000\n', source)[-1], '1 met, 0 not')
        self.assertIn('refused: fault 36', self.lines('ram = 40\nclock = 90\n', source, status=1)[0])

    def test_a_class(self) -> None:
        good, _ = example('keys')
        bad = self.file('bad.asm', 'SEGMENT A AT 0\n FROB\tX\n')
        page = self.file('page', TYPED)
        out, _ = self.called('judge', '--class', page, bad, good, 'nothing.asm', '--seconds', str(SECONDS), status=1)
        rows = [line.split('\t') for line in out.splitlines()]
        self.assertEqual({len(fields) for fields in rows}, {8})
        self.assertEqual([fields[0] for fields in rows], ['file', bad, good, 'nothing.asm'])
        self.assertEqual(rows[0][2:5], ['small letters: shows = HELLO', 'small letters: not shown = WORLD', 'small letters: lost = 0'])
        self.assertEqual(rows[1][1:3], ['0', 'no: refused: fault 4 UnknownName line 2'])
        self.assertEqual((rows[2][1], rows[2][2:7]), ('4', ['ok', 'ok', 'ok', 'ok', f'no: came no nothing in {good}']))
        self.assertIn("can't be read", rows[3][7])
        endless = self.file('endless.asm', 'SEGMENT A AT 0FFFFh\nnothing: INC AX\n JMP nothing\n')
        page = self.file('page', TYPED.replace('50,000', '1,099,511,627,776'))
        row = self.called('judge', '--class', page, endless, '--seconds', '1', status=1)[0].splitlines()[1].split('\t')
        self.assertEqual((row[0], row[7]), (endless, 'over 1 s, and was ended'))
        self.assertIn('no expectation', self.called('judge', '--class', self.file('page', 'AX 5\n'), good, status=2)[1])
        page = self.file('page', 'plain keys = hello\nshows = HELLO\n')
        self.assertEqual(self.called('judge', '--class', page, good, good)[0].splitlines()[2], f'{good}\t1\tok\t')

    def test_a_class_with_endless_programs(self) -> None:
        """Each is ended, with its process, and the others are gone on with."""
        endless = self.file('endless.asm', 'SEGMENT A AT 0FFFFh\nnothing: INC AX\n JMP nothing\n')
        page = self.file('page', 'lost = 0\n')
        slow = self.file('slow', '#!/bin/sh\necho $$ >>"$0.begun"\nexec sleep 6000\n')
        os.chmod(slow, 0o755)
        with mock.patch.dict(os.environ, {'PCBOARD': slow}):
            out, _ = self.called('judge', '--class', page, *[endless] * 9, '--seconds', '3', status=1)
        self.assertEqual(out.splitlines()[1:], [f'{endless}\t0\tno\tover 3 s, and was ended'] * 9)
        with open(f'{slow}.begun', encoding='ascii') as file:
            self.assertEqual([process for process in file.read().split() if is_running(int(process))], [])

    def test_an_interrupt_leaves_no_traceback(self) -> None:
        endless = self.file('endless.asm', 'SEGMENT A AT 0FFFFh\nnothing: INC AX\n JMP nothing\n')
        page = self.file('page', 'budget = 1,099,511,627,776\nlost = 0\n')
        for words in (['--class'], []):
            with subprocess.Popen(
                [sys.executable, '-S', f'{TOOLS}/judge', *words, page, endless],
                stdout=subprocess.PIPE,
                stderr=subprocess.PIPE,
                text=True,
                start_new_session=True,
            ) as process:
                self.assertTrue(is_at_work(process.pid))
                process.send_signal(signal.SIGINT)
                _, err = process.communicate(timeout=SECONDS)
                self.assertEqual((process.returncode, but_progress(err)), (130, ''))


if __name__ == '__main__':
    unittest.main()
