"""tools/trace: tables over stored events, and the examples over the built program."""
import io
import os
import signal
import subprocess
import sys
import unittest
from unittest import mock

from tests.support import SECONDS, TOOLS, ToolCase, but_progress, example, is_at_work

from toolbox import events  # where zebludor is found
from toolbox.program import Files
from toolbox.runs import budget_of
from toolbox.vcd import Wave

CLOCKS, FEW = 3000, 60  # clocks in which no more than 32 instructions begin


class Stored(ToolCase):
    """What comes piece by piece."""

    def test_all_that_trails_of_few_clocks_have(self) -> None:
        for name in ('nested', 'strings', 'ticks'):
            files, trails = Files(*example(name)), dict[int, str]()
            steps = ''.join(f'go {FEW}\ntrail\n' for _ in range(0, CLOCKS, FEW))
            for line in self.pcboard('debug', files.file, files.run_file, given=steps).stdout.splitlines():
                trails |= {} if line.startswith('clock') else {int(line.split()[0]): line}
            with mock.patch.object(events, 'PIECE', 70):
                for first, end in ((0, CLOCKS), (1, CLOCKS - 1), (CLOCKS // 2, CLOCKS // 2 + 100)):
                    found = [line.decode('ascii') for part in events.parts(files, first, end) for line in part]
                    self.assertEqual(found, [line for clock, line in sorted(trails.items()) if first <= clock < end], (name, first, end))

    def test_waveform(self) -> None:
        text = io.StringIO()
        wave = Wave(text, [('cs', 16), ('speaker', 1)])
        wave.write(0, ((0, 0xF000), (1, 0)))
        wave.write(4, ((0, 0xF000),))
        wave.write(5, ((1, 1),))
        wave.end(10)
        self.assertIn('$var wire 16 ! cs $end\n$var wire 1 " speaker $end', text.getvalue())
        self.assertTrue(text.getvalue().endswith('b0 !\n0"\n$end\n#0\nb1111000000000000 !\n#1050\n1"\n#2100\n'))


class Runs(ToolCase):
    """Over the built program."""

    def test_ends_as_the_debuggers_trail(self) -> None:
        for name in ('divide', 'nested', 'strings', 'keys'):
            files = example(name)
            budget = str(budget_of(Files(*files)))
            last = self.pcboard('debug', *files, given=f'go {budget}\ntrail\n').stdout.splitlines()[1:]
            lines = self.tool('trace', *files)[0].splitlines()
            self.assertEqual([line.split()[:2] for line in lines[-len(last) - 1 : -1]], [line.split()[:2] for line in last])
            self.assertEqual(lines[-1].split()[0], budget)

    def test_clocks_add_up(self) -> None:
        out, _ = self.tool('trace', '--profile', *example('ticks'))
        rows = [line.split() for line in out.splitlines()[1:]]
        self.assertEqual(sum(int(row[0]) for row in rows), 100000)
        self.assertEqual(rows[1][:1] + rows[1][2:], ['15128', '248', '|', 'interrupt', '08'])

    def test_coverage(self) -> None:
        files = self.program('        JMP SHORT over\n        NOP\nover:   HLT\n        DB 5', 100)
        out, _ = self.tool('trace', '--coverage', *files)
        self.assertEqual(out.splitlines(), ['3 of 4 lines of code ran, never:', '    4 | F000:0002         NOP'])

    def test_listing(self) -> None:
        out, _ = self.tool('trace', '--listing', *example('fibonacci'))
        self.assertIn('      67      9648    41 F600:0050         DIV BX', out)
        files = self.program('        JMP SHORT over\n        NOP\nover:   HLT', 100)
        self.assertIn('   never', self.tool('trace', '--listing', *files)[0])

    def test_lcov(self) -> None:
        """Each line of code with its times, beside the table; of Intel HEX by its symbols and its source's name."""
        source, run = self.program('        JMP SHORT over\n        NOP\nover:   MOV CX,3\nturn:   LOOP turn\n        HLT\n        DB 5', 200)
        wanted = 'TN:\nSF:{}\nDA:3,1\nDA:4,0\nDA:5,1\nDA:6,3\nDA:7,1\nDA:11,1\nLF:6\nLH:5\nend_of_record\n'
        out, _ = self.tool('trace', '--coverage', '--lcov', 'it.info', source, run)
        self.assertTrue(out.startswith('5 of 6 lines of code ran'), out)
        with open(f'{self.room}/it.info', encoding='utf-8') as file:
            self.assertEqual(file.read(), wanted.format(source))
        listing = self.file('it.lst', self.pcboard('asm', '--list', source).stdout)
        words = ('--lcov', '-', self.file('it.hex', self.pcboard('asm', source).stdout), run)
        self.assertEqual(self.tool('trace', '--symbols', listing, '--source', 'it.asm', *words)[0], wanted.format('it.asm'))
        self.assertIn('--source NAME', self.tool('trace', '--symbols', listing, *words, status=2)[1])
        self.assertIn('goes with', self.tool('trace', '--lcov', 'it.info', '--vcd', 'it.vcd', source, run, status=2)[1])
        self.assertIn('--watch goes with --vcd', self.tool('trace', '--watch', 'over', source, run, status=2)[1])

    def test_part_of_a_run(self) -> None:
        out, _ = self.tool('trace', '--from', '948', '--to', '1045', *example('ticks'))
        self.assertEqual([line.split()[0] for line in out.splitlines()], ['948', '1009', '1032', '1036', '1045'])

    def test_vcd(self) -> None:
        path = f'{self.room}/it.vcd'
        self.tool('trace', '--vcd', path, '--to', '1100', *example('ticks'))
        with open(path, encoding='utf-8') as file:
            text = file.read()
        self.assertIn(f'#{947 * 210}\n1#\n', text)
        self.assertIn(f'#{948 * 210}\nb1010110 "\n1$\nb1000 %\n#{949 * 210}\n0#\n', text)
        sound, _ = self.tool('trace', '--vcd', '-', *example('tone'))
        self.assertIn(f'#{74 * 210}\n1&\n', sound)

    def test_an_interrupt_keeps_what_was_written(self) -> None:
        files = self.program('over:   INC AX\n        JMP SHORT over', 1 << 38)
        path = self.file('it.vcd', 'old')
        for words, keeps in ((['--vcd', path], f'{path} has the waveform'), (['--profile'], 'the table is of the run'), ([], 'is printed')):
            with subprocess.Popen(
                [sys.executable, '-S', f'{TOOLS}/trace', *words, *files], stdout=subprocess.PIPE, stderr=subprocess.PIPE, text=True, start_new_session=True
            ) as process:
                assert process.stdout
                if not words:
                    process.stdout.readline()
                else:
                    self.assertTrue(is_at_work(process.pid, 1))  # some tables of 20 million clocks
                if '--vcd' in words:
                    self.assertEqual(os.path.getsize(path), 3)  # the old one, until the new one is whole
                os.killpg(process.pid, signal.SIGINT)
                out, err = process.communicate(timeout=SECONDS)
            self.assertEqual(process.returncode, 130, err)
            err = but_progress(err)
            self.assertRegex(err, r'^trace: ended at clock \d+ of 274877906944; .*' + keeps)
            self.assertEqual(err.count('\n'), 1)
            if words == ['--profile']:
                self.assertIn('INC AX', out)
        self.assertGreater(os.path.getsize(path), 1 << 16)
        with open(path, encoding='utf-8') as file:
            self.assertRegex(file.read().splitlines()[-1], r'^#\d+$')
        self.assertEqual(sorted(os.listdir(self.room)), ['it.asm', 'it.json', 'it.vcd'])

    def test_a_waveform_that_cant_be_written(self) -> None:
        """It is told before the run, and of a FIFO that nobody reads at once."""
        path, pipe = self.file('it.vcd', 'old'), f'{self.room}/pipe'
        os.chmod(path, 0o400)
        os.mkfifo(pipe)
        for to, why in (
            (path, 'it is read-only'),
            (f'{self.room}/none/it.vcd', 'No such file or directory'),
            (pipe, 'nobody reads it'),
            (self.room, 'Is a directory'),
        ):
            self.assertEqual(self.called('trace', '--vcd', to, *example('ticks'), status=3), ('', f"trace: {to} can't be written: {why}\n"))

    def test_keeps_the_clock_table(self) -> None:
        out, _ = self.tool('trace', *self.hello_by_c2())
        self.assertEqual([line.split()[0] for line in out.splitlines()], ['0', '15', '19', '21', '25', '29', '44', '48', '63', '67', '71', '79', '100'])
        self.assertIn('halted', out.splitlines()[-1])

    def test_changed_code_has_no_line(self) -> None:
        files = self.program("        MOV BYTE [8],90h\n        JMP FAR 0:8\nENDS\nSEGMENT LOW AT 0\n        ORG 8\n        HLT\n        HLT", 200)
        out, _ = self.tool('trace', *files)
        self.assertRegex(out, r'0000:0008 +NOP\n')
        self.assertIn('0000:0009', out)

    def test_hex_and_refusals(self) -> None:
        source, run = example('monitor')
        text = source.replace('.asm', '.hex')
        self.assertIn('IN AL,060h', self.tool('trace', '--hex', '--profile', text, run)[0])
        self.assertIn('no source lines', self.tool('trace', '--hex', '--listing', text, run, status=2)[1])
        self.assertEqual(
            self.tool('trace', '--hex', '--coverage', text, run)[0].splitlines(),
            ['201 of 313 bytes of the program ran, in 96 instructions', 'F6000 to F60C3 ran', 'F60C4 to F6133 never', 'FFFF0 to FFFF4 ran'],
        )
        self.assertIn('no clock from', self.tool('trace', '--from', '10', '--to', '5', source, run, status=2)[1])
        self.assertIn('fault 21', self.tool('trace', '--hex', source, run, status=2)[1])
        self.assertIn('--coverage', self.tool('trace', '--help')[0])


if __name__ == '__main__':
    unittest.main()
