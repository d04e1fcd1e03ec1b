"""tools/test where Rattle isn't: what it runs, what its last lines say, and that nothing lands so; and the cases over the program that
is here, which it finds wrong where they are."""
from __future__ import annotations

import json
import os
import shutil
import subprocess
import unittest

from parts.cases import cases_in
from tests import stored_cases
from tests.support import TOP, ToolCase
from toolbox import program

HELLO = 'SEGMENT M AT 0F000h|go: HLT|ENDS|SEGMENT R AT 0FFFFh| JMP FAR go|ENDS|'
RUN = '{"version":1,"ram":64,"sw1":0,"sw2":0,"budget":0,"keys":[]}'
FILES = f'words asm a.asm ;; file a.asm {HELLO}'
# The image's HEX text by hand: F4 at F0000, EA 0000 F000 at FFFF0; the sums make each record 0 modulo 256.
HEX = ':02000002F0000C|:01000000F40B|:05FFF000EA000000F032|:00000001FF|'
RUNS = (
    (f'{FILES} ;; status 0 ;; out {HEX}', None),
    (f'{FILES} ;; status 0 ;; begins :02', None),
    (f'{FILES} ;; status 1 ;; out {HEX}', 'status 0'),
    (f'{FILES} ;; status 0 ;; out {HEX}|', 'what is printed'),
    (f'{FILES} ;; status 0 ;; begins :03', 'what is printed'),
    (f'{FILES} ;; status 0 ;; out {HEX} ;; err x', 'what is told'),
    ('words asm a.asm ;; file a.asm FROB| ;; status 1 ;; err fault\\204 UnknownName\\_01line 1|', None),
    ('words asm a.asm ;; file a.asm FROB| ;; status 1 ;; err fault 4 UnknownName line 2|', 'what is told'),
    ('words asm a.asm ;; status 3', None),
    ('words frob ;; status 2 ;; usage Usage: pcboard', None),
    ('words frob ;; status 2 ;; usage nothing such', 'what is told'),
)
LINES = (
    ('NOP => 90', None),
    ('MOV AX,five => B80500', None),
    ('JMP SHORT fore => EB3E', None),
    (' => none', None),
    ('FROB => fault 4', None),
    ('back: NOP => fault 6', None),
    ('NOP => 91', '90'),
    ('front 0 => front', None),
)
IN_PART = """import unittest
from tests.support import not_run

class It(unittest.TestCase):
    def test_a(self) -> None:
        not_run('a bit')

    def test_b(self) -> None:
        not_run('a bit')
        self.fail()

    def test_c(self) -> None:
        not_run('another bit')
        for number in range(2):
            with self.subTest(number=number):
                self.fail()

    def test_d(self) -> None:
        self.assertTrue(True)
"""
WANTING = """import unittest
from tests.support import not_run

not_run('an assembler; apt install bin86')

class It(unittest.TestCase):
    def test_a(self) -> None:
        not_run('C; apt install bcc bin86')

    def test_b(self) -> None:
        not_run('another; apt install bin86')
        not_run('another; apt install bin86')

    def test_c(self) -> None:
        not_run('Unicorn; apt-get install --no-install-recommends libunicorn2')

    def test_d(self) -> None:
        not_run('what no package brings')
"""
MODULE = 'import unittest\n\n\nclass It(unittest.TestCase):\n    def test_it(self) -> None:\n        self.assertTrue(True)\n'


class Cases(ToolCase):
    """Single cases."""

    def test_runs(self) -> None:
        for case, why in RUNS:
            self.assertEqual(stored_cases.amiss_in_a_run(case), why, case)

    def test_lines(self) -> None:
        for case, answer in LINES:
            found = stored_cases.amiss_in_a_line(case)
            self.assertEqual(found, answer, case)

    def test_which_are_left(self) -> None:
        for case, is_taken in (('words ;; reads 1 ;; status 3', False), ('words ;; each ;; status 0', True), ('words ;; writes 0 ;; status 3', False)):
            self.assertEqual(stored_cases.is_a_run(case), is_taken)
        for case, is_taken in (
            ('NOP => 90', True),
            ('front 3 => front', True),
            ('FROB => alone 3', False),
            ('back none 00 1 => same 5', False),
            ('hex: : => 21', False),
            ('run: {} => 32', False),
            ('read: 1 2 3 => 1 1', False),
        ):
            self.assertEqual(stored_cases.is_of_the_assembler(case), is_taken, case)

    def test_broken_lines(self) -> None:
        """As in the test of the crate `cases`."""
        lines = '# a head \\\nso\ns\\\n  o\n\nnot \\\n# \\\n\t so\n  \n so\n'
        self.assertEqual(cases_in(lines), ['so', 'so', 'not # so', ' so'])

    def test_spelling(self) -> None:
        self.assertEqual(stored_cases.spelled('a|\\41\\_03b\\FF'), b'a\nA   b\xff')


class Whole(ToolCase):
    """tools/test in a repository of a test and a few cases."""

    def setUp(self) -> None:
        super().setUp()
        self.top = f'{self.room}/top'
        ignored = shutil.ignore_patterns('tests', '__pycache__')
        for folder in ('tools', 'python', '.ci', 'dev/parts'):
            shutil.copytree(f'{TOP}/{folder}', f'{self.top}/{folder}', ignore=ignored)
        os.makedirs(f'{self.top}/tools/tests')
        for name in ('__init__', 'stored_cases', 'support'):
            shutil.copy(f'{TOP}/tools/tests/{name}.py', f'{self.top}/tools/tests')
        self.file('top/tools/tests/test_it.py', MODULE)
        self.file('top/crates.txt', '')
        for crate, lines in (('program_cases', RUNS[:2]), ('source_cases', LINES[:4])):
            os.makedirs(f'{self.top}/crates/{crate}/src')
            self.file(f'top/crates/{crate}/stdin', '# a remark\n' + ''.join(f'{case}\n' for case, _ in lines))
        os.makedirs(f'{self.top}/crates/isa_cases')
        self.file('top/crates/isa_cases/stdin', '# a remark\n90 => NOP\n91 => XCHG\n')

    def run_it(self, *words: str) -> subprocess.CompletedProcess[str]:
        environment = {'PATH': '/usr/bin:/bin', 'HOME': self.room, 'PCBOARD': program.path()}
        return subprocess.run(words, cwd=self.top, capture_output=True, text=True, check=False, env=environment)

    def test_all_that_needs_no_proof(self) -> None:
        ran = self.run_it('tools/test')
        lines = ran.stdout.splitlines()
        self.assertEqual((ran.returncode, lines[-1]), (0, '7 passed, 0 failed'), ran.stdout + ran.stderr)
        self.assertIn('nothing was proved here', lines[-2])
        self.assertEqual(lines[-3], '2 runs and 4 sources; not run: 2 other cases, which call crates')

    def test_a_case_that_differs(self) -> None:
        self.file('top/crates/source_cases/stdin', 'NOP => 91\n')
        ran = self.run_it('tools/test')
        self.assertEqual((ran.returncode, ran.stdout.splitlines()[-1]), (1, '3 passed, 1 failed'))
        self.assertIn('source_cases: NOP => 91: 90\n', ran.stdout)

    def test_the_tools_alone(self) -> None:
        ran = self.run_it('tools/test', '--tools')
        self.assertEqual((ran.returncode, ran.stdout.splitlines()[-1]), (0, '1 passed, 0 failed'))
        self.assertNotIn('proved', ran.stdout)

    def test_what_is_run_in_part(self) -> None:
        """Is named in a file, if it didn't fail."""
        self.file('top/tools/tests/test_it.py', IN_PART)
        ran = self.run_it('tools/test', '--tools', f'{self.room}/in_part')
        self.assertEqual((ran.returncode, ran.stdout.splitlines()[-1]), (1, '2 passed, 2 failed'), ran.stdout)
        self.assertEqual((ran.stdout.count('not run: a bit\n'), ran.stdout.count('not run: ')), (1, 2))
        with open(f'{self.room}/in_part', encoding='utf-8') as file:
            self.assertEqual(json.load(file), [['tests.test_it.It.test_a', 'a bit']])

    def test_packages_that_are_not_installed(self) -> None:
        """Each of them once, in order, with what wants it, in the last lines before the count."""
        self.file('top/tools/tests/test_it.py', WANTING)
        lines = self.run_it('tools/test').stdout.splitlines()
        wanted = [
            "not run, since packages aren't installed:",
            '  bcc bin86: C',
            '  bin86: an assembler; another',
            '  libunicorn2: Unicorn',
            'sudo apt install --no-install-recommends bcc bin86 libunicorn2',
        ]
        self.assertEqual((lines[-7:-2], lines[-1]), (wanted, '10 passed, 0 failed'), lines)
        self.assertIn('not run: what no package brings', [line.lstrip('.') for line in lines])
        self.assertEqual(self.run_it('tools/test', '--tools').stdout.splitlines()[-6:], [*wanted, '4 passed, 0 failed'])
        of_a_part = self.run_it('tools/test', '--tools', f'{self.room}/in_part').stdout
        self.assertNotIn("packages aren't installed", of_a_part)

    def test_nothing_lands_so(self) -> None:
        ran = self.run_it('.ci/run')
        self.assertEqual((ran.returncode, ran.stdout.splitlines()[-1]), (1, '0 passed, 1 failed'))
        self.assertIn("rt isn't on the path", ran.stdout)


if __name__ == '__main__':
    unittest.main()
