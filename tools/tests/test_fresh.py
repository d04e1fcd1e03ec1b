"""tools/test with Rattle, in a repository of two programs and three tests: the tests run once, as in a fresh clone, and in the repository
itself only what was left out there."""
from __future__ import annotations

import os
import re
import shutil
import subprocess
import unittest

from tests.repository import Repository
from tests.support import TOP
from tests.test_stored import CI

MODULE = """import os
import shutil
import subprocess
import unittest
from tests.support import TOP, not_run

class It(unittest.TestCase):
    def test_afresh(self) -> None:
        self.assertNotEqual(os.geteuid(), 0)
        self.assertEqual({*os.environ} - {'LC_CTYPE', 'PWD'}, {'PATH', 'HOME'})
        self.assertFalse(os.path.exists(f'{TOP}/crates/low/out'))
        with open(f'{TOP}/it', 'w', encoding='ascii') as file:
            file.write('it is the own one of who runs it')
        for name in ('pcboard', 'pcprobe'):
            told = subprocess.run([f'{TOP}/{name}', '--version'], capture_output=True, text=True, check=True).stdout
            self.assertIn(f'program crates/{name}/out/{name}, built here\\n', told)

    def test_in_part(self) -> None:
        if not shutil.which('rt'):
            not_run('what wants rt')
            return
        print('with rt in ' + TOP)

    def test_of_rattle(self) -> None:
        self.assertIsNone(shutil.which('rt'))
"""
BENCHES = '#!/bin/sh\necho "passed: a bench"\n'


class Fresh(Repository):
    """That repository, whose kit passes three crates and leaves both programs."""

    def setUp(self) -> None:
        super().setUp()
        self.top = f'{self.room}/top'
        for folder in ('dev/parts', 'tools', 'python'):
            shutil.copytree(f'{TOP}/{folder}', f'{self.top}/{folder}', ignore=shutil.ignore_patterns('tests', '__pycache__'), dirs_exist_ok=True)
        os.mkdir(f'{self.top}/tools/tests')
        for name in ('__init__', 'support', 'fresh'):
            shutil.copy(f'{TOP}/tools/tests/{name}.py', f'{self.top}/tools/tests')
        os.mkdir(f'{self.top}/crates/low/out')
        for path, text in (('bin/rt', CI), ('top/dev/benches', BENCHES), ('top/crates/low/out/liblow.rlib', 'built here')):
            os.chmod(self.file(path, text), 0o755)

    def outcome(self, module: str) -> tuple[int, list[str]]:
        """The status of tools/test, and its lines."""
        self.file('top/tools/tests/test_it.py', module)
        environment = {'PATH': f'{self.room}/bin:/usr/bin:/bin', 'HOME': self.room, 'MINE': 'of the one who starts it'}
        ran = subprocess.run([f'{self.top}/tools/test'], cwd=self.room, capture_output=True, text=True, check=False, env=environment)
        self.assertNotIn('Traceback (most recent call last):\n  File "' + self.top, ran.stderr)
        return ran.returncode, ran.stdout.splitlines()

    def test_once_and_the_rest_here(self) -> None:
        """Of 3 crates, a bench and 3 tests, one of which is run again, 7 are passed."""
        status, lines = self.outcome(MODULE)
        self.assertEqual((status, lines[-1]), (0, '7 passed, 0 failed'), lines)
        self.assertIn(f'with rt in {self.top}', lines)
        self.assertEqual(len([line for line in lines if line.startswith('with rt in ')]), 1)
        self.assertEqual('\n'.join(lines).count('not run: what wants rt\n'), 1)
        self.assertFalse(os.path.exists(f'{self.top}/it'))

    def test_what_fails_there_or_here(self) -> None:
        there, here = re.sub('assertNotEqual', 'assertEqual', MODULE), re.sub('print.*', 'self.fail()', MODULE)
        self.assertEqual([(status, lines[-1]) for status, lines in map(self.outcome, (there, here))], [(1, '6 passed, 1 failed')] * 2)

    def test_packages_that_are_not_installed(self) -> None:
        """A bench and either run count: what is left out there, and not here, is done."""
        there_alone = re.sub('what wants rt', 'what is here; apt install nasm', MODULE)
        benches = re.sub('passed: a bench', 'not run: a bench; apt install valgrind', BENCHES)
        for module, named in (
            (there_alone, ['valgrind']),
            (re.sub("( *)if not.*'rt'", r"\1not_run('all of it; apt install bcc')\n\g<0>", there_alone), ['bcc', 'valgrind']),
            (there_alone + "\nnot_run('what is wanted before it; apt install cargo')\n", ['cargo', 'valgrind']),
        ):
            os.chmod(self.file('top/dev/benches', benches), 0o755)
            _, lines = self.outcome(module)
            self.assertEqual(lines[-2:], [f'sudo apt install --no-install-recommends {" ".join(named)}', '6 passed, 0 failed'], lines)
            self.assertEqual([line.split(':')[0].strip() for line in lines[-2 - len(named) : -2]], named)
            self.assertEqual(len([line for line in lines if line.startswith('sudo apt')]), 1)

    def test_no_end(self) -> None:
        """A run that doesn't come to its counts fails."""
        status, lines = self.outcome(MODULE.replace('self.assertNotEqual(os.geteuid(), 0)', 'os._exit(0)'))
        self.assertEqual((status, lines[-1]), (1, '4 passed, 1 failed'))


if __name__ == '__main__':
    unittest.main()
