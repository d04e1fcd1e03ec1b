"""examples/class: the lines of its workflow, typed in a clone by an ordinary user with nothing in the environment, and in a bare system."""
from __future__ import annotations

import os
import re
import shutil
import subprocess
import tempfile
import unittest
from typing import Any
from xml.etree import ElementTree

from tests.support import EXAMPLES, TOP, ToolCase, example, is_there, not_run

NOBODY = 65534
BARE = ['--variant=minbase', '--include=git,python3', 'stable']


def lines_of(path: str) -> list[str]:
    """What a workflow runs."""
    with open(path, encoding='utf-8') as file:
        return re.findall(r'^ +- run: (.+)$', file.read(), re.M)


def bare_system() -> str | None:
    """A folder with a Debian that has git and Python alone. It is made once, and kept in the user's cache; where that can't be, why not
    is told."""
    made = os.path.join(os.environ.get('XDG_CACHE_HOME') or os.path.expanduser('~/.cache'), 'zebludor', 'bare-system')
    if not os.path.isdir(made):
        shutil.rmtree(f'{made}.new', ignore_errors=True)
        os.makedirs(f'{made}.new')
        ran = subprocess.run(['debootstrap', *BARE, f'{made}.new'], capture_output=True, text=True, check=False)
        if ran.returncode:
            not_run(f'the workflow of examples/class in a bare system; debootstrap: {(ran.stdout + ran.stderr).strip()[-200:]}')
            return None
        os.rename(f'{made}.new', made)
    return made


class Recipe(ToolCase):
    """A class's repository, and one that Zebludor is fetched from: this one, as it was committed last."""

    def setUp(self) -> None:
        super().setUp()
        os.chmod(self.room, 0o755)
        self.lines = lines_of(f'{EXAMPLES}/class/judge.yml')
        self.home = f'{self.room}/home'
        os.mkdir(self.home)

    def fill(self, folder: str) -> str:
        """Fills a folder as a class's repository, beside the one to fetch from, and returns the commit that is fetched."""
        os.makedirs(f'{folder}/class')
        for path in (f'{EXAMPLES}/class/echo.page', example('keys')[0]):
            shutil.copy(path, f'{folder}/class')
        words = ['git', 'clone', '-q', '--bare', '--depth', '1', f'file://{os.path.realpath(TOP)}', f'{folder}/zebludor.git']
        subprocess.run(words, check=True, capture_output=True)
        ran = subprocess.run(['git', '-C', f'{folder}/zebludor.git', 'rev-parse', 'HEAD'], check=True, capture_output=True, text=True)
        return ran.stdout.strip()

    def typed(self, folder: str, commit: str, before: tuple[str, ...] = (), there: str | None = None, **how: Any) -> str:
        """Types the lines in the class's repository, and returns what the last one prints; `there` is the folder's own name for it."""
        there = there or folder
        environment = {'HOME': there, 'PATH': '/usr/bin:/bin', 'ZEBLUDOR': f'file://{there}/zebludor.git', 'VERSION': commit}
        for line in self.lines:
            words = [*before, '/bin/sh', '-e', '-c', f'cd {there}/class; {line}']
            ran = subprocess.run(words, env=environment, stdin=subprocess.DEVNULL, capture_output=True, text=True, check=False, **how)
            self.assertEqual(ran.returncode, 0, f'{line}\n{ran.stdout}{ran.stderr}')
        return ran.stdout

    def is_judged(self, folder: str, out: str) -> None:
        """The submission has its row, and the report is there."""
        self.assertEqual(out.splitlines()[1].split('\t')[:2], ['./keys.asm', '3'])
        self.assertEqual(out.splitlines()[1].split('\t')[-2:], ['6', '6'])
        suite = ElementTree.parse(f'{folder}/class/report.xml').getroot()[0]
        self.assertEqual((suite.get('tests'), suite.get('failures'), suite.get('errors')), ('3', '0', '0'))

    def test_as_an_ordinary_user(self) -> None:
        self.assertEqual(len(self.lines), 2)
        if not is_there('git', 'the workflow of examples/class', 'git'):
            return
        if not os.path.isdir(f'{TOP}/.git'):
            not_run('the workflow of examples/class; it fetches from a clone')
            return
        commit, how = self.fill(self.home), dict[str, Any]()
        if os.geteuid() == 0:
            subprocess.run(['chown', '-R', f'{NOBODY}:{NOBODY}', self.home], check=True)
            how = {'user': NOBODY, 'group': NOBODY, 'extra_groups': []}
        self.is_judged(self.home, self.typed(self.home, commit, **how))

    def test_in_a_bare_system(self) -> None:
        packages = {'debootstrap': 'debootstrap', 'git': 'git'}
        if not all(is_there(command, 'the workflow of examples/class in a bare system', package) for command, package in packages.items()):
            return
        if os.geteuid() != 0 or not os.path.isdir(f'{TOP}/.git'):
            not_run('the workflow of examples/class in a bare system; it wants root, and a clone')
            return
        system = bare_system()
        if system:
            folder = tempfile.mkdtemp(dir=system)
            self.addCleanup(shutil.rmtree, folder)
            out = self.typed(folder, self.fill(folder), (shutil.which('chroot') or 'chroot', system), f'/{os.path.basename(folder)}')
            self.is_judged(folder, out)


if __name__ == '__main__':
    unittest.main()
