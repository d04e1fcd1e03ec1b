"""Tools on systems that lack what Linux has: the modules fcntl, resource and curses, /bin/sh, and of Python's other modules what Windows
hasn't. They do without, or refuse in a sentence."""
from __future__ import annotations

import os
import subprocess
import sys
import unittest
from unittest import mock

from tests.support import TOOLS, ToolCase, example

from toolbox.command import read_text
from toolbox.locks import HAS_LOCKS, lock_free
import zebludor

LACKING = """import os
import signal
import socket
import subprocess
import sys

for name in ('fcntl', 'resource', 'curses', '_curses'):
    sys.modules[name] = None
os.supports_dir_fd.discard(os.open)
os.supports_fd.discard(os.chmod)
for module, names in (
    (os, 'O_CLOEXEC O_DIRECTORY O_NOCTTY O_NOFOLLOW O_NONBLOCK O_PATH O_TMPFILE chown fork geteuid getxattr killpg listxattr setsid set_blocking sched_getaffinity'),
    (signal, 'ITIMER_REAL ITIMER_PROF SIGALRM SIGHUP SIGKILL setitimer'),
    (socket, 'AF_UNIX'),
):
    for name in names.split():
        delattr(module, name)
is_there, begin = os.path.exists, subprocess.Popen.__init__


def begun(self, words, *more, **how):
    if '/bin/sh' in (words, words[0]) or how.get('shell'):
        raise FileNotFoundError(2, 'No such file', '/bin/sh')
    begin(self, words, *more, **how)


os.path.exists = lambda path: path != '/bin/sh' and is_there(path)
subprocess.Popen.__init__ = begun
"""
WANTING = ('term',)  # those that refuse


class Elsewhere(ToolCase):
    """Tools that are started so."""

    def setUp(self) -> None:
        super().setUp()
        for folder in ('lacking', 'out'):
            os.mkdir(f'{self.room}/{folder}')
        self.file('lacking/sitecustomize.py', LACKING)

    def begun(self, tool: str, *words: str, typed: str = '') -> subprocess.CompletedProcess[str]:
        """What a tool answers there."""
        env = os.environ | {'PYTHONPATH': f'{self.room}/lacking', 'XDG_STATE_HOME': f'{self.room}/state'}
        return subprocess.run([sys.executable, f'{TOOLS}/{tool}', *words], input=typed, env=env, capture_output=True, text=True, check=False)

    def test_each_begins(self) -> None:
        """With its help, or a sentence."""
        for tool in sorted(os.listdir(TOOLS)):
            path = f'{TOOLS}/{tool}'
            if not os.path.isfile(path) or not os.access(path, os.X_OK) or tool == 'test':
                continue
            ran = self.begun(tool, '--help')
            self.assertNotIn('Traceback', ran.stderr, tool)
            self.assertEqual((ran.returncode, bool(ran.stdout)), (2, False) if tool in WANTING else (0, True), (tool, ran.stderr))
        self.assertEqual(ran.stderr, '')
        self.assertEqual(self.begun('term', 'x').stderr, 'term: this Python has no module curses, by which it draws in a terminal\n')

    def report(self, source: str, run: str) -> str:
        """A run's report, as a file."""
        return self.file('report', self.pcboard('run', source, run).stdout)

    def test_runs(self) -> None:
        """A program is tried, refused, judged, written and debugged as ever; a limit that there isn't is none."""
        source, run = example('hello')
        for tool, words, typed in (
            ('try', (source, '--run', run), ''),
            ('why', ('run', source, run), ''),
            ('why', ('--lines', self.file('bad.asm', 'SEGMENT A AT 50h\n MUV AX,1\nENDS\n')), ''),
            ('judge', ('--same', 'screen', self.report(source, run), self.report(source, run)), ''),
            ('runfile', ('--budget', '500'), ''),
            ('dbg', (source, run), 'step\nregs\nquit\n'),
        ):
            there, here = self.begun(tool, *words, typed=typed), subprocess.run(
                [sys.executable, f'{TOOLS}/{tool}', *words], input=typed, capture_output=True, text=True, check=False
            )
            self.assertEqual((there.returncode, there.stdout, there.stderr), (here.returncode, here.stdout, here.stderr), tool)

    def test_what_is_written(self) -> None:
        """A file is written whole, over one that was there."""
        path = self.file('out/run.json', '{}')
        ran = self.begun('try', example('hello')[0], '--budget', '500', '--write', path)
        self.assertEqual((ran.returncode, os.listdir(f'{self.room}/out')), (0, ['run.json']), ran.stderr)
        self.assertIn('"budget":500', read_text(path))

    def test_no_file_is_free(self) -> None:
        """Without locks nobody takes what another process may hold."""
        with open(self.file('it', ''), 'rb') as file:
            lock_free(file)
            with mock.patch('toolbox.locks.HAS_LOCKS', False), self.assertRaises(BlockingIOError):
                lock_free(file)
        self.assertTrue(HAS_LOCKS)

    def test_a_limit_wants_a_shell(self) -> None:
        """Without one a process has none."""
        zebludor.limit_memory(256)
        self.addCleanup(zebludor.limit_memory, None)
        self.assertEqual(zebludor.limited(['it'])[0], '/bin/sh')
        with mock.patch('zebludor.SHELL', f'{self.room}/sh'):
            self.assertEqual(zebludor.limited(['it']), ['it'])


if __name__ == '__main__':
    unittest.main()
