"""Calls of the system that fail leave the old file or the new one, and are told: a part of dev/faults, and that it finds mistakes that are
planted in a copy."""
from __future__ import annotations

import os
import shutil
import subprocess
import sys
import unittest

from tests.support import TOP, ToolCase

from toolbox import program
from toolbox.proved import PROGRAMS

# What dev/faults and dev/fuzz need of the repository.
PARTS = ('dev', 'tools', 'python', 'examples', 'docs', 'services', 'editors')
WRITING, FILES = 'tools/toolbox/writing.py', 'tools/toolbox/desk/files.py'


class Planted(ToolCase):
    """A copy in which a mistake is planted."""

    def copy(self) -> str:
        """A copy of what the programs of dev/ need."""
        top = f'{self.room}/copy'
        for part in PARTS:
            shutil.copytree(f'{TOP}/{part}', f'{top}/{part}', ignore=shutil.ignore_patterns('__pycache__', 'tests'))
        return top

    def plant(self, top: str, path: str, *edits: tuple[str, str]) -> None:
        """Edits a file, in which each of these places occurs once."""
        with open(f'{TOP}/{path}', encoding='utf-8') as file:
            text = file.read()
        for old, new in edits:
            self.assertEqual(text.count(old), 1, old)
            text = text.replace(old, new)
        with open(f'{top}/{path}', 'w', encoding='utf-8') as file:
            file.write(text)

    def finds(self, top: str, *words: str) -> str:
        """What a program of the copy prints that finds something."""
        env = os.environ | {name.upper(): program.path(name) for name in PROGRAMS}
        ran = subprocess.run([sys.executable, '-S', f'{top}/{words[0]}', *words[1:]], capture_output=True, text=True, cwd=self.room, env=env, check=False)
        self.assertEqual(ran.returncode, 1, ran.stdout + ran.stderr)
        return ran.stdout


class Faults(Planted):
    """Of some tasks, for the gate's sake; the rest takes minutes."""

    def test_nothing_is_found(self) -> None:
        for task, hows in (
            ('a save', 'EIO,kill'),
            ('a draft anew', 'ENOSPC,short'),
            ('a seal', 'EINTR'),
            ('typed keys that are kept', 'EIO'),
            ('moments anew', 'kill'),
        ):
            out, _ = self.tool('dev/faults', task, '--only', hows)
            self.assertRegex(out, rf'^{task}: [1-9]\d+ calls, 0 finds\n0 finds\n$')

    def test_words(self) -> None:
        self.assertIn('the tasks are a save, ', self.tool('dev/faults', 'a poem', status=2)[1])

    def test_planted_mistakes(self) -> None:
        """A write whose count isn't looked at, a rename before the flush, and a lock that isn't taken."""
        top = self.copy()
        self.plant(top, WRITING, ('    while left:\n        left = left[os.write(handle, left) :]\n', '    os.write(handle, left)\n'))
        self.assertIn('write 1 (write), short: .state/zebludor/desk/SUM.page-one-1.json broken', self.finds(top, 'dev/faults', 'a draft', '--only', 'short'))
        flush = '        os.fsync(handle)\n        if not beside:\n'
        self.plant(top, WRITING, (flush, '        if not beside:\n'), ('    _flush_folder(os.path.dirname(target))\n', '    os.fsync(handle)\n'))
        self.assertIn('takes a place before it is flushed', self.finds(top, 'dev/faults', 'a draft', '--only', 'short'))
        self.plant(top, WRITING)
        self.plant(top, FILES, ('                wait_for(handle)\n', ''))
        self.assertIn('of two desks that save', self.finds(top, 'dev/faults', 'a save', '--only', 'short'))


if __name__ == '__main__':
    unittest.main()
