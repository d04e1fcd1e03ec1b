"""CONTRIBUTING's list for adding a deed: NOT of a byte stands in each of its places, and a copy without its arm is proved."""
from __future__ import annotations

import os
import re
import shutil
import subprocess
import unittest

from tests.support import TOP, ToolCase, not_run
from toolbox.crates import Crates

PROVED = 'execute'
DIGEST, EXECUTE = 'crates/digest', 'crates/execute/src'
ARM = f'{EXECUTE}/by_slot.rt'
# In each place what stands there of the deed.
STEPS = (
    (f'{DIGEST}/src/slot.rt', '    NotB,\n'),
    (f'{DIGEST}/specs/Slots.antt', 'deed_row condition deeds.NotB = row (operations.Unary unaries.Not) Byte Untold\n'),
    (f'{DIGEST}/src/fill.rt', ' Not NotB, '),
    (f'{EXECUTE}/acts.rt', '        Deed::NotB => act!(Unary Not, Byte Untold),\n'),
    (ARM, ' NotB Not,'),
    (f'{EXECUTE}/still.rt', ' NotB |'),
)


def read(path: str) -> str:
    with open(path, encoding='utf-8') as file:
        return file.read()


class Places(ToolCase):
    """The list on the page."""

    def test_contributing_names_these_places(self) -> None:
        page = read(f'{TOP}/CONTRIBUTING.md')
        chapter = page[page.index('# Add a deed') : page.index('# Add a family')]
        named = re.findall(r'`(crates/[\w/.]+\.(?:rt|antt))`', chapter)
        self.assertEqual(named, [path for path, _ in STEPS])

    def test_a_deed_stands_in_each(self) -> None:
        for path, stands in STEPS:
            self.assertEqual(read(f'{TOP}/{path}').count(stands), 1, path)

    def test_all_paths_of_the_families_list_are_there(self) -> None:
        page = read(f'{TOP}/CONTRIBUTING.md')
        chapter = page[page.index('# Add a family') : page.index('# Add a chip')]
        for path in re.findall(r'`(crates/[\w/.]+)`', chapter):
            self.assertTrue(os.path.exists(f'{TOP}/{path}'), path)


class LostArm(ToolCase):
    """A copy whose loop has no arm for the deed, over the libraries that the gate left."""

    def test_it_is_proved(self) -> None:
        os.mkdir(f'{self.room}/crates')
        shutil.copy(f'{TOP}/crates.txt', self.room)
        for name in Crates().below(PROVED) - {PROVED}:
            os.symlink(f'{TOP}/crates/{name}', f'{self.room}/crates/{name}')
        shutil.copytree(f'{TOP}/crates/{PROVED}', f'{self.room}/crates/{PROVED}', ignore=shutil.ignore_patterns('out', 'must-fail', 'refused'))
        self.file(ARM, read(f'{TOP}/{ARM}').replace(dict(STEPS)[ARM], ''))
        crates = Crates(self.room)
        lacking = [name for name in crates.below(PROVED) - {PROVED} if not os.path.exists(crates.rlib(name))]
        if lacking or not shutil.which('rt'):
            not_run('the proof without an arm; it wants Rattle, and the libraries that rt ci leaves')
            return
        os.makedirs(os.path.dirname(crates.rlib(PROVED)))
        ran = subprocess.run(crates.command(PROVED, 2), cwd=crates.folder(PROVED), stdin=subprocess.DEVNULL, capture_output=True, text=True, check=False)
        self.assertEqual(ran.returncode, 0, (ran.stdout + ran.stderr)[-2000:])
        self.assertRegex(ran.stdout + ran.stderr, r'(?m)^logic=proved functions=\d+ ')


if __name__ == '__main__':
    unittest.main()
