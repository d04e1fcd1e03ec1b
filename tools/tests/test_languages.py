"""examples/nasm and examples/bcc: from source to a run by `make`, as their readers do it; and NASM's listing in the tools."""
from __future__ import annotations

import os
import shutil
import subprocess
import unittest

from tests.support import EXAMPLES, ToolCase, is_there

SHOWN = 'ticks  {}, keys   2'


class Languages(ToolCase):
    """In a copy of an example's folder."""

    def made(self, name: str, packages: dict[str, str]) -> str | None:
        """The folder in which `make` was called, and its screen's first line is right; or None, where a command isn't there."""
        if not all(is_there(command, f'examples/{name}', package) for command, package in packages.items()):
            return None
        from toolbox import program

        folder = shutil.copytree(f'{EXAMPLES}/{name}', f'{self.room}/{name}')
        done = subprocess.run(['make', '-s', 'run'], cwd=folder, env=os.environ | {'PCBOARD': program.path()}, capture_output=True, text=True, check=False)
        self.assertEqual(done.returncode, 0, done.stderr)
        self.assertEqual(done.stdout.splitlines()[7].rstrip(), 'ticks  12, keys   2' if name == 'nasm' else 'ticks   9, keys   2')
        return folder

    def test_a_program_by_nasm(self) -> None:
        folder = self.made('nasm', {'nasm': 'nasm', 'objcopy': 'binutils', 'make': 'make'})
        if folder is None:
            return
        words = ('--hex', '--symbols', f'{folder}/rom.lst@F600', f'{folder}/rom.hex', f'{folder}/run.json')
        lines = self.tool('dbg', *words, given='break key\ngo\nu show.digit 2\nlist key 1\n')[0].splitlines()
        self.assertRegex(lines[1], r'^stop 1 \(break F600:[0-9A-F]{4} key\), clock 20\d+: F600:[0-9A-F]{4} key \| \d+: key:    push ax$')
        self.assertRegex(lines[2], r'show\.digit +31D2 +XOR DX,DX$')
        self.assertIn('key:    push ax', lines[-1])
        out, _ = self.tool('trace', '--coverage', *words)
        self.assertRegex(out.splitlines()[0], r'^\d+ of \d+ lines of code ran')
        page = self.file('page', 'runs = key\nruns = start.next\nshows = keys   2\n')
        self.assertEqual(self.tool('judge', '--hex', '--symbols', f'{folder}/rom.lst@F600', page, *words[3:])[0].splitlines()[-1], '3 met, 0 not')

    def test_a_program_by_bcc(self) -> None:
        self.made('bcc', {'bcc': 'bcc', 'as86': 'bin86', 'objcopy': 'binutils', 'make': 'make'})


if __name__ == '__main__':
    unittest.main()
