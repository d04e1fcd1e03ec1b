"""Intel HEX by its name: each tool and zebludor.py take a file that ends in .hex, in letters of either case, as that."""
from __future__ import annotations

import pathlib
import shutil
import unittest

from tests.support import ToolCase, example

import toolbox  # where zebludor is found
import zebludor

assert toolbox
# Tools with their words, where FILE and RUN stand, and what is seen only of a program that runs.
TOOLS = (
    ('dbg FILE RUN', 'CS=FFFF'),
    ('judge PAGE FILE RUN', '1 met, 0 not'),
    ('moments PAGE FILE RUN --key 1E --at 10..11', '1 of 1 moments tried, 0 failed'),
    ('picture --of FILE RUN --ansi', '>'),
    ('trace FILE RUN --to 100', 'FFFF:0000'),
    ('trace FILE RUN --to 100 --coverage', 'FFFF0'),
    ('try FILE --budget 200000', '>'),
    ('why run FILE RUN', '>'),
)


class ByName(ToolCase):
    """Over the built program."""

    def test_each_tool(self) -> None:
        page = self.file('it.page', 'lost = 0\n')
        source, run = example('monitor')
        for name in ('it.hex', 'IT.HEX'):
            path = shutil.copyfile(source.replace('.asm', '.hex'), f'{self.room}/{name}')
            for line, wanted in TOOLS:
                tool, *words = [{'FILE': path, 'RUN': run, 'PAGE': page}.get(word, word) for word in line.split()]
                self.assertIn(wanted, self.called(tool, *words, given='regs\ngo 50\nregs\n')[0], line)
            self.assertEqual(zebludor.run(pathlib.Path(path), budget=200_000).text, '>')
            with zebludor.Session(pathlib.Path(path)) as session:
                session.go(200_000)
                self.assertEqual(session.screen()[0].rstrip(), '>')

    def test_other_names_say_it(self) -> None:
        path = shutil.copyfile(example('monitor')[0].replace('.asm', '.hex'), f'{self.room}/it')
        self.assertIn('fault 3', self.called('try', path, status=1)[1])
        self.assertEqual(self.called('try', '--hex', path, '--budget', '200000')[0].splitlines()[0], '>')
        with self.assertRaises(zebludor.Fault):
            zebludor.run(pathlib.Path(path))
        self.assertEqual(zebludor.run(pathlib.Path(path), is_hex=True, budget=200_000).text, '>')
        with self.assertRaises(zebludor.Fault):
            zebludor.run(':00000001FF\n')


if __name__ == '__main__':
    unittest.main()
