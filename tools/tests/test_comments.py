"""Characters that aren't ASCII: each tool answers as the program, which refuses them, and says how to remove them."""
from __future__ import annotations

import subprocess
import unittest

from tests.support import ToolCase, example

from toolbox.hints import hint_of

LINES = 'SEGMENT MAIN AT 50h\nstart: MOV AX,size ; Größe\nsize EQU 1 ; é\n HLT\nENDS\nSEGMENT R AT 0FFFFh\n JMP FAR start\nENDS\n'


class Hints(unittest.TestCase):
    """By what stands there."""

    def test_hints(self) -> None:
        for line, wanted in (('\ufeffNOP', 'byte order mark'), (' NOP ; é', 'iconv -c'), ("DB 'é'", "column 5 has 'é'"), (' NOP ; \x1a', 'iconv -c')):
            self.assertIn(wanted, hint_of(line, 2) or '')
        self.assertNotIn('iconv', hint_of("DB 'é' ; é", 2) or '')


class Tools(ToolCase):
    """Over the built program."""

    def setUp(self) -> None:
        super().setUp()
        self.sources = [self.file('comment.asm', LINES), self.file('mark.asm', '\ufeff' + LINES.replace('ö', 'o').replace('ß', 'ss').replace('é', 'e'))]
        self.run_file = example('hello')[1]

    def test_each_tool_refuses_it(self) -> None:
        page = self.file('it.page', 'AX = 1\n')
        for source, number in zip(self.sources, (2, 1)):
            fault = f'fault 2 BadCharacter line {number}'
            self.assertEqual(self.pcboard('asm', source).stderr, f'{fault}\n')
            self.assertIn(fault, self.tool('why', 'asm', source, status=1)[1])
            for words in (('try', source), ('why', 'run', source, self.run_file)):
                self.assertIn(fault, self.called(*words, status=1)[1], words)
            for words in (('dbg', source, self.run_file), ('trace', source, self.run_file)):
                self.assertIn(fault, self.called(*words, status=2)[1], words)
            self.assertIn(fault, self.called('judge', page, source, status=1)[0])
            self.assertIn(fault, self.called('judge', '--class', page, source, status=1)[0])

    def test_all_lines_are_told(self) -> None:
        """None is told that follows from another."""
        comment, mark = self.sources
        for source, lines in ((comment, ['2', '3']), (mark, ['1'])):
            out = self.called('why', '--lines', source, status=1)[0].splitlines()
            self.assertEqual([line.split(':')[1] for line in out], lines)
            self.assertEqual({line.split(': ')[2] for line in out}, {'BadCharacter'})

    def test_the_hints_remove_them(self) -> None:
        """The commands that stand in them, with the names."""
        for source in self.sources:
            said = self.called('try', source, status=1)[1]
            command = next(part for part in said.replace(', or ', ': ').replace(' leaves', ': ').split(': ') if 'FILE > NEW' in part)
            subprocess.run(command.replace('FILE', source).replace('NEW', f'{source}.new.asm'), shell=True, check=True)
            self.assertEqual(self.pcboard('asm', f'{source}.new.asm').returncode, 0)


if __name__ == '__main__':
    unittest.main()
