"""The program on a word that isn't UTF-8, which no row of the program of cases can say; and on standard streams that are closed."""
from __future__ import annotations

import subprocess
import unittest

from tests.support import ToolCase, example

TOLD = b"error: invalid UTF-8 was detected in one or more arguments\n\nFor more information, try '--help'.\n"


class Unreadable(ToolCase):
    def answer(self, *words: bytes | str, closed: str = '') -> tuple[int, bytes, bytes]:
        """The status of the program, and what it prints and tells. A stream may be closed: 1 standard output, 2 standard error."""
        from toolbox import program

        shell = ['sh', '-c', f'exec "$0" "$@" {closed and closed + ">&-"}', program.path()]
        ran = subprocess.run([*shell, *words], stdin=subprocess.DEVNULL, capture_output=True, check=False)
        return ran.returncode, ran.stdout, ran.stderr

    def test_a_word_that_isnt_utf8(self) -> None:
        source, run_file = example('hello')
        for words in ((b'\xff',), (b'run', b'a\xff', b'b'), ('run', source, run_file, b'\xff'), ('asm', source, b'--list\xff'), (b'--', b'\xc3')):
            with self.subTest(words=words):
                self.assertEqual(self.answer(*words), (2, b'', TOLD))
                self.assertEqual(self.answer(*words, closed='2'), (3, b'', b''))

    def test_closed_streams(self) -> None:
        source, run_file = example('hello')
        wrong = self.file('wrong.asm', 'FROB\n')
        for words, status in ((('frob',), 2), (('asm', wrong), 1), (('run', source, f'{self.room}/none'), 3), (('asm', source), 0)):
            with self.subTest(words=words):
                self.assertEqual(self.answer(*words)[0], status)
                self.assertEqual(self.answer(*words, closed='2')[0], 0 if status == 0 else 3)
        self.assertEqual(self.answer('run', source, run_file, closed='1'), (3, b'', b''))


if __name__ == '__main__':
    unittest.main()
