"""The program on outsized input: sources, HEX texts, run files and sessions of up to three million bytes; and a word that
is empty, which no row of the program of cases can say."""
from __future__ import annotations

import resource
import unittest

from tests.cases import answer, cases
from tests.support import ToolCase

from toolbox import program

SECONDS = 20  # of a processor; on an idle one each takes below one
MEMORY = 600 << 20


def limited() -> None:
    """In the program's process: it is killed after so much time, and refused more memory."""
    resource.setrlimit(resource.RLIMIT_CPU, (SECONDS, SECONDS))
    resource.setrlimit(resource.RLIMIT_AS, (MEMORY, MEMORY))


class Outsized(ToolCase):
    def test_each_is_answered_as_told(self) -> None:
        found = cases('outsized.cases')
        self.assertEqual(len(found), 52)
        for case in found:
            with self.subTest(case.name):
                status, out, err = answer(case, program.path(), self.room, limited)
                self.assertEqual((status, err), (case.status, case.texts.get('stderr', b'')))
                self.assertTrue(out == case.texts.get('stdout', b''), 'what is printed differs')


if __name__ == '__main__':
    unittest.main()
