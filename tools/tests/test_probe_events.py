"""Sessions of the probe, from an independent implementation that ticks the plain board clock by clock: what happens in each clock,
and what else its commands answer then."""
from __future__ import annotations

import unittest

from tests.cases import answer, cases
from tests.support import ToolCase

from toolbox import program


class Events(ToolCase):
    def test_each_session_is_answered_as_told(self) -> None:
        found = cases('probe_events.cases')
        self.assertEqual(len(found), 310)
        for case in found:
            with self.subTest(case.name):
                status, out, err = answer(case, program.path('pcprobe'), self.room)
                self.assertEqual(out.decode('latin-1'), case.texts.get('stdout', b'').decode('latin-1'))
                self.assertEqual(status, case.status)
                if status != 2:
                    self.assertEqual(err, case.texts.get('stderr', b''))


if __name__ == '__main__':
    unittest.main()
