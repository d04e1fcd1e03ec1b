"""What nobody would write breaks nothing: a part of dev/fuzz, what it has found before, and that it finds mistakes that are planted in a
copy."""
from __future__ import annotations

import unittest

from tests.support import TOP, not_run
from tests.test_faults import Planted

FRAMING, HTTP, RUN_FILE = 'tools/toolbox/framing.py', 'tools/toolbox/desk/http.py', 'tools/toolbox/runfile.py'
GOOD_ONCE = '                self._unused.remove(token)\n'


class Fuzz(Planted):
    """For some seconds, for the gate's sake; the rest is as long as one says."""

    def test_nothing_is_found(self) -> None:
        out, _ = self.tool('dev/fuzz', '--seconds', '10', '--seed', '101')
        self.assertRegex(out, r'^[1-9]\d+ inputs, 0 finds\n$')

    def test_what_was_found_before(self) -> None:
        """A byte that isn't UTF-8 for a debugger, a long word again and again, a listing's line of thirty digits, one too many, and half a
        byte."""
        for name in (
            'commands/no-utf-8',
            'commands/long-word-often',
            'map/line-of-thirty-digits',
            'map/line-too-many',
            'map/half-a-byte',
            'map/half-a-byte-of-ours',
        ):
            out, _ = self.tool('dev/fuzz', '--again', f'{TOP}/dev/corpus/{name}')
            self.assertEqual({line.rpartition(': ')[2] for line in out.splitlines()}, {'nothing'}, out)

    def test_words(self) -> None:
        self.assertIn('poem is no kind: source, hex', self.tool('dev/fuzz', '--kind', 'poem', status=2)[1])

    def test_planted_mistakes(self) -> None:
        """A limit off by one, a parser that raises, and a token that is good twice."""
        top = self.copy()
        self.plant(top, HTTP, ('        if length > LONGEST_BODY:\n', '        if length >= LONGEST_BODY:\n'))
        self.assertIn('a request of 4194304 bytes', self.finds(top, 'dev/fuzz', '--kind', 'edges'))
        self.plant(top, HTTP)
        self.plant(top, FRAMING, ('LONGEST_BODY, LONGEST_HEADER = 1 << 23,', 'LONGEST_BODY, LONGEST_HEADER = (1 << 23) + 1,'))
        self.assertIn('a message of 8388609 bytes', self.finds(top, 'dev/fuzz', '--kind', 'edges'))
        self.plant(top, FRAMING)
        self.plant(
            top,
            RUN_FILE,
            (
                "    except ValueError as error:\n        raise Sorry(f'{path} is no JSON",
                "    except KeyError as error:\n        raise Sorry(f'{path} is no JSON",
            ),
        )
        self.assertIn('JSONDecodeError', self.finds(top, 'dev/fuzz', '--kind', 'run', '--seconds', '5'))
        with open(f'{TOP}/{HTTP}', encoding='utf-8') as file:
            if GOOD_ONCE not in file.read():
                not_run("dev/fuzz with a token that is good twice, since the desk's is good as long as it runs")
                return
        self.plant(top, HTTP, (GOOD_ONCE, '                pass\n'))
        self.assertIn('an address is good a second time', self.finds(top, 'dev/fuzz', '--kind', 'edges'))


if __name__ == '__main__':
    unittest.main()
