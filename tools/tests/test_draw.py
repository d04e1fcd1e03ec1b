"""Functions that are drawn by lot for a reader."""
from __future__ import annotations

import re
import unittest

from tests.support import TOP, ToolCase


class Draw(ToolCase):
    """dev/draw."""

    def places(self, *words: str) -> list[str]:
        """The places that it draws, after its first line."""
        return self.tool('dev/draw', *words, '--places')[0].splitlines()[1:]

    def test_one_seed_draws_the_same_functions_again(self) -> None:
        drawn = self.places('--seed', 'abc')
        self.assertEqual((len(drawn), len(set(drawn))), (20, 20))
        self.assertEqual(self.places('--seed', 'abc', '--count', '5'), drawn[:5])
        self.assertNotEqual(self.places('--seed', 'abd'), drawn)

    def test_a_function_is_printed_whole(self) -> None:
        """From the first line of its comment to the end of its body, as its file has it."""
        printed = self.tool('dev/draw', '--seed', 'abc')[0]
        parts = re.split(r'^# (crates/\S+\.rt):(\d+): (\w+)\n\n', printed, flags=re.M)[1:]
        self.assertEqual(len(parts), 4 * 20)
        for file, line, name, text in zip(parts[::4], parts[1::4], parts[2::4], parts[3::4]):
            with open(f'{TOP}/{file}', encoding='utf-8') as source:
                lines = source.read().split('\n')
            text = text.strip('\n')
            self.assertEqual('\n'.join(lines[int(line) - 1 :][: text.count('\n') + 1]).strip('\n'), text)
            self.assertRegex(text, rf'\bfn {name}\b')
            self.assertTrue(text.endswith('}'), name)

    def test_what_is_no_number(self) -> None:
        self.assertIn("--count 0 isn't a number of functions", self.tool('dev/draw', '--count', '0', status=2)[1])


if __name__ == '__main__':
    unittest.main()
