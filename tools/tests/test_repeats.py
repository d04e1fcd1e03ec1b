"""dev/repeats: how much of the crates' code is repeated, and that it isn't more than it was."""
import os
import unittest

from tests.support import ToolCase

LIMITS = 'rt=1.5,antt=2.0'
SIX = ''.join(f'    let a{n} = b{n};\n' for n in range(6))


class Repeats(ToolCase):
    """Over the repository, and over files of a few lines."""

    def count(self, *words: str, status: int = 0) -> str:
        return self.tool('dev/repeats', *words, self.room, status=status)[0]

    def test_the_repository_is_below_its_limits(self) -> None:
        print(self.tool('dev/repeats', '--limit', LIMITS)[0], end='', flush=True)

    def test_a_run_of_six_lines_counts_at_both_places(self) -> None:
        self.file('one.rt', f'fn one() {{\n{SIX}    one()\n}}\n')
        self.file('two.rt', f'fn two() {{\n\n{SIX}}}\n\nfn three() {{\n    three();\n}}\n')
        self.assertEqual(
            self.count().splitlines(),
            ['.rt: 12 of 17 lines stand in repeated runs (70.6 %)', '.antt: 0 of 0 lines stand in repeated runs (0.0 %)'],
        )

    def test_five_lines_imports_and_brackets_do_not_count(self) -> None:
        five = ''.join(f'    let a{n} = b{n};\n' for n in range(5))
        self.file('one.rt', f'use a;\nghost use b;\n{five}}}\n')
        self.file('two.rt', f'use a;\nghost use b;\n{five}}}\n')
        self.assertIn('.rt: 0 of 10 lines', self.count())

    def test_what_was_built_is_not_read(self) -> None:
        self.file('one.antt', SIX)
        os.mkdir(f'{self.room}/out')
        self.file('out/two.antt', SIX)
        self.assertIn('.antt: 0 of 6 lines', self.count())

    def test_the_limit_of_each_kind(self) -> None:
        self.file('one.rt', SIX)
        self.file('two.rt', SIX)
        self.assertIn('(100.0 %, at most 99.9)', self.count('--limit', 'rt=99.9', status=1))
        self.count('--limit', 'rt=100,antt=0')

    def test_the_longest_runs_are_told_by_two_places(self) -> None:
        seven = f'{SIX}    c();\n'
        self.file('one.antt', f'-- one\n{seven}')
        self.file('two.antt', f'-- two\n-- three\n{seven}')
        listed = self.count('--list', '5').splitlines()
        self.assertEqual(len(listed), 3, listed)
        self.assertRegex(listed[2], r'^     7 lines  .*/(one\.antt:2  .*/two\.antt:3|two\.antt:3  .*/one\.antt:2)$')

    def test_wrong_words(self) -> None:
        for limit in ('rt', 'py=1', 'rt=', 'rt=-1', 'rt=1,'):
            self.assertIn('as rt=2.6', self.tool('dev/repeats', '--limit', limit, status=2)[1])
        self.assertIn('is no folder', self.tool('dev/repeats', f'{self.room}/none', status=2)[1])


if __name__ == '__main__':
    unittest.main()
