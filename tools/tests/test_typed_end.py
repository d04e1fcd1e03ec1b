"""pcboard and pcprobe at a terminal: the end of what is typed ends a session, also if it comes within a line."""
import unittest

from tests.support import ToolCase, example
from tests.terminal import Terminal

from toolbox.program import path

END = '\x04'  # control-D, which the terminal makes the end of what was typed; after it more can be typed


class TypedEnd(ToolCase):
    """Each program in a terminal of its own."""

    def typed(self, name: str, text: str) -> str:
        """What a session about an example shows of a text that is typed, echo and answers; it ends with status 0."""
        words = {'pcboard': ['debug'], 'pcprobe': []}[name]
        terminal = Terminal([path(name), *words, *example('hello')])
        self.addCleanup(terminal.close)
        terminal.type(text)
        self.assertEqual(terminal.ended(), 0)
        return terminal.grid.read

    def test_a_line_that_the_end_ended_is_the_last(self) -> None:
        """The first end gives the line without a line feed, the second gives nothing; what is typed after them is no part of the input."""
        for name in ('pcboard', 'pcprobe'):
            with self.subTest(name):
                shown = self.typed(name, f'regs{END}{END}nonsense\n{END}')
                self.assertEqual((shown.count('AX='), shown.count('CS='), shown.count('fault')), (1, 1, 0), shown)

    def test_the_end_after_a_whole_line_ends_it(self) -> None:
        for name in ('pcboard', 'pcprobe'):
            with self.subTest(name):
                shown = self.typed(name, f'regs\n{END}nonsense\n{END}')
                self.assertEqual((shown.count('AX='), shown.count('fault')), (1, 0), shown)

    def test_lines_are_answered_up_to_the_end(self) -> None:
        for name in ('pcboard', 'pcprobe'):
            with self.subTest(name):
                shown = self.typed(name, f'regs\nnonsense\n{END}')
                self.assertEqual((shown.count('AX='), shown.count('fault 51 BadCommand')), (1, 1), shown)


if __name__ == '__main__':
    unittest.main()
