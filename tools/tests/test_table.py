"""tools/table, over stored reports."""
import unittest

from tests.support import STORED, ToolCase


class Tables(ToolCase):
    """Rows of reports."""

    def test_rows(self) -> None:
        out, _ = self.tool('table', '--of', 'name,clock,state,sound,AX,screen,line1', f'{STORED}/tone.report', f'{STORED}/hello.report')
        self.assertEqual(
            out.splitlines(), ['name\tclock\tstate\tsound\tAX\tscreen\tline1', 'hello\t100\thalted\t0\t0708\tHI\tHI', 'tone\t500\thalted\t12\t0000\t\t']
        )
        self.assertEqual(len(self.tool('table', f'{STORED}/tone.report')[0].splitlines()[1].split('\t')), 20)

    def test_rows_are_in_the_order_of_numbers(self) -> None:
        with open(f'{STORED}/hello.report', encoding='utf-8') as file:
            text = file.read()
        names = [self.file(f'run-{number}.txt', text) for number in (10, 9, 100)]
        out, _ = self.tool('table', '--of', 'name', *names)
        self.assertEqual(out.split(), ['name', 'run-9', 'run-10', 'run-100'])

    def test_timer_and_clocks_are_of_the_run_file_beside(self) -> None:
        names = [self.file(f'{stem}.txt', 'fault 36 RamSize\n') for stem in ('a', 'b', 'c')]
        self.file('a.json', '{"version":2,"timer":"8254","clocks":"C2"}')
        self.file('b.json', '{"version":1}')
        out, _ = self.tool('table', '--of', 'name,timer,clocks,state', *names, status=1)
        self.assertEqual(out.splitlines()[1:], [f'{row}\tfault 36 RamSize' for row in ('a\t8254\tC2', 'b\t8253\tC1', 'c\t\t')])
        with open(f'{STORED}/hello.report', encoding='utf-8') as file:
            name = self.file('a.txt', file.read())
        self.assertEqual(self.tool('table', '--of', 'clock,clocks', name)[0].splitlines()[1], '100\tC2')

    def test_refusals_are_rows(self) -> None:
        bad = self.file('bad.txt', 'fault 3 BadLine line 2\n')
        out, _ = self.tool('table', '--of', 'name,state', bad, f'{STORED}/hello.report', status=1)
        self.assertIn('bad\tfault 3 BadLine line 2\n', out)
        self.assertIn('no column', self.tool('table', '--of', 'taste', bad, status=2)[1])
        self.assertIn("can't be read", self.tool('table', 'nothing.txt', status=3)[1])
        self.assertIn('--of', self.tool('table', '--help')[0])


if __name__ == '__main__':
    unittest.main()
