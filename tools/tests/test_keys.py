"""tools/keys and tools/runfile."""
import json
import unittest

from tests.support import ToolCase, example

from toolbox.scancodes import NAMED, SIGNS, stamped, strokes_of


class Codes(unittest.TestCase):
    """The table and the stamps."""

    def test_the_table_is_that_of_the_example(self) -> None:
        """`examples/keys.asm` has the keyboard's letters by code, worked out apart."""
        with open(example('keys')[0], encoding='utf-8') as file:
            rows = [line.split("'")[1] for line in file if " DB '" in line]
        for code, sign in enumerate(''.join(rows)):
            if sign != '.' and code < 0x37:
                self.assertEqual(SIGNS[sign.lower()][0], code, sign)

    def test_each_printable_sign_has_a_key(self) -> None:
        self.assertEqual([chr(number) for number in range(32, 127) if chr(number) not in SIGNS], [])
        self.assertEqual(NAMED['f10'], 0x44)
        self.assertEqual(NAMED['del'], 0x53)

    def test_stamps(self) -> None:
        keys = stamped(strokes_of('A{wait 1000}b'), 10, 100, 50)
        self.assertEqual(keys, [(10, 42), (11, 30), (111, 158), (112, 170), (1162, 48), (1262, 176)])
        self.assertEqual(stamped(strokes_of('A', True), 0, 5, 5), [(0, 30), (5, 158)])
        self.assertEqual([stroke.codes for stroke in strokes_of('{{{ctrl+c}}}')], [(42, 26), (29, 46), (42, 27)])


class Tools(ToolCase):
    """The tools, and the program on what they write."""

    def test_a_typed_text_is_echoed(self) -> None:
        out, _ = self.tool('keys', '--plain', 'Hello, 1982', '--run')
        report = self.pcboard('run', example('keys')[0], self.file('k.json', out)).stdout.splitlines()
        self.assertEqual(report[7].rstrip(), 'HELLO, 1982')

    def test_run_files(self) -> None:
        out, _ = self.tool('keys', 'a', '--run', example('keys')[1], '--start', '5', '--hold', '0')
        self.assertEqual(json.loads(out), {'version': 1, 'ram': 64, 'sw1': 0, 'sw2': 0, 'budget': 10000, 'keys': [[5, 30], [5, 158]]})
        self.assertEqual(json.loads(self.tool('keys', '-', given='a\n')[0])[2][1], 28)
        self.assertGreater(json.loads(self.tool('keys', 'a' * 100, '--run')[0])['budget'], 200000)
        out, _ = self.tool('runfile', '--budget', '5,000', '--sw1', '0x30')
        self.assertEqual(out, '{"version":1,"ram":64,"sw1":48,"sw2":0,"budget":5000,"keys":[]}\n')
        again, _ = self.tool('runfile', '--from', self.file('r.json', out), '--ram', '128')
        self.assertEqual(json.loads(again) | {'ram': 64}, json.loads(out))

    def test_run_files_of_version_2(self) -> None:
        rest = '"ram":64,"sw1":0,"sw2":0,"budget":10000000,"keys":[]'
        for words, wanted in (
            (['--timer', '8254'], '"timer":"8254","clocks":"C1"'),
            (['--clocks', 'c2'], '"timer":"8253","clocks":"C2"'),
            (['--timer', '8253'], '"timer":"8253","clocks":"C1"'),
        ):
            out, _ = self.tool('runfile', *words)
            self.assertEqual(out, f'{{"version":2,{rest},{wanted}}}\n')
        two = self.file('two.json', self.tool('runfile', '--timer', '8254', '--clocks', 'C2')[0])
        fields = json.loads(self.tool('runfile', '--from', two, '--budget', '50')[0])
        self.assertEqual([fields[name] for name in ('version', 'timer', 'clocks', 'budget')], [2, '8254', 'C2', 50])
        fields = json.loads(self.tool('runfile', '--from', two, '--clocks', 'c1')[0])
        self.assertEqual([fields[name] for name in ('version', 'timer', 'clocks')], [2, '8254', 'C1'])
        fields = json.loads(self.tool('keys', 'a', '--run', two)[0])
        self.assertEqual([fields[name] for name in ('version', 'timer', 'clocks', 'keys')], [2, '8254', 'C2', [[2000, 30], [2500, 158]]])
        self.assertIn('8253', self.tool('runfile', '--timer', '8255', status=2)[1])

    def test_reads_keys(self) -> None:
        out, _ = self.tool('keys', '--read', example('keys')[1])
        self.assertEqual(out.splitlines()[1].split(), ['1700', 'h', 'up'])

    def test_refusals(self) -> None:
        for words, wanted in (
            (['\u00e9'], 'no key types'),
            (['{frob}'], 'neither a key'),
            (['a{'], 'stands alone'),
            ([], 'no text'),
            (['a', '--gap', '-1'], 'from 0 on'),
            (['a', '--run', 'no.json'], "can't be read"),
        ):
            self.assertIn(wanted, self.tool('keys', *words, status=3 if wanted == "can't be read" else 2)[1])
        for words, wanted in ((['--ram', '40'], '16, 32'), (['--sw2', '32'], '0 to 31'), (['--budget', 'x'], 'no number')):
            self.assertIn(wanted, self.tool('runfile', *words, status=2)[1])
        self.assertIn('{enter}', self.tool('keys', '--help')[0])
        self.assertIn('--sw1', self.tool('runfile', '--help')[0])


if __name__ == '__main__':
    unittest.main()
