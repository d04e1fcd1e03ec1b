"""dev/contracts: what is printed is what the sources' comments say."""
import pathlib
import re
import shutil
import subprocess
import sys
import unittest

from parts.definitions import items
from parts.one_sided import function_of, worst_of
from tests.support import TOP, ToolCase

# Words of the row that are no such function.
OTHERS = {'None', 'dev/contracts --one-sided'}
# Functions without a body, and what each may always answer.
FORMS = (
    ('fn a(&self) -> bool\n    ensures { IsTrue result → IsQuiet self.now }\n', 'false'),
    ('fn a(&self) -> bool\n    ensures { IsTrue result ↔ IsQuiet self.now }\n', None),
    (
        'fn a(&mut self) -> bool\n    ensures made { IsTrue result → Goes self.old self.new }\n    ensures kept { ¬ (IsTrue result) → self.new ≡ self.old }\n',
        'false',
    ),
    ('fn a(&mut self) -> bool\n    ensures made { IsTrue result → Goes self.old self.new }\n    ensures why { ¬ (IsTrue result) → IsDue self.old }\n', None),
    ('fn a(&self) -> bool\n    ensures { ¬ (IsTrue result) → IsFree self.now }\n', 'true'),
    ('fn a(&self) -> Option<u8>\n    ensures { IfSome result (λ n. n ≡ 3) }\n', 'None'),
    ('fn a(&self) -> Option<u8>\n    ensures { IfSome result (λ n. n ≡ 3) }\n    ensures none { IfNone result (IsEmpty self.now) }\n', None),
    ('fn a(&self) -> u64\n    ensures { result ≤ 8 }\n', '0'),
    ('fn a(&self) -> u64\n    ensures { 1 ≤ result }\n', None),
    ('fn a(&mut self)\n    ensures { self.new ≡ self.old }\n', 'nothing'),
    ('fn a(&mut self)\n    requires { Agrees self.old }\n    ensures { Agrees self.new }\n', 'nothing'),
    ('fn a(&mut self)\n    ensures { self.new ≡ after self.old }\n', None),
    ('fn a(&self) -> u64 {\n    1\n}\n', 'anything'),
)


class Contracts(ToolCase):
    """Over the repository, and over a copy of one crate."""

    def setUp(self) -> None:
        super().setUp()
        self.path = pathlib.Path(self.room)

    def run_it(self, *words: str) -> str:
        ran = subprocess.run([sys.executable, f'{self.room}/dev/contracts', *words], capture_output=True, text=True, check=True)
        return ran.stdout

    def test_all_crates_in_the_order_of_their_list(self) -> None:
        printed, _ = self.tool('dev/contracts')
        with open(f'{TOP}/crates.txt', encoding='utf-8') as file:
            crates = re.findall(r'^(\w+)(?: \w+)?:', file.read(), re.M)
        self.assertEqual(re.findall(r'^## (\w+)$', printed, re.M), crates)
        paths = re.findall(r'\bcrates/[\w/]+\.(?:rt|antt)\b', printed)
        self.assertGreater(len(paths), 300)
        for path in paths:
            self.assertTrue(pathlib.Path(TOP, path).exists(), path)

    def test_one_crate(self) -> None:
        printed, _ = self.tool('dev/contracts', 'pit8253')
        self.assertEqual(re.findall(r'^## (\w+)$', printed, re.M), ['pit8253'])
        self.assertIn('- `waves_as_told`', printed)
        self.assertIn('Wrong bodies that the prover refuses: ', printed)

    def test_a_program_with_the_library_of_its_contract(self) -> None:
        for program in ('pcboard', 'pcprobe'):
            printed, _ = self.tool('dev/contracts', program)
            self.assertEqual(re.findall(r'^## (\w+)$', printed, re.M), [f'{program}_program', program])
            self.assertIn(f'- `program`: Runs `{program}`', printed)

    def test_a_changed_comment_and_a_new_clause_are_printed(self) -> None:
        for folder in ('dev', 'tools'):
            (self.path / folder).mkdir()
        shutil.copy(f'{TOP}/dev/contracts', f'{self.room}/dev/contracts')
        for folder in ('dev/parts', 'tools/toolbox'):
            shutil.copytree(f'{TOP}/{folder}', f'{self.room}/{folder}', ignore=shutil.ignore_patterns('__pycache__'))
        shutil.copytree(f'{TOP}/crates/bus', f'{self.room}/crates/bus', ignore=shutil.ignore_patterns('out'))
        self.file('crates.txt', '# Libraries.\nbus: board_types\n')
        printed = self.run_it('bus')
        self.assertIn('- `Bus::in8`: The byte that `port` gives. *value, state*\n', printed)
        self.assertIn('asks `addr < 2 ^ 20`', printed)
        source = (self.path / 'crates/bus/src/lib.rt').read_text()
        for old, new, seen in (
            ('/// The byte that `port` gives', '/// The byte at `port`', 'The byte at `port`'),
            ('ensures state {', 'ensures bus {', '*value, bus*'),
        ):
            self.assertIn(old, source)
            self.file('crates/bus/src/lib.rt', source.replace(old, new))
            self.assertIn(seen, self.run_it())

    def test_the_page_names_each_function_that_may_know_nothing(self) -> None:
        with open(f'{TOP}/docs/proofs.md', encoding='utf-8') as file:
            rows = file.read().partition('# What no clause says')[2].partition('\n# ')[0]
        row = next(line for line in rows.splitlines() if line.startswith('|**that what may know nothing'))
        false, none, zero, true, nothing = re.split(r'Always `None` may be|Always 0 may be|Always true may be|nothing need be done', row)
        of = {'false': false, 'None': none, '0': zero, 'true': true, 'nothing': nothing, 'anything': rows}
        printed = [re.fullmatch(r'(\w+): crates/(\w+)/src/(\w+)\.rt: (.*)', line) for line in self.tool('dev/contracts', '--one-sided')[0].splitlines()]
        found = [(match[1], match[2], match[3], name) for match in printed if match for name in match[4].split(', ')]
        self.assertGreater(len(found), 100)
        others = rows.replace(row, '')
        for worst, crate, file, name in found:
            is_named = f'`{name}`' in of[worst] or f'`{file}.rt`' in of[worst] or f'`{name}`' in others
            self.assertTrue(is_named or f'`{crate}`' in others, (worst, crate, file, name))  # by itself, or its whole crate
        self.assertEqual(set(re.findall(r'`([^`]+)`', row)) - {name for _, _, _, name in found}, OTHERS)

    def test_the_page_names_each_line_that_may_want_memory(self) -> None:
        with open(f'{TOP}/docs/proofs.md', encoding='utf-8') as file:
            row = next(line for line in file if line.startswith('|**that memory is found**'))
        named = row.partition('in place of any answer to ')[2].partition(' (`dev/contracts --memory`')[0]
        printed = self.tool('dev/contracts', '--memory')[0].splitlines()
        self.assertEqual(re.findall(r'`([^`]+)`', named), printed)
        self.assertIn('regs', printed)
        self.assertNotIn('go', printed)

    def test_forms_of_clauses(self) -> None:
        for text, worst in FORMS:
            self.assertEqual(worst_of(function_of('', '', items(text)[0])), worst, text)

    def test_words(self) -> None:
        self.assertIn('CRATE', self.tool('dev/contracts', '--help')[0])
        self.assertIn('there is no crate boards', self.tool('dev/contracts', 'boards', status=2)[1])


if __name__ == '__main__':
    unittest.main()
