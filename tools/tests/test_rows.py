"""The encoding table as code, and CONTRIBUTING's list for adding an instruction, followed in a copy with a made-up row.

  python3 -m tests.test_rows --write     in tools/: writes FIRST, and the number of rows wherever it stands, as the rows are"""
from __future__ import annotations

import os
import re
import shutil
import subprocess
import sys
import unittest
from collections.abc import Iterable

from tests.support import TOP, ToolCase, not_run
from toolbox.command import write_text

ROW = re.compile(r'^    row!\(\w+::\w+ 0x([0-9A-F]{2})(?: / \d)?, (\w+) (\w+), ', re.M)
WIDTH = 99  # of a line; rt fmt lays it out anew
CRATES = ('board_types', 'isa')
TABLE, INDEX, OPERATIONS = (f'crates/isa/src/{stem}.rt' for stem in ('table', 'parts', 'operation'))
DEFINITION = 'crates/isa/specs/Table.antt'
# SALC, which the 8086's manual doesn't name, and for which no place but those that CONTRIBUTING lists changes.
STEPS = (
    (DEFINITION, '    row (Adjust Cwd) 0x99 Nothing Nothing (Always 5) ∷\n', '    row (Adjust Salc) 0xD6 Nothing Nothing (Always 4) ∷\n'),
    (TABLE, '    row!(Adjust::Cwd 0x99, Nothing Nothing, Always(5)),\n', '    row!(Adjust::Salc 0xD6, Nothing Nothing, Always(4)),\n'),
    (OPERATIONS, '    Cbw,\n    Cwd,\n', '    Salc,\n'),
    (DEFINITION, 'Aad, Cbw, Cwd', ', Salc'),
)


def read(path: str) -> str:
    with open(path, encoding='utf-8') as file:
        return file.read()


def opcodes(first: int, kinds: set[str]) -> Iterable[int]:
    """The opcodes that a row has, by its own and its operands."""
    if kinds & {'Code8', 'Code16', 'EscNumber'}:
        return range(first, first + 8)
    if kinds & {'CodeSegment', 'CodeSegmentNotCs'}:
        return [first + 8 * segment for segment in range(4) if segment != 1 or 'CodeSegment' in kinds]
    return [first]


def rows(top: str) -> list[tuple[str, str, str]]:
    """The rows of the table as code: opcode and operands."""
    return ROW.findall(read(f'{top}/{TABLE}'))


def index(top: str) -> str:
    """The numbers that FIRST must have: for each opcode, how many rows precede the first that has it."""
    table = rows(top)
    first = [len(table)] * 256
    for place, (opcode, *kinds) in reversed(list(enumerate(table))):
        for octet in opcodes(int(opcode, 16), set(kinds)):
            first[octet] = place
    lines = ['   ']
    for number in first:
        if len(lines[-1]) + len(f' {number},') > WIDTH:
            lines.append('   ')
        lines[-1] += f' {number},'
    return '\n'.join(lines)


def stored_index(top: str) -> str:
    found = re.search(r'^static FIRST: \[u8; 256\] = \[\n(.*?)\n\];$', read(f'{top}/{INDEX}'), re.M | re.S)
    assert found
    return found[1]


def write(top: str) -> list[str]:
    """Makes the index, and each place that has the number of rows, those of the table's rows; returns the files that changed."""
    count, changed = len(rows(top)), list[str]()
    for path, form, now in (
        (INDEX, r'(?s)(?<=^static FIRST: \[u8; 256\] = \[\n).*?(?=\n\];$)', index(top)),
        (TABLE, r'(?<=^static ROWS: \[Row; )\d+(?=\] = \[)', str(count)),
        ('docs/machine.md', r'(?<=\bthe )\d+(?= rows of)', str(count)),
        ('CONTRIBUTING.md', r'(?<=`\[Row; )\d+(?=\]`)', str(count)),
    ):
        if not os.path.exists(f'{top}/{path}'):
            continue
        text = read(f'{top}/{path}')
        anew, found = re.subn(form, lambda _, now=now: now, text, flags=re.M)
        assert found == 1, path
        if anew.split() != text.split():
            write_text(f'{top}/{path}', anew)
            changed.append(path)
    return changed


class Rows(ToolCase):
    """The table, its length and its index."""

    maxDiff = None

    def test_the_index_is_the_tables(self) -> None:
        is_so = stored_index(TOP).split() == index(TOP).split()
        self.assertTrue(is_so, f'FIRST in {INDEX} is of other rows; python3 -m tests.test_rows --write, in tools/, writes it')

    def test_its_length(self) -> None:
        count = len(rows(TOP))
        self.assertLessEqual(count, 255)
        for path, text in ((TABLE, f'static ROWS: [Row; {count}] = ['), ('docs/machine.md', f'the {count} rows of'), ('CONTRIBUTING.md', f'`[Row; {count}]`')):
            self.assertTrue(text in read(f'{TOP}/{path}'), f'{path} has no "{text}"; python3 -m tests.test_rows --write, in tools/, writes it')

    def test_contributing_names_these_places(self) -> None:
        page = read(f'{TOP}/CONTRIBUTING.md')
        for path in (DEFINITION, TABLE, INDEX, OPERATIONS):
            self.assertIn(f'`{path}`', page)
        chapter = page[page.index('# Add an instruction') : page.index('# Names in definitions')]
        for name in re.findall(r'`((?:crates|tools|c|python|editors)/[\w/.]+)`', chapter):
            self.assertTrue(os.path.exists(f'{TOP}/{name}'), name)


class MadeUpRow(ToolCase):
    """A copy in which a row is added."""

    def setUp(self) -> None:
        super().setUp()
        for name in CRATES:
            shutil.copytree(f'{TOP}/crates/{name}', f'{self.room}/crates/{name}', ignore=shutil.ignore_patterns('out', 'must-fail', 'refused'))
        listed = re.findall(rf'^(?:{"|".join(CRATES)}):.*\n', read(f'{TOP}/crates.txt'), re.M)
        self.file('crates.txt', ''.join(listed))
        for path, behind, new in STEPS:
            text = read(f'{self.room}/{path}')
            self.assertEqual(text.count(behind), 1, behind)
            self.file(path, text.replace(behind, behind + new))
        os.mkdir(f'{self.room}/docs')
        for path in ('CONTRIBUTING.md', 'docs/machine.md'):
            shutil.copy(f'{TOP}/{path}', f'{self.room}/{path}')
        self.changed = write(self.room)

    def test_what_is_written(self) -> None:
        """The numbers behind the new row shift by one, and nothing else changes; written once more, nothing does."""
        count = len(rows(TOP)) + 1
        self.assertEqual(self.changed, [INDEX, TABLE, 'docs/machine.md', 'CONTRIBUTING.md'])
        before, after = ([int(word.strip(',')) for word in stored_index(top).split()] for top in (TOP, self.room))
        place = next(at for at, row in enumerate(rows(self.room)) if row[0] == 'D6')
        self.assertEqual(after, [place if at == 0xD6 else number + (number >= place) for at, number in enumerate(before)])
        self.assertIn(f'`[Row; {count}]`', read(f'{self.room}/CONTRIBUTING.md'))
        self.assertEqual(write(self.room), [])
        self.assertEqual(write(TOP), [])

    def test_isa_is_proved(self) -> None:
        """No two rows fit the same bytes, and the index leads to the first. That digest and decode, which stand on it, are proved
        too with no further change was tried once: it takes four minutes of a processor."""
        if not shutil.which('rt'):
            not_run("the proof of a made-up row; Rattle's rt is not on the path")
            return
        ran = subprocess.run(
            ['rt', 'check'], cwd=f'{self.room}/crates/isa', stdin=subprocess.DEVNULL, stdout=subprocess.PIPE, stderr=subprocess.STDOUT, text=True, check=False
        )
        self.assertEqual(ran.returncode, 0, ran.stdout[-2000:])
        self.assertRegex(ran.stdout, r'(?m)^logic=proved functions=\d+ ')


if __name__ == '__main__':
    if sys.argv[1:] == ['--write']:
        print(*write(TOP) or ['nothing changed'], sep='\n')
        sys.exit()
    unittest.main()
