"""What a reader meets first of the crates: the headings of crates.txt, README's table, and the lines of cases."""
from __future__ import annotations

import fnmatch
import glob
import os
import re
import unittest

from tests.support import TOP
from toolbox.crates import Crates

HEADINGS = 9
LONGEST = 400  # of a line of cases, in characters
CALLS = ['run_on_system', 'program', 'alloc', 'new', 'new', 'stdin', 'new', 'stdout', 'new', 'stderr']  # what a main calls


def read(path: str) -> str:
    with open(f'{TOP}/{path}', encoding='utf-8') as file:
        return file.read()


def groups() -> dict[str, list[str]]:
    """The crates of crates.txt by their heading, which is a line of comment after a blank one."""
    found = {}
    for part in read('crates.txt').split('\n\n')[1:]:
        heading, *lines = part.splitlines()
        found[heading.removeprefix('# ')] = [line.partition(':')[0].split()[0] for line in lines]
    return found


def rows() -> dict[str, list[str]]:
    """The names in README's table by the heading of their row. A name may stand for several, as `execute_*`."""
    _, _, page = read('README.md').partition('\n## The crates\n')
    table, _, _ = page.partition('\n## ')
    found = re.findall(r'^\|([^|:]+): (.*?)\|', table, re.M)
    return {heading: re.findall('`(.*?)`', names) for heading, names in found}


class List(unittest.TestCase):
    """crates.txt, and the table."""

    def test_headings(self) -> None:
        """Each crate stands under one."""
        self.assertEqual(len(groups()), HEADINGS)
        self.assertEqual([crate for crates in groups().values() for crate in crates], [*Crates().named])

    def test_a_crate_comes_after_those_it_stands_on(self) -> None:
        named = Crates().named
        before = set[str]()
        for crate, libraries in named.items():
            self.assertLessEqual(named.keys() & libraries, before, crate)
            before.add(crate)

    def test_the_table_follows(self) -> None:
        """Its rows are the headings, and a row names the crates that stand under its heading, and no other."""
        self.assertEqual([*rows()], [*groups()])
        for heading, crates in groups().items():
            names = rows()[heading]
            found = {name: fnmatch.filter(crates, name) for name in names}
            self.assertEqual({crate for each in found.values() for crate in each}, {*crates}, heading)
            self.assertEqual([name for name in names if not found[name]], [], heading)


class Mains(unittest.TestCase):
    """What starts pcboard and pcprobe."""

    def test_each_calls_the_program_of_its_name_and_nothing_else(self) -> None:
        texts = {name: re.sub(r'//.*\n', '', read(f'crates/{name}/src/main.rt')).replace(name, 'NAME') for name in ('pcboard', 'pcprobe')}
        found = [sorted(each.replace('NAME_texts', 'pcboard_texts').splitlines()) for each in texts.values()]
        self.assertEqual(found[0], found[1])
        self.assertIn('use NAME_program::program::program;', found[0])
        self.assertEqual(re.findall(r'(\w+)\(', texts['pcboard'].partition('fn main(')[2]), CALLS)


class Cases(unittest.TestCase):
    """The input of the programs of cases."""

    def test_no_line_is_long(self) -> None:
        """A longer one is broken by a backslash at its end, after which it goes on in the next (crates/cases)."""
        paths = sorted(glob.glob(f'{TOP}/crates/*_cases/stdin'))
        self.assertEqual(len(paths), len([crate for crate in Crates().named if crate.endswith('_cases')]))
        for path in paths:
            lines = read(os.path.relpath(path, TOP)).split('\n')
            self.assertEqual([number for number, line in enumerate(lines, 1) if len(line) > LONGEST][:10], [], path)


if __name__ == '__main__':
    unittest.main()
