"""What CONTRIBUTING installs is what tests want: `is_there` looks at each package that it is called with, and here are those that other
tests and the benches name."""
from __future__ import annotations

import ast
import glob
import re
import unittest

from tests.support import TOP, is_there, packages

NAMING = ('dev/benches', 'dev/parts/outside/*.py', 'dev/parts/targets.py', 'tools/tests/*.py')  # files that name packages
INSTALL = re.compile(r'apt(?:-get)? install (?:--no-install-recommends )?([a-z0-9][-+.a-z0-9 ]*)\Z')
BENCHES = re.compile(r"^    '[^']+': '([^']+)',$", re.M)  # a row of the table of packages in dev/benches


def texts() -> list[str]:
    """All strings of those files but this one's."""
    found = list[str]()
    for path in sorted({path for pattern in NAMING for path in glob.glob(f'{TOP}/{pattern}')} - {__file__}):
        with open(path, 'rb') as file:
            nodes = ast.walk(ast.parse(file.read()))
        found += [node.value for node in nodes if isinstance(node, ast.Constant) and isinstance(node.value, str)]
    return found


class Wanted(unittest.TestCase):
    """The line in CONTRIBUTING."""

    def test_each_is_there_once_in_order(self) -> None:
        self.assertEqual(packages(), sorted(set(packages())))

    def test_what_is_told_with_its_packages(self) -> None:
        named = {name for text in texts() for match in INSTALL.finditer(text) for name in match[1].split()}
        self.assertLess({'python3-jsonschema', 'chromium', 'libunicorn2'}, named)
        self.assertLessEqual(named, {*packages()})

    def test_the_benches(self) -> None:
        with open(f'{TOP}/dev/benches', encoding='utf-8') as file:
            table = file.read().partition('\nPACKAGES = {\n')[2].partition('}')[0]
        named = {name for row in BENCHES.findall(table) for name in row.split()}
        self.assertLess({'verilator', 'valgrind'}, named)
        self.assertLessEqual(named, {*packages()})

    def test_none_that_nothing_wants(self) -> None:
        words = {word for text in texts() if len(text) < 200 for word in text.split()}
        self.assertLessEqual({*packages()}, words)

    def test_a_package_that_it_lacks(self) -> None:
        with self.assertRaisesRegex(AssertionError, 'lacks frob'):
            is_there('sh', 'a shell', 'frob dash')


if __name__ == '__main__':
    unittest.main()
