"""Python's layout and names, by Debian's black and pyflakes3, where they are installed, and where its modules stand.

  python3 -m tests.test_style --write     in tools/: lays out all files as black does"""
from __future__ import annotations

import ast
import collections
import io
import os
import re
import subprocess
import sys
import tokenize
import unittest

from parts import release
from tests.support import TOP, is_there, not_run

FOLDERS = ('bench', 'c', 'dev', 'editors', 'examples', 'python', 'tools')
LAYOUT = 23  # the black whose layout this is; others differ
MOST = {'it': 300, 'told': 50}  # how often names that say little may stand in all files together


def is_python(path: str) -> bool:
    """By its name, or by its first line."""
    if path.endswith('.py'):
        return True
    with open(path, 'rb') as file:
        return re.match(rb'#!\S*(?:env )?python3?\b', file.readline(100)) is not None


def files() -> list[str]:
    """All Python of the repository."""
    found = (f'{folder}/{name}' for top in FOLDERS for folder, _, names in os.walk(f'{TOP}/{top}') for name in names if '/out/' not in f'{folder}/')
    return sorted(path for path in found if os.path.isfile(path) and not path.endswith('.pyc') and is_python(path))


def lay_out(*words: str) -> subprocess.CompletedProcess[str]:
    return subprocess.run(['black', '--quiet', *words, *files()], cwd=TOP, capture_output=True, text=True, check=False)


def named(source: bytes) -> list[tokenize.TokenInfo]:
    """Where a file has one of the names that are limited."""
    return [token for token in tokenize.tokenize(io.BytesIO(source).readline) if token.type == tokenize.NAME and token.string in MOST]


def span_of_it(node: ast.AST) -> tuple[int, int, int] | None:
    """The line, the first byte and the last one of a comprehension or lambda on one line whose one variable is `it`; of all else None."""
    if isinstance(node, ast.Lambda):
        first, last, variables = node, node.body, [inner.arg for inner in ast.walk(node.args) if isinstance(inner, ast.arg)]
    elif isinstance(node, (ast.ListComp, ast.SetComp, ast.GeneratorExp, ast.DictComp)):
        first = node.key if isinstance(node, ast.DictComp) else node.elt
        last = [node.generators[-1].iter, *node.generators[-1].ifs][-1]
        variables = [ast.unparse(generator.target) for generator in node.generators]
    else:
        return None
    is_one = variables == ['it'] and first.lineno == last.end_lineno
    return (first.lineno, first.col_offset, last.end_col_offset) if is_one else None


def imported(path: str) -> set[str]:
    """The files below tools/ and dev/ that a file imports, anywhere in it. Paths are from the repository on."""
    with open(f'{TOP}/{path}', 'rb') as file:
        nodes = list(ast.walk(ast.parse(file.read())))
    names = [name.name for node in nodes if isinstance(node, ast.Import) for name in node.names]
    for node in nodes:
        if isinstance(node, ast.ImportFrom):
            names += [f'{node.module}', *(f'{node.module}.{name.name}' for name in node.names)]
    places = (f'{folder}/{name.replace(".", "/")}.py' for folder in ('tools', 'dev') for name in names)
    return {place for place in places if os.path.isfile(f'{TOP}/{place}')}


def astray(source: bytes, names: list[tokenize.TokenInfo]) -> list[int]:
    """The lines of those names in a file that are an `it` which isn't the one variable of a comprehension or lambda of one line."""
    spans = [span for span in map(span_of_it, ast.walk(ast.parse(source))) if span]
    found = list[int]()
    for name in names:
        number, column = name.start[0], len(name.line[: name.start[1]].encode())
        if name.string == 'it' and not any(line == number and first <= column < end for line, first, end in spans):
            found.append(number)
    return found


class Style(unittest.TestCase):
    """Over all files at once."""

    def test_names(self) -> None:
        """No name is imported or assigned in vain, and none is missing."""
        if is_there('pyflakes3', "Python's names", 'pyflakes3'):
            ran = subprocess.run(['pyflakes3', *files()], capture_output=True, text=True, check=False)
            self.assertEqual((ran.stdout, ran.stderr), ('', ''))

    def test_layout(self) -> None:
        if not is_there('black', "Python's layout", 'black'):
            return
        version = subprocess.run(['black', '--version'], capture_output=True, text=True, check=True).stdout
        if not re.search(rf'\b{LAYOUT}\.', version):
            not_run(f"Python's layout; black {LAYOUT} is wanted, and this is {version.partition(chr(10))[0]}")
            return
        ran = lay_out('--diff')
        self.assertEqual(ran.stdout[:3000], '', 'python3 -m tests.test_style --write, in tools/, lays it out')
        self.assertEqual((ran.returncode, ran.stderr), (0, ''))

    def test_all_files_are_found(self) -> None:
        found = {os.path.relpath(path, TOP) for path in files()}
        self.assertLess({'tools/why', 'tools/toolbox/command.py', 'dev/build', 'bench/count', 'python/zebludor.py', 'editors/grammar'}, found)

    def test_toolbox_is_what_users_programs_reach(self) -> None:
        """Programs of a release reach each module of toolbox by their imports, and none that a release leaves out."""
        taken = {path for path in release.paths() if is_python(f'{TOP}/{path}')}
        toolbox = {path for path in taken if path.startswith('tools/toolbox/')}
        reached, last = set[str](), taken - toolbox
        while last:
            last = {found for path in last for found in imported(path)} - reached
            reached |= last
        self.assertEqual(sorted(reached), sorted(path for path in toolbox if not path.endswith('/__init__.py')))
        self.assertLess({'tools/toolbox/command.py', 'tools/toolbox/desk/words.py'}, reached)

    def test_names_say_what_they_stand_for(self) -> None:
        """`it` is the one variable of a comprehension or lambda of one line, and neither it nor `told` is frequent."""
        count, strays = collections.Counter[str](), list[str]()
        for path in files():
            with open(path, 'rb') as file:
                source = file.read()
            names = named(source)
            count.update(name.string for name in names)
            strays += [f'{os.path.relpath(path, TOP)}:{number}' for number in astray(source, names)]
        self.assertEqual(strays[:20], [])
        for name, most in MOST.items():
            self.assertLessEqual(count[name], most, name)

    def test_what_is_astray(self) -> None:
        def lines(text: str) -> list[int]:
            return astray(text.encode(), named(text.encode()))

        for source in (
            'a = [it + 1 for it in b if it]',
            'a = {it: b[it] for it in c}, {it for it in c}',
            'a = sum(\n    len(it) for it in b\n)',
            'sort(key=lambda it: it[0])',
            'a = lambda it=b: it.c',
            "'é', [it for it in b]",
            "a = 'it'  # it",
        ):
            self.assertEqual(lines(source), [], source)
        for source in (
            'it = 1',
            'for it in b: c',
            'def it(): b',
            'a.it',
            'a(it=1)',
            'a = [(it, b) for it, b in c]',
            'a = [it for b in c for it in b]',
            'a = lambda it, b: b',
            'a = lambda b: it',
            "it, [it for it in 'é']",
            'with a as it: b',
        ):
            self.assertEqual(set(lines(source)), {1}, source)
        self.assertEqual(lines('a = [\n    it\n    for it in b\n]'), [2, 3])
        self.assertEqual(lines('a = lambda it: (\n    it\n)'), [1, 2])


if __name__ == '__main__':
    if sys.argv[1:] == ['--write']:
        sys.exit(lay_out().returncode)
    unittest.main()
