"""What surrounds the code, for who comes from outside: CITATION.cff, .editorconfig, which all files obey, and what a forge reads in .github."""
from __future__ import annotations

import configparser
import fnmatch
import glob
import os
import re
import unittest
from typing import Iterator

from tests.support import TOP, packages

NO_FILES = {'.git', '__pycache__', 'out', 'target'}  # folders of what is built, or git's own


def content(path: str) -> str:
    with open(f'{TOP}/{path}', encoding='utf-8') as file:
        return file.read()


def paths() -> Iterator[str]:
    """All files of the repository that hold text, but for links and what is built."""
    for folder, folders, names in os.walk(TOP):
        folders[:] = sorted(set(folders) - NO_FILES)
        for name in sorted(names):
            path = os.path.relpath(f'{folder}/{name}', TOP)
            if os.path.islink(f'{TOP}/{path}') or path == 'web/desk.html':
                continue
            with open(f'{TOP}/{path}', 'rb') as file:
                if b'\0' not in file.read():
                    yield path


def patterns(section: str) -> list[str]:
    """A section's name without its braces."""
    before, brace, rest = section.partition('{')
    within, _, after = rest.partition('}')
    return [f'{before}{each}{after}' for each in within.split(',')] if brace else [section]


def settings(path: str, sections: configparser.ConfigParser) -> dict[str, str]:
    """What .editorconfig says of a file: the later sections over the earlier ones."""
    found = dict[str, str]()
    for section in sections.sections():
        whole = [path if '/' in each else os.path.basename(path) for each in patterns(section)]
        if any(map(fnmatch.fnmatchcase, whole, patterns(section))):
            found |= sections[section]
    return found


def astray(octets: bytes, asked: dict[str, str]) -> list[str]:
    """The settings that a file doesn't keep to."""
    lines = octets.split(b'\n')
    breaks = {
        'charset': octets.decode('utf-8', 'replace').encode() != octets,
        'end_of_line': b'\r' in octets,
        'insert_final_newline': bool(lines[-1]),
        'trim_trailing_whitespace': any(line.rstrip(b' \t') != line for line in lines),
        'indent_style': any(line.startswith({'tab': b'    ', 'space': b'\t'}[asked.get('indent_style', 'space')]) for line in lines),
    }
    return [name for name, is_broken in breaks.items() if is_broken and asked.get(name, 'unset') != 'unset']


class Editors(unittest.TestCase):
    """.editorconfig, whose sections have names, `*`, `**` at the end and one pair of braces."""

    def setUp(self) -> None:
        self.sections = configparser.ConfigParser(interpolation=None)
        self.sections.read_string('[top]\n' + content('.editorconfig'))
        self.assertEqual(self.sections['top'].pop('root'), 'true')
        self.sections.remove_section('top')

    def test_all_files_keep_to_it(self) -> None:
        found = dict[str, list[str]]()
        for path in paths():
            with open(f'{TOP}/{path}', 'rb') as file:
                if amiss := astray(file.read(), settings(path, self.sections)):
                    found[path] = amiss
        self.assertEqual(found, {})

    def test_which_settings_a_file_has(self) -> None:
        self.assertEqual(settings('tools/tests/support.py', self.sections)['indent_size'], '4')
        self.assertEqual(settings('bench/programs/Makefile', self.sections)['indent_style'], 'tab')
        self.assertEqual(settings('dev/corpus/http/get', self.sections)['end_of_line'], 'unset')
        self.assertNotIn('trim_trailing_whitespace', settings('docs/first-program.md', self.sections))

    def test_what_is_astray(self) -> None:
        asked = {'charset': 'utf-8', 'end_of_line': 'lf', 'insert_final_newline': 'true', 'indent_style': 'space', 'trim_trailing_whitespace': 'true'}
        self.assertEqual(astray('  é\n\n'.encode(), asked), [])
        self.assertCountEqual(astray(b'\tx \n\r\xff', asked), asked)
        self.assertEqual(astray(b'\tx \n\r\xff', asked | dict.fromkeys(asked, 'unset') | {'indent_style': 'tab'}), [])

    def test_pythons_lines_are_as_long_as_black_s(self) -> None:
        width = re.findall(r'^line-length = (\d+)$', content('pyproject.toml'), re.M)
        self.assertEqual([settings('dev/build.py', self.sections)['max_line_length']], width)


class Forge(unittest.TestCase):
    """What a forge reads."""

    def test_citation(self) -> None:
        fields = dict(re.findall(r'^([a-z-]+): (.+)$', content('CITATION.cff'), re.M))
        self.assertLessEqual({'cff-version', 'message', 'title', 'type'}, {*fields})
        self.assertEqual(fields['version'], content('VERSION').strip())
        self.assertIn(f'\n{fields["license"].strip("[]").replace(", ", " OR ")}: [LICENSE-MIT]', content('README.md'))
        self.assertIn('\nauthors:\n  - name: the developers of Zebludor\n', content('CITATION.cff'))

    def test_each_kind_of_mistake_has_a_template(self) -> None:
        section = content('README.md').partition('## Report a mistake\n')[2].partition('\n## ')[0]
        kinds = re.findall(r'^- \*\*An? (.+?)(?: that .*?)?\*\*', section, re.M)
        found = [content(os.path.relpath(path, TOP)) for path in glob.glob(f'{TOP}/.github/ISSUE_TEMPLATE/*.md')]
        heads = [re.match(r'---\nname: (.+)\nabout: .+\n---\n\n', text) for text in found]
        self.assertEqual(sorted(head[1].lower() for head in heads if head), sorted(kinds))

    def test_the_workflow_wants_no_kit(self) -> None:
        """A bare Debian, with packages that CONTRIBUTING names too, runs the tests of the tools."""
        text = content('.github/workflows/tools.yml')
        install, test = re.findall(r'^ +- run: (.+)$', text, re.M)
        self.assertEqual((test, 'container: debian:12\n' in text), ('tools/test --tools', True))
        named = install.removeprefix('apt-get update && apt-get install --no-install-recommends -y ').split()
        self.assertLessEqual({*named}, {*packages(), 'ca-certificates', 'python3'})


if __name__ == '__main__':
    unittest.main()
