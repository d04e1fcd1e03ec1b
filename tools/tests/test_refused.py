"""Wrong bodies: each edit's text stands in its source once, and dev/refused over a repository of three crates and an `rt` that
refuses what is named so."""
import os
import re
import shutil
import subprocess
import sys

from parts.edits import FOLDERS, edits_of, function_at, judge
from tests.support import TOP, ToolCase, is_there, not_run

RT = """
import os, re, types
rtlib = types.SimpleNamespace(guarded=lambda: [])
REFUSED, AT_LIMIT, MISSED = 'refused', 'limit', 'missed'
def note(text):
    with open(os.environ['NOTES'], 'a') as notes:
        notes.write(text + chr(10))
def read_edit(edit, folder):
    said = dict(line.split(': ', 1) for line in open(edit).read().splitlines())
    text = open(f'{folder}/{said["file"]}').read()
    return {said['file']: text.replace(said['old'], said['new'])}, None
def must_fail(crate, edit, flags, kept):
    note('alone ' + edit.rpartition('/')[2])
    is_refused = 'proved' not in edit
    said = 'refused' if is_refused else 'NOT REFUSED'
    return REFUSED if is_refused else MISSED, f'must-fail {crate.name}/{edit.rpartition("/")[2]}: {said}'
def checked(crate, texts, flags, kept):
    wrong = [name for text in texts.values() for name in re.findall('fn ([a-z]+)[^}]*wrong', text)]
    if wrong:
        note('together ' + ' '.join(wrong))
    why = 'no proof: expected answers in ./proofs/F/Answers.antt; `search` did not prove `returns`'
    lines = [f'fn {crate.name}::{it}: {why}' for it in wrong]
    return types.SimpleNamespace(returncode=crate.name == 'broken', stdout=chr(10).join([*lines, 'logic=not-proved']))
"""
BODIES = 'pub fn first() -> u8 {\n    1\n}\n\nimpl Two {\n    fn second() -> u8 {\n        2\n    }\n}\n\nconst THIRD: u8 = 3;\n'
RATTLE = '#!/bin/sh\nwhile [ "$1" != -o ]; do shift; done\nmkdir -p "$2"\necho logic=proved functions=1\n'


class Edits(ToolCase):
    """The repository's own edits."""

    def test_each_text_stands_in_its_source_once(self) -> None:
        if not shutil.which('rt'):
            not_run("wrong bodies by the gate's own words, which Rattle's rt has")
            return
        rt = judge()
        for name in sorted(os.listdir(f'{TOP}/crates')):
            for edit in edits_of(name):
                with self.subTest(edit=os.path.relpath(edit, TOP)):
                    self.assertIsNone(rt.read_edit(edit, f'{TOP}/crates/{name}')[1])

    def test_nothing_else_stands_beside_them(self) -> None:
        for name in sorted(os.listdir(f'{TOP}/crates')):
            folders = [f'{TOP}/crates/{name}/{kind}' for kind in FOLDERS]
            files = [file for folder in folders if os.path.isdir(folder) for file in os.listdir(folder)]
            self.assertEqual(len(files), len(set(files)), name)
            for file in files:
                self.assertRegex(file, r'\A[A-Za-z0-9_-]+\.edit\Z', name)

    def test_a_line_of_a_contract_is_of_no_body(self) -> None:
        lines = [
            '    pub fn f(',
            '        a: u8,',
            '    ) -> u8',
            '        ensures { result ≡ a }',
            '    {',
            '        a',
            '    }',
            '    fn g() {',
            '        f(1)',
        ]
        found = [function_at(lines, at) for at in range(len(lines))]
        self.assertEqual(found, [None, None, None, None, None, 'f', 'f', None, 'g'])


class Refused(ToolCase):
    """dev/refused."""

    def setUp(self) -> None:
        super().setUp()
        for folder in ('bin', 'top/dev/parts', 'top/tools/toolbox'):
            os.makedirs(f'{self.room}/{folder}')
        shared = (f'tools/toolbox/{stem}.py' for stem in ('__init__', 'command', 'crates', 'locks', 'proved', 'reading', 'sources', 'threads', 'writing'))
        parts = (f'dev/parts/{stem}.py' for stem in ('__init__', 'building', 'edits'))
        for file in ('dev/refused', *parts, *shared):
            shutil.copy(f'{TOP}/{file}', f'{self.room}/top/{file}')
        for name in ('low', 'high', 'broken'):
            for folder in ('src', 'refused', 'must-fail'):
                os.makedirs(f'{self.room}/top/crates/{name}/{folder}')
            self.file(f'top/crates/{name}/src/lib.rt', '// nothing\n')
        self.file('top/crates.txt', 'low:\nhigh: low\nbroken:\n')
        self.file('WHAT', 'a kit')
        for name, text in (('rt', RT), ('rattle', RATTLE)):
            os.chmod(self.file(f'bin/{name}', text), 0o755)

    def edit(self, path: str) -> None:
        self.file(f'top/crates/{path}.edit', 'file: src/lib.rt\nold: nothing\nnew: something\n')

    def refused(self, *words: str) -> 'subprocess.CompletedProcess[str]':
        environment = {'PATH': f'{self.room}/bin:/usr/bin:/bin', 'XDG_CACHE_HOME': f'{self.room}/cache', 'NOTES': f'{self.room}/notes'}
        return subprocess.run([sys.executable, f'{self.room}/top/dev/refused', *words], capture_output=True, text=True, env=environment, check=False)

    def test_all_are_refused(self) -> None:
        for path in ('low/refused/a', 'low/refused/b', 'high/refused/c', 'high/must-fail/d'):
            self.edit(path)
        ran = self.refused()
        self.assertEqual((ran.returncode, ran.stdout), (0, '3 refused, 0 not\n'), ran.stderr)
        self.assertIn('3 edits of 2 crates, over 1 libraries', ran.stderr)
        self.assertEqual(self.refused('--all', 'high').stdout, '2 refused, 0 not\n')
        self.assertEqual(self.refused('low').stdout, '2 refused, 0 not\n')

    def test_one_edit(self) -> None:
        """By its crate and name, from either folder; named twice, or with its crate, it is tried once."""
        for path in ('low/refused/a', 'low/refused/is_proved', 'high/must-fail/d'):
            self.edit(path)
        self.assertEqual(self.refused('low/a').stdout, '1 refused, 0 not\n')
        self.assertEqual(self.refused('low/a', 'high/d', 'low/a').stdout, '2 refused, 0 not\n')
        self.assertEqual(self.refused('low/a', 'low').stdout, 'must-fail low/is_proved.edit: NOT REFUSED\n1 refused, 1 not\n')
        none = self.refused('low/b')
        self.assertEqual((none.returncode, none.stdout), (2, ''))
        self.assertIn('crates/low has no b.edit, neither in refused/ nor in must-fail/', none.stderr)

    def test_one_that_is_proved_is_told(self) -> None:
        self.edit('low/refused/is_proved')
        self.edit('low/refused/is_not')
        ran = self.refused()
        self.assertEqual((ran.returncode, ran.stdout), (1, 'must-fail low/is_proved.edit: NOT REFUSED\n1 refused, 1 not\n'))

    def test_edits_of_several_functions_are_tried_at_once(self) -> None:
        self.file('top/crates/low/src/lib.rt', BODIES)
        for name, old, new in (
            ('a', '    1', '    wrong'),
            ('b', '        2', '        wrong'),
            ('c', '3;', 'wrong;'),
            ('is_proved', '    1', '    one'),
        ):
            self.file(f'top/crates/low/refused/{name}.edit', f'file: src/lib.rt\nold: {old}\nnew: {new}\n')
        ran = self.refused('low')
        self.assertEqual((ran.returncode, ran.stdout), (1, 'must-fail low/is_proved.edit: NOT REFUSED\n3 refused, 1 not\n'), ran.stderr)
        with open(f'{self.room}/notes', encoding='utf-8') as notes:
            self.assertEqual(notes.read(), 'together first second\nalone c.edit\nalone is_proved.edit\n')

    def test_edits_of_a_crate_that_is_not_proved_say_nothing(self) -> None:
        self.edit('broken/refused/a')
        ran = self.refused()
        self.assertEqual(ran.returncode, 1)
        self.assertIn('broken: NOT PROVED', ran.stdout)

    def test_since_a_commit(self) -> None:
        if not is_there('git', 'dev/refused --since', 'git'):
            return
        for path in ('low/refused/a', 'high/refused/b', 'broken/refused/c'):
            self.edit(path)
        git = ['git', '-C', f'{self.room}/top', '-c', 'user.name=a', '-c', 'user.email=a']
        for words in (['init', '-q'], ['add', '.'], ['commit', '-qm', 'all']):
            subprocess.run([*git, *words], check=True)
        self.assertEqual(self.refused('--since', 'HEAD').stdout, '0 refused, 0 not\n')
        self.file('top/crates/low/src/lib.rt', '// changed\n')
        self.assertEqual(self.refused('--since', 'HEAD').stdout, '2 refused, 0 not\n')
        none = self.refused('--since', 'nothing')
        self.assertEqual((none.returncode, none.stdout), (2, ''))
        self.assertRegex(none.stderr, r'\Arefused: git: .*nothing')

    def test_words(self) -> None:
        self.assertIn('--since COMMIT', self.refused('--help').stdout)
        none = self.refused('middle')
        self.assertEqual(none.returncode, 2)
        self.assertTrue(re.search('crates.txt lists no middle', none.stderr))
