"""What a stranger's file may cost in the tools that run it, and how much of a mistake is shown."""
from __future__ import annotations

import ast
import glob
import itertools
import os
import re
import subprocess
import unittest
from unittest import mock

from tests.support import TOOLS, TOP, ToolCase, example

from toolbox import program, shown
from toolbox.command import Sorry
from toolbox.hex_lines import filled
from toolbox.listing import Line
from toolbox.reading import Unfit, read_whole

ENDLESS = ' NOP\nagain: INC BX\n JMP SHORT again'
# The speaker takes another level each four clocks.
FLOOD = f' MOV AL,99h\n OUT 63h,AL\n MOV AL,96h\n OUT 43h,AL\n MOV AL,2\n OUT 42h,AL\n MOV AL,3\n OUT 61h,AL\n{ENDLESS}'
DEEP = '{"version":1,"ram":64,"sw1":0,"sw2":0,"budget":1000,"keys":' + '[' * 1_000_000


# Constants that no user meets as a limit: pieces of work, what makes something faster, and sizes that are facts.
INNER = {
    'moments LONGEST_KEPT',
    'dap.values LONGEST_INSTRUCTION',
    'dap.values LONGEST',
    'printing MOST_SHOWN',
    'data_labels MOST_BYTES',
    'desk.drafts MOST_AT_HAND',
    'desk.drafts MOST_TEXTS',
    'desk.http SECONDS_OF_A_REFUSAL',
    'events LONGEST',
    'forms LONGEST',
    'forms LONGEST_CALL',
    'forms MOST_KNOWN',
    'gdb.bytecode LONGEST',
    'gdb.bytecode MOST_STACK',
    'gdb.stub MOST_MEMORY',
    'lsp.answers LONGEST_INSTRUCTION',
    'lsp.answers MOST_SECONDS',
    'lsp.asked MOST',
    'lsp.diagnosing MOST_REPAIRED',
    'lsp.hovering MOST_USES',
    'lsp.repairs MOST',
    'lsp.straight MOST_LINES',
    'nowhere LONGEST_LOOP',
    'session_board MOST_LISTED',
    'session_board MOST_PASSED',
    'term_board MOST_BEHIND',
    'term_board MOST_HALTED',
    'term_board MOST_PIECE',
    'tools/test MOST_SECONDS',
    'followed MOST_PIECE',
    'vcd MOST_KNOWN',
    'walk LONGEST',
    'way_back MOST_PIECE',
    'way_back MOST_SECONDS',
    'writing MOST_SECONDS',
}
# What reads files of the repository, of the kernel or of the tools' own, or looks at a file that it is about to write: pages, sums,
# drafts, marks, tables.
OWN = {
    'asking',
    'batches',
    'command',
    'crates',
    'desk.drafts',
    'desk.files',
    'desk.pages',
    'desk.parts',
    'gdb.door',
    'manual',
    'present',
    'proved',
    'rooms',
    'sources',
    'tables',
}
OWN |= {'tools/desk', 'tools/test', 'writing'}
UNITS = {'MB': 1 << 20, 'KB': 1 << 10}


def assigned(path: str) -> dict[str, str]:
    """The names that a file of Python gives to values at its beginning, with the text of each value."""
    found = dict[str, str]()
    with open(path, encoding='utf-8') as file:
        body = ast.parse(file.read()).body
    for one in (each for each in body if isinstance(each, ast.Assign)):
        to, value = one.targets[0], one.value
        pairs = zip(to.elts, value.elts) if isinstance(to, ast.Tuple) and isinstance(value, ast.Tuple) else [(to, value)]
        found |= {name.id: ast.unparse(of) for name, of in pairs if isinstance(name, ast.Name)}
    return found


def path_of(module: str) -> str:
    """The file of a crate, tool or module."""
    if module.startswith(('tools/', 'web/')):
        return f'{TOP}/{module}'
    return f'{TOP}/crates/{module.replace("/", "/src/")}.rt' if '/' in module else f'{TOOLS}/toolbox/{module.replace(".", "/")}.py'


def modules() -> dict[str, str]:
    """The files of the tools, with what each is called here."""
    found = {path: path[len(f'{TOOLS}/toolbox/') : -3].replace('/', '.') for path in glob.glob(f'{TOOLS}/toolbox/**/*.py', recursive=True)}
    return found | {path: f'tools/{os.path.basename(path)}' for path in glob.glob(f'{TOOLS}/*') if os.path.isfile(path)}


def value_of(module: str, name: str) -> int:
    """What a constant is."""
    if module.endswith(('.js', '.mjs')):
        with open(path_of(module), encoding='utf-8') as file:
            (text,) = re.findall(rf'\b{name} = ([^,;]*)[,;]', file.read())
    elif not module.startswith('tools/') and '/' in module:
        with open(path_of(module), encoding='utf-8') as file:
            (text,) = re.findall(rf'const {name}: \w+ = ([^;]*);', file.read())
    else:
        text = assigned(path_of(module))[name]
    known = {'MOST_STOPS': 16}
    return int(eval(text, {}, known))  # pylint: disable=eval-used


class Page(unittest.TestCase):
    """docs/limits.md."""

    def rows(self) -> list[tuple[str, list[str], str]]:
        """What is limited, the numbers with their units, and the constants."""
        with open(f'{TOP}/docs/limits.md', encoding='utf-8') as file:
            cells = [line.strip().strip('|').split('|') for line in file if line.startswith('|')]
        return [(row[0], re.findall(r'\d[\d,]*(?:\^\d+)?(?: [KM]B)?', row[1]), row[3]) for row in cells[2:] if len(row) == 4 and row[3]]

    def test_each_number_is_the_constant_s(self) -> None:
        rows = self.rows()
        self.assertGreater(len(rows), 50)
        for what, numbers, held in rows:
            if held == 'tried':
                continue
            module, _, names = held.partition(' ')
            self.assertTrue(numbers, what)
            for name, number in itertools.zip_longest(names.split(', '), numbers, fillvalue=numbers[-1]):
                plain, _, unit = number.partition(' ')
                base, _, power = plain.replace(',', '').partition('^')
                told = int(base) ** int(power or 1)
                self.assertIn(value_of(module, name), (told, told * UNITS.get(unit, 1)), f'{what}: {name}')

    def test_each_limit_of_the_tools_is_there(self) -> None:
        told = {f'{held.partition(" ")[0]} {name}' for _, _, held in self.rows() for name in held.partition(' ')[2].split(', ')}
        found = {f'{module} {name}' for path, module in modules().items() for name in assigned(path) if re.match('MOST|LONGEST|SECONDS', name)}
        self.assertEqual(sorted(found - told - INNER), [])
        self.assertEqual(sorted((INNER & told) | (INNER - found)), [])


class Runs(ToolCase):
    """Of tools/try and tools/why; those of tools/judge are with its other tests."""

    def test_time(self) -> None:
        """A run that goes on is cut, and the sentence says by which word it gets more; so is a compiler."""
        files = self.program(ENDLESS, 1 << 40)
        cut = 'the run was cut after 1 s; --seconds 10 gives it more\n'
        self.assertEqual(self.called('try', files[0], '--budget', str(1 << 40), '--seconds', '1', status=2), ('', f'try: {cut}'))
        self.assertEqual(self.called('why', '--seconds=1', 'run', *files, status=2), ('', f'why: {cut}'))
        os.mkdir(f'{self.room}/bin')
        os.chmod(self.file('bin/nasm', '#!/bin/sh\nexec sleep 6000\n'), 0o755)
        with mock.patch.dict(os.environ, {'PATH': f'{self.room}/bin:/usr/bin:/bin'}):
            self.assertEqual(self.called('try', files[0], '--nasm', '--seconds', '1', status=2), ('', f'try: {cut}'))

    def test_what_a_compiler_says(self) -> None:
        """Its first hundred lines, and how many more there are."""
        os.mkdir(f'{self.room}/bin')
        os.chmod(self.file('bin/nasm', '#!/bin/sh\nseq 1 500 >&2\nexit 1\n'), 0o755)
        with mock.patch.dict(os.environ, {'PATH': f'{self.room}/bin:/usr/bin:/bin'}):
            source = example('hello')[0]
            err = self.called('try', source, '--nasm', status=2)[1]
        self.assertEqual(err, f'try: nasm refuses {source}:\n' + ''.join(f'{each}\n' for each in range(1, 101)) + '.. and 400 lines more\n')

    def test_memory(self) -> None:
        files = self.program(FLOOD, 100_000_000)
        more = 'hint: here a run may take 32 MB; --memory 128 gives it more\n'
        self.assertIn(
            f'fault 41 Memory\nwhy: the board: out of memory (fault 41, Memory)\nwhy: {more}', self.called('why', 'run', *files, '--memory=32', status=1)[1]
        )
        self.assertIn(f'why: {more}', self.called('try', files[0], '--budget', '100000000', '--memory', '32', status=1)[1])
        self.assertIn('here a run may take 256 MB', self.called('try', files[0], '--budget', '100000000', status=1)[1])

    def test_limits_that_are_none(self) -> None:
        source = example('hello')[0]
        for words in (('try', source), ('why', 'run', source), ('judge', '--sealed', 'x')):
            for option, least in (('--seconds', '0'), ('--memory', '15'), ('--memory', '1000001')):
                self.assertIn(f'{option} takes ', self.called(*words, option, least, status=2)[1])
        self.assertIn('--seconds', self.called('why', '--help')[0])

    def test_a_run_file_of_any_depth(self) -> None:
        """It is refused in the tools' words, or explained."""
        source, run = example('hello')[0], self.file('deep.json', DEEP)
        for words in (('try', source, '--run', run), ('keys', '--read', run), ('trace', source, run), ('dbg', source, run), ('desk', source, run)):
            self.assertEqual(self.called(*words, status=2), ('', f'{words[0]}: {run} is no run file: its brackets are nested too deep\n'))
        self.assertIn('(fault 31, NotJson)\nwhy: its brackets are nested too deep\n', self.called('why', 'run', source, run, status=1)[1])
        for depth, fault in ((127, 'fault 32 BadField'), (128, 'fault 31 NotJson')):
            run = self.file('it.json', '{"keys":' + '[' * (depth - 1) + ']' * (depth - 1) + '}')
            self.assertEqual(self.pcboard('run', source, run).stderr, f'{fault}\n')


class ByThemselves(ToolCase):
    """What the programs do with a file that has no end, which no tool hands to them, and with a pipe."""

    def test_a_device(self) -> None:
        """It takes as much memory as there is, and is refused then; a source is no longer than it may be."""
        source, run = example('hello')
        for name, words, sentence in (
            ('pcboard', ('run', source, '/dev/zero'), 'fault 37 Memory\n'),
            ('pcprobe', (source, '/dev/zero'), 'fault 37 Memory\n'),
            ('pcboard', ('run', '--hex', '/dev/zero', run), 'fault 27 Memory\n'),
            ('pcboard', ('--',), 'fault 13 Memory\n'),
            ('pcmasm', ('/dev/zero',), 'pcmasm: /dev/zero: out of memory\n'),
            ('pcboard', ('run', '/dev/zero', run), 'fault 1 SourceTooLong\n'),
        ):
            with self.subTest(name, words=words), open('/dev/zero', 'rb') as endless:
                shell = ['sh', '-c', 'ulimit -v 100000; exec "$0" "$@"', program.path(name), *words]
                ran = subprocess.run(shell, stdin=endless, capture_output=True, text=True, check=False)
                self.assertEqual((ran.returncode, ran.stdout, ran.stderr), (2 if name == 'pcmasm' else 1, '', sentence))

    def test_a_pipe(self) -> None:
        """Each file may be one, as the shell's <(..) is."""
        files = example('hello')
        ran = subprocess.run(
            ['bash', '-c', '"$0" run <(cat "$1") <(cat "$2")', program.path('pcboard'), *files],
            stdin=subprocess.DEVNULL,
            capture_output=True,
            text=True,
            check=False,
        )
        self.assertEqual((ran.returncode, ran.stdout, ran.stderr), (0, self.pcboard('run', *files).stdout, ''))


class Shown(ToolCase):
    """Of a mistake its beginning, and how much more there is."""

    def test_a_text_and_lines(self) -> None:
        self.assertEqual((shown.clipped('x' * 1000), shown.clipped('x' * 1003)), ('x' * 1000, 'x' * 1000 + ' .. and 3 characters more'))
        self.assertEqual(shown.bounded(['x'] * 100), ['x'] * 100)
        self.assertEqual(shown.bounded(['x'] * 1101), ['x'] * 100 + ['.. and 1,001 lines more'])

    def test_a_report(self) -> None:
        """Its changes of the speaker alone are cut, and what is no report is left."""
        files = self.program(FLOOD, 50_000)
        report = self.pcboard('run', *files).stdout
        head, changes, screen = report[: report.index('sound')], report.split('\nsound ')[1].split('\nscreen\n')[0].split('\n'), report.split('\nscreen\n')[1]
        self.assertGreater(len(changes), 10_001)
        printed = self.called('why', 'run', *files)[0]
        told = f'.. and {len(changes) - 10_001:,} changes more, which ./pcboard run prints'
        self.assertEqual(printed, f'{head}sound {chr(10).join(changes[:10_001])}\n{told}\nscreen\n{screen}')
        for text in ('', 'fault 1 SourceTooLong\n', report.replace(f'sound {chr(10).join(changes)}', 'sound 0')):
            self.assertEqual(shown.report_of(text), text)

    def test_refused_lines(self) -> None:
        """The first hundred, and that there are more; of a hundred all."""
        for count, is_cut in ((100, False), (150, True)):
            path = self.program(' BAD x\n' * count)[0]
            for option, told in (('--all', 'BAD x'), ('--lines', ': error: ')):
                out, err = self.called('why', option, path, status=1)
                self.assertEqual((out.count(told), 'there are more: mend these, and ask again' in out + err), (100, is_cut))

    def test_doubtful_lines(self) -> None:
        path = self.program(' INT 21\n' * 130)[0]
        for option, told in (('--all', ', line '), ('--lines', ': warning: ')):
            out, err = self.called('why', option, path)
            self.assertEqual((out.count(told), (out + err).count('why: .. and 30 lines more')), (100, 1))

    def test_a_run_file_with_many_mistakes(self) -> None:
        run = self.file('it.json', '{"version":1,"ram":64,"sw1":0,"sw2":0,"budget":1000,"keys":[' + ','.join(['"x"'] * 5000) + ']}')
        err = self.called('why', 'run', example('hello')[0], run, status=1)[1]
        self.assertEqual(err.splitlines()[-1], 'why: .. and 4,901 lines more')
        self.assertEqual(err.count('\n'), 102)

    def test_a_long_first_definition(self) -> None:
        path = self.program(f'x: DB {",".join("0" * 2000)}\nx: NOP')[0]
        err = self.tool('why', 'asm', path, status=1)[1]
        self.assertRegex(err, r' x: DB [0,]{154} \.\. and 3,845 characters more   <- and here first')


class Files(ToolCase):
    """What is read of a file, beyond what is tried of each tool."""

    def test_as_many_bytes_as_are_said(self) -> None:
        path = self.file('it', 'abc')
        self.assertEqual(read_whole(path, 3), b'abc')
        with self.assertRaisesRegex(Unfit, 'it has more than 2 bytes'):
            read_whole(path, 2)
        with self.assertRaisesRegex(Unfit, 'it has more than 9 bytes'):
            read_whole('/proc/self/environ', 9)  # a file that says it has none
        with self.assertRaises(IsADirectoryError):
            read_whole(self.room)

    def test_no_other_function_reads_a_file(self) -> None:
        """But for files of Zebludor's own."""
        found = set[str]()
        for path, module in modules().items():
            with open(path, encoding='utf-8') as file:
                calls = [each for each in ast.walk(ast.parse(file.read())) if isinstance(each, ast.Call) and ast.unparse(each.func) == 'open']
            modes = [ast.unparse(each.args[1]) if len(each.args) > 1 else "'r'" for each in calls]
            found |= {module} if any(not set(mode) & set('wxa+') for mode in modes) else set()
        self.assertEqual(found - OWN, {'reading'})

    def test_lines_of_a_listing(self) -> None:
        """A listing that tells a line's number makes no file of as many lines."""
        self.assertEqual([one.number for one in filled([Line(3, 'x', None, b'')])], [1, 2, 3])
        with self.assertRaisesRegex(Sorry, 'has the line 1,048,577, and 1,048,576 are the most'):
            filled([Line(1_048_577, 'x', None, b'')])


if __name__ == '__main__':
    unittest.main()
