"""tools/zebludor, the command over the tools: what it starts, how sentences name the tools then, its pages for man, and what completes
its words in bash, zsh and fish, which is held to what each --help prints."""
from __future__ import annotations

import os
import re
import subprocess
import unittest

from tests.support import EXAMPLES, TOOLS, TOP, ToolCase, is_there
from toolbox import completions, manual
from toolbox.command import STARTED

HELLO = f'{EXAMPLES}/hello.asm', f'{EXAMPLES}/hello.json'
# Calls a shell's function for a line of words, the last of which is being typed, and prints what it offers.
BASH = r"""source "$1"; shift
COMP_WORDS=("$@") COMP_CWORD=$(($# - 1))
_zebludor "$1" "${!#}" "${@:$#-1:1}"
printf '%s\n' "${COMPREPLY[@]}"
"""
ZSH = r"""compdef() { : }
_arguments() { print -rl -- "$@" }
_describe() { print -rl -- "${(@P)4}" }
source "$1"; shift
words=("$@") CURRENT=$# service="$1"
_zebludor
"""
FISH = """source $argv[1]
complete -C "$argv[2]"
"""


class Command(ToolCase):
    """The command in a folder on the path, as a link to it, and by its path."""

    def setUp(self) -> None:
        super().setUp()
        os.mkdir(f'{self.room}/bin')
        os.symlink(f'{TOOLS}/zebludor', f'{self.room}/bin/zebludor')

    def zebludor(self, *words: str, status: int = 0, command: str = 'zebludor') -> tuple[str, str]:
        """What it prints and tells, started by its name alone."""
        from toolbox import program

        environment = {'PATH': f'{self.room}/bin:{os.environ["PATH"]}', 'HOME': self.room, 'PCBOARD': program.path()}
        ran = subprocess.run([command, *words], cwd=self.room, env=environment, capture_output=True, text=True, check=False, stdin=subprocess.DEVNULL)
        self.assertEqual(ran.returncode, status, ran.stderr)
        return ran.stdout, ran.stderr

    def help_of(self, name: str) -> str:
        """What the tool's own file prints by --help."""
        return self.called(name, '--help')[0]


class Starting(Command):
    """Tools that it starts."""

    def test_a_tool_gets_its_words_and_gives_its_status(self) -> None:
        self.assertEqual(self.zebludor('keys', 'a'), self.tool('keys', 'a'))
        self.assertEqual(self.zebludor('try', HELLO[0], '--budget', '100')[0], 'HI\n(halted for good at clock 72)\n')
        bad = self.file('bad.asm', 'SEGMENT MAIN AT 0F000h\n MOV AX\nENDS\n')
        for status, words in ((1, ('why', 'asm', bad)), (2, ('keys',)), (2, ('try', '--nonsense')), (3, ('why', '--all', 'none'))):
            self.assertEqual(self.zebludor(*words, status=status)[0], self.tool(*words, status=status)[0])

    def test_a_word_that_is_no_tool(self) -> None:
        for word in ('test', 'toolbox', 'zebludor', 'nothing', '../tools/try'):
            printed, said = self.zebludor(word, status=2)
            self.assertEqual(printed, '')
            self.assertRegex(said, rf'\Azebludor: {re.escape(word)} is no tool: batch, dap, dbg, desk, .*, why\n\Z')

    def test_all_tools_are_listed(self) -> None:
        executable = {each for each in os.listdir(TOOLS) if os.path.isfile(f'{TOOLS}/{each}') and os.access(f'{TOOLS}/{each}', os.X_OK)}
        listed = re.findall(r'^  (\w+) {2,}\S', self.zebludor('--help')[0].partition('\ntools:\n')[2], re.M)
        self.assertEqual(set(listed), executable - {'test', 'zebludor'})
        self.assertEqual(self.zebludor()[0], self.zebludor('--help')[0])

    def test_version_and_pages(self) -> None:
        self.assertRegex(self.zebludor('--version')[0], r'\Apcboard \d[^\n]*\n')
        self.assertEqual(self.zebludor('--pages')[0], f'{TOP}/docs\n')
        self.assertTrue(os.path.isfile(f'{TOP}/docs/first-program.md'))


class Names(Command):
    """How it names the tools."""

    def test_by_its_name_on_the_path(self) -> None:
        for words, said in (
            (('keys',), 'keys: there is no text to type (zebludor keys --help)\n'),
            (('try', '--nonsense', HELLO[0]), 'zebludor try: error: unrecognized arguments: --nonsense\n'),
        ):
            self.assertTrue(self.zebludor(*words, status=2)[1].endswith(said), words)

    def test_by_its_path_and_by_the_tools_own(self) -> None:
        path = os.path.relpath(f'{TOOLS}/zebludor', self.room)
        self.assertEqual(self.zebludor('keys', command=path, status=2)[1], f'keys: there is no text to type ({path} keys --help)\n')
        self.assertEqual(self.tool('keys', status=2)[1], 'keys: there is no text to type (tools/keys --help)\n')

    def test_in_what_a_tool_of_it_starts(self) -> None:
        """Those that judge a class are processes of their own, and write to files."""
        page, bad = self.file('it.page', 'shows = HI\n'), self.file('bad.asm', 'SEGMENT MAIN AT 0F000h\n MOV AX\nENDS\n')
        self.zebludor('judge', '--class', page, bad, '--feedback', 'said', status=1)
        said = ''
        for folder, _, files in os.walk(f'{self.room}/said'):
            for name in files:
                with open(f'{folder}/{name}', encoding='utf-8', errors='replace') as file:
                    said += file.read()
        self.assertRegex(said, r'zebludor (why --all|try) ')
        self.assertNotIn('tools/', said)

    def test_in_hints(self) -> None:
        source, run = self.program('MOV AH,9\nINT 21h\nHLT')
        said = self.zebludor('why', 'run', source, run)[1]
        self.assertIn('or let zebludor try --services put such calls into ROM', said)

    def test_what_the_user_calls_so_keeps_its_name(self) -> None:
        self.assertEqual(self.zebludor('table', 'tools/try', status=3)[1], "table: tools/try can't be read: No such file or directory\n")

    def test_each_help(self) -> None:
        """Is the tool's own, whose columns stand as before."""
        for name in manual.names():
            own, by_it = self.help_of(name), self.zebludor(name, '--help')[0]
            self.assertNotRegex(by_it, r'tools/(?!test)|\./pc', name)
            anew = re.sub(r'\bzebludor (?=(' + '|'.join(manual.names()) + r')\b)', 'tools/', by_it)
            self.assertEqual(re.sub(r'(?<=\s)\./(?=pc)', '', own).split(), anew.split(), name)
        lines = self.zebludor('judge', '--help')[0].splitlines()
        behind = next(each for each in lines if each.strip().startswith('write the rows'))
        self.assertEqual(behind.index('write'), next(each.index('judges many') for each in lines if 'judges many' in each))


class Manual(Command):
    """The pages for man."""

    def test_each_has_the_words_of_its_help(self) -> None:
        """In their order, up to the options, and each option with its words."""
        for name in manual.names():
            shown = ' '.join(self.plain(manual.page(name)).split())
            said = self.zebludor(name, '--help')[0].partition('\n\n')[2]
            text, _, words = re.sub(r'\n(positional arguments|options):\n', '\0', said).partition('\0')
            self.assertIn(' '.join(text.split()), shown, name)
            for word in words.replace('\0', ' ').split():
                self.assertIn(word, shown, f'{name}: {word}')

    def plain(self, page: str) -> str:
        """A page's text without what man reads."""
        page = re.sub(r'\\f[BIR]|\\&', '', page)
        page = re.sub(r'^\.(SH|TP|PP|EX|EE|TH|BR)\b.*\n?', '', page, flags=re.M)
        for sign, said in {r'\-': '-', r'\(ga': '`', r'\(aq': "'", r'\(ha': '^', r'\(ti': '~', r'\e': '\\'}.items():
            page = page.replace(sign, said)
        return page

    def test_programs(self) -> None:
        for name, tasks in manual.PROGRAMS.items():
            shown = self.plain(manual.page(name))
            for task in tasks:
                for line in manual.program_help(name, task).splitlines():
                    self.assertIn(line, shown)
            self.assertIn('--version', shown)

    def test_man_takes_them(self) -> None:
        if not is_there('man', 'the pages for man', 'man-db groff'):
            return
        for name in ('zebludor', *manual.PROGRAMS, *manual.names()):
            path = self.file(f'{name}.1', self.zebludor('--man', name)[0])
            environment = {'PATH': os.environ['PATH'], 'MANWIDTH': '100', 'LC_ALL': 'C.UTF-8', 'MANROFFSEQ': ''}
            ran = subprocess.run(['man', '--warnings', '-l', path], env=environment, capture_output=True, text=True, check=False)
            self.assertEqual((ran.returncode, ran.stderr), (0, ''), name)
            self.assertIn('SEE ALSO', ran.stdout)


class Completion(Command):
    """What the shells offer."""

    kept: dict[tuple[str, ...], set[str]] = {}

    def wanted(self) -> dict[tuple[str, ...], set[str]]:
        """The options that each --help prints, by the words that stand before them."""
        if not Completion.kept:
            Completion.kept = self.looked_up()
        return Completion.kept

    def looked_up(self) -> dict[tuple[str, ...], set[str]]:
        """As `wanted`, asked of each of them."""
        found = {('zebludor',): self.options_in(self.zebludor('--help')[0])}
        found |= {('zebludor', name): self.options_in(self.help_of(name)) for name in manual.names()}
        for name, tasks in manual.PROGRAMS.items():
            for task in tasks:
                said = subprocess.run([f'{TOP}/{name}', *filter(None, (task,)), '--help'], capture_output=True, text=True, check=True).stdout
                found[(name, task) if task else (name,)] = self.options_in(said) | ({'--version'} if not task else set())
        return found

    def options_in(self, said: str) -> set[str]:
        """The options that a help lists."""
        return set(re.findall(r'^ +(?:-\w(?: \S+)?, )?(--[\w-]+)', said, re.M))

    def script(self, shell: str) -> str:
        return self.file(shell, self.zebludor('--completion', shell)[0])

    def offered(self, words: list[str], *line: str) -> list[str]:
        """What a shell prints for a line."""
        ran = subprocess.run([*words, *line], capture_output=True, text=True, check=True, env={'PATH': os.environ['PATH'], 'HOME': self.room})
        self.assertEqual(ran.stderr, '')
        return ran.stdout.splitlines()

    def test_bash(self) -> None:
        words = ['bash', '--norc', '-c', BASH, '', self.script('bash')]
        for before, options in self.wanted().items():
            self.assertEqual(set(self.offered(words, *before, '--')), options, before)
        for line, offered in (
            (('zebludor', 'tr'), {'trace', 'try'}),
            (('tools/zebludor', 'd'), {'dap', 'dbg', 'desk'}),
            (('zebludor', ''), set(manual.names())),
            (('zebludor', '--completion', ''), {'bash', 'zsh', 'fish'}),
            (('zebludor', 'runfile', '--timer', ''), {'8253', '8254'}),
            (('zebludor', 'why', ''), {'run', 'asm', 'debug', 'fault'}),
            (('pcboard', ''), {'run', 'asm', 'debug'}),
            (('zebludor', 'try', 'a.asm', '--bu'), {'--budget'}),
            (('zebludor', 'try', ''), set()),  # a file
            (('zebludor', 'try', '--keys', ''), set()),
        ):
            self.assertEqual(set(filter(None, self.offered(words, *line))), offered, line)

    def test_zsh(self) -> None:
        if not is_there('zsh', 'completion in zsh', 'zsh'):
            return
        words = ['zsh', '-f', '-c', ZSH, '', self.script('zsh')]
        for before, options in self.wanted().items():
            specs = self.offered(words, *before, 'x', '--') if len(before) == 1 else self.offered(words, *before, '--')
            self.assertEqual({each.partition('[')[0] for each in specs if each.startswith('--')}, options, before)
        tasks = self.offered(words, 'zebludor', '')
        self.assertLessEqual(set(manual.names()), {each.partition(':')[0] for each in tasks})
        self.assertIn('--timer[the timer\\: 8253, or 8254 with its read-back]:8253|8254:(8253 8254)', self.offered(words, 'zebludor', 'runfile', '--'))

    def test_fish(self) -> None:
        if not is_there('fish', 'completion in fish', 'fish'):
            return
        words = ['fish', '--no-config', '-c', FISH, self.script('fish')]
        for before, options in self.wanted().items():
            said = self.offered(words, ' '.join((*before, '--')))
            self.assertEqual({each.partition('\t')[0] for each in said}, options, before)
        self.assertEqual([each.partition('\t')[0] for each in self.offered(words, 'zebludor tr')], ['trace', 'try'])
        self.assertEqual([each.partition('\t')[0] for each in self.offered(words, 'zebludor runfile --timer ')], ['8253', '8254'])

    def test_each_option_says_what_it_is_for(self) -> None:
        """In fish, which shows nothing else."""
        lines = completions.fish().splitlines()
        self.assertGreater(len(lines), 200)
        self.assertEqual([line for line in lines if line.endswith("-d ''")], [])

    def test_it_needs_no_environment(self) -> None:
        """And leaves none behind."""
        before = os.environ.get(STARTED)
        manual.page('try')
        self.assertEqual(os.environ.get(STARTED), before)


if __name__ == '__main__':
    unittest.main()
