"""What stands in editors/: the grammar is that of the words, VS Code's folder fits the tools, and Emacs debugs with it."""
from __future__ import annotations

import glob
import json
import os
import re
import shutil
import subprocess
import unittest

from tests.support import EXAMPLES, SECONDS, TOOLS, TOP, ToolCase, example, is_there, not_run

from toolbox.hints import STATEMENTS, WORDS
from toolbox.program import Files, Session

FOLDER = f'{TOP}/editors/vscode'
MODE_CLIENT = f'{TOOLS}/tests/dap_mode.el'


def has_dap_mode() -> bool:
    """Whether Emacs with dap-mode is installed."""
    asked = ['emacs', '--batch', '--eval', "(progn (package-initialize) (require 'dap-mode))"]
    return bool(shutil.which('emacs')) and subprocess.run(asked, capture_output=True, check=False).returncode == 0


def batch(room: str, *words: str) -> list[str]:
    """What Emacs prints, with a home of its own."""
    os.makedirs(f'{room}/tmp')
    done = subprocess.run(
        ['emacs', '--batch', *words], capture_output=True, text=True, check=False, timeout=SECONDS, env=os.environ | {'HOME': room, 'TMPDIR': f'{room}/tmp'}
    )
    assert done.returncode == 0, done.stderr
    return done.stdout.splitlines()


class Folder(ToolCase):
    """VS Code's folder."""

    def setUp(self) -> None:
        super().setUp()
        with open(f'{FOLDER}/package.json', encoding='utf-8') as file:
            self.package = json.load(file)['contributes']
        with open(f'{FOLDER}/zebludor.tmLanguage.json', encoding='utf-8') as file:
            self.rules = [(rule['name'].removesuffix('.zebludor'), rule['match']) for rule in json.load(file)['patterns']]

    def test_the_grammar_is_that_of_the_words(self) -> None:
        done = subprocess.run([f'{TOP}/editors/grammar', '--check'], capture_output=True, text=True, check=False)
        self.assertEqual((done.returncode, done.stdout), (0, ''))
        self.assertEqual([self.name_of(word) for word in sorted(STATEMENTS - WORDS) if 'keyword' not in self.name_of(word)], [])

    def name_of(self, word: str) -> str:
        """What the grammar takes a word for: the first rule that fits at its beginning."""
        return next((name for name, rule in self.rules if re.match(re.sub(r'^\(\?i\)', '', rule), word, re.I)), '')

    def test_the_grammar_colours(self) -> None:
        for word, wanted in (
            ('mov', 'keyword.mnemonic'),
            ('REPNE', 'keyword.prefix'),
            ('ax', 'variable.language.register'),
            ('DB', 'keyword.directive'),
            ('short', 'keyword.operator'),
            ('0B8h', 'constant.numeric.hexadecimal'),
            ('101b', 'constant.numeric.binary'),
            ('17', 'constant.numeric.decimal'),
            ('start: NOP', 'entity.name.label'),
            ("'a;b'", 'string.quoted.single'),
            ('; x', 'comment.line.semicolon'),
            ('ES: MOVSB', 'variable.language.register'),
            ('movable', ''),
        ):
            self.assertEqual(self.name_of(word), wanted, word)

    def test_what_it_names_is_there(self) -> None:
        for name in (self.package['languages'][0]['configuration'], self.package['grammars'][0]['path'], self.package['debuggers'][0]['program']):
            self.assertTrue(os.path.exists(f'{FOLDER}/{name}'), name)
        self.assertIn('usage: tools/dap', subprocess.run([f'{FOLDER}/dap', '--help'], capture_output=True, text=True, check=True).stdout)

    def test_the_matcher_reads_why(self) -> None:
        pattern = self.package['problemMatchers'][0]['pattern']
        source, _ = self.program(' INT 21\n FROB')
        lines = self.tool('why', '--lines', source, status=1)[0].splitlines()
        for line, wanted, begins in zip(lines, (('4', 'error'), ('3', 'warning')), ('UnknownName: ', 'perhaps '), strict=True):
            found = re.match(pattern['regexp'], line)
            assert found
            self.assertEqual((found[pattern['file']], found[pattern['line']], found[pattern['severity']]), (source, *wanted))
            self.assertTrue(found[pattern['message']].startswith(begins))

    def test_ten_lines(self) -> None:
        for name in ('emacs.el', 'nvim.lua'):
            with open(f'{TOP}/editors/{name}', encoding='utf-8') as file:
                self.assertLessEqual(len([line for line in file if line.strip() and not line.startswith((';', '--'))]), 10)


class Editors(ToolCase):
    """The editors themselves, where they are installed."""

    def test_dap_mode_debugs(self) -> None:
        if not has_dap_mode():
            not_run('debugging in Emacs with dap-mode; apt install emacs-nox elpa-dap-mode')
            return
        source, run = example('ticks')
        lines = batch(self.room, '-l', MODE_CLIENT, f'{TOP}/editors/emacs.el', source, run, '41')
        reasons = [line.split()[0] for line in lines[:8]]
        self.assertEqual(reasons, ['entry', 'breakpoint', 'step', 'step', 'step', 'step', 'breakpoint', 'breakpoint'])
        with Session(Files(source, run)) as session:
            clocks = ['0'] + self.clocks(session)
        self.assertEqual([line.split()[2] for line in lines[:8]], clocks)
        self.assertEqual([line.split()[1] for line in lines[:8]], ['51', '41', '42', '43', '42', '41', '41', '41'])
        self.assertEqual(lines[8:], ['00058h (88)', 'MAcAAA==', 'gone'])

    def clocks(self, session: Session) -> list[str]:
        """The same moves in the debugger."""
        session.many('break F600:58')
        commands = ('go 2000', 'step', 'step', 'back step', 'back step', 'go 2000', 'back stop')
        return [session.one(command).split()[-1] for command in commands]

    def test_quickfix_and_compile(self) -> None:
        source, _ = self.program(' FROB\n MOV AX,0x10')
        if is_there('vim', "Vim's quickfix", 'vim'):
            self.file('it.vim', f"let &makeprg = '{TOOLS}/why --lines %'\nsilent! make\ncall writefile(map(getqflist(), 'v:val.lnum'), 'found')\nqa!\n")
            subprocess.run(
                ['vim', '-u', 'NONE', '-es', '-S', 'it.vim', source], cwd=self.room, stdin=subprocess.DEVNULL, capture_output=True, check=False, timeout=SECONDS
            )
            with open(f'{self.room}/found', encoding='ascii') as file:
                self.assertEqual(file.read().split(), ['3', '4'])
        if not is_there('emacs', "Emacs' compile", 'emacs-nox'):
            return
        text = (
            "(progn (require 'compile) (let ((b (compilation-start \"%s/why --lines %s\"))) (while (get-buffer-process b) (accept-process-output nil 0.1))"
            "(with-current-buffer b (compilation--ensure-parse (point-max)) (princ compilation-num-errors-found))))"
        )
        self.assertEqual(batch(self.room, '--eval', text % (TOOLS, source)), ['2'])

    def test_neovim(self) -> None:
        """Its settings, with a stand-in for nvim-dap, and its quickfix."""
        if not is_there('nvim', 'debugging in Neovim', 'neovim'):
            return
        source, _ = self.program(' FROB\n MOV AX,0x10')
        os.makedirs(f'{self.room}/lua')
        self.file('lua/dap.lua', 'return { adapters = {}, configurations = {} }')
        script = self.file(
            'it.lua',
            f"""dofile('{TOP}/editors/nvim.lua')
            vim.cmd('edit {source}')
            vim.bo.filetype = 'asm'
            vim.cmd('silent make')
            local dap, lines = require('dap'), {{}}
            for _, it in ipairs(vim.fn.getqflist()) do table.insert(lines, it.lnum) end
            vim.fn.writefile({{ vim.json.encode({{ dap.adapters.zebludor.command, dap.configurations.asm[1].type, lines }}) }}, 'found')""",
        )
        done = subprocess.run(
            ['nvim', '--headless', '-u', 'NONE', '--cmd', f'set rtp+={self.room}', '-c', f'luafile {script}', '-c', 'qa!'],
            cwd=self.room,
            stdin=subprocess.DEVNULL,
            capture_output=True,
            text=True,
            check=False,
            timeout=SECONDS,
        )
        with open(f'{self.room}/found', encoding='utf-8') as file:
            self.assertEqual(json.load(file), [f'{TOP}/tools/dap', 'zebludor', [3, 4]], done.stderr)


class Examples(unittest.TestCase):
    """The grammar on all examples."""

    def test_each_word_has_a_colour(self) -> None:
        with open(f'{FOLDER}/zebludor.tmLanguage.json', encoding='utf-8') as file:
            rules = [re.sub(r'^\(\?i\)', '', rule['match']) for rule in json.load(file)['patterns']]
        sources = glob.glob(f'{EXAMPLES}/*.asm')
        self.assertGreater(len(sources), 10)
        for path in sources:
            with open(path, encoding='ascii') as file:
                for line in file:
                    operation = re.match(r'\s+([A-Z]+)\b', line)
                    if operation:
                        self.assertTrue(any(re.match(rule, operation[1], re.I) for rule in rules), line)


if __name__ == '__main__':
    unittest.main()
