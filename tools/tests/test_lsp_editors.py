"""Editors with the settings that docs/editors.md shows: the real ones, where they are installed, and VS Code's extension with a stand-in."""
from __future__ import annotations

import dataclasses
import json
import os
import re
import subprocess
import unittest

from tests.support import TOP, ToolCase, is_there, not_run

from toolbox.lsp.documents import Settings
from toolbox.lsp.doubts import NAMES

SOURCE = """SEGMENT MAIN AT 50h
start:  MOV AL,34h
        OUT 43h,AL
        INC ticks
        JMP start
ticks:  DB 5
ENDS
"""
RENAMED = SOURCE.replace('start', 'begin')
SECONDS = 300
EMACS = """
(setq eglot-connect-timeout 200 eglot-sync-connect t eglot-confirm-server-initiated-edits nil)
(defun until (test) (let ((count 0)) (while (and (not (funcall test)) (< (cl-incf count) 2000)) (accept-process-output nil 0.1))))
(find-file "b.asm")
(asm-mode)
(apply #'eglot (eglot--guess-contact))
(find-file "a.asm")
(asm-mode)
(eglot--maybe-activate-editing-mode)
(flymake-start)
(until (lambda () (flymake-diagnostics)))
(dolist (it (flymake-diagnostics)) (princ (format "%d %s\\n" (line-number-at-pos (flymake-diagnostic-beg it)) (flymake-diagnostic-text it))))
(goto-char (point-min))
(search-forward "OUT")
(let (told) (eglot-hover-eldoc-function (lambda (text &rest _) (setq told text))) (until (lambda () told)) (princ (substring-no-properties told)))
(goto-char (point-min))
(search-forward "start" nil nil 2)
(backward-char 2)
(eglot-rename "begin")
(princ "\\nhere\\n")
(princ (buffer-substring-no-properties (point-min) (point-max)))
(princ "there\\n")
(princ (with-current-buffer "b.asm" (buffer-substring-no-properties (point-min) (point-max))))
"""
NEOVIM = """
vim.o.hidden = true
vim.cmd('filetype on')
vim.cmd('edit b.asm')
vim.cmd('edit a.asm')
vim.wait(200000, function() return #vim.diagnostic.get(0) > 0 end)
local told = {}
for _, it in ipairs(vim.diagnostic.get(0)) do table.insert(told, (it.lnum + 1) .. ' ' .. it.message) end
vim.api.nvim_win_set_cursor(0, { 3, 9 })
for _, it in pairs(vim.lsp.buf_request_sync(0, 'textDocument/hover', vim.lsp.util.make_position_params(), 200000)) do
  table.insert(told, it.result.contents.value)
end
vim.api.nvim_win_set_cursor(0, { 5, 13 })
vim.lsp.buf.rename('begin')
vim.wait(200000, function() return vim.fn.getline(2):find('begin') ~= nil end)
table.insert(told, 'here\\n' .. table.concat(vim.api.nvim_buf_get_lines(0, 0, -1, false), '\\n') .. '\\nthere')
table.insert(told, table.concat(vim.api.nvim_buf_get_lines(vim.fn.bufnr('b.asm'), 0, -1, false), '\\n') .. '\\n')
vim.fn.writefile(vim.split(table.concat(told, '\\n'), '\\n'), 'told')
"""


def settings(language: str) -> str:
    """What the page shows for a language of settings."""
    with open(f'{TOP}/docs/editors.md', encoding='utf-8') as file:
        found = re.search(rf'^```{language}\n(.*?)^```', file.read(), re.M | re.S)
    assert found, language
    return found[1].replace('/path/to/zebludor', TOP)


class Real(ToolCase):
    """A mistake underlined, a hover read, a label renamed while another file has it too."""

    def setUp(self) -> None:
        super().setUp()
        for name in ('a.asm', 'b.asm'):
            self.file(name, SOURCE)

    def check(self, printed: str) -> None:
        """What an editor wrote of all three."""
        before, _, after = printed.partition('\nhere\n')
        self.assertRegex(before, r'\A4 (pcboard \[5\]: )?memory stands in brackets, with its size: INC BYTE \[ticks\]\n', printed)
        self.assertRegex(before, r'Clocks by C1: +10')
        self.assertIn('counter 0, both bytes, mode 2', before)
        self.assertEqual(after, f'{RENAMED}there\n{SOURCE}', printed)

    def run_editor(self, words: list[str]) -> str:
        """What an editor prints."""
        home = {'HOME': self.room, 'XDG_CONFIG_HOME': self.room, 'XDG_DATA_HOME': self.room, 'XDG_CACHE_HOME': self.room}
        done = subprocess.run(
            words, cwd=self.room, stdin=subprocess.DEVNULL, capture_output=True, text=True, check=False, timeout=SECONDS, env=os.environ | home
        )
        self.assertEqual(done.returncode, 0, done.stderr)
        return done.stdout

    def test_emacs(self) -> None:
        has = is_there('emacs', 'the language server in Emacs', 'emacs-nox')
        if has and subprocess.run(['emacs', '--batch', '--eval', "(progn (package-initialize) (require 'eglot))"], capture_output=True, check=False).returncode:
            not_run('the language server in Emacs; apt install elpa-eglot')
        elif has:
            script = self.file('it.el', f'(package-initialize)\n{settings("elisp")}(remove-hook \'asm-mode-hook \'eglot-ensure)\n{EMACS}')
            self.check(self.run_editor(['emacs', '--batch', '-l', script]))

    def test_neovim(self) -> None:
        if is_there('nvim', 'the language server in Neovim', 'neovim'):
            self.file('settings.lua', settings('lua'))
            self.run_editor(['nvim', '--headless', '-u', 'settings.lua', '-c', f'luafile {self.file("it.lua", NEOVIM)}', '-c', 'qa!'])
            with open(f'{self.room}/told', encoding='utf-8') as file:
                self.check(file.read().removesuffix('\n'))

    def test_ten_lines(self) -> None:
        for language in ('elisp', 'lua', 'toml', 'json'):
            self.assertLessEqual(len(settings(language).splitlines()), 10, language)


class Extension(ToolCase):
    """VS Code's client, in a session that node plays with a stand-in for VS Code."""

    def test_a_session(self) -> None:
        if not is_there('node', "VS Code's extension", 'nodejs'):
            return
        done = subprocess.run(
            ['node', f'{TOP}/tools/tests/vscode.js', f'{TOP}/editors/vscode/extension.js'],
            cwd=self.room,
            capture_output=True,
            text=True,
            check=False,
            timeout=SECONDS,
        )
        self.assertEqual((done.returncode, done.stderr), (0, ''))
        answers = json.loads(done.stdout)
        mistake = [3, 0, 5, 'memory stands in brackets, with its size: INC BYTE [ticks]']
        self.assertEqual((answers['first'], answers['languages'], answers['others']), ([mistake], ['zebludor'], False))
        self.assertIn('counter 0, both bytes, mode 2', answers['hover'])
        self.assertTrue(answers['nothing'])
        self.assertIn(['43h', 11], answers['completion'])  # CompletionItemKind.Value
        self.assertEqual(answers['definition']['range'][0], {'line': 1, 'character': 0})
        self.assertEqual(answers['references'], [1, 4])
        self.assertEqual(answers['prepared'], [{'line': 4, 'character': 12}, {'line': 4, 'character': 17}])
        self.assertEqual([(edit['range'][0]['line'], edit['newText']) for edit in answers['rename']['file:///a.asm']], [(1, 'begin'), (4, 'begin')])
        self.assertEqual(answers['refused'], 'mov is a word of the dialect, and no name')
        self.assertEqual(answers['symbols'], [['MAIN', 2, ['start', 'ticks']]])  # SymbolKind.Namespace
        self.assertEqual([action[0] for action in answers['actions']], ['Write INC BYTE [ticks]', 'Write INC WORD [ticks]'])
        self.assertEqual(answers['hints'], ['0050:0000 B034 4', '0050:0002 E643 10', '0050:0004 E9F9FF 15', '0050:0007 05'])
        self.assertEqual((answers['formatting'], answers['mended']), ([], [[], 1]))
        self.assertEqual(answers['shown'], ['zebludor: the language server has ended'])
        self.assertEqual([diagnostic[0] for diagnostic in answers['anew']], [3])
        self.assertEqual(answers['asked'], [['toClock', {'clock': 1200}]])

    def test_its_commands_and_its_files(self) -> None:
        """What it names is registered; sources for other assemblers are none of its own, unless a setting says so."""
        with open(f'{TOP}/editors/vscode/package.json', encoding='utf-8') as file:
            found = json.load(file)['contributes']
        with open(f'{TOP}/editors/vscode/extension.js', encoding='utf-8') as file:
            text = file.read()
        for command in found['commands']:
            self.assertIn(f"registerCommand('{command['command']}'", text)
        self.assertEqual([language['extensions'] for language in found['languages']], [['.zasm']])
        with open(f'{TOP}/docs/editors.md', encoding='utf-8') as file:
            self.assertIn('"files.associations": {"*.asm": "zebludor"}', file.read())

    def test_its_settings_are_the_servers(self) -> None:
        with open(f'{TOP}/editors/vscode/package.json', encoding='utf-8') as file:
            found = json.load(file)
        self.assertTrue(os.path.exists(f'{TOP}/editors/vscode/{found["main"]}'))
        names = found['contributes']['configuration']['properties']
        self.assertEqual(names['zebludor.off']['items']['enum'], list(NAMES))
        self.assertEqual(set(names), {f'zebludor.{setting.name}' for setting in dataclasses.fields(Settings)})


if __name__ == '__main__':
    unittest.main()
