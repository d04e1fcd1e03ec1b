"""The pages: each command of a tool, and of ./pcboard beside one, prints what its page has."""
from __future__ import annotations

import os
import re
import shutil
import subprocess
import unittest

from tests.support import EXAMPLES, TOOLS, TOP, ToolCase, but_progress


PAGES = (
    'README.md',
    'docs/editors.md',
    'docs/first-program.md',
    'docs/for-archivists.md',
    'docs/for-teachers.md',
    'docs/for-firmware.md',
    'docs/examples.md',
    'docs/debugger.md',
    'docs/probe.md',
    'docs/why.md',
    'docs/sweeps.md',
)
SESSION = r'((?:break|byte|sound|halted|go|step|back|regs|screen|dump|trail|quit)\b.*)'  # what is typed in a session of debug
MINE = 'SEGMENT MAIN AT 0F000h\nstart:  MOV AX,0xB000\n        MOV ES,AX\n        HLT\nENDS\nSEGMENT RESET AT 0FFFFh\n        JMP FAR start\nENDS\n'
RUN = '{"version":1,"ram":64,"sw1":0,"sw2":0,"budget":100000,"keys":[]}'

# An example, a part of it, what stands in its place, and what is seen then.
MISTAKES = (
    ('first', 'JMP FAR start', 'DW 0FFFFh', 'FFFF:0000 has FF FF'),
    ('hello', ' HLT', '', 'has FF FF'),
    ('first', 'done:   RET', 'done:   JMP top', 'were 00 00'),
    ('first', 'MOV AL,9', 'MOV AL,1', 'text memory has characters'),
    ('first', '0B000h', '0B800h', 'no colour adapter is here'),
    ('first', '        HLT', '        INT 21h', 'its vector, at 00084h, is 0000:0000'),
    ('first', 'MOV AH,7', 'MOV AH,0', 'with the attribute 00h'),
    ('first', 'MOV DS,AX', 'NOP', '(halted for good at clock '),
    ('first', 'AT 50h', 'AT 0F600h', 'which is ROM'),
    ('first', 'SP,top', 'SP,count', 'Hello from RA5'),
    ('clock', ' STI', ' NOP', 'with interrupts off'),
    ('clock', 'DW tick,SEG tick', 'DW 0', 'interrupt 08 came; its vector'),
    ('clock', 'MOV AL,20h', 'MOV AL,0', '1\n(waits for an interrupt'),
    ('poll', 'MOV AL,0C0h', 'MOV AL,40h', 'HHH'),
)


def blocks(page: str) -> list[str]:
    """The blocks of a page that show commands. What is typed in gdb is test_gdb's."""
    with open(f'{TOP}/{page}', encoding='utf-8') as file:
        found = re.findall(r'^```\n(.*?)^```', file.read(), re.M | re.S)
    return [block for block in found if block.startswith('$ ') and '(gdb) ' not in block]


def commands(block: str) -> list[tuple[str, str, str]]:
    """A block's commands, what is typed at them, and what they print."""
    found = []
    for part in re.split(r'^\$ ', block, flags=re.M)[1:]:
        command, _, printed = part.partition('\n')
        mark = SESSION if 'pcboard debug' in command else r'dbg> (.*)'
        typed = re.findall(f'^{mark}\n', printed, re.M)
        printed = re.sub(f'^({mark}|Type help .*)\n', '', printed, flags=re.M)
        found.append((command, ''.join(f'{line}\n' for line in typed), printed))
    return found


def anchors(path: str) -> set[str]:
    """What a link to a place within a page may name: its headings, as they are turned into anchors."""
    with open(path, encoding='utf-8') as file:
        text = re.sub(r'^```.*?^```', '', file.read(), flags=re.M | re.S)
    titles = (re.sub(r'\[(.*?)\]\(.*?\)', r'\1', title) for title in re.findall(r'^#+ (.*)$', text, re.M))
    return {re.sub(r'[^\w -]', '', title.lower()).replace(' ', '-') for title in titles}


class Links(unittest.TestCase):
    """The pages' names and links."""

    def test_each_link_leads_somewhere(self) -> None:
        pages = [
            'README.md',
            'CHANGELOG.md',
            'CONTRIBUTING.md',
            'SECURITY.md',
            'editors/README.md',
            *(f'docs/{name}' for name in sorted(os.listdir(f'{TOP}/docs')) if name.endswith('.md')),
        ]
        for page in pages:
            with open(f'{TOP}/{page}', encoding='utf-8') as file:
                links = re.findall(r'\]\(([^)\s]+)\)', file.read())
            for link in links:
                path, _, anchor = link.partition('#')
                target = os.path.normpath(f'{TOP}/{os.path.dirname(page)}/{path}') if path else f'{TOP}/{page}'
                self.assertTrue(os.path.exists(target), f'{page}: {link}')
                if anchor:
                    self.assertIn(anchor, anchors(target), f'{page}: {link}')

    def test_readme_is_read_in_ten_minutes(self) -> None:
        with open(f'{TOP}/README.md', encoding='utf-8') as file:
            self.assertLessEqual(len(file.read().split()), 2300)

    def test_security_is_read_in_three_minutes(self) -> None:
        """It says what is promised, what isn't, and where to report; README leads to it."""
        with open(f'{TOP}/SECURITY.md', encoding='utf-8') as file:
            text = file.read()
        self.assertLessEqual(len(text.split()), 600)
        self.assertEqual(re.findall('^# (.*)$', text, re.M), ['Security', 'What is promised', "What isn't", 'Where to report'])
        with open(f'{TOP}/README.md', encoding='utf-8') as file:
            self.assertIn('](SECURITY.md)', file.read())

    def test_names_are_in_lower_case(self) -> None:
        for name in os.listdir(f'{TOP}/docs'):
            self.assertRegex(name, r'\A[a-z0-9-]+(\.md)?\Z')


class Pages(ToolCase):
    """The commands are run in a folder that has what the pages speak of."""

    def setUp(self) -> None:
        super().setUp()
        shutil.copytree(EXAMPLES, f'{self.room}/examples')
        os.symlink(TOOLS, f'{self.room}/tools')
        from toolbox import program

        os.symlink(program.path(), f'{self.room}/pcboard')
        with open(f'{EXAMPLES}/fibonacci.asm', encoding='utf-8') as file:
            model = file.read()
        self.file('mine.asm', MINE)
        self.file('mine.json', '{"version":1,"ram":"64","sw1":0,"sw2":0,"budget":1000}')
        self.file('run.json', RUN)
        self.file('model.asm', model)
        self.file('solution.asm', model.replace('MOV DI,0 ', 'XOR DI,DI'))
        self.file('rom0.hex', ':01000000906F\n:00000001FF\n')
        self.file('fibonacci.page', 'shows = 1 1 2 3 5 8 13 21\nstate = halted\nSP = 0\n')
        self.file('echo.page', 'run = small letters\nplain keys = hello\nshows = HELLO\nrun = others\nplain keys = zebra\nshows = ZEBRA\n')
        with open(f'{EXAMPLES}/ticks.asm', encoding='utf-8') as file:
            self.file('mute.asm', file.read().replace('MOV AL,20h', 'MOV AL,0'))
        self.file('chips.page', 'chip controller ISR = 0\nchip counter 0 newest = 0064\n')
        for name in ('model', 'solution'):
            self.file(f'{name}.txt', self.pcboard('run', f'{self.room}/{name}.asm', f'{self.room}/run.json').stdout)

    def shell(self, command: str, typed: str = '') -> str:
        """What a command prints, on both streams, without how far a tool was, which no first lines count."""
        command = command.replace(' | head', r" | sed -E '/^\w+(: .*)?, [0-9]+ s$/d' | head")
        ran = subprocess.run(command, shell=True, input=typed, stdout=subprocess.PIPE, stderr=subprocess.STDOUT, text=True, cwd=self.room, check=False)
        return but_progress(ran.stdout)

    def check(self, page: str) -> int:
        """Runs a page's commands, and returns how many there were."""
        count = 0
        for command, typed, printed in (shown for block in blocks(page) for shown in commands(block)):
            if not command.startswith(('tools/', './pcboard run', './pcboard debug', 'sed ')) or command.startswith(
                'tools/moments'
            ):  # which takes too long: test_moments has some of them
                continue
            if 'mine.asm' in command and '"ram"' in printed:
                self.file('mine.asm', MINE.replace('0xB000', '0B000h'))
            wanted = re.escape(printed.rstrip()).replace('\n\\.\\.', '\n(.*\n)*.*')  # a line `..` stands for any
            printed = self.shell(command, typed).rstrip()
            self.assertRegex(printed, f'\\A{wanted}\\Z', f'{page}: {command}')
            count += 1
        return count

    def test_pages(self) -> None:
        count = 0
        for page in PAGES[:-1]:
            count += self.check(page)
        self.assertGreater(count, 17)

    def test_the_ten_mistakes(self) -> None:
        """What the page says one sees, in examples with a line changed."""
        with open(f'{TOP}/docs/first-program.md', encoding='utf-8') as file:
            page = file.read()
        for name, was, becomes, seen in MISTAKES:
            with open(f'{EXAMPLES}/{name}.asm', encoding='utf-8') as file:
                source = file.read()
            self.assertEqual(len(re.findall(was, source)), 1, was)
            # Of a program that begins again and again only what its last 32 instructions did is told.
            run = self.file('short.json', RUN.replace('100000', '3000')) if seen == 'which is ROM' else f'{EXAMPLES}/{name}.json'
            out, err = self.tool('try', self.file('it.asm', re.sub(was, becomes, source)), '--run', run)
            self.assertIn(seen, out + err, f'{name}: {was}')
            self.assertTrue(seen in page or seen.startswith(('(', '1\n', 'HHH')), seen)

    def test_the_page_shows_the_example(self) -> None:
        with open(f'{TOP}/docs/first-program.md', encoding='utf-8') as page, open(f'{EXAMPLES}/first.asm', encoding='utf-8') as source:
            self.assertIn(f'\n```\n{source.read()}```\n', page.read())

    def test_the_sweeps(self) -> None:
        with open(f'{TOP}/docs/sweeps.md', encoding='utf-8') as file:
            plain = re.findall(r'^```\n(.*?)^```', file.read(), re.M | re.S)
        for block in plain:
            if block.startswith(('examples/sweep/', 'tools/batch', 'split')):
                self.assertEqual(self.shell(block), '', block)
        self.assertEqual(self.check('docs/sweeps.md'), 1)


if __name__ == '__main__':
    unittest.main()
