"""The engine of the desk's page, under node: it answers what other tools answer to the same, over the library for WebAssembly if there
is one, else over the programs that stand in for it. Without node it isn't run, and says so.

  python3 -m tests.test_desk_engine --write     writes services.json, the services as pcboard makes them, and instructions.json, what
                                                the pages and the editors' grammar have of instructions, ports and words"""
from __future__ import annotations

import base64
import glob
import html
import json
import os
import re
import subprocess
import sys
import tempfile
import unittest
from typing import Any

from tests.desk_engine import Engine, has_node, with_node
from tests.support import EXAMPLES, TOOLS, ToolCase
from tests.test_desk import DATA, FOREVER, NESTED, RUN, SHORT
from tests.test_symbols import hex_of

from toolbox.command import Sorry, read_text
from toolbox.dap.board import Machine
from toolbox.data_labels import values_of
from toolbox.desk.pages import as_html
from toolbox.edits import assign
from toolbox.faults import KINDS
from toolbox.foreign import complaints
from toolbox.guests import is_masm
from toolbox.listing import Listing, listing_of
from toolbox.lsp.completing import completion
from toolbox.lsp.documents import OWN, Document, Settings
from toolbox.lsp.hovering import hover
from toolbox.messages import messages
from toolbox.program import Files, path
from toolbox.runfile import text_of
from toolbox.tables import FOLDER, tables
from parts import desk_having

Fields = dict[str, Any]
# Changes: some are made, and of some it can't be told which place or number is meant.
CHANGES = (
    *('AX = 5', '[count] = 90h', 'WORD [pair] = 1, 2', 'ZF = 1', 'BL = 300', 'CX = [count]', 'DX = AX + 3', "AL = 'a'", 'nonsense'),
    *('[B8000] = 1', '[10] = 1', '[9] = 1', '[10h] = 1', '[0x10] = 1', '[00500] = 1', '[0B8000h] = 1', '[B0000] = 41', '[12345h] = 1'),
    *('[count+1] = 2', '[pair+10] = 1', '[DS:DI] = 7', '[50:4] = 7', '[BX+SI] = 8', 'WORD [BP+2] = 9', 'AL = BYTE [10]', 'AL = 50:[3]'),
    *('AL = 50h:[3]', 'AL = DS:[0Ah]', 'AX = 010', 'AX = 007', 'AX = 0A', 'AX = 12ab', 'AX = 101b', 'AX = five + 1', 'AX = text_end'),
    *('CX = BYTE [0B8000h]', 'AX = [', 'AX = ()', 'AX = SEG pair'),
)
# Constants of numbers, of characters and of earlier ones, and data of which the listing doesn't show all bytes.
KINDS_OF_DATA = '''five EQU 5
top  EQU 0B800h-five+'A'
less EQU -five
MAIN_AT EQU 50h
SEGMENT MAIN AT MAIN_AT
start:  JMP SHORT start
many:   DB 20 DUP(7)
more:   DB 1
        ; still of it
        DB 2,3
last:   DW 1,2
        DB 9
odd:    DD 0,1,2,3
 ORG 100h
away:   DB 'a text that is longer than a row has'
ENDS
SEGMENT OTHER AT 70h
alone:  DW 12 DUP(five)
ENDS
SEGMENT RESET AT 0FFFFh
        JMP FAR start
ENDS
'''
REFUSED = (
    'SEGMENT MAIN AT 50h\n MOV AX,[AX]\n mov bl,300\nfoo MOV AX,1\n JMP there\n MOV AX,0x10\nENDS\n',
    'MOV AX,1\nMOV BX,2\nSEGMENT A AT 50h\n NOP\nENDS\n',
    '.model small\n.code\nmain proc\n mov ax,@data\n foo bar\nmain endp\nend main\n',
    'SEGMENT M AT 50h\na: NOP\na: NOP\n DB "x"\n MUV AX,1\n MOV AX,lable\nlabel: NOP\n MOV AX,0Fh\xe4\nENDS\n',
    'SEGMENT M AT 50h ; \xe4\n NOP ; \u20ac\nENDS\n',
    '\ufeffSEGMENT M AT 50h\n NOP\nENDS\n',
    'SEGMENT M AT 50h\n NOP\nENDS\n\x1a',
)


# Instructions of each kind of cost, and bytes that say something to each port that takes some.
COSTLY = """five EQU 5
SEGMENT MAIN AT 50h
start:  ADD WORD ES:[BX+SI+5],AX
        REP MOVSW
        REPNE CMPSB
        MOV AX,[1234h]
        MOV [BX+1],AL
        DIV WORD [SI]
        IDIV BL
        SHL WORD [BX],CL
        ROR AL,1
        INTO
        LOOP start
        JCXZ start
        XCHG AX,[DI]
        LES BX,[BP+2]
        CALL FAR [BX]
        PUSH WORD [BX]
        INT 3
        LOCK NOT BYTE [five]
        MOV AX,1234h
        OUT 20h,AX
more:   MOV DX,3B4h
        MOV AL,0Ah
        OUT DX,AL
        MOV DX,3B8h
        MOV AX,29h
        OUT DX,AL
        MOV AL,13h
        OUT 20h,AL
        MOV AL,48h
        OUT 21h,AL
        MOV AL,1
        OUT 21h,AL
        MOV AL,'A'
        OUT 21h,AL
        MOV AL,five+1
        OUT 20h,AL
        MOV AL,6Bh
        OUT 20h,AL
        MOV AL,0D6h
        OUT 43h,AL
        MOV AL,40h
        OUT 43h,AL
        MOV AL,3
        OUT 61h,AL
        MOV AL,99h
        OUT 63h,AL
        MOV AL,9
        OUT 63h,AL
        IN AL,DX
        IN AX,60h
        XCHG AX,DX
        OUT DX,AL
ENDS
"""
MASM = """.model small
.stack 100h
five equ 5
.data
msg db 'Hello', 13, 10, '$'
many dw 20 dup (five)
.code
main proc
  mov ax, @data
  mov ds, ax
  mov ah, 9
  mov dx, offset msg
  int 21h
  mov ax, 4c00h
  int 21h
main endp
end main
"""


def shown(text: str) -> str:
    """A word's meaning, without blanks that make no difference."""
    return re.sub(r'\s+', ' ', html.unescape(text).replace('\n', ''))


@with_node
class Asked(ToolCase):
    """An engine that is asked, and what the tools answer to the same."""

    def setUp(self) -> None:
        super().setUp()
        self.beside = dict[str, bytes]()
        self.engine = Engine(self.included)
        self.addCleanup(self.engine.close)

    def included(self, name: str) -> Fields | None:
        """What stands beside a source."""
        octets = self.beside.get(name)
        return None if octets is None else {'name': name, 'bytes': base64.b64encode(octets).decode()}

    def open(self, source: str, run: Fields | None = None, **more: Any) -> Fields:
        """A board of a source."""
        found = self.engine.ask({'do': 'open', 'source': source, 'run': run or RUN, **more})
        self.board = found.get('board', '')
        return found

    def ask(self, word: str, **fields: Any) -> Fields:
        """A question about the board."""
        return self.engine.ask({'do': word, 'board': self.board, **fields})

    def machine(self, source: str, clock: int) -> tuple[Machine, Listing]:
        """The board and the listing that other tools have of a source."""
        files = Files(self.file('it.asm', source), self.file('it.json', text_of(RUN)))
        listing = listing_of(files)
        machine = Machine(files, listing, 0, lambda: None)
        self.addCleanup(machine.close)
        machine.go_to(clock)
        return machine, listing

    def test_changes(self) -> None:
        """What is set stands there, and is undone; it is told, or refused, as other tools tell it."""
        source = f'five EQU 5\n{DATA}'
        machine, listing = self.machine(source, 100)
        self.open(source)
        self.ask('go to', clock=100)
        for text in CHANGES:
            try:
                wanted = assign(machine, listing, text)
            except Sorry as sorry:
                wanted = str(sorry)
            found = self.ask('set', text=text)
            self.assertEqual(found.get('told', found.get('sorry')), wanted, text)
        self.assertEqual(self.ask('look')['registers'], machine.registers())
        self.assertIn('undone', self.ask('undo')['told'])

    def test_data(self) -> None:
        """Data and constants, and stops on all bytes of a label."""
        for source in (KINDS_OF_DATA, DATA):
            machine, listing = self.machine(source, 0)
            self.open(source)
            self.assertEqual(self.ask('data')['data'], values_of(listing.data, machine.dump))
        self.open(KINDS_OF_DATA)
        for text, wanted in (('AX = top', 'AX = 0B83Ch'), ('BX = less', 'BX = 0FFFBh'), ('CX = five', 'CX = 00005h (5)'), ('AX = many', '')):
            self.assertIn(wanted, self.ask('set', text=text).get('told', ''), text)
        stops = self.ask('stops', stops=['changes many', 'changes 502', 'changes odd', 'changes LAST'])['stops']
        self.assertEqual([stop[0].split()[2] for stop in stops], ['20', '16', '4'])  # at 502 is `many` too

    def test_data_with_services(self) -> None:
        """Of a program that is loaded, and of one of MASM, whose names are its own."""
        self.open(MASM)
        self.assertEqual([(one['name'], one['kind'], one['length']) for one in self.ask('data')['data']], [('msg', 'DB', 8), ('many', 'DW', 40)])

    def test_refused(self) -> None:
        """Sources that are refused, with the hints that compilers' messages have; and run files."""
        for number, source in enumerate(REFUSED):
            path = self.file(f'{number}.asm', source)
            found = self.open(source)
            wanted = [*complaints(path, source.encode())] if is_masm(path) else [*messages(path, is_told=False)]
            self.assertEqual([(one['line'], one['text']) for one in found.get('refused', [])], wanted[:20], source)
        for more, name in (({'ram': 17}, 'RamSize'), ({'keys': 'x'}, 'BadField'), ({'budget': -1}, 'BadField'), ({'more': 1}, 'BadField')):
            self.assertIn(name, self.open(NESTED, RUN | more)['refused'][0]['text'])
        self.assertIn('BadRecord', self.open(':00', hex=True)['refused'][0]['text'])

    def test_a_halt_and_a_loop_without_end(self) -> None:
        """A step of a halted processor goes on by a clock, and a way over a call that never returns ends somewhere."""
        self.open(SHORT)
        clocks = [self.ask('step')['clock'] for _ in range(3)]
        self.assertEqual([after - before for before, after in zip(clocks, clocks[1:])], [1, 1])
        self.open(FOREVER)
        self.ask('step')
        self.assertEqual(self.ask('over')['why'], 'far')

    def hover(self, source: str, line: int, column: int) -> str:
        """What the engine tells of a word."""
        return shown(self.engine.ask({'do': 'language', 'what': 'hover', 'source': source, 'line': line, 'column': column})['html'])

    def test_what_a_word_means(self) -> None:
        """As the language server tells other editors."""
        for source in (COSTLY, read_text(f'{EXAMPLES}/ticks.asm')):
            document = Document('file:///it.asm', source, None, Settings(dialect=OWN), lambda: None)
            document.set(Settings(dialect=OWN))
            for line, text in enumerate(source.split('\n')):
                for word in re.finditer(r'\w+', text.split(';')[0]):
                    found = hover(document, {'position': {'line': line, 'character': word.start()}})
                    wanted = shown(as_html(found['contents']['value'])) if found else ''
                    self.assertEqual(self.hover(source, line, word.start()), wanted, (line + 1, word[0]))

    def test_what_a_line_of_masm_becomes(self) -> None:
        """Rows of the dialect's listing."""
        self.assertRegex(self.hover(MASM, 8, 3), r'^<pre>[0-9A-F]{4}:[0-9A-F]{4} B8[0-9A-F]{4} .*mov AX')
        self.assertEqual(self.hover(MASM, 0, 1), '')

    def test_what_completes_a_word(self) -> None:
        """As the language server tells other editors."""
        source = read_text(f'{EXAMPLES}/keys.asm')
        document = Document('file:///it.asm', source, None, Settings(dialect=OWN), lambda: None)
        for line, column in ((3, 8), (9, 12), (45, 3)):
            wanted = [(item['label'], item['detail']) for item in completion(document, {'position': {'line': line, 'character': column}})['items']]
            found = self.engine.ask({'do': 'language', 'what': 'completion', 'source': source, 'line': line, 'column': column})['items']
            self.assertEqual(sorted((item['label'], item['detail']) for item in found), sorted(wanted))

    def test_words(self) -> None:
        """By its words a source is taken otherwise than by its look; what would have taken it so is told of its look alone."""
        source = 'SEGMENT MAIN AT 100h\n ORG 100h\nstart: MOV AH,4Ch\n INT 21h\nENDS\n'
        otherwise = {'served': '; --bare'}
        self.assertTrue(self.open(source, how={'otherwise': otherwise})['services'].endswith('(docs/services.md); --bare'))
        self.assertIn('ended with exit code', self.ask('go to', clock=1_000_000)['state'])
        self.assertEqual(self.open(source, how={'bare': True, 'otherwise': otherwise})['services'], '')
        self.assertEqual(self.ask('go to', clock=1000)['state'], 'jammed')
        plain = source.replace('INT 21h', 'INT 30h')
        self.assertEqual(self.open(plain, how={'services': True})['services'], '')
        self.ask('step')
        self.assertEqual(self.ask('look')['line'], 3)
        self.assertIn('refused', self.open(source, how={'language': 'masm'}))
        self.assertIn('refused', self.open(MASM, how={'language': 'dialect'}))

    def test_a_commands_tail(self) -> None:
        """It stands at 80h of the PSP, with the blank before it and the return after it; what is none is refused."""
        source = 'SEGMENT MAIN AT 100h\n ORG 100h\nstart: MOV AH,4Ch\n INT 21h\nENDS\n'
        for args, octets in ((None, '000d'), ('', '000d'), ('a b', '04206120620d'), (' x', '0220780d')):
            self.open(source, how={'args': args})
            self.assertEqual(self.ask('memory', place='100:80', count=16)['bytes'][: len(octets)], octets, args)
        for args, why in (('\x7f', 'printable ASCII'), ('x' * 127, '126 characters at most')):
            self.assertIn(why, self.open(source, how={'args': args})['refused'][0]['text'])

    def test_what_a_source_includes(self) -> None:
        """What stands beside it, before ours; what is nowhere is told, also where it is typed."""
        source = MASM.replace('five equ 5', 'include own.inc')
        typed = {'do': 'language', 'what': 'refused', 'source': source}
        why = "the source includes own.inc, which isn't beside it; of our own there is emu8086.inc, irvine16.inc"
        self.assertEqual(self.open(source)['refused'][0]['text'], why)
        self.assertEqual(self.engine.ask(typed)['refused'], [{'line': 1, 'text': why}])
        self.beside['own.inc'] = b'; \x84\r\nfive equ 5\r\n'
        self.assertIn('board', self.open(source))
        self.assertEqual(self.engine.ask(typed)['refused'], [])
        self.assertRegex(self.hover(source, 8, 3), '^<pre>')
        ours = MASM.replace('five equ 5', 'include emu8086.inc\nfive equ 5')
        self.assertIn('board', self.open(ours))
        self.beside['emu8086.inc'] = b'no such thing\r\n'
        self.assertIn('emu8086.inc', self.open(ours)['refused'][0]['text'])

    def test_symbols_of_hex(self) -> None:
        """What a file of symbols tells is of the bytes that it was read for; a label without bytes is told of."""
        text = hex_of(bytes.fromhex('90' * 16))
        symbols = {'of': text, 'labels': [('there', (0xF000, 2))], 'absent': ['gone'], 'texts': [((0xF000, 1), 'it.asm:7: nop')], 'data': []}
        self.open(text, hex=True, how={'symbols': symbols})
        self.assertEqual([row[:2] for row in self.ask('stops', stops=['there'])['stops']], [['F000:0002', 'there']])
        self.assertIn('gone is not in the image', self.ask('stops', stops=['gone'])['sorry'])
        rows = self.ask('code', place='F000:0')['code'][:3]
        self.assertEqual([(row[0], row[1], row[4]) for row in rows], [('F000:0000', '', ''), ('F000:0001', '', 'it.asm:7: nop'), ('F000:0002', 'there', '')])
        self.open(hex_of(bytes.fromhex('91' * 16)), hex=True, how={'symbols': symbols})
        self.assertIn('is no label', self.ask('stops', stops=['there'])['sorry'])


class Following(unittest.TestCase):
    """The engine's following of calls."""

    def test_cases(self) -> None:
        """Answers the cases of tests/following that are about calls, as Python's does."""
        if not has_node():
            return
        files = sorted(glob.glob(f'{TOOLS}/tests/following/*.json'))
        words, env = ['node', f'{TOOLS}/tests/desk/following.mjs', *files], os.environ | {'PCPROBE': path('pcprobe'), 'TMPDIR': tempfile.gettempdir()}
        ran = subprocess.run(words, env=env, capture_output=True, text=True, check=True)
        rows = [json.loads(line) for line in ran.stdout.splitlines()]
        self.assertGreater(len(rows), 20)
        self.assertEqual([row for row in rows if not row['is']], [])


class Tables(unittest.TestCase):
    """What both languages read."""

    def test_services(self) -> None:
        """Are those that pcboard makes of services/."""
        self.assertEqual(tables('services'), json.loads(json.dumps(desk_having.services_made())))

    def test_instructions(self) -> None:
        """Are those that the pages and the editors' grammar have."""
        self.assertEqual(tables('instructions'), json.loads(json.dumps(desk_having.instructions_made())))

    def test_faults(self) -> None:
        """Have names and meanings."""
        self.assertTrue(all(kind.name and kind.meaning for kind in KINDS.values()))


if __name__ == '__main__':
    assert sys.argv[1:] == ['--write']
    for name, made in (('services', desk_having.services_made()), ('instructions', desk_having.instructions_made())):
        with open(f'{FOLDER}/{name}.json', 'w', encoding='utf-8') as table:
            table.write(desk_having.table_of(made))
