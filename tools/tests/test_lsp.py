"""tools/lsp by its protocol: its life, what it underlines and when, and each of its requests."""
from __future__ import annotations

import json
import os
import signal
import subprocess
import sys
import unittest
import unittest.mock
from typing import Any

from tests.lsp_client import IT, Fields, Here, There, span
from tests.support import EXAMPLES, TOOLS, ToolCase, members, until

from toolbox.lsp.answers import used

TICKS = """; Counts.
SIZE    EQU 43h
SEGMENT MAIN AT 50h
start:  MOV AL,34h
        OUT SIZE,AL             ; 'start' in a comment stays
        MOV BX,Ticks
        CALL show
        INC BYTE [ticks]
        JMP start
; Shows it.
; On the screen.
show:   MOV DX,3B8h
        RET
ticks:  DB 5
words:  DB 'start'
ENDS
SEGMENT RESET AT 0FFFFh
        JMP FAR START
ENDS
"""


def places(found: list[Fields]) -> list[tuple[int, int, int]]:
    """Lines and columns of ranges."""
    return [(item['range']['start']['line'], item['range']['start']['character'], item['range']['end']['character']) for item in found]


class Life(ToolCase):
    """The program, from its client's first message to its last."""

    def begin(self, begins: bool = True) -> There:
        """A server that is ended with the test."""
        there = There(self.room, begins)
        self.addCleanup(there.process.kill)
        return there

    def left(self) -> list[str]:
        """What stands where it would put its files."""
        return os.listdir(f'{self.room}/tmp')

    def test_begins_and_ends(self) -> None:
        there = self.begin(False)
        self.assertEqual(there.error('textDocument/hover')['code'], -32002)
        answer = there.ask('initialize', processId=None, rootUri=None, capabilities={})
        self.assertEqual(answer['capabilities']['positionEncoding'], 'utf-16')
        self.assertEqual(there.error('initialize')['code'], -32600)
        there.tell('initialized')
        self.assertIsNone(there.ask('shutdown'))
        self.assertEqual(there.error('textDocument/hover')['code'], -32600)
        there.tell('exit')
        self.assertEqual(there.process.wait(60), 0)
        self.assertEqual(there.end(), 0)
        self.assertEqual(self.left(), [])

    def test_ends_with_its_client(self) -> None:
        """At the end of its input, or with the process that it was told, though others hold its input open."""
        there = self.begin()
        there.open(' FROB\n' * 300)
        self.assertEqual(there.end(), 1)
        other = subprocess.Popen([sys.executable, '-S', '-c', 'input()'], stdin=subprocess.PIPE)
        there = self.begin(False)
        there.ask('initialize', processId=other.pid, rootUri=None, capabilities={})
        other.kill()
        other.wait()
        assert other.stdin
        other.stdin.close()
        self.assertEqual(there.process.wait(60), 1)
        there.end()
        self.assertEqual(self.left(), [])

    def test_ends_by_signals(self) -> None:
        for number in (signal.SIGTERM, signal.SIGHUP, signal.SIGINT):
            there = self.begin()
            there.process.send_signal(number)
            self.assertNotEqual(there.process.wait(60), 0)
            assert there.process.stderr
            self.assertEqual(there.process.stderr.read(), b'')
            there.end()

    def test_leaves_no_program(self) -> None:
        there = self.begin()
        there.open('SEGMENT A AT 0\n' + ' FROB\n' * 3000)
        there.underlined()
        self.assertIn(there.process.pid, members(there.process.pid))
        self.assertEqual(there.end(), 1)
        self.assertTrue(until(lambda: not members(there.process.pid)))
        self.assertEqual(self.left(), [])

    def test_what_is_broken_is_refused(self) -> None:
        there = self.begin()
        for octets, code in ((b'{', -32700), (b'[]', -32700), (b'"\xff"', -32700), (b'{"id":5}', -32600), (b'{"id":[],"method":"x"}', -32600)):
            there.raw(b'Content-Length: %d\r\n\r\n%b' % (len(octets), octets))
            answer = there.read()
            self.assertEqual((answer['id'], answer['error']['code']), (None, code), octets)
        self.assertEqual(there.error('textDocument/nonsense')['code'], -32601)
        there.send({'jsonrpc': '2.0', 'id': 'p', 'method': 'textDocument/hover', 'params': 5})
        self.assertEqual(there.answer_to('p')['error']['code'], -32602)
        self.assertEqual(there.error('textDocument/hover')['code'], -32602)
        self.assertEqual(there.error('textDocument/hover', textDocument={'uri': IT}, position=5)['code'], -32803)
        there.open('NOP')
        positions: tuple[Any, ...] = (5, None, {}, {'line': -1, 'character': 0}, {'line': 'a', 'character': 0}, {'line': 1 << 40, 'character': 0})
        for position in positions:
            self.assertEqual(there.error('textDocument/hover', textDocument={'uri': IT}, position=position)['code'], -32602, position)
        there.tell('textDocument/nonsense')
        there.tell('textDocument/didChange', textDocument={'uri': 'file:///other'}, contentChanges=[])
        there.tell('textDocument/didChange', textDocument={'uri': IT}, contentChanges=[{'range': 5, 'text': ''}])
        self.assertEqual(there.error('textDocument/hover', textDocument={'uri': IT}, position={'line': 0, 'character': 0})['code'], -32803)
        there.end()

    def test_called_off(self) -> None:
        there = self.begin()
        there.open(TICKS)
        asked: Fields = {'textDocument': {'uri': IT}, 'position': {'line': 3, 'character': 9}}
        hover = {'jsonrpc': '2.0', 'id': 'a', 'method': 'textDocument/hover', 'params': asked}
        # All of one write, so the calling off is there when the request is looked at, unless the reader was between them: then it is answered.
        there.send(
            {'jsonrpc': '2.0', 'id': 'z', 'method': 'workspace/symbol', 'params': {'query': ''}}, hover, {'method': '$/cancelRequest', 'params': {'id': 'a'}}
        )
        answer = there.answer_to('a')
        self.assertTrue('result' in answer or answer['error']['code'] == -32800, answer)
        there.end()

    def test_called_off_while_it_waits(self) -> None:
        here = Here()
        here.open(TICKS)
        hover = {'id': 7, 'method': 'textDocument/hover', 'params': {'textDocument': {'uri': IT}, 'position': {'line': 3, 'character': 9}}}
        messages = here.send(hover, {'method': '$/cancelRequest', 'params': {'id': 7}}, {'method': '$/cancelRequest', 'params': 5})
        self.assertEqual([message['error']['code'] for message in messages], [-32800])

    def test_closed_while_it_is_asked_for(self) -> None:
        here = Here()
        here.open(TICKS)
        close = {'method': 'textDocument/didClose', 'params': {'textDocument': {'uri': IT}}}
        hover = {'id': 7, 'method': 'textDocument/hover', 'params': {'textDocument': {'uri': IT}, 'position': {'line': 3, 'character': 9}}}
        messages = here.send(close, hover)
        self.assertEqual([message.get('error', {}).get('code') for message in messages], [None, -32803])
        self.assertEqual(here.found[IT], [])

    def test_what_goes_wrong_within_is_told(self) -> None:
        """A mistake of the server's own is an error for an answer, or stands in the log, and never its end."""
        here = Here()
        here.open(TICKS)
        with unittest.mock.patch('toolbox.lsp.layout.laid_out', side_effect=StopIteration):
            self.assertEqual(here.error('textDocument/formatting', textDocument={'uri': IT}, options={})['code'], -32603)
        here.messages.put({'method': 'textDocument/didChange', 'params': {'textDocument': {'uri': IT}, 'contentChanges': [{'text': ' FROB'}]}})
        here.server.gather(0)
        here.server.take(here.server.waiting.popleft())
        with unittest.mock.patch('toolbox.lsp.diagnosing.what_to_do', side_effect=OSError):
            here.server.judge(IT)
        self.assertIn("can't be judged", here.sent[-1]['params']['message'])
        here.open(TICKS)
        self.assertEqual(here.found[IT], [])

    def test_a_program_that_is_not_there(self) -> None:
        with unittest.mock.patch.dict(os.environ, PCBOARD=f'{self.room}/none'):
            there = self.begin()
        there.open(TICKS)
        messages = [there.read() for _ in range(2)]
        self.assertIn("isn't there", ' '.join(message['params'].get('message', '') for message in messages))
        self.assertEqual(there.at('definition', 6, 14)['range']['start']['line'], 11)
        there.end()


class Underlined(ToolCase):
    """Refused lines, warnings and notes."""

    def test_all_refused_lines_as_why_tells_them(self) -> None:
        text = 'SEGMENT MAIN AT 50h\nticks: DB 5\n INC ticks ; more\n FROB\nz: JMP y\n MOV AX,0x10\nticks: NOP\n MOV AX,yy\nyyy: NOP\nENDS\n NOP\n'
        path = self.file('it.asm', text)
        here = Here()
        here.open(text)
        underlined = [(diagnostic['range']['start']['line'] + 1, diagnostic['message'], diagnostic['severity']) for diagnostic in here.found[IT]]
        lines = self.tool('why', '--lines', path, status=1)[0].splitlines()
        wanted = [line.removeprefix(f'{path}:').partition(': error: ') for line in lines]
        self.assertEqual(underlined, [(int(line), text.partition(': ')[2], 1) for line, _, text in wanted])
        self.assertEqual(
            {diagnostic['range']['start']['line']: diagnostic['code'] for diagnostic in here.found[IT]}, {2: 5, 3: 4, 4: 7, 5: 3, 6: 6, 7: 7, 10: 11}
        )
        self.assertEqual(places(here.found[IT])[0], (2, 1, 10))

    def test_the_first_is_told_at_once(self) -> None:
        here = Here()
        messages = here.send(
            {'method': 'textDocument/didOpen', 'params': {'textDocument': {'uri': IT, 'version': 3, 'text': 'SEGMENT A AT 0\n' + ' FROB\n' * 200}}}
        )
        self.assertEqual([(message['params']['version'], len(message['params']['diagnostics'])) for message in messages], [(3, 1), (3, 101)])

    def test_an_edit_of_a_long_source(self) -> None:
        """150 milliseconds of processor time is what an editor's user doesn't notice; it may take four times as much."""
        here, lines = Here(), ['SEGMENT MAIN AT 0F000h', *(f'l{at}: MOV AX,l{at * 7 % 4990} ; it' for at in range(4990)), 'ENDS']
        here.open('\n'.join(lines))
        server = here.server
        here.messages.put(
            {'method': 'textDocument/didChange', 'params': {'textDocument': {'uri': IT}, 'contentChanges': [{'range': span(4000, 4001), 'text': ' FROB\n'}]}}
        )
        begun = used()
        server.gather(0)
        server.take(server.waiting.popleft())
        here.sent.clear()
        server.judge(IT)
        self.assert_within(used() - begun, 0.6)
        self.assertEqual(places(here.sent[0]['params']['diagnostics'])[0][0], 4000)

    def test_what_has_changed_is_not_told(self) -> None:
        """The lines after the first are dropped with their text."""
        here = Here()
        bad: Fields = {'textDocument': {'uri': IT, 'version': 1, 'text': 'SEGMENT A AT 0\n' + ' FROB\n' * 50}}
        here.messages.put({'method': 'textDocument/didOpen', 'params': bad})
        here.server.gather(0)
        here.server.take(here.server.waiting.popleft())
        here.server.judge(IT)
        here.server.judge(IT)
        messages = here.send({'method': 'textDocument/didChange', 'params': {'textDocument': {'uri': IT, 'version': 2}, 'contentChanges': [{'text': ' NOP'}]}})
        self.assertEqual([(message['params']['version'], len(message['params']['diagnostics'])) for message in messages], [(2, 1)] * len(messages))

    def test_repairs(self) -> None:
        for line, wanted in (
            ('INC ticks', 'INC BYTE [ticks]'),
            ('INC many', 'INC WORD [many]'),
            ('MOV [BX],1', 'MOV WORD [BX],1'),
            ('MOV AX,0x1F', 'MOV AX,01Fh'),
            ('MOV AX,FFh', 'MOV AX,0FFh'),
            ('MOV AX,WORD PTR [BX]', 'MOV AX,WORD [BX]'),
            ('MOV BX,OFFSET ticks', 'MOV BX,ticks'),
            ('MOV AX,[ES:BX]', 'MOV AX,ES:[BX]'),
            ('MOV AX,[BX][SI]', 'MOV AX,[BX+SI]'),
            ('MOV AL,ticks[SI]', 'MOV AL,[ticks+SI]'),
            ('MVO AX,5', 'MOV AX,5'),
            ('MOV BX,tick', 'MOV BX,ticks'),
            ('more DB 5', 'more: DB 5'),
            ('times 4 db 0', 'db 4 DUP(0)'),
            ('JZ SHORT it', 'JZ it'),
            ('JMP 0FFFFh:0', 'JMP FAR 0FFFFh:0'),
            ('DB "text"', "DB 'text'"),
        ):
            here = Here()
            here.open(f'SEGMENT MAIN AT 50h\nticks: DB 5\nmany: DW 5\nit: NOP\n {line} ; why\nENDS\n')
            them = here.of('codeAction', range=span(4, 5), context={'diagnostics': []})
            edits = [action['edit']['changes'][IT][0]['newText'].strip() for action in them]
            self.assertIn(f'{wanted} ; why', edits, line)
            self.assertEqual(here.of('codeAction', range=span(4, 5), context={'diagnostics': [], 'only': ['refactor']}), [])
            here.change({'range': them[0]['edit']['changes'][IT][0]['range'], 'text': them[0]['edit']['changes'][IT][0]['newText']})
            self.assertEqual([diagnostic for diagnostic in here.found[IT] if diagnostic['severity'] == 1], [], line)

    def test_warnings(self) -> None:
        lines = 'SEGMENT MAIN AT 0F000h\nx: DB 1\nMOV AL,x\nMOV BL,x+1\nMOV [x],AL\nINC BYTE [x]\nMOV AX,0F000h\nMOV SS,AX\nINT 60h\n; greetings\nENDS\n'
        here = Here()
        here.open(lines)
        self.assertEqual({diagnostic['severity'] for diagnostic in here.found[IT]}, {2})
        found = [(diagnostic['range']['start']['line'], diagnostic['code']) for diagnostic in here.found[IT]]
        wanted = [(2, 'offset-in-byte'), (3, 'offset-in-byte'), (4, 'variable-in-rom'), (5, 'variable-in-rom'), (7, 'variable-in-rom')]
        self.assertEqual(sorted(found), sorted([*wanted, (8, 'no-vector'), (0, 'no-reset')]))
        for name in {name for _, name in found}:
            here.tell('workspace/didChangeConfiguration', settings={'zebludor': {'off': [name]}})
            here.tell('workspace/didChangeConfiguration', settings={})
            self.assertEqual([diagnostic['code'] for diagnostic in here.found[IT]], [code for _, code in found if code != name])
        quiet = lines.replace('AL,x\n', 'AL,x-x\n').replace('BL,x+1', 'BL,[x+1]').replace(' [x]', ' ES:[x]').replace('0F000h\nMOV S', '50h\nMOV S')
        here = Here()
        here.open(f'SEGMENT V AT 0\nORG 180h\nDW 5,5\nENDS\nSEGMENT R AT 0FFFFh\nJMP FAR x\nENDS\n{quiet.replace("ü", "ue").replace("ß", "ss")}')
        self.assertEqual(here.found[IT], [])
        for sets in ('MOV WORD [180h],5', 'MOV [DI],AX', 'STOSW', 'INT 21h'):
            here.open(lines.replace('INT 60h', f'{sets}\nINT 60h'))
            self.assertNotIn('no-vector', [diagnostic['code'] for diagnostic in here.found[IT]], sets)

    def test_services_by_the_look(self) -> None:
        """The log tells once that a document runs with them, when its calls are accepted; no warning asks for a far jump then."""
        here, text = Here(), 'SEGMENT MAIN AT 100h\n ORG 100h\nstart: MOV AX,4C00h\n{}\nENDS\n'
        messages = []
        for version, code in enumerate((' NOP', ' INT 21', ' INT 21h,', ' INT 21h', ' INT 21h\n NOP'), 1):
            here.open(text.format(code)) if version == 1 else here.change({'text': text.format(code)})  # pylint: disable=expression-not-assigned
            messages.append([message['params'] for message in here.sent if message['method'] == 'window/logMessage'])
        self.assertEqual(messages[:3] + messages[4:], [[]] * 4)
        self.assertEqual([(one['type'], 'with the services' in one['message']) for one in messages[3]], [(3, True)])
        self.assertEqual(here.found[IT], [])

    def test_warnings_of_a_line_alone(self) -> None:
        """They stand where what they are about does, and say what why --lines says."""
        here, lines = Here(), 'SEGMENT MAIN AT 50h\nx: INT 21\nREP MOV AX,BX\n CMP AL,X+1\nENDS\n'
        here.open(lines)
        self.assertEqual([diagnostic['code'] for diagnostic in here.found[IT]], ['decimal-interrupt', 'rep-without-string', 'offset-in-byte'])
        self.assertEqual(places(here.found[IT]), [(1, 7, 9), (2, 0, 3), (3, 8, 9)])
        source = self.file('it.asm', lines)
        warnings = [f'{source}:{diagnostic["range"]["start"]["line"] + 1}: warning: {diagnostic["message"]}' for diagnostic in here.found[IT]]
        self.assertEqual(self.tool('why', '--lines', source)[0].splitlines(), warnings)

    def test_no_warning_of_what_is_right(self) -> None:
        here = Here()
        for folder in (EXAMPLES, f'{EXAMPLES}/books', f'{os.path.dirname(EXAMPLES)}/services'):
            for name in sorted(entry for entry in os.listdir(folder) if entry.endswith('.asm')):
                with open(f'{folder}/{name}', encoding='utf-8') as file:
                    here.open(file.read(), f'file:///{name}')
                self.assertEqual(here.found[f'file:///{name}'], [], name)

    def test_other_assemblers(self) -> None:
        for text, uri, wanted in (
            ('NOP', 'file:///it.nasm', 'NASM'),
            ('; it\n section .text\n', IT, 'NASM'),
            ('%define x 5', IT, 'NASM'),
            ('bits 16', IT, 'NASM'),
            (' .text\n', IT, 'gas'),
        ):
            here = Here()
            here.open(text, uri)
            (note,) = here.found[uri]
            self.assertEqual(note['severity'], 3)
            self.assertIn(f"{wanted}'s", note['message'])
            self.assertIsNone(here.at('hover', 0, 1, uri))
            self.assertEqual(here.error('textDocument/formatting', textDocument={'uri': uri}, options={})['code'], -32803)
            here.tell('workspace/didChangeConfiguration', settings={'zebludor': {'dialect': 'zebludor'}})
            self.assertNotIn(3, [diagnostic['severity'] for diagnostic in here.found[uri]])
        here.open('section EQU 5\nSEGMENT A AT 0\nbits: DB 5\nproc: NOP\nENDS\n')
        self.assertNotIn(3, [diagnostic['severity'] for diagnostic in here.found[IT]])


class Places(ToolCase):
    """Positions in UTF-16 units, ends of lines, and what lies past them."""

    def test_units(self) -> None:
        here = Here()
        here.open('SEGMENT A AT 0\nx: DB 1 ; \U0001f600 x\n MOV AL,[x]\nENDS\n')
        here.change({'range': {'start': {'line': 1, 'character': 12}, 'end': {'line': 1, 'character': 14}}, 'text': ' y; '})
        self.assertEqual(here.server.documents[IT].text.lines[1], 'x: DB 1 ; \U0001f600 y; ')
        here.change({'range': {'start': {'line': 1, 'character': 8}, 'end': {'line': 1, 'character': 12}}, 'text': ''})
        self.assertEqual(here.server.documents[IT].text.lines[1], 'x: DB 1  y; ')
        here.change({'range': {'start': {'line': 1, 'character': 10}, 'end': {'line': 1, 'character': 99}}, 'text': '\U0001f600'})
        self.assertEqual(places(here.found[IT]), [(1, 0, 12)])

    def test_past_the_end(self) -> None:
        here = Here()
        here.open('SEGMENT A AT 0\nx: NOP')
        here.change({'range': {'start': {'line': 7, 'character': 7}, 'end': {'line': 9, 'character': 0}}, 'text': '\nENDS'})
        self.assertEqual(here.server.documents[IT].text.whole, 'SEGMENT A AT 0\nx: NOP\nENDS')
        self.assertIsNone(here.at('hover', 900, 900))
        self.assertEqual(here.at('definition', 1, 1)['range'], {'start': {'line': 1, 'character': 0}, 'end': {'line': 1, 'character': 1}})

    def test_ends_of_lines(self) -> None:
        here = Here()
        here.open('SEGMENT A AT 0\r\nx: NOP\r\n FROB\r\nENDS\r\n')
        self.assertEqual(places(here.found[IT]), [(2, 1, 5)])
        here.open('SEGMENT A AT 0\n; a\rb\n FROB\n')
        self.assertEqual([place[0] for place in places(here.found[IT])], [1, 3])

    def test_odd_texts(self) -> None:
        here = Here()
        for text in (
            '',
            '\n',
            '\ufeffSEGMENT A AT 0\nNOP',
            "'",
            ';',
            'x:',
            ':',
            'x: ' + '[' * 100_000,
            'a ' * 50_000,
            "DB '" + 'x' * 100_000,
            '\ud800',
            '\0',
            ' ' * 100_000,
            "DB '\u00e9'" + ',1' * 50_000,
            "DB '" + '\U0001f600' * 50_000 + "'" + ',1' * 10_000,
        ):
            here.open(text)
            for method in ('documentSymbol', 'foldingRange', 'semanticTokens/full', 'formatting'):
                self.assertIsNotNone(here.of(method, options={}), method)
            for column in (0, 1, 99_999):
                for method in ('hover', 'completion', 'definition', 'signatureHelp'):
                    here.at(method, 0, column)
            here.of('codeAction', range=span(0, 1), context={'diagnostics': []})
            here.of('inlayHint', range=span(0, 1))


class Asked(ToolCase):
    """Each request, on a source whose answers are known."""

    def setUp(self) -> None:
        super().setUp()
        self.here = Here()
        self.here.open(TICKS)

    def hover(self, line: int, column: int) -> str:
        """The text of a hover."""
        found = self.here.at('hover', line, column)
        return str(found['contents']['value']) if found else ''

    def test_definition_and_references(self) -> None:
        self.assertEqual(places([self.here.at('definition', 17, 18)]), [(3, 0, 5)])
        self.assertEqual(places([self.here.at('definition', 4, 13)]), [(1, 0, 4)])
        self.assertIsNone(self.here.at('definition', 3, 9))
        self.assertEqual(places(self.here.at('references', 3, 2, context={'includeDeclaration': True})), [(3, 0, 5), (8, 12, 17), (17, 16, 21)])
        self.assertEqual(places(self.here.at('references', 3, 2, context={'includeDeclaration': False})), [(8, 12, 17), (17, 16, 21)])
        self.assertEqual(places(self.here.at('documentHighlight', 13, 2)), [(5, 15, 20), (7, 18, 23), (13, 0, 5)])

    def test_rename(self) -> None:
        self.here.open(TICKS, 'file:///other.asm')
        self.assertEqual(self.here.at('prepareRename', 8, 14)['placeholder'], 'start')
        edits = self.here.at('rename', 8, 14, newName='begin')['changes']
        self.assertEqual(list(edits), [IT])
        self.assertEqual(places(edits[IT]), [(3, 0, 5), (8, 12, 17), (17, 16, 21)])
        self.assertEqual({edit['newText'] for edit in edits[IT]}, {'begin'})
        self.assertEqual(places(self.here.at('rename', 2, 9, newName='MAIN2')['changes'][IT]), [(2, 8, 12)])
        self.assertEqual(len(self.here.at('rename', 8, 14, newName='Start')['changes'][IT]), 3)
        for new, why in (
            ('mov', 'word of the dialect'),
            ('TICKS', 'line 14'),
            ('a' * 32, '32 characters'),
            ('5a', 'no name'),
            ('', 'no name'),
            ('a.b', 'no name'),
        ):
            error = self.here.error('textDocument/rename', textDocument={'uri': IT}, position={'line': 8, 'character': 14}, newName=new)
            self.assertIn(why, error['message'])
        self.assertEqual(self.here.error('textDocument/prepareRename', textDocument={'uri': IT}, position={'line': 0, 'character': 3})['code'], -32803)

    def labels(self, line: int, text: str) -> list[str]:
        """What completes a line."""
        self.here.change({'range': span(line, line + 1), 'text': f'{text}\n'})
        return [item['label'] for item in self.here.at('completion', line, len(text))['items']]

    def test_completion(self) -> None:
        for text, has, hasnt in (
            ('        M', ('MOV', 'REP', 'SEGMENT'), ('AX', 'ticks')),
            ('        m', ('mov', 'rep'), ('MOV',)),
            ('x: ', ('MOV', 'DB'), ('AX',)),
            ('        MOV A', ('AX', 'AL', 'ticks', 'SIZE', 'WORD', 'SEG'), ('MOV', '43h')),
            ('        MOV AX,[', ('BX', 'SI', 'ticks', 'SIZE'), ('AX', 'CL')),
            ('        OUT ', ('43h', '20h', '61h'), ('3B8h',)),
            ('        OUT 4', ('43h',), ('3B8h',)),
            ('        IN AL,', ('60h',), ('3B8h',)),
            ('        MOV DX,', ('3B8h', '3BAh'), ('43h',)),
            ('        DB ', ('ticks', 'DUP'), ('MOV',)),
        ):
            found = self.labels(3, text)
            self.assertLessEqual(set(has), set(found), text)
            self.assertFalse(set(hasnt) & set(found), text)
        self.assertEqual(self.labels(3, '        NOP ; M'), [])
        self.assertEqual(self.labels(3, "        DB 'M"), [])
        detail = {item['label']: item['detail'] for item in self.here.at('completion', 12, 8)['items']}
        self.assertEqual(detail['MOV'], 'copies the second operand to the first')

    def test_symbols(self) -> None:
        tree = self.here.of('documentSymbol')
        self.assertEqual(
            [(symbol['name'], symbol['kind'], [child['name'] for child in symbol['children']]) for symbol in tree][:2],
            [('MAIN', 3, ['start', 'show', 'ticks', 'words']), ('RESET', 3, [])],
        )
        self.assertEqual([(symbol['name'], symbol['kind']) for symbol in tree[2:]], [('SIZE', 14)])
        self.assertEqual([symbol['kind'] for symbol in tree[0]['children']], [12, 12, 13, 13])
        self.assertEqual(tree[0]['range'], {'start': {'line': 2, 'character': 0}, 'end': {'line': 15, 'character': 4}})
        for node in (*tree, *tree[0]['children']):
            lines = (node['range']['start']['line'], node['selectionRange']['start']['line'], node['range']['end']['line'])
            self.assertEqual(lines, tuple(sorted(lines)))

    def test_workspace_symbols(self) -> None:
        os.makedirs(f'{self.room}/in ner')
        self.file('in ner/second.asm', 'SEGMENT A AT 0\nstarts: NOP\nENDS\n')
        with open(f'{self.room}/broken.asm', 'wb') as file:
            file.write(b'SEGMENT A AT 0\n\xff: NOP\nstar: NOP\n')
        here = Here()
        here.ask('shutdown')
        here = Here()
        here.server.folders = [self.room]
        here.open(TICKS)
        found = here.ask('workspace/symbol', query='STRT')
        self.assertEqual([(symbol['name'], symbol['containerName']) for symbol in found], [('start', 'MAIN'), ('starts', 'A')])
        self.assertTrue(found[1]['location']['uri'].endswith('/in%20ner/second.asm'))
        self.assertEqual([symbol['name'] for symbol in here.ask('workspace/symbol', query='star')], ['start', 'star', 'starts'])

    def test_names_of_long_lines(self) -> None:
        """Of a file that isn't open, each line's beginning is searched."""
        self.file('long.asm', f'SEGMENT A AT 0\nfirst: DB {"1," * 1000}1\nlast: NOP\n{" " * 1000}none: NOP\n{"[" * 900_000}')
        here = Here()
        here.server.folders = [self.room]
        self.assertEqual([symbol['name'] for symbol in here.ask('workspace/symbol', query='')], ['A', 'first', 'last'])

    def test_folding(self) -> None:
        found = [(folding['startLine'], folding['endLine'], folding['kind']) for folding in self.here.of('foldingRange')]
        self.assertEqual(found, [(2, 15, 'region'), (16, 18, 'region'), (9, 10, 'comment')])

    def test_semantic_tokens(self) -> None:
        data, line, column, found = self.here.of('semanticTokens/full')['data'], 0, 0, dict[tuple[int, int], tuple[int, int, int]]()
        for at in range(0, len(data), 5):
            line, column = line + data[at], data[at + 1] + (column if data[at] == 0 else 0)
            found[line, column] = (data[at + 2], data[at + 3], data[at + 4])
        types = ['comment', 'string', 'number', 'keyword', 'macro', 'modifier', 'operator', 'property', 'function', 'variable', 'enumMember', 'namespace']
        for place, length, kind, defines in (
            ((0, 0), 9, 'comment', 0),
            ((1, 0), 4, 'enumMember', 1),
            ((2, 8), 4, 'namespace', 1),
            ((3, 0), 5, 'function', 1),
            ((3, 8), 3, 'keyword', 0),
            ((3, 12), 2, 'property', 0),
            ((3, 15), 3, 'number', 0),
            ((5, 15), 5, 'variable', 0),
            ((14, 11), 7, 'string', 0),
            ((17, 12), 3, 'operator', 0),
        ):
            self.assertEqual(found.get(place), (length, types.index(kind), defines), place)

    def test_signature_help(self) -> None:
        self.here.change({'range': span(3, 4), 'text': '        MOV AX,\n'})
        answer = self.here.at('signatureHelp', 3, 15)
        self.assertEqual((answer['signatures'][0]['label'], answer['activeParameter']), ('MOV AL,[n]', 1))
        self.assertEqual(self.here.at('signatureHelp', 3, 12)['activeParameter'], 0)
        self.assertIsNone(self.here.at('signatureHelp', 3, 9))
        self.assertIsNone(self.here.at('signatureHelp', 0, 5))

    def test_hover(self) -> None:
        hover_text = self.hover(4, 9)
        for text in ('`0050:0002 E643`', 'Clocks by C1: 10', 'Flags that change: none', 'OUT DX,AL|EEh|8', "port 43h: the timer's control word"):
            self.assertIn(text, hover_text)
        self.assertIn('34h there: counter 0, both bytes, mode 2 (rate generator), binary', hover_text)
        self.assertIn('is 43h, 67, 1000011b', self.hover(4, 13))
        label = self.hover(6, 14)
        for text in ('**show** label, `0050:0011`', 'Shows it. On the screen.', 'used in line 7'):
            self.assertIn(text, label)
        self.assertIn('begins with `05`', self.hover(13, 2))
        self.assertIn("is 43h, 67, 1000011b, 'C'", self.hover(1, 1))
        self.assertEqual(self.hover(0, 3), '')
        self.assertIn('Flags that change: OF SF ZF AF PF', self.hover(7, 9))

    def test_hover_beside_a_refused_line(self) -> None:
        """What is told of other lines is that of the text without it, and says so."""
        self.here.change({'range': span(3, 4), 'text': 'start:  FROB\n'})
        self.assertIn('`0050:0000 E643`, of the text without its refused lines', self.hover(4, 9))
        self.assertIn('`0050:000F`, of the text without its refused lines', self.hover(6, 14))
        self.assertNotIn('0050', self.hover(3, 9))
        self.here.change({'range': span(3, 4), 'text': 'start:  MOV AL,34h\n'})
        self.assertNotIn('without', self.hover(4, 9))

    def test_numbers_of_any_size(self) -> None:
        largest = 'is 0FFFFFFFFFFFFFFFFh, 18446744073709551615, '
        for number, wanted in (('18446744073709551615', largest), ('18446744073709551616', 'needs more than 64 bits')):
            self.here.open(f'SEGMENT A AT 50h\nMOV {number},8\nENDS\n')
            self.assertIn(f'`{number}` {wanted}', self.hover(1, 5), number)
        self.here.open(f'SEGMENT A AT 50h\nMOV {"9" * 5000},8\nENDS\n')
        self.assertEqual(self.hover(1, 5), '')

    def test_chips(self) -> None:
        for lines, wanted in (
            ('MOV AL,36h\nOUT 43h,AL', 'mode 3 (square wave)'),
            ('MOV AL,0B7h\nOUT 43h,AL', 'counter 2, both bytes, mode 3 (square wave), decimal'),
            ('MOV AL,0\nOUT 43h,AL', 'counter 0, latches the count'),
            ('MOV AL,20h\nOUT 20h,AL', 'OCW2: end of interrupt'),
            ('MOV AL,63h\nOUT 20h,AL', 'OCW2: end of interrupt of level 3'),
            ('MOV AL,0Bh\nOUT 20h,AL', 'OCW3: reads give the levels in service'),
            ('MOV AL,13h\nOUT 20h,AL\nMOV AL,8\nOUT 21h,AL', 'ICW2: IR0 is interrupt 08h'),
            ('MOV AL,13h\nOUT 20h,AL\nMOV AL,8\nOUT 21h,AL\nMOV AL,1\nOUT 21h,AL', 'ICW4: 8086 mode'),
            ('MOV AL,0FEh\nOUT 21h,AL', 'masks IR1 IR2 IR3 IR4 IR5 IR6 IR7'),
            ('MOV AL,99h\nOUT 63h,AL', 'A is an input, the upper half of C is an input, B is an output, the lower half of C is an input'),
            ('MOV AL,3\nOUT 61h,AL', 'gate 2 is 1, OUT2 goes to the speaker'),
            ('MOV DX,3B8h\nMOV AX,9\nOUT DX,AL', 'the video is on'),
            ('MOV DX,3B4h\nMOV AX,0A0Eh\nOUT DX,AX', 'register 14 at 3B5h'),
            ('IN AL,60h', 'port 60h: port A of the parallel port'),
            ('IN AL,99h', 'port 99h: nothing answers'),
        ):
            self.here.open(f'SEGMENT A AT 50h\n{lines}\nENDS\n')
            line = lines.count('\n') + 1
            self.assertIn(wanted, self.hover(line, 1), lines)
        for unknown in ('MOV AL,5\nx: OUT 43h,AL', 'MOV AL,5\nINC AL\nOUT 43h,AL', 'MOV AL,5\nCALL x\nOUT 43h,AL', 'MOV AL,[x]\nOUT 43h,AL'):
            self.here.open(f'SEGMENT A AT 50h\n{unknown}\nx: NOP\nENDS\n')
            self.assertNotIn(' there: ', self.hover(unknown.count('\n') + 1, 3), unknown)

    def test_inlay_hints(self) -> None:
        self.assertEqual(self.here.of('inlayHint', range=span(0, 20)), [])
        self.here.tell('workspace/didChangeConfiguration', settings={'zebludor': {'hints': True}})
        found = {hint['position']['line']: hint['label'] for hint in self.here.of('inlayHint', range=span(0, 20))}
        self.assertEqual((found[3], found[8], found[13], found[14]), ('0050:0000 B034 4', '0050:000E E9EFFF 15', '0050:0015 05', '0050:0016 7374617274'))
        self.assertEqual(sorted(found), [3, 4, 5, 6, 7, 8, 11, 12, 13, 14, 17])

    def test_call_hierarchy(self) -> None:
        (item,) = self.here.at('prepareCallHierarchy', 6, 14)
        self.assertEqual((item['name'], item['range']['start']['line'], item['range']['end']['line']), ('show', 11, 15))
        (caller,) = self.here.ask('callHierarchy/incomingCalls', item=item)
        self.assertEqual(
            (caller['from']['name'], caller['fromRanges']), ('start', [{'start': {'line': 6, 'character': 13}, 'end': {'line': 6, 'character': 17}}])
        )
        out = self.here.ask('callHierarchy/outgoingCalls', item=caller['from'])
        self.assertEqual([call['to']['name'] for call in out], ['show', 'start'])
        self.assertIsNone(self.here.at('prepareCallHierarchy', 1, 1))

    def test_formatting(self) -> None:
        self.here.open("x: y\n  segment  A at 0\nlong_label_here:   mov  ax , 5 ;a  b \n ; stays \n\tES: \tMOVSB\n N equ  5;c\nx:DB 'a  b;',1\n ends\n")
        text = self.here.server.documents[IT].text
        edits = {edit['range']['start']['line']: edit['newText'] for edit in self.here.of('formatting', options={'tabSize': 4, 'insertSpaces': True})}
        self.assertEqual(
            [edits.get(at, text.lines[at]) for at in range(len(text.lines))],
            [
                'x:      y',
                'segment A at 0',
                'long_label_here: mov ax , 5     ;a  b ',
                ' ; stays ',
                '        ES: MOVSB',
                'N       equ 5                   ;c',
                "x:      DB 'a  b;',1",
                'ends',
                '',
            ],
        )
        part = self.here.of('rangeFormatting', range=span(1, 2), options={})
        self.assertEqual([edit['range']['start']['line'] for edit in part], [1])


class Words(unittest.TestCase):
    """The help."""

    def test_each_warning_is_named(self) -> None:
        from toolbox.lsp.doubts import NAMES

        printed = subprocess.run([sys.executable, '-S', f'{TOOLS}/lsp', '--help'], capture_output=True, text=True, check=True).stdout
        for name in NAMES:
            self.assertIn(name, printed)

    def test_the_server_says_what_it_can_do(self) -> None:
        from toolbox.lsp.server import CAPABILITIES

        self.assertEqual(json.loads(json.dumps(CAPABILITIES)), CAPABILITIES)


if __name__ == '__main__':
    unittest.main()
