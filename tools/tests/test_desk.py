"""tools/desk by its own protocol, and its page's engine under node: what is hostile is refused, and what a page is told is what the
program answers. Without node the engine isn't run, and says so."""
from __future__ import annotations

import concurrent.futures as futures
import contextlib
import glob
import hashlib
import http.client
import json
import os
import re
import signal
import socket
import subprocess
import sys
import tempfile
import threading
import unittest
from typing import Any, Callable
from unittest import mock

from tests.desk_engine import Engine, has_library, named_library, with_node
from tests.support import EXAMPLES, SECONDS, TOOLS, TOP, ToolCase, children, example, rooms_in, until
from tests.test_symbols import NASM, ROM, hex_of

from toolbox.asking import answers_of
from toolbox.crates import Crates
from toolbox.dap.values import is_code
from toolbox.desk import http as desk_http, parts
from toolbox.desk.drafts import Drafts
from toolbox.desk.files import Given, Kept
from toolbox.desk.http import LONGEST_BODY, MOST_CONNECTIONS, MOST_STRANGERS, SECONDS_OF_A_STRANGER, Refused, Server, policy_of
from toolbox.desk.pages import as_html, examples, grammar, page_of
from toolbox.desk.words import Desk
from toolbox.events import events
from toolbox.listing import line_of
from toolbox.program import Files, Session, path as path_of
from toolbox.report import registers_of, report_of
from toolbox.runfile import DEFAULTS, text_of
from toolbox.sources import sum_of_sources

Fields = dict[str, Any]
PAGE = f'{TOOLS}/toolbox/desk/page'
# What is asked of the desk, and not of the engine.
OF_FILES = ('hello', 'example', 'page', 'include', 'keep', 'changed', 'keep draft', 'drop draft', 'draft')
RUN = {'version': 1, 'ram': 64, 'sw1': 0, 'sw2': 0, 'budget': 1000, 'keys': []}
SHORT = 'SEGMENT RESET AT 0FFFFh\n        HLT\nENDS\n'
FOREVER = 'SEGMENT MAIN AT 0F000h\nstart:  CALL deep\nstay:   JMP SHORT stay\ndeep:   INC AX\n        JMP SHORT deep\nENDS\nSEGMENT RESET AT 0FFFFh\n        JMP FAR start\nENDS\n'


# It writes to text memory with the video off, and goes round in a loop that nothing ends: no carry comes.
DARK = (
    'SEGMENT MAIN AT 0F000h\nstart:  MOV AX,0B000h\n        MOV ES,AX\n        MOV WORD ES:[0],0741h\nstay:   INC BX\n        DEC BX\n        JNC stay\nENDS\n'
    'SEGMENT RESET AT 0FFFFh\n        JMP FAR start\nENDS\n'
)


# Its timer moves the speaker each eight clocks.
BUZZ = (
    'SEGMENT MAIN AT 0F000h\nstart:  MOV AL,99h\n        OUT 63h,AL\n        MOV AL,96h\n        OUT 43h,AL\n        MOV AL,4\n        OUT 42h,AL\n        MOV AL,3\n'
    '        OUT 61h,AL\nbuzz:   INC BX\n        JMP SHORT buzz\nENDS\nSEGMENT RESET AT 0FFFFh\n        JMP FAR start\nENDS\n'
)
# Two calls within each other, in lines 3 and 5, which return to F000:0006 and F000:000A.
NESTED = (
    'SEGMENT MAIN AT 0F000h\nstart:  MOV SP,400h\n        CALL outer\n        HLT\nouter:  CALL inner\n        RET\n'
    'inner:  NOP\n        RET\nENDS\nSEGMENT RESET AT 0FFFFh\n        JMP FAR start\nENDS\n'
)
DATA = '''SEGMENT MAIN AT 0F000h
start:  MOV AX,50h
        MOV DS,AX
more:   INC BYTE [count]
        DEC WORD [pair+2]
        JMP SHORT more
text:   DB 'Hello',0
ENDS
SEGMENT DATA AT 50h
count:  DB 0FEh
pair:   DW 1,2,0FFFFh
both:
other:  DD 12345678h
msg:    DB 'Hi',0
        DB 5 DUP(0)             ; of the same label
code:   NOP
big:    DB 2000 DUP(41h)
ENDS
SEGMENT RESET AT 0FFFFh
        JMP FAR start
ENDS
'''


def text_of_screen(rows: list[list[list[Any]]]) -> list[str]:
    """The page's screen as a report has it."""
    return [''.join(text for text, _ in row) for row in rows]


def modules() -> dict[str, str]:
    """The page's modules, by their names."""
    found = dict[str, str]()
    for name in sorted(os.listdir(PAGE)):
        if name.endswith('.js'):
            with open(f'{PAGE}/{name}', encoding='utf-8') as file:
                found[name] = file.read()
    return found


def exports_of(text: str) -> list[str]:
    """The names that a module exports."""
    found = re.findall(r'^export (?:async )?function (\w+)', text, re.M)
    for line in re.findall(r'^export (?:const|let) (.*)$', text, re.M):
        found += re.findall(r'(?:^|, )([$\w]+)(?= = )', line)
    return found


def contrast(one: str, other: str) -> float:
    """The contrast of two colours: the ratio of their luminances."""

    def luminance(colour: str) -> float:
        digits = colour[1:] if len(colour) == 7 else ''.join(2 * digit for digit in colour[1:])
        parts = [int(digits[at : at + 2], 16) / 255 for at in (0, 2, 4)]
        red, green, blue = (part / 12.92 if part <= 0.04045 else ((part + 0.055) / 1.055) ** 2.4 for part in parts)
        return 0.2126 * red + 0.7152 * green + 0.0722 * blue

    low, high = sorted((luminance(one), luminance(other)))
    return (high + 0.05) / (low + 0.05)


class Client:
    """A page, as far as the protocol goes, with its engine, which begins once it is asked."""

    how: Fields = {}
    its_engine: Engine | None = None

    def __init__(self, address: str) -> None:
        found = re.fullmatch(r'http://(127\.0\.0\.1:(\d+))/([\w-]+)/', address)
        assert found, address
        self.host, self.port, self.token, self.cookie = found[1], int(found[2]), found[3], ''
        self.enter()

    def enter(self) -> None:
        """Opens the address, as a browser does, and keeps its cookie."""
        status, text, answer = self.request('GET', f'/{self.token}/')
        assert status == 200, text
        self.cookie = (answer.getheader('Set-Cookie') or '').partition(';')[0]

    def head(self, method: str, path: str) -> bytes:
        """How a request begins."""
        return f'{method} {path} HTTP/1.1\r\nHost: {self.host}\r\nCookie: {self.cookie}\r\n'.encode()

    def request(self, method: str, path: str, body: bytes | None = None, **headers: str | None) -> tuple[int, str, http.client.HTTPResponse]:
        """A request with the headers of the page's own, as far as none is given: status, body, response."""
        own: dict[str, str | None] = {'Host': self.host, 'Cookie': self.cookie or None}
        if method == 'POST':
            own |= {'Origin': f'http://{self.host}', 'Content-Type': 'application/json'}
        own |= {name.replace('_', '-'): content for name, content in headers.items()}
        connection = http.client.HTTPConnection('127.0.0.1', self.port, timeout=SECONDS)
        try:
            connection.putrequest(method, path, skip_host=True, skip_accept_encoding=True)
            for name, value in own.items():
                if value is not None:
                    connection.putheader(name, value)
            if body is not None and 'Content-Length' not in own and 'Transfer-Encoding' not in own:
                connection.putheader('Content-Length', str(len(body)))
            connection.endheaders(body)
            answer = connection.getresponse()
            return answer.status, answer.read().decode(), answer
        finally:
            connection.close()

    @property
    def engine(self) -> Engine:
        """Its engine, which asks the desk for what a source includes."""
        if not self.its_engine:
            self.its_engine = Engine(lambda name: self.ask('include', name=name))
        return self.its_engine

    def leave(self) -> None:
        """Leaves the page."""
        if self.its_engine:
            self.its_engine.close()

    def ask(self, word: str, **fields: Any) -> Fields:
        """A question, followed to its end."""
        question = {'do': word, **fields}
        if word not in OF_FILES:
            return self.engine.to_the_end(question | {'how': self.how} if word == 'open' else question)
        status, text, _ = self.request('POST', f'/{self.token}/do', json.dumps(question).encode())
        assert status == 200, (word, status, text)
        answer: Fields = json.loads(text)
        self.how = answer.get('how', self.how)
        return answer

    def raw(self, octets: bytes) -> bytes:
        """What bytes are answered by, up to the connection's end."""
        with socket.create_connection(('127.0.0.1', self.port), timeout=SECONDS) as line:
            line.sendall(octets)
            found = b''
            try:
                while part := line.recv(1 << 16):
                    found += part
            except ConnectionError:
                pass
            return found

    def open(self, name: str, **fields: Any) -> Fields:
        """A board of an example."""
        given = self.ask('example', name=name)
        answer = self.ask('open', source=given['source'], run=given['run'] | fields)
        assert 'board' in answer, answer
        return answer


class Served(ToolCase):
    """A desk within the tests' own process."""

    def setUp(self) -> None:
        super().setUp()
        drafts = tempfile.TemporaryDirectory()
        self.addCleanup(drafts.cleanup)
        self.drafts = f'{drafts.name}/state/desk'
        self.desk = Desk(Given(), Drafts(self.drafts))
        self.server = Server('<style>x</style>', {'main.js': 'y'}, self.desk.answer)
        self.thread = threading.Thread(target=self.server.serve_forever, args=(0.02,), daemon=True)
        self.thread.start()
        self.addCleanup(self.end)
        self.client = Client(self.server.address)
        self.addCleanup(self.client.leave)

    def end(self) -> None:
        """Ends it."""
        self.server.shutdown()
        self.server.server_close()
        self.thread.join()


class Hostile(Served):
    """Requests that no page of its own sends."""

    def status(self, method: str, path: str, body: bytes | None = None, **headers: str | None) -> int:
        """A request's status."""
        return self.client.request(method, path, body, **headers)[0]

    def test_the_page_itself(self) -> None:
        status, text, answer = self.client.request('GET', f'/{self.client.token}/')
        self.assertEqual((status, text), (200, '<style>x</style>'))
        policy, module = answer.getheader('Content-Security-Policy') or '', f'{self.server.address}main.js'
        self.assertEqual(policy, policy_of(text, [module]))
        # Scripts come from the modules' own addresses, and from nowhere else: neither from within the page, nor from a text beside them.
        self.assertTrue(policy.startswith(f"default-src 'none'; script-src {module} 'wasm-unsafe-eval'; style-src 'sha256-"), policy)
        self.assertFalse('unsafe' in policy.replace("'wasm-unsafe-eval'", '') or '*' in policy)
        status, text, module_answer = self.client.request('GET', f'/{self.client.token}/main.js')
        self.assertEqual((status, text, module_answer.getheader('Content-Type')), (200, 'y', 'text/javascript; charset=utf-8'))
        self.assertEqual((answer.getheader('Cache-Control'), answer.getheader('Referrer-Policy')), ('no-store', 'same-origin'))
        self.assertIn('examples', self.client.ask('hello'))

    def test_another_host(self) -> None:
        page, port = f'/{self.client.token}/', self.client.port
        for host in ('evil.example', f'evil.example:{port}', f'localhost:{port}', '127.0.0.1', f'127.0.0.1:{port + 1}', '', None):
            self.assertEqual(self.status('GET', page, Host=host), 403, host)
            self.assertEqual(self.status('POST', f'{page}do', b'{"do":"hello"}', Host=host), 403, host)
        twice = self.client.raw(f'GET {page} HTTP/1.1\r\nHost: {self.client.host}\r\nHost: evil.example\r\n\r\n'.encode())
        self.assertTrue(twice.startswith(b'HTTP/1.1 403'), twice)

    def test_another_origin(self) -> None:
        for origin in ('http://evil.example', 'null', f'https://{self.client.host}', f'http://localhost:{self.client.port}', ''):
            self.assertEqual(self.status('POST', f'/{self.client.token}/do', b'{"do":"hello"}', Origin=origin), 403, origin)
            self.assertEqual(self.status('GET', f'/{self.client.token}/', Origin=origin), 403, origin)
        self.assertEqual(self.status('POST', f'/{self.client.token}/do', b'{"do":"hello"}', Origin=None), 403)

    def test_no_token_or_another(self) -> None:
        token = self.client.token
        for path in (
            '/',
            '/do',
            '//',
            f'/{token[:-1]}/',
            f'/{token}x/',
            f'/{token.swapcase()}/',
            '/favicon.ico',
            f'/x/{token}/',
            f'//{token}/',
            f'//{token}/do',
            f'/?{token}',
            '*',
            'x',
        ):
            self.assertEqual(self.status('GET', path), 403, path)
            self.assertEqual(self.status('POST', path, b'{"do":"hello"}'), 403, path)

    def test_a_path_outside(self) -> None:
        token = self.client.token
        for rest in (
            '../../etc/passwd',
            '..',
            './',
            '%2e%2e/',
            '..%2f..%2fetc/passwd',
            'do/',
            'do/../',
            '/etc/passwd',
            'desk.html',
            '\\..\\',
            'do?x',
            'main.js/',
            'main.js?x',
            './main.js',
            '/main.js',
            'board.js',
        ):
            for method in ('GET', 'POST'):
                self.assertEqual(self.status(method, f'/{token}/{rest}', b'{}' if method == 'POST' else None), 404, rest)
        self.assertEqual(self.status('GET', f'/{token}'), 404)
        for name in ('../README.md', '/etc/passwd', '..', 'no-such-page', 'pictures/fibonacci.svg'):
            self.assertIn('no page', self.client.ask('page', name=name)['sorry'])
            self.assertIn('no example', self.client.ask('example', name=name)['sorry'])

    def test_a_failure_of_its_own(self) -> None:
        """The page is told what happened, and the desk goes on."""
        path, body = f'/{self.client.token}/do', b'{"do":"page","name":"desk.md"}'
        for error, sentence in ((MemoryError(), 'desk has not enough memory'), (ZeroDivisionError('by 0'), 'a mistake of its own: ZeroDivisionError: by 0')):
            with mock.patch('toolbox.desk.words.page_of', side_effect=error):
                status, text, _ = self.client.request('POST', path, body)
                self.assertEqual(status, 500)
                self.assertIn(sentence, text)
        self.assertIn('html', self.client.ask('page', name='desk.md'))

    def test_other_methods(self) -> None:
        for method in ('PUT', 'DELETE', 'HEAD', 'OPTIONS', 'CONNECT', 'TRACE', 'get'):
            self.assertEqual(self.status(method, f'/{self.client.token}/'), 501, method)

    def test_bodies(self) -> None:
        path, good = f'/{self.client.token}/do', b'{"do":"hello"}'
        for wanted, body, headers in (
            (415, good, {'Content_Type': 'text/plain'}),
            (415, good, {'Content_Type': None}),
            (411, None, {}),
            (411, b'e\r\n' + good + b'\r\n0\r\n\r\n', {'Transfer_Encoding': 'chunked'}),
            (411, good, {'Content_Length': '-1'}),
            (411, good, {'Content_Length': '1e9'}),
            (400, b'[]', {}),
            (400, b'{', {}),
            (400, b'\xff', {}),
            (400, b'[' * 100000, {}),
            (400, b'{}', {}),
            (400, b'{"do":1}', {}),
            (404, b'{"do":"x"}', {}),
            (400, b'{"do":"example"}', {}),
            (400, b'{"do":"keep","source":1}', {}),
            (400, b'{"do":"keep","source":"","run":[]}', {}),
            (400, b'{"do":"include"}', {}),
            (404, b'{"do":"run"}', {}),  # which the engine is asked
        ):
            self.assertEqual(
                self.client.request('POST', path, body, **{name.replace('_', '-'): content for name, content in headers.items()})[0], wanted, (body or b'')[:40]
            )
        for deep in range(900, 1000, 10):  # at the edge of what Python reads and writes
            rest = b'"given":false,"id":"12345678","name":"n","hex":false,"source":"","stops":[]'
            body = b'{"do":"keep draft",%s,"run":{"keys":%s}}' % (rest, b'[' * deep + b']' * deep)
            self.assertIn(self.status('POST', path, body), (200, 400), deep)
        self.server.seconds_of_a_refusal = SECONDS
        for length in (LONGEST_BODY + 1, 10 << 20, 10**11):
            self.assertEqual(self.status('POST', path, b' ' * 100, **{'Content-Length': str(length)}), 413)
        self.assertEqual(self.status('POST', path, b' ' * (10 << 20)), 413)
        self.assertEqual(self.status('POST', path, good + b' ' * (LONGEST_BODY - len(good))), 200)

    def test_long_heads(self) -> None:
        self.assertIn(self.status('GET', '/' + 'x' * 70_000), (414,))
        self.assertEqual(self.status('GET', '/', X=('y' * 70_000)), 431)
        self.assertEqual(self.client.raw(b'\0' * 1000 + b'\r\n\r\n')[:12], b'HTTP/1.1 400')
        self.assertIn('examples', self.client.ask('hello'))

    def are_cut_off(self, lines: list[socket.socket]) -> bool:
        """Whether the server ends them all, on each of which a byte comes now and then."""
        left = set(lines)

        def are_gone() -> bool:
            self.server.cut_off()
            for line in set(left):
                line.settimeout(0.005)
                try:
                    line.sendall(b'x')
                    if line.recv(100) == b'':
                        left.discard(line)
                except TimeoutError:
                    pass
                except OSError:
                    left.discard(line)
            return not left

        return until(are_gone)

    def lines(self, count: int) -> list[socket.socket]:
        """So many connections."""
        found = list[socket.socket]()
        for _ in range(count):
            found.append(socket.create_connection(('127.0.0.1', self.client.port), timeout=SECONDS))
            self.addCleanup(found[-1].close)
        return found

    def test_half_a_request(self) -> None:
        """It is cut off, and so is one that comes byte by byte; others are answered meanwhile."""
        self.server.seconds_of_a_request, self.server.seconds_of_a_stranger = 0.3, SECONDS
        head = self.client.head('POST', f'/{self.client.token}/do')
        lines = self.lines(10)
        for at, line in enumerate(lines):
            line.sendall(head[:2] if at % 2 else head)
        self.assertIn('examples', self.client.ask('hello'))
        self.assertTrue(self.are_cut_off(lines))
        self.assertIn('examples', self.client.ask('hello'))

    def test_one_that_is_silent(self) -> None:
        self.server.seconds_of_silence = 0.3
        self.assertEqual(self.lines(1)[0].recv(100), b'')

    def test_those_who_show_no_token(self) -> None:
        """They keep nobody out, however many they are, silent or with a byte now and then, and are cut off."""
        self.server.seconds_of_a_request, self.server.seconds_of_a_stranger = SECONDS, 0.4
        lines = self.lines(3 * MOST_STRANGERS)
        for at, line in enumerate(lines):
            if at % 2:
                line.sendall(b'GET /')
            self.assertIn('examples', self.client.ask('hello'))
        self.assertTrue(self.are_cut_off(lines))
        # Who has shown it may be silent for longer.
        self.server.seconds_of_a_stranger = 0
        line = self.lines(1)[0]
        for _ in range(2):
            line.sendall(self.client.head('GET', f'/{self.client.token}/') + b'\r\n')
            self.assertTrue(line.recv(5000).startswith(b'HTTP/1.1 200'))
            self.server.cut_off()

    def test_a_hundred_at_once(self) -> None:
        """Each that stays has its answer before the next comes. Those for whom there is no room are told so; once all are gone,
        there is room for others."""
        self.server.seconds_of_silence = SECONDS
        request = self.client.head('GET', f'/{self.client.token}/') + b'\r\n'
        lines, seen = list[socket.socket](), list[bytes]()
        for _ in range(100):
            lines += self.lines(1)
            lines[-1].sendall(request)
            seen.append(lines[-1].recv(12))
        self.assertEqual(seen, [b'HTTP/1.1 200'] * MOST_CONNECTIONS + [b'HTTP/1.1 503'] * (100 - MOST_CONNECTIONS))
        for line in lines:
            line.close()
        self.assertTrue(until(lambda: not self.server._known))

        def answers(line: socket.socket) -> list[bytes]:
            found = list[bytes]()
            for _ in range(5):
                line.sendall(request)
                found.append(line.recv(5000)[:12])
            return found

        with futures.ThreadPoolExecutor(20) as pool:
            self.assertEqual(list(pool.map(answers, self.lines(20))), [[b'HTTP/1.1 200'] * 5] * 20)

    def test_a_stranger_that_has_made_room(self) -> None:
        """It isn't taken in, if its token comes before its end does; nor is one that was too slow."""
        statuses, shut = list[int](), desk_http.shut

        def late(connection: socket.socket) -> None:
            with self.assertRaises(Refused) as refused:
                self.server.shows_token(connection)
            statuses.append(refused.exception.status)
            shut(connection)

        with mock.patch.object(desk_http, 'shut', late):
            self.lines(MOST_STRANGERS + 1)
            self.assertTrue(until(lambda: statuses == [503]))
            self.server.seconds_of_a_stranger = 0
            self.server.cut_off()
        self.assertEqual(statuses, [503] * (MOST_STRANGERS + 1))

    def test_how_long_a_stranger_may_stay(self) -> None:
        self.assertEqual((self.server.seconds_of_a_stranger, SECONDS_OF_A_STRANGER), (2, 2))

    def test_it_listens_here_alone(self) -> None:
        self.assertEqual(self.server.server_address[0], '127.0.0.1')
        with self.assertRaises(OSError):
            socket.create_connection(('127.0.0.2', self.client.port), timeout=2).close()


@with_node
class Boards(Served):
    """What the page is told."""

    def test_what_is_asked_of_a_board(self) -> None:
        board = self.client.open('hello')['board']
        for fields in (
            {'do': 'go to', 'clock': '1'},
            {'do': 'go to', 'clock': 1.5},
            {'do': 'no such question'},
            {'do': 'type', 'codes': [0]},
            {'do': 'type', 'codes': [128]},
            {'do': 'type', 'codes': [212]},
            {'do': 'type', 'codes': ['a']},
            {'do': 'type', 'codes': [1] * 20_000},
            {'do': 'stops', 'stops': 'x'},
            {'do': 'stops', 'stops': [1]},
            {'do': 'drop keys', 'keys': [-1]},
            {'do': 'memory', 'place': 5},
            {'do': 'run', 'ms': 'x'},
            {'do': 'step', 'seen': []},
        ):
            self.assertIn('error', self.client.engine.ask(fields | {'board': board}), fields)
        for fields in (
            {'do': 'go to', 'clock': -1},
            {'do': 'go to', 'clock': 1 << 41},
            {'do': 'memory', 'place': 'nowhere'},
            {'do': 'stops', 'stops': ['F000:0\nquit']},
            {'do': 'type', 'text': '{no such key}'},
            {'do': 'type', 'text': 'x' * 1001},
            {'do': 'type', 'text': '{wait 9999999999999}a'},
            {'do': 'last'},
        ):
            rest = {name: value for name, value in fields.items() if name != 'do'}
            self.assertIn('sorry', self.client.ask(str(fields['do']), board=board, **rest), fields)
        self.assertIn('gone', self.client.ask('step', board='x'))
        self.assertEqual(self.client.ask('step', board=board)['clock'], 15)

    def test_changes(self) -> None:
        """A register, a byte, a key behind them: undone, also by a way back; nothing is told then that is of a run from its start."""
        answer = self.client.open('ticks')
        board = answer['board']

        def ask(word: str, **fields: Any) -> Fields:
            return self.client.ask(word, board=board, **fields)

        self.assertFalse(ask('go to', clock=1000)['changed'])
        found = ask('set', text='BX = 5')
        self.assertEqual((found['registers']['BX'], found['clock'], found['told'], found['changed']), (5, 1000, 'BX = 00005h (5)', True))
        self.assertEqual(ask('set', text='[tick] = 90h')['told'], 'F6058: 90')
        self.assertEqual(ask('memory', place='tick', count=16)['bytes'][:4], '90fe')
        self.assertEqual([key[0] for key in ask('type', codes=[30])['keys']], [2000])
        self.assertEqual((ask('marks')['told'], ask('marks')['changed'], ask('why')['told']), (False, True, []))
        for text, why in (('BX = 70000', 'no number of 16 bits'), ('[A0000] = 1', 'no byte can be set there'), ('x' * 2000, '1000 characters')):
            self.assertIn(why, ask('set', text=text)['sorry'])
        self.assertEqual(ask('go to', clock=1500)['registers']['BX'], 5)
        found = ask('go to', clock=999)
        self.assertEqual((found['clock'], found['told'], found['keys'], found['changed']), (999, 'clock 1000: undone: BX 5, F6058 90', [], False))
        ask('set', text='BX = 5')
        self.assertEqual((ask('undo')['told'], ask('undo')['sorry']), ('clock 999: undone: BX 5', 'nothing was set that could be undone'))
        self.assertTrue(ask('marks')['told'])

    def test_every_example(self) -> None:
        """Its screen at its end is the report's, and so are the registers; what is saved repeats it."""
        for program in (one for one in examples() if not one.name.startswith('books/')):
            answer = self.client.open(program.name)
            board = answer['board']
            shown = self.client.ask('run', board=board, to=answer['budget'], past=True, ms=200)
            report = report_of(self.pcboard('run', *example(program.name)).stdout)
            self.assertEqual(
                (shown['clock'], text_of_screen(shown['screen']), shown['registers']), (report.clock, report.screen, report.registers), program.name
            )
            marks = self.client.ask('marks', board=board)
            self.assertEqual(
                (shown['state'].removesuffix(' for good'), shown['lost'], [tuple(change) for change in marks['changes']]),
                (report.state, report.lost, report.changes),
                program.name,
            )
            self.assertTrue(shown['state'].startswith(report.state), program.name)
            entries = [[one.clock, one.entry] for one in events(Files(*example(program.name)), 0, report.clock) if one.entry is not None]
            self.assertEqual((marks['interrupts'], marks['interrupts up to']), (entries, report.clock), program.name)
            self.client.ask('close', board=board)

    def test_a_program_with_services(self) -> None:
        """It is written, run, stopped by line, and gone back in, with its own instructions in the trail and its end as its state."""
        self.assertEqual(sum(one.name.startswith('books/') for one in examples()), len(glob.glob(f'{TOP}/examples/books/*.asm')))
        given = self.client.ask('example', name='books/hello')
        text = given['source'].replace('4C00h', '4C05h')
        lines = [code.partition(';')[0].split() for code in text.split('\n')]
        first, call, last = (lines.index(words) + 1 for words in (['start:', 'MOV', 'DX,hello'], ['INT', '21h'], ['MOV', 'AX,4C05h']))
        answer = self.client.ask('open', source=text, run={**given['run'], 'ram': 64}, hex=False)
        board = answer['board']
        self.assertEqual(answer['lines'][str(call)], '0100:0105')
        self.assertIn('runs with the services', answer['services'])
        shown = self.client.ask('run', board=board, to=answer['budget'], past=True, ms=200)
        self.assertEqual((shown['state'], shown['line'], shown['clock']), ('ended with exit code 5', last + 1, answer['budget']))
        self.assertEqual(text_of_screen(shown['screen'])[0].rstrip(), 'Hello, world!')
        self.assertEqual([row[4] for row in shown['trail']], [first, first + 1, call, last, last + 1])
        self.client.ask('stops', board=board, stops=[f':{call}'])
        shown = self.client.ask('last', board=board)
        self.assertEqual((shown['why'], shown['line']), ('stop', call))
        for word, line in (('over', last), ('back', call), ('step', last), ('step', last + 1), ('back', last), ('step', last + 1)):
            self.assertEqual(self.client.ask(word, board=board)['line'], line, word)
        shown = self.client.ask('step', board=board)
        self.assertEqual((shown['why'], shown['state']), ('halted for good', 'ended with exit code 5'))
        self.assertLess(shown['clock'], 100_000)
        self.assertEqual(self.client.ask('back', board=board)['line'], last + 1)
        self.assertEqual(self.client.ask('go to', board=board, clock=0)['trail'], [])
        self.assertEqual(self.client.ask('step', board=board)['line'], first)
        data = self.client.ask('data', board=board)['data']
        self.assertEqual([(one['name'], bytes.fromhex(one['bytes'])[:5]) for one in data], [('hello', b'Hello')])
        refused = self.client.ask('open', source=text.replace('MOV AH,9', 'MUL [BX]'), run=given['run'], hex=False, instead=board)['refused']
        self.assertEqual([one['line'] for one in refused], [first + 1])

    def test_a_wait_for_a_key_within_the_services(self) -> None:
        """The line of the call is shown while it waits, a step says what it lacks, and a key leads on."""
        text = 'SEGMENT MAIN AT 100h\n ORG 100h\nstart: MOV AH,0\n INT 16h\n INT 20h\nENDS\n'
        board = self.client.ask('open', source=text, run=DEFAULTS, hex=False)['board']
        shown = self.client.ask('run', board=board, to=1_000_000, past=True, ms=200)
        self.assertEqual((shown['state'], shown['line']), ('halted', 4))
        self.client.ask('type', board=board, codes=[0x1E, 0x9E])
        self.assertEqual(self.client.ask('step', board=board)['line'], 5)
        shown = self.client.ask('step', board=board)
        self.assertEqual((shown['state'], shown['line']), ('ended by INT 20h', 5))

    def test_forth_and_back(self) -> None:
        answer = self.client.open('fibonacci')
        board = answer['board']
        with Session(Files(*example('fibonacci'))) as session:
            for _ in range(5):
                session.one('step')
                shown = self.client.ask('step', board=board)
                self.assertEqual((shown['clock'], shown['registers']), (session.clock, registers_of(session.many('regs'))))
            self.assertEqual([row[0] for row in shown['trail']], [int(line.split()[0]) for line in session.many('trail')])
            top, count = shown['registers']['SP'] or 0x10000, len(shown['stack'])
            self.assertEqual(''.join(word[2:] + word[:2] for _, word, _ in shown['stack']), session.dump(top % 0x10000, 2 * count).hex().upper())
            session.one('back step')
            shown = self.client.ask('back', board=board)
            self.assertEqual((shown['clock'], shown['registers']), (session.clock, registers_of(session.many('regs'))))
            for clock in (5000, 123, 0, 9999):
                session.go_to(clock)
                shown = self.client.ask('go to', board=board, clock=clock)
                self.assertEqual(
                    (shown['clock'], shown['registers'], text_of_screen(shown['screen'])), (clock, registers_of(session.many('regs')), session.many('screen'))
                )
            self.assertEqual(self.client.ask('memory', board=board, place='0FFE0', count=32)['bytes'], session.dump(0xFFE0, 32).hex())
        self.assertEqual(self.client.ask('chips', board=board), {'lines': [*answers_of(Files(*example('fibonacci')), ('go 9999', 'chips'))[1:]], 'facts': []})
        self.assertEqual(self.client.ask('stops', board=board, stops=[':28'])['stops'][0][2], 28)
        self.client.ask('go to', board=board, clock=0)
        met = self.client.ask('run', board=board, ms=200)
        self.assertEqual((met['why'], met['line']), ('stop', 28))
        again = self.client.ask('run', board=board, ms=200)
        self.assertEqual((again['why'], again['line']), ('stop', 28))
        self.assertEqual(self.client.ask('last', board=board)['clock'], met['clock'])
        self.assertIn('no stop held', self.client.ask('last', board=board)['sorry'])
        self.assertEqual(self.client.ask('look', board=board)['clock'], met['clock'])
        self.assertNotIn('screen', self.client.ask('look', board=board, seen=met['screen number']) if met['screen number'] == again['screen number'] else {})

    def holding(self, files: Files, stop: str, until: int) -> list[int]:
        """The clocks at which a stop comes to hold, by a session that goes on clock by clock."""
        lines = self.pcboard(*files.words('debug'), given=f'{stop}\n' + 'go 1\n' * until).stdout.splitlines()[1:]
        held = [False, *(line.startswith('stop') for line in lines)]
        self.assertEqual(len(lines), until)
        return [at for at in range(1, until + 1) if held[at] and not held[at - 1]]

    def met(self, board: str, until: int) -> list[tuple[int, str]]:
        """The clocks and states at which runs end at stops, from the start on."""
        found, shown = list[tuple[int, str]](), self.client.ask('go to', board=board, clock=0)
        while shown['clock'] < until:
            shown = self.client.ask('run', board=board, to=until, ms=200)
            found += [(shown['clock'], shown['state'])] if shown['why'] == 'stop' else []
        return found

    def test_stops_of_other_kinds(self) -> None:
        """A byte, the speaker and a halt are met where they come to hold, and passed while they go on holding; so too over a call."""
        board, until = self.client.open('ticks')['board'], 2600
        stops = ['halted', 'byte B0000 31', 'byte tick 26', 'break tick', 'byte b0000 0x32', 'F600:5D']
        rows = self.client.ask('stops', board=board, stops=stops)['stops']
        wanted = ['F600:0058', 'F600:005D', 'byte B0000 31', 'byte F6058 26', 'byte B0000 32', 'halted']
        self.assertEqual(
            [(row[0], row[1]) for row in rows], [(stop, {'F600:0058': 'tick', 'F600:005D': 'tick+5', 'byte F6058 26': 'tick'}.get(stop, '')) for stop in wanted]
        )
        files = Files(*example('ticks'))
        clocks = {clock for stop in ('break F600:58', 'break F600:5D', *wanted[2:]) for clock in self.holding(files, stop, until)}
        self.assertEqual([clock for clock, _ in self.met(board, until)], sorted(clocks - {1}))
        self.client.ask('stops', board=board, stops=['halted'])
        halts = self.met(board, until)
        self.assertEqual([clock for clock, _ in halts], self.holding(files, 'halted', until))
        self.assertEqual({state for _, state in halts}, {'halted'})
        for bad in ('byte B0000', 'byte B0000 100', 'byte nowhere 1', 'break', ''):
            self.assertIn('sorry', self.client.ask('stops', board=board, stops=[bad]), bad)

    def test_a_call_with_a_stop_in_it(self) -> None:
        """Over and Out end at a byte too."""
        source = (
            'SEGMENT MAIN AT 0F000h\nstart:  MOV SP,400h\n        CALL deep\n        HLT\ndeep:   MOV BYTE [500h],7\n        MOV CX,300\n'
            'again:  LOOP again\n        MOV BYTE [500h],8\n        RET\nENDS\nSEGMENT RESET AT 0FFFFh\n        JMP FAR start\nENDS\n'
        )
        board = self.client.ask('open', source=source, run=RUN)['board']
        self.client.ask('stops', board=board, stops=['byte 500 7', 'byte 00500 8'])
        for _ in range(2):
            here = self.client.ask('step', board=board)
        files = Files(self.file('it.asm', source), self.file('it.json', text_of(RUN)))
        wanted = [at for stop in ('byte 500 7', 'byte 500 8', 'break F000:6') for at in self.holding(files, stop, 6000)][:3]
        self.assertEqual(len(set(wanted)), 3)
        for move, clock, why in zip(('over', 'out', 'out'), wanted, ('stop', 'stop', 'there')):
            self.assertLess(here['clock'], clock)
            here = self.client.ask(move, board=board)
            self.assertEqual((here['clock'], here['why']), (clock, why), move)

    def test_a_stop_at_the_speaker(self) -> None:
        board, until = self.client.ask('open', source=BUZZ, run=RUN)['board'], 400
        self.client.ask('stops', board=board, stops=['sound'])
        files = Files(self.file('buzz.asm', BUZZ), self.file('buzz.json', text_of(RUN | {'budget': until})))
        report = report_of(self.pcboard('run', files.file, files.run_file).stdout)
        rises = [clock for clock, level in report.changes if level]
        self.assertGreater(len(rises), 3)
        self.assertEqual([clock for clock, _ in self.met(board, until)], rises)
        self.client.ask('go to', board=board, clock=0)
        self.assertEqual(self.client.ask('last', board=board)['sorry'], 'no stop held at any earlier clock')

    def test_attributes(self) -> None:
        with open(f'{TOOLS}/tests/attributes.asm', encoding='utf-8') as file:
            answer = self.client.ask('open', source=file.read(), run=RUN)
        shown = self.client.ask('run', board=answer['board'], to=1000, past=True, ms=200)
        self.assertEqual(shown['screen'][0][:5], [['A', 0], ['B', 1], ['C', 2], ['D', 3], ['E', 4]])

    def test_refusals(self) -> None:
        source = 'SEGMENT MAIN AT 0F000h\n        MOV AX,0xB000\n        MVO AX,BX\nENDS\n'
        self.assertEqual(
            [(refusal['line'], refusal['text'].partition(':')[0]) for refusal in self.client.ask('open', source=source, run=RUN)['refused']],
            [(2, 'BadLine'), (3, 'UnknownName')],
        )
        self.assertIn('0B800h for 0xB800', self.client.ask('open', source=source, run=RUN)['refused'][0]['text'])
        self.assertIn('BadRecord', self.client.ask('open', source=':0', run=RUN, hex=True)['refused'][0]['text'])
        for fields, name in (
            ({'ram': 'x'}, 'BadField'),
            ({'ram': 17}, 'RamSize'),
            ({'keys': [[0, 0]]}, 'BadScan'),
            ({'keys': 5}, 'BadField'),
            ({'budget': 1 << 41}, 'BudgetTooLarge'),
            ({'more': 1}, 'BadField'),
        ):
            answer = self.client.ask('open', source=FOREVER, run=RUN | fields)
            self.assertIn(name, answer['refused'][0]['text'], fields)
        begun = self.client.engine.spent()
        long = self.client.ask('open', source=f"{'x' * 200_000}\n{'x' * 200_000}", run=RUN)['refused']
        self.assertEqual([(refusal['line'], refusal['text'].partition(':')[0]) for refusal in long], [(1, 'BadLine'), (2, 'BadLine')])
        self.assert_within(self.client.engine.spent() - begun, 10)

    def test_hex(self) -> None:
        with open(f'{EXAMPLES}/monitor.hex', encoding='utf-8') as file, open(f'{EXAMPLES}/monitor.json', encoding='utf-8') as run_file:
            answer = self.client.ask('open', source=file.read(), run=json.load(run_file), hex=True)
        shown = self.client.ask('run', board=answer['board'], to=answer['budget'], past=True, ms=200)
        self.assertEqual((answer['lines'], text_of_screen(shown['screen'])), ({}, report_of(self.pcboard('run', *example('monitor')).stdout).screen))

    def test_instructions_of_hex(self) -> None:
        """They are those that run, with the next one among them, and have the source's bytes; from a place on, if one is named; with
        lines of the symbols' file."""
        source, run_file = example('monitor')
        with open(source.replace('.asm', '.hex'), encoding='utf-8') as file, open(run_file, encoding='utf-8') as fields:
            text, run = file.read(), json.load(fields)
        board = self.client.ask('open', source=text, run=run, hex=True)['board']
        rows = [line_of(number, one) for number, one in enumerate(self.pcboard('asm', '--list', source).stdout.splitlines(), 1)]
        placed = {'%04X:%04X' % one.address: one for one in rows if one.address and is_code(one)}
        for clock in (15, 200, 3000):
            view = self.client.ask('go to', board=board, clock=clock)
            shown = {one[0]: one for one in self.client.ask('code', board=board, place='')['code']}
            self.assertIn(view['place'], shown)
            self.assertEqual((len(shown), len(shown.keys() & placed.keys()) > 10), (48, True))
            for _, place, _, instruction, _ in view['trail']:
                self.assertEqual(shown.get(place, ['', '', '', instruction])[3], instruction)
            for place in shown.keys() & placed.keys():
                self.assertEqual(bytes.fromhex(shown[place][2]), placed[place].shown, place)
        first = self.client.ask('code', board=board, place='FFFF:0')['code'][0]
        self.assertEqual((first[0], first[2][:2]), ('FFFF:0000', 'EA'))
        self.assertIn('is no label', self.client.ask('code', board=board, place='nowhere')['sorry'])

    def test_labels_of_hex(self) -> None:
        """Those of the words' file stand beside its bytes, where the source has them, and beside no other program's."""
        source, run_file = example('monitor')
        text, listing = source.replace('.asm', '.hex'), self.file('monitor.lst', self.pcboard('asm', '--list', source).stdout)
        self.desk.given = Given(text, run_file, True, listing)
        self.desk.files = Kept(self.desk.given)
        with open(source, encoding='utf-8') as of_source, open(run_file, encoding='utf-8') as fields:
            them = [
                {'source': content, 'run': run, 'hex': is_hex}
                for run in [json.load(fields)]
                for content, is_hex in ((of_source.read(), False), (self.client.ask('hello')['given']['source'], True))
            ]
        shown = list[Fields]()
        for one in them:
            board = self.client.ask('open', **one)['board']
            shown.append(
                self.client.ask('go to', board=board, clock=5000) | {'trail without lines': [row[:4] for row in self.client.ask('look', board=board)['trail']]}
            )
            label = shown[0]['label'].partition('+')[0]
            shown[-1]['stops'] = [row[:2] for row in self.client.ask('stops', board=board, stops=[label])['stops']]
        for name in ('label', 'trail without lines', 'stack', 'stops'):
            self.assertEqual(shown[1][name], shown[0][name], name)
        self.assertTrue(label and shown[1]['line'] is None)
        other = self.client.ask('open', source=self.pcboard('asm', *example('hello')[:1]).stdout, run=RUN, hex=True)['board']
        self.assertEqual({row[2] for row in self.client.ask('go to', board=other, clock=60)['trail']}, {''})

    def test_keys_typed_while_it_runs(self) -> None:
        """The run goes on as it would have gone with the keys from the start, and what is saved repeats it to the byte."""
        board = self.client.open('keys', keys=[], budget=0)['board']
        for codes in ([35], [163], [23, 151]):
            now = self.client.ask('run', board=board, to=self.client.ask('look', board=board)['clock'] + 4000, past=True, ms=200)
            typed = self.client.ask('type', board=board, codes=codes)
            self.assertEqual((typed['clock'], typed['registers']), (now['clock'], now['registers']))
            self.assertGreater(typed['keys'][-1][0], now['clock'])
        shown = self.client.ask('run', board=board, to=30_000, past=True, ms=200)
        self.assertEqual(text_of_screen(shown['screen'])[0].rstrip(), 'HI')
        self.repeated(board, shown)
        self.client.ask('go to', board=board, clock=9000)
        self.assertEqual(self.client.ask('type', board=board, codes=[30]), {'later': 2})
        dropped = self.client.ask('type', board=board, codes=[30], drop=True)
        self.assertEqual([key[3] for key in dropped['keys']], [35, 163, 30])
        self.assertEqual(dropped['furthest'], 9000)
        shown = self.client.ask('run', board=board, to=30_000, past=True, ms=200)
        self.assertEqual(text_of_screen(shown['screen'])[0].rstrip(), 'HA')
        self.repeated(board, shown)
        self.client.ask('type', board=board, text='no{enter}')
        shown = self.client.ask('run', board=board, to=60_000, past=True, ms=200)
        self.assertEqual(text_of_screen(shown['screen'])[0].rstrip(), 'HANO.')
        self.assertEqual(self.client.ask('drop keys', board=board, keys=[0, 1, 2])['keys'][0][1], 'n')
        self.repeated(board, self.client.ask('look', board=board))

    def test_a_key_repeats_no_run(self) -> None:
        """Behind a long busy run it costs the board nothing, comes at its stamp, and again on a way back and on."""
        board = self.client.ask('open', source=FOREVER, run=RUN)['board']
        here = self.client.ask('go to', board=board, clock=400_000_000)['clock']
        self.client.ask('marks', board=board)
        before = self.client.engine.spent()
        for count in range(1, 21):
            typed = self.client.ask('type', board=board, codes=[30, 158])
            self.assertEqual((typed['clock'], len(typed['keys'])), (here, 2 * count))
        self.client.ask('marks', board=board)
        self.assert_within(self.client.engine.spent() - before, 2)  # one repetition of the run takes as long
        stamps = [each[0] for each in typed['keys']]
        self.assertEqual(stamps, [here + 1000 * each for each in range(1, 41)])
        for clock, waiting in ((stamps[0] - 1, 0), (stamps[0], 1), (stamps[2], 3), (stamps[-1], 16)) * 2:
            self.client.ask('go to', board=board, clock=clock)
            lost = 40 - 16 if clock == stamps[-1] else 0
            keyboard = f'keyboard latch none lost {lost} waiting {" ".join((["1E", "9E"] * 8)[:waiting])}'.rstrip()
            self.assertIn(keyboard, self.client.ask('chips', board=board)['lines'])

    def test_keys_change_what_was_known(self) -> None:
        """What was known of a clock isn't, once a key comes before it; and a key that is dropped comes no more."""
        board = self.client.open('keys', keys=[], budget=0)['board']
        shown = self.client.ask('go to', board=board, clock=20_000)
        self.client.ask('go to', board=board, clock=5000)
        self.client.ask('type', board=board, codes=[30])
        changed = self.client.ask('go to', board=board, clock=20_000)
        self.assertNotEqual(changed['trail'], shown['trail'])
        self.assertEqual([each[1] for each in self.client.ask('marks', board=board)['interrupts']], [9])
        self.repeated(board, changed)
        self.client.ask('drop keys', board=board, keys=[0])
        again = self.client.ask('look', board=board)
        self.assertEqual((again['clock'], again['registers'], again['trail']), (20_000, shown['registers'], shown['trail']))
        self.assertEqual(self.client.ask('marks', board=board)['interrupts'], [])

    def test_marks_up_to_a_key(self) -> None:
        """They are those of a board that has stood there first."""
        for name in ('tone', 'ticks'):
            board = self.client.open(name, keys=[])['board']
            for clock in (9000, 3001):
                self.client.ask('go to', board=board, clock=clock)
                self.client.ask('marks', board=board)
            self.client.ask('type', board=board, codes=[30])
            marks = self.client.ask('marks', board=board)
            other = self.client.open(name, keys=[])['board']
            self.client.ask('go to', board=other, clock=3001)
            self.assertEqual(marks, self.client.ask('marks', board=other))
            self.assertTrue(marks['changes'] or marks['interrupts'], name)

    def test_a_halt_that_nothing_ends(self) -> None:
        """A step of it stays where it is, and so does the way of the keys that are typed then."""
        board = self.client.open('keys', keys=[], budget=0)['board']
        self.client.ask('go to', board=board, clock=5000)
        self.assertIn('no interrupt ends this halt', self.client.ask('step', board=board)['sorry'])
        for codes in ([30], [158]):
            typed = self.client.ask('type', board=board, codes=codes)
        self.assertEqual([key[:1] + key[3:] for key in typed['keys']], [[6000, 30], [7000, 158]])
        stepped = self.client.ask('step', board=board)
        self.assertEqual((stepped['clock'], stepped['trail'][-1][3]), (6061, 'interrupt 09'))

    def repeated(self, board: str, shown: Fields) -> None:
        """Whether a run with the keys that are shown gives what is shown."""
        keys = [[stamp, code] for stamp, _, _, code in self.client.ask('look', board=board)['keys']]
        run_file = self.file('it.json', text_of(RUN | {'budget': shown['clock'], 'keys': keys}))
        report = report_of(self.pcboard('run', example('keys')[0], run_file).stdout)
        self.assertEqual(
            (report.clock, report.registers, report.screen),
            (shown['clock'], shown['registers'], text_of_screen(self.client.ask('look', board=board)['screen'])),
        )

    def test_a_long_run_is_paused(self) -> None:
        board = self.client.ask('open', source=FOREVER, run=RUN)['board']
        shown = self.client.ask('run', board=board, ms=30)
        self.assertEqual((shown['why'], shown['state']), ('paused', 'running'))
        self.client.ask('go to', board=board, clock=15)
        asked: tuple[tuple[str, Fields], ...] = (('go to', {'clock': 1 << 40}), ('out', {}))
        for word, fields in asked:
            answer = self.client.engine.once({'do': word, 'board': board, **fields})
            if word == 'go to':  # which isn't over before it is paused
                self.assertIn('at work', self.client.ask('step', board=board)['sorry'])
            self.client.ask('pause', board=board)
            while answer.get('working'):
                answer = self.client.ask('wait', board=board)
            self.assertIn(answer['why'], ('paused', 'far') if word == 'out' else ('paused',))
            self.assertEqual(self.client.ask('go to', board=board, clock=15)['clock'], 15)
        self.assertEqual(self.client.ask('go to', board=board, clock=0)['clock'], 0)

    def test_another_board(self) -> None:
        """A page has one: another source ends it, also while it runs, and what is asked of it is told so."""
        board = self.client.ask('open', source=FOREVER, run=RUN)['board']
        self.assertTrue(self.client.engine.once({'do': 'go to', 'clock': 1 << 40, 'board': board})['working'])
        other = self.client.open('hello')['board']
        self.assertIn('left for another', self.client.ask('step', board=board)['gone'])
        self.assertEqual(self.client.ask('step', board=other)['clock'], 15)
        self.client.ask('close', board=other)
        self.assertIn('gone', self.client.ask('look', board=other))

    def test_a_hundred_runs_leave_nothing(self) -> None:
        """Of all that stands in for the library one session is left."""
        board, process = '', self.client.engine.process.pid
        for turn in range(105):
            board = self.client.ask('open', source=SHORT, run=RUN, instead=board)['board']
            self.client.ask('run', board=board, to=100, past=True, ms=200)
            if turn % 20 == 0:
                self.client.ask('type', board=board, codes=[30, 158])
                self.client.ask('marks', board=board)
        self.assertTrue(until(lambda: len(children(process)) <= 1))

    def test_data(self) -> None:
        """Each label of data with its kind, its length and its bytes as memory has them at the clock; no label of code."""
        board = self.client.ask('open', source=DATA, run=RUN)['board']
        self.client.ask('go to', board=board, clock=1000)
        found = self.client.ask('data', board=board)
        session = Session(Files(self.file('it.asm', DATA), self.file('it.json', text_of(RUN))))
        with session:
            session.go_to(1000)
            self.assertEqual(
                [(variable['name'], variable['line'], variable['kind'], variable['place'], variable['length']) for variable in found['data']],
                [
                    ('text', 7, 'DB', 'F000:000F', 6),
                    ('count', 10, 'DB', '0050:0000', 1),
                    ('pair', 11, 'DW', '0050:0001', 6),
                    ('both', 13, 'DD', '0050:0007', 4),
                    ('other', 13, 'DD', '0050:0007', 4),
                    ('msg', 14, 'DB', '0050:000B', 8),
                    ('big', 17, 'DB', '0050:0014', 2000),
                ],
            )
            for one in found['data']:
                segment, offset = (int(half, 16) for half in one['place'].split(':'))
                self.assertEqual(one['bytes'], session.dump(16 * segment + offset, min(one['length'], 1024)).hex(), one['name'])
        self.assertNotEqual(found['data'][1]['bytes'], 'fe')
        self.assertEqual(found['clock'], 1000)
        given = self.client.ask('example', name='monitor')
        text = self.pcboard('asm', *example('monitor')[:1]).stdout
        board = self.client.ask('open', source=text, run=given['run'], hex=True)['board']
        self.assertEqual(self.client.ask('data', board=board)['data'], [])

    def test_data_of_hex(self) -> None:
        """By NASM's statements of the symbols' file, as many bytes as they make, without lines, which the editor hasn't: it has records."""
        program = self.file('rom.hex', hex_of(bytes.fromhex(ROM)))
        self.desk.given = Given(program, self.file('rom.json', text_of(RUN)), True, self.file('rom.lst', NASM))
        self.desk.files = Kept(self.desk.given)
        self.client.ask('hello')
        with open(program, encoding='ascii') as file:
            board = self.client.ask('open', source=file.read(), run=RUN, hex=True)['board']
        found = self.client.ask('data', board=board)['data']
        shown = [(one['name'], one['line'], one['kind'], one['place'], one['length'], one['bytes']) for one in found]
        self.assertEqual(shown, [('msg', 0, 'DB', 'F000:0007', 0x11, ROM.replace(' ', '').lower()[14 : 14 + 2 * 0x11])])

    def test_callers(self) -> None:
        """Where the routine and the one above it return to, with label and line; none before the first call and after the last return."""
        board = self.client.ask('open', source=NESTED, run=RUN)['board']
        self.client.ask('stops', board=board, stops=['inner'])
        there = self.client.ask('run', board=board, to=1000, past=False, ms=200)
        self.assertEqual(there['callers'], [['F000:000A', 'outer+3', 6], ['F000:0006', 'start+6', 4]])
        self.assertEqual(self.client.ask('out', board=board, seen=0)['callers'], [['F000:0006', 'start+6', 4]])
        for clock in (0, 1000):
            self.assertEqual(self.client.ask('go to', board=board, clock=clock)['callers'], [])

    def test_why_it_goes_nowhere(self) -> None:
        """As tools/why tells it of a run up to the clock that is shown; the board stays there."""
        board = self.client.ask('open', source=DARK, run=RUN)['board']
        before = self.client.ask('run', board=board, to=1000, past=True, ms=200)
        found = self.client.ask('why', board=board)
        err = self.tool('why', 'run', self.file('it.asm', DARK), self.file('it.json', text_of(RUN)))[1]
        self.assertEqual([f'why: {line}' for line in found['told']], err.splitlines())
        for sentence in ('text memory has characters and the screen is blank', 'the same 3 in turn', 'line 5 (stay:   INC BX)', 'nothing leads out'):
            self.assertIn(sentence, '\n'.join(found['told']))
        after = self.client.ask('look', board=board)
        self.assertEqual((after['clock'], after['registers'], after['trail']), (found['clock'], before['registers'], before['trail']))
        # Nothing is said of a program that ends as it should, and nothing wrong of the clock at which a run has just begun.
        for name, clock in (('hello', 100_000), ('hello', 0)):
            board = self.client.open(name)['board']
            self.client.ask('run', board=board, to=clock, past=True, ms=200)
            self.assertEqual(self.client.ask('why', board=board)['told'], [], name)

    def test_the_line_of_a_halt(self) -> None:
        """It is that of the HLT, and not of the routine behind it, which never runs."""
        given = self.client.ask('example', name='first')
        board = self.client.open('first')['board']
        shown = self.client.ask('run', board=board, to=100_000, past=True, ms=200)
        line = next(at for at, text in enumerate(given['source'].split('\n'), 1) if text.strip().startswith('HLT'))
        self.assertEqual((shown['state'], shown['line']), ('halted for good', line))
        board = self.client.open('keys', keys=[])['board']
        given = self.client.ask('example', name='keys')
        shown = self.client.ask('run', board=board, to=5000, past=True, ms=200)
        lines = [at for at, text in enumerate(given['source'].split('\n'), 1) if 'HLT' in text.partition(';')[0]]
        self.assertEqual((shown['state'], [shown['line']]), ('halted', lines))

    def test_how_fast_it_tells_why(self) -> None:
        """Within a second of processor time, also where the run is long."""
        for source, clocks in ((DARK, 10**6), (DARK, 20_000_000), (DARK, 10**8), (FOREVER, 10**8)):
            board = self.client.ask('open', source=source, run=RUN)['board']
            self.client.ask('go to', board=board, clock=clocks)
            before = self.client.engine.spent()
            self.client.ask('why', board=board)
            self.assert_within(self.client.engine.spent() - before, 1, clocks)
            self.client.ask('close', board=board)

    def test_how_fast_it_is(self) -> None:
        """On a run of ten million clocks a step is shown within 50 ms, and one back within 150: of processor time, which others on
        the machine take least from."""
        with open(f'{TOP}/bench/loops/a.asm', encoding='utf-8') as file:
            board = self.client.ask('open', source=file.read(), run=RUN | {'budget': 10**7})['board']
        self.client.ask('go to', board=board, clock=10**7)
        for word, most in (('step', 0.05), ('back', 0.15)):
            spent = [self.client.engine.spent()]
            for _ in range(24):
                self.client.ask(word, board=board, seen=1)
                spent.append(self.client.engine.spent())
            # of the last ones, since node compiles during the first what all need
            self.assert_within((spent[-1] - spent[-9]) / 8, most, word)


@with_node
class Heard(unittest.TestCase):
    """The speaker's stretches and samples, against its changes by hand."""

    def asked(self, changes: list[tuple[int, int]], until: int, *questions: list[Any]) -> list[Any]:
        """What the engine's speaker answers: to its methods, each with its values."""
        text = json.dumps({'changes': changes, 'until': until, 'questions': questions})
        ran = subprocess.run(['node', f'{TOOLS}/tests/desk/speaker.mjs'], input=text, capture_output=True, text=True, check=True)
        found: list[Any] = json.loads(ran.stdout)
        return found

    def test_stretches(self) -> None:
        changes = [(10, 1), (20, 0), (25, 1), (26, 0), (27, 1), (28, 0), (90, 1)]
        ways = ((0, 100, 100), (0, 100, 10), (12, 18, 6), (30, 80, 1000))
        found = self.asked(changes, 100, *(['stretches', *way] for way in ways))
        self.assertEqual(found, [[[10, 20], [25, 26], [27, 28], [90, 100]], [[10, 30], [90, 100]], [[12, 18]], []])
        self.assertEqual(self.asked([], 100, ['stretches', 0, 100, 10]), [[]])
        many = self.asked([(clock, clock % 2) for clock in range(500_000)], 500_000, ['stretches', 0, 500_000, 4096])
        self.assertEqual(many, [[[1, 500_000]]])

    def test_samples(self) -> None:
        """A sample is 99.43 clocks of a real board: half high is half as loud; ten times slower it has as many more."""
        clocks = 14318180 / 3 / 48_000
        still = (['isStill', 0, 100], ['isStill', 0, 200], ['isStill', 200, 900])
        *are_still, found, slow = self.asked([(0, 1), (round(1.5 * clocks), 0)], 1000, *still, ['samples', 0, 1000], ['samples', 0, 1000, 10])
        self.assertEqual(are_still, [True, False, True])
        self.assertEqual((len(found), found[0], found[2:]), (int(1000 / clocks), 255, [0] * 8))
        self.assertLess(abs(found[1] - 127.5), 2)
        self.assertEqual(len(slow), int(10_000 / clocks))
        [buzz] = self.asked([(clock, clock % 2) for clock in range(5000)], 5000, ['samples', 0, 5000])
        self.assertEqual(set(buzz) - {126, 127, 128, 129}, set())


class Begun(ToolCase):
    """The tool as it is started."""

    def setUp(self) -> None:
        super().setUp()
        library = tempfile.TemporaryDirectory()
        self.addCleanup(library.cleanup)
        self.enterContext(mock.patch.dict(os.environ, named_library(library.name)))

    def begin(self, *words: str) -> tuple[subprocess.Popen[str], Client]:
        """Starts it."""
        process = subprocess.Popen(
            [sys.executable, '-S', f'{TOOLS}/desk', '--no-open', *words],
            stdout=subprocess.PIPE,
            stderr=subprocess.PIPE,
            text=True,
            cwd=self.room,
            env=os.environ | {'XDG_RUNTIME_DIR': self.room, 'XDG_STATE_HOME': f'{self.room}/state'},
        )
        self.addCleanup(process.communicate)
        self.addCleanup(process.kill)
        assert process.stdout
        return process, Client(process.stdout.readline().split()[1])

    def ended(self, process: subprocess.Popen[str], number: int) -> None:
        """A signal ends it. It has started nothing."""
        self.assertEqual(children(process.pid), [])
        process.send_signal(number)
        _, err = process.communicate(timeout=SECONDS)
        self.assertNotIn('Traceback', err)
        self.assertEqual(rooms_in(self.room), [])


class Started(Begun):
    """What it serves, and how it ends."""

    def test_control_c_ends_it_all(self) -> None:
        for number in (signal.SIGINT, signal.SIGTERM):
            process, client = self.begin()
            client.ask('example', name='hello')
            self.ended(process, number)

    def test_what_it_serves(self) -> None:
        """The page, each module that another names, the library and the tables; of the modules none that isn't named."""
        _, client = self.begin()
        wanted, seen = ['main.js', 'desk/worker.mjs'], set[str]()
        while wanted:
            name = wanted.pop()
            status, text, _ = client.request('GET', f'/{client.token}/{name}')
            self.assertEqual(status, 200, name)
            seen.add(name)
            found = re.findall(r"^(?:import|export) (?:[^;]*? from )?'(\.[^']+)';", text, re.M)
            wanted += [path for path in (os.path.normpath(os.path.join(os.path.dirname(name), it)) for it in found) if path not in seen]
        self.assertEqual(seen, parts.modules().keys())
        status, text, answer = client.request('GET', f'/{client.token}/has.json')
        self.assertEqual((status, answer.getheader('Content-Type'), json.loads(text)), (200, 'application/json', json.loads(json.dumps(parts.engine_data()))))

    def test_without_its_library(self) -> None:
        """What makes it is told, before a page is served that couldn't run a board."""
        with mock.patch.dict(os.environ, {'ZEBLUDOR_WASM': ''}), mock.patch.object(parts, 'PLACES', ()):
            self.assertIn('there is no zebludor.wasm of the present sources', self.called('desk', '--no-open', status=2)[1])
        with mock.patch.dict(os.environ, {'ZEBLUDOR_WASM': f'{self.room}/none'}):
            self.assertIn("can't be read", self.called('desk', '--no-open', status=3)[1])
        octets, sources = b'\0asm', sum_of_sources(Crates().below(parts.CRATE))
        with open(f'{self.room}/{parts.LIBRARY}', 'wb') as file:
            file.write(octets)
        for made, of, wanted in ((octets, sources, octets), (b'other', sources, None), (octets, 'f' * 64, None)):
            self.file('PROVED', f'made {parts.LIBRARY} {hashlib.sha256(made).hexdigest()} sources {of}\n')
            self.assertEqual(parts.library_in(self.room), wanted)

    def test_a_desk_that_is_killed(self) -> None:
        """Its folder goes when the next desk begins."""
        process, _ = self.begin()
        process.kill()
        process.communicate(timeout=SECONDS)
        left = rooms_in(self.room)
        self.assertEqual(len(left), 1)
        process, _ = self.begin()
        self.assertNotIn(left[0], rooms_in(self.room))
        live, _ = self.begin()  # which leaves the live one's alone
        self.assertEqual(len(rooms_in(self.room)), 2)
        live.send_signal(signal.SIGINT)
        live.communicate(timeout=SECONDS)
        self.ended(process, signal.SIGINT)

    def test_it_listens_in_one_place(self) -> None:
        """Of all sockets of its processes one waits for connections, at 127.0.0.1; at the machine's other addresses nothing is."""
        process, client = self.begin()
        client.ask('example', name='hello')
        own = set[str]()
        for number in os.listdir(f'/proc/{process.pid}/fd'):
            with contextlib.suppress(FileNotFoundError):  # of a request that has ended meanwhile
                own.add(os.readlink(f'/proc/{process.pid}/fd/{number}'))
        found = list[str]()
        for table in ('tcp', 'tcp6', 'udp', 'udp6'):
            with open(f'/proc/{process.pid}/net/{table}', encoding='utf-8') as file:
                rows = [line.split() for line in file.readlines()[1:]]
            found += [row[1] for row in rows if f'socket:[{row[9]}]' in own and (row[3] == '0A' or table.startswith('udp'))]
        self.assertEqual(found, [f'0100007F:{client.port:04X}'])
        others = {str(info[4][0]) for info in socket.getaddrinfo(socket.gethostname(), client.port, type=socket.SOCK_STREAM)} - {'127.0.0.1'}
        for address in {'::1', '127.0.0.2', *others}:
            with self.assertRaises(OSError):
                socket.create_connection((address, client.port), timeout=2).close()
        self.ended(process, signal.SIGINT)

    def test_files_are_written_where_the_words_say(self) -> None:
        source = self.file('mine.asm', FOREVER)
        process, client = self.begin(source, f'{self.room}/mine.json')
        given = client.ask('hello')['given']
        self.assertEqual((given['source'], given['name'], given['run']['budget']), (FOREVER, 'mine.asm', 10_000_000))
        answer = client.ask('keep', source=FOREVER.replace('INC', 'DEC'), run=given['run'] | {'budget': 500}, sums=given['sums'])
        self.assertEqual(answer['kept'], [source, f'{self.room}/mine.json'])
        report = report_of(self.pcboard('run', source, f'{self.room}/mine.json').stdout)
        self.assertEqual(
            (report.clock, report.registers['AX']),
            (500, (0x10000 - report_of(self.pcboard('run', self.file('it.asm', FOREVER), f'{self.room}/mine.json').stdout).registers['AX']) % 0x10000),
        )
        self.assertEqual(set(os.listdir(self.room)) - {'zebludor', 'state'}, {'mine.asm', 'mine.json', 'it.asm'})
        self.ended(process, signal.SIGINT)

    def test_words(self) -> None:
        self.assertIn("can't be read", self.called('desk', 'none.asm', status=3)[1])
        self.assertIn('no such folder', self.called('desk', self.file('a.asm', FOREVER), 'none/a.json', status=2)[1])
        self.assertIn('is no JSON', self.called('desk', self.file('a.asm', FOREVER), self.file('a.json', '{'), status=2)[1])
        self.assertIn('a port is', self.called('desk', '--port', '70000', status=2)[1])
        with socket.create_server(('127.0.0.1', 0)) as taken:
            port = str(taken.getsockname()[1])
            self.assertIn(f"port {port} can't be had", self.tool('desk', '--no-open', '--port', port, status=2)[1])
        self.assertIn('--hex goes with FILE', self.called('desk', '--hex', status=2)[1])
        for word in ('-', ''):
            self.assertIn('a file is wanted', self.called('desk', word, status=2)[1])
        self.assertIn('goes with Intel HEX', self.called('desk', '--symbols', 'x', self.file('a.asm', FOREVER), status=2)[1])
        self.assertIn('no byte at any of its labels', self.called('desk', '--symbols', self.file('a.sym', 'F000:7 it\n'), self.file('a.hex', ''), status=2)[1])


@with_node
class Whole(Begun):
    """The desk as it is started, and how a page asks it and its engine: by the page's own module under node."""

    def node(self, module: str, *words: str) -> subprocess.Popen[str]:
        """Starts a desk, and a module of tests/desk that opens its page."""
        self.desk, client = self.begin(*words)
        programs = {name.upper(): path_of(name) for name in ('pcboard', 'pcprobe', 'pcmasm')}
        more = programs | {'COOKIE': client.cookie} | ({} if has_library() else {'STANDS_IN': '1'})
        asking = ['node', f'{TOOLS}/tests/desk/{module}', f'http://{client.host}/{client.token}/']
        node = subprocess.Popen(asking, stdin=subprocess.PIPE, stdout=subprocess.PIPE, text=True, env=os.environ | more)
        self.addCleanup(node.communicate)
        return node

    def page(self, *words: str) -> Callable[[str], Fields]:
        """Starts a desk, and opens its page."""
        node = self.node('page.mjs', *words)

        def ask(word: str, **fields: Any) -> Fields:
            assert node.stdin and node.stdout
            node.stdin.write(json.dumps({'do': word, **fields}) + '\n')
            node.stdin.flush()
            found: Fields = json.loads(node.stdout.readline())
            return found

        return ask

    def test_a_walk(self) -> None:
        """The page itself, without a browser: it runs an example, goes back and on, meets a stop, refuses a line with a hint, and says why a
        run goes nowhere."""
        node = self.node('walk.mjs')
        found = {one['what']: one for one in map(json.loads, node.communicate()[0].splitlines())}
        self.assertEqual(found['first'], {'what': 'first', 'now': 'clock 10,000', 'said': '', 'more': ['first.asm', 'Hello from RAM', 32]})
        self.assertEqual([found[what]['now'] for what in ('back', 'step', 'stop')], ['clock 1,859', 'clock 1,861', 'clock 1,859'])
        self.assertEqual((found['stop']['said'], found['stop']['more']), ('a stop is met', []))
        self.assertEqual((found['refused']['said'], found['refused']['more']), ('1 line refused', ['line 2: UnknownName: is MOV meant?']))
        self.assertIn('enters interrupt 05', found['why']['more'][0])

    def test_a_program(self) -> None:
        """Its files are the desk's, its board the engine's, which goes on when the desk has ended; then no file is."""
        ask = self.page(self.file('mine.asm', NESTED), self.file('mine.json', text_of(RUN)))
        given = ask('hello')['given']
        self.assertEqual((given['source'], given['run']), (NESTED, RUN))
        opened = ask('open', source=given['source'], run=given['run'], hex=False)
        board = opened['board']
        self.assertEqual(ask('step', board=board)['line'], 2)
        self.assertIn('refused', ask('open', source='MVO\n', run=RUN, hex=False))
        self.assertEqual(ask('keep', source=DARK, run=RUN, sums=given['sums'])['kept'], [f'{self.room}/mine.asm', f'{self.room}/mine.json'])
        self.desk.kill()
        self.desk.communicate()
        board = ask('open', source=NESTED, run=RUN, hex=False)['board']
        self.assertEqual(ask('go to', board=board, clock=40)['clock'], 40)
        self.assertEqual(ask('hello')['error'], 'desk has ended: start tools/desk again')

    def test_why(self) -> None:
        """It is told as tools/why tells it, also once the desk has ended."""
        source = NESTED.replace('NOP', 'INT 5')
        ask = self.page()
        ask('hello')
        board = ask('open', source=source, run=RUN, hex=False)['board']
        there = ask('go to', board=board, clock=300)
        found = ask('why', board=board)
        err = self.tool('why', 'run', self.file('it.asm', source), self.file('it.json', text_of(RUN | {'budget': 300})))[1]
        self.assertEqual([f'why: {line}' for line in found['told']], err.splitlines())
        self.assertIn('interrupt 05', found['told'][0])
        after = ask('look', board=board)
        self.assertEqual((found['clock'], after['clock'], after['registers']), (300, 300, there['registers']))
        ask('set', board=board, text='AX = 5')
        self.assertEqual(ask('why', board=board)['told'], [])
        self.desk.kill()
        self.desk.communicate()
        board = ask('open', source=DARK, run=RUN, hex=False)['board']
        ask('go to', board=board, clock=1000)
        self.assertIn('text memory has characters', ask('why', board=board)['told'][0])
        for text in (source, NESTED.replace('CALL outer', 'RETF')):
            board = ask('open', source=text, run=RUN, hex=False)['board']
            ask('go to', board=board, clock=300)
            err = self.tool('why', 'run', self.file('it.asm', text), self.file('it.json', text_of(RUN | {'budget': 300})))[1]
            self.assertEqual([f'why: {line}' for line in ask('why', board=board)['told']], err.splitlines())

    def test_words(self) -> None:
        """How a source is taken, a command's tail, symbols and what a source includes come by the desk."""
        os.mkdir(f'{self.room}/there')
        self.file('there/own.inc', 'five equ 5\n')
        source = '.model small\n.stack 100h\ninclude own.inc\n.code\nmain proc\nmov ax,five\nmov ah,4ch\nint 21h\nmain endp\nend main\n'
        ask = self.page(self.file('there/it.asm', source), '--args', 'x y')
        given = ask('hello')['given']
        opened = ask('open', source=given['source'], run=given['run'], hex=False)
        self.assertIn('tools/desk --dialect takes it otherwise', opened['services'])
        self.assertEqual(ask('go to', board=opened['board'], clock=3_000_000)['state'], 'ended with exit code 5')
        os.symlink(f'{self.room}/there/own.inc', f'{self.room}/there/linked.inc')
        for name, why in (
            ('linked.inc', "can't be read"),
            ('none.inc', "isn't beside it"),
            ('..\\it.inc', 'named without folders'),
            ('it.asm', 'includes itself'),
        ):
            refused = ask('open', source=source.replace('own.inc', name), run=given['run'], hex=False)['refused']
            self.assertIn(why, refused[0]['text'])
        ask = self.page(self.file('it.asm', NESTED.replace('HLT', 'INT 21h')), '--bare')
        given = ask('hello')['given']
        self.assertEqual(ask('open', source=given['source'], run=given['run'], hex=False)['services'], '')


class Pages(unittest.TestCase):
    """The page's own text, and the project's pages in it."""

    def test_the_page_has_no_address_outside(self) -> None:
        page = parts.page()
        self.assertNotRegex(page, r'https?:|//\w+\.|@import|url\(')
        self.assertEqual(
            (page.count('<script>'), page.count('<style>'), page.count('<script'), page.count(' style="'), page.count(' onclick=')), (0, 1, 1, 0, 0)
        )
        for name, text in modules().items():
            self.assertNotRegex(text, r'https?:|//\w+\.|@import|url\(|eval\(|new Function', name)

    def test_its_script_is_short(self) -> None:
        """With the engine's, it has at most 6,500 lines that aren't blank, also without a server, and none above 120 characters."""
        texts = parts.modules()
        with open(f'{parts.ENGINE}/{parts.ALONE}', encoding='utf-8') as file:
            alone = texts | {'served.js': file.read()}
        for them in (texts, alone):
            lines = [line for text in them.values() for line in text.split('\n') if line.strip()]
            self.assertLessEqual(len(lines), 6500)
            self.assertLessEqual(max(map(len, lines)), 120)

    def test_modules_name_what_they_use(self) -> None:
        """Each name that a module uses of another is imported from there, each import is used, and one name means one thing."""
        texts = {name: re.sub(r'/\*.*?\*/', '', text, flags=re.S) for name, text in modules().items()}
        exported = {name: set(exports_of(text)) for name, text in texts.items()}
        for name, text in texts.items():
            imported, body = set[str](), re.sub(r'^import .*?;$', '', text, flags=re.M)
            for names, of in re.findall(r"^import \{(.*?)\} from './(\w+\.js)';$", text, re.M):
                self.assertLessEqual(set(names.split(', ')), exported[of], (name, of))
                imported |= set(names.split(', '))
            for one in imported - {'$'}:
                self.assertRegex(body, rf'(?<![\w.]){one}\b|\.\.\.{one}\b', (name, one))
            called = {call for call in re.findall(r"(?<![\w.'])(\w+)\(", body)}
            known = imported | set(re.findall(r'(?:function|const|let) (\w+)', body))
            foreign = set().union(*(them for of, them in exported.items() if of != name))
            self.assertEqual(called & foreign - known, set(), name)

    def test_it_can_be_read_in_light_and_dark(self) -> None:
        """Each text has a contrast of 4.5 to what is behind it, each mark one of 3, as the accessibility guidelines want it."""
        with open(f'{PAGE}/desk.css', encoding='utf-8') as file:
            light, dark = (dict(re.findall(r'--([\w-]+): (#\w+);', rule)) for rule in re.findall(r':root \{(.*?)\}', file.read(), re.S)[:2])
        for colours in (light, light | dark):
            for fore, back, least in (
                *((colour, 'panel', 4.5) for colour in ('text', 'dim', 'bad', 'accent')),
                *((colour, 'back', 4.5) for colour in ('text', 'dim', 'bad', 'accent')),
                *(('text', colour, 4.5) for colour in ('now', 'changed', 'halted')),
                ('bad', 'bad-back', 4.5),
                *(
                    (colour, back, 4.5)
                    for colour in ('comment', 'string', 'label', 'mnemonic', 'directive', 'register', 'figure')
                    for back in ('panel', 'now', 'halted', 'bad-back')
                ),
                ('panel', 'bad', 4.5),
                ('accent-text', 'accent', 4.5),
                *((colour, 'back', 3) for colour in ('stop', 'interrupt', 'sound')),
                *(('field', colour, 3) for colour in ('panel', 'back')),
            ):
                self.assertGreaterEqual(contrast(colours[fore], colours[back]), least, (fore, back, colours))

    def test_the_grammar_is_the_editors(self) -> None:
        """The page colours by the file that VS Code has, and knows each of its kinds by a colour of its own."""
        with open(f'{TOP}/editors/vscode/zebludor.tmLanguage.json', encoding='utf-8') as file:
            rows = json.load(file)['patterns']
        self.assertEqual(grammar(), rows)
        with open(f'{PAGE}/desk.css', encoding='utf-8') as file:
            styles = file.read()
        for row in rows:
            self.assertRegex(styles, rf"\.{'-'.join(row['name'].split('.')[:2])}\b", row['name'])

    def test_all_pages_can_be_shown(self) -> None:
        for name in sorted(os.listdir(f'{TOP}/docs')):
            if name.endswith('.md'):
                self.assertNotRegex(page_of(name), r'<(script|img|iframe|a href="[^#])', name)

    def test_text_is_text(self) -> None:
        self.assertEqual(as_html('<b>`<i>` [x](javascript:y) [z](http://a) **w**'), '<p>&lt;b&gt;<code>&lt;i&gt;</code> x z <b>w</b></p>')
        self.assertIn('data-page="machine.md" data-anchor="memory-map"', as_html('[m](machine.md#memory-map)'))
        self.assertNotIn('<x', as_html('# <x\n- <x\n|<x|\n|-|\n```\n<x\n```'))

    def test_each_example_has_its_page(self) -> None:
        for program in examples():
            html = page_of(program.page)
            self.assertTrue(not program.anchor or f'data-name="{program.anchor}"' in html, program)


if __name__ == '__main__':
    unittest.main()
