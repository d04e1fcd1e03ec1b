"""tools/desk --listen: who reaches a desk that serves another address, which hosts a request may name then, and the desk across a
network namespace, where one can be made."""
from __future__ import annotations

import http.client
import os
import re
import signal
import socket
import subprocess
import sys
import threading
import unittest
from typing import Any
from unittest import mock

from tests.desk_engine import named_library
from tests.support import SECONDS, TOOLS, ToolCase, is_there, not_run
from toolbox.desk.http import COOKIE, Server

# Asks for a page from within a namespace, and prints its status.
FETCH = 'import sys, urllib.request; print(urllib.request.urlopen(sys.argv[1], timeout=60).status)'


class Listening(unittest.TestCase):
    """A server within the tests' own process."""

    def serve(self, host: str) -> Server:
        """One on this address, or a skip where the machine has none such."""
        server = Server('<style>x</style>', {'main.js': 'y'}, lambda asked: {'answer': asked['do']}, host=host)
        thread = threading.Thread(target=server.serve_forever, args=(0.02,), daemon=True)
        thread.start()
        self.addCleanup(thread.join)
        self.addCleanup(server.server_close)
        self.addCleanup(server.shutdown)
        return server

    def asked(self, server: Server, at: str, host: str, method: str = 'GET', origin: str | None = None) -> tuple[int, Any]:
        """The status of a request to an address, which names a host, and its policy."""
        line = http.client.HTTPConnection(at, server.server_address[1], timeout=SECONDS)
        try:
            heads = {'Host': host, 'Cookie': f'x=y; {COOKIE}={server.cookie}'}
            heads |= ({'Content-Type': 'application/json'} if method == 'POST' else {}) | ({'Origin': origin} if origin else {})
            line.request(method, f'/{server.token}/' + ('do' if method == 'POST' else ''), b'{"do":"it"}' if method == 'POST' else None, heads)
            answer = line.getresponse()
            answer.read()
            return answer.status, answer.getheader('Content-Security-Policy')
        finally:
            line.close()

    def check(self, server: Server, at: str, hosts: dict[str, bool]) -> None:
        """Which hosts a request to an address may name; its origin has to be the same one, and its modules come from there."""
        port = server.server_address[1]
        for host, is_served in hosts.items():
            full = f'{host}:{port}'
            status, policy = self.asked(server, at, full)
            self.assertEqual(status, 200 if is_served else 403, full)
            self.assertEqual(self.asked(server, at, full, 'POST', f'http://{full}')[0], 200 if is_served else 403, full)
            self.assertEqual(self.asked(server, at, full, 'POST', 'http://evil.example')[0], 403)
            self.assertEqual(self.asked(server, at, full, 'POST')[0], 403)
            if is_served:
                self.assertIn(f"script-src http://{full}/{server.token}/main.js 'wasm-unsafe-eval';", policy)

    def test_one_address(self) -> None:
        server = self.serve('127.0.0.2')
        self.assertRegex(server.address, r'\Ahttp://127\.0\.0\.2:\d+/[\w-]{32}/\Z')
        self.check(server, '127.0.0.2', {'127.0.0.2': True, '127.0.0.1': True, 'localhost': True, '127.0.0.3': False, 'evil.example': False, '': False})
        with self.assertRaises(OSError):
            socket.create_connection(('127.0.0.1', server.server_address[1]), timeout=SECONDS).close()

    def test_all_addresses(self) -> None:
        server = self.serve('0.0.0.0')
        self.assertTrue(server.address.startswith('http://127.0.0.1:'))
        for at in ('127.0.0.1', '127.0.0.7'):
            self.check(server, at, {at: True, 'localhost': True, '127.0.0.9': False, '0.0.0.0': False, 'evil.example': False})

    def test_the_newer_protocol(self) -> None:
        try:
            socket.create_server(('::1', 0), family=socket.AF_INET6).close()
        except OSError:
            not_run('the desk on ::1, which this machine has not')
            return
        server = self.serve('::1')
        self.assertTrue(server.address.startswith('http://[::1]:'))
        self.check(server, '::1', {'[::1]': True, 'localhost': True, '::1': False, 'evil.example': False})

    def test_no_token(self) -> None:
        server = self.serve('0.0.0.0')
        host = f'localhost:{server.server_address[1]}'
        self.assertEqual(self.asked(server, '127.0.0.1', host)[0], 200)
        server.token = 'x' * 32
        self.assertEqual(self.asked(server, '127.0.0.1', host)[0], 403)


class Started(ToolCase):
    """The tool as it is started."""

    def setUp(self) -> None:
        super().setUp()
        self.enterContext(mock.patch.dict(os.environ, named_library(self.room)))

    def begin(self, *words: str) -> tuple[subprocess.Popen[str], str]:
        """Starts it, and gives its address."""
        process = subprocess.Popen(
            [sys.executable, '-S', f'{TOOLS}/desk', '--no-open', *words],
            stdout=subprocess.PIPE,
            stderr=subprocess.PIPE,
            text=True,
            cwd=self.room,
            env=os.environ | {'XDG_RUNTIME_DIR': self.room, 'XDG_STATE_HOME': f'{self.room}/state'},
        )
        self.addCleanup(process.kill)
        assert process.stdout
        return process, process.stdout.readline().split()[1]

    def end(self, process: subprocess.Popen[str]) -> str:
        """Ends it, and gives what it has told."""
        process.send_signal(signal.SIGINT)
        return process.communicate(timeout=SECONDS)[1]

    def test_who_can_reach_it_is_told(self) -> None:
        for words, wanted in (
            ((), r'\A\Z'),
            (('--listen', '127.0.0.2'), r'\Adesk: 127\.0\.0\.2, port \d+, is reached from this machine alone\n\Z'),
            (('--listen', '0.0.0.0'), r'\Adesk: every machine that reaches an address of this one, port \d+, is served: .* nothing is encrypted\n\Z'),
        ):
            process, address = self.begin(*words)
            status = subprocess.run([sys.executable, '-c', FETCH, address], capture_output=True, text=True, check=True).stdout
            self.assertRegex(self.end(process), wanted)
            self.assertEqual(status, '200\n')

    def test_what_is_no_address(self) -> None:
        for word in ('localhost', 'evil.example', '', '1.2.3', '127.0.0.1:80'):
            self.assertIn('--listen takes an address in numbers', self.called('desk', '--listen', word, status=2)[1])
        self.assertRegex(self.tool('desk', '--no-open', '--listen', '192.0.2.1', status=2)[1], r"port 0 of 192\.0\.2\.1 can't be had: \w")

    def test_across_a_network_namespace(self) -> None:
        """From another machine, as it were: of another namespace, by a pair of links."""
        name, across = f'z{os.getpid() % 100000}', 'the desk across a network namespace'
        if not is_there('ip', across, 'iproute2'):
            return
        if os.getuid() != 0 or subprocess.run(['ip', 'netns', 'add', name], capture_output=True, check=False).returncode:
            not_run(f'{across}, which root makes')
            return
        self.addCleanup(subprocess.run, ['ip', 'netns', 'del', name], check=False)
        for words in (
            f'link add {name}a type veth peer name {name}b netns {name}',
            f'addr add 198.51.100.1/30 dev {name}a',
            f'link set {name}a up',
            f'-n {name} addr add 198.51.100.2/30 dev {name}b',
            f'-n {name} link set {name}b up',
        ):
            if subprocess.run(['ip', *words.split()], capture_output=True, check=False).returncode:
                not_run(f'{across}: ip {words}')
                return
        inside = ['ip', 'netns', 'exec', name, sys.executable, '-c', FETCH]
        for words, is_reached in (((), False), (('--listen', '198.51.100.1'), True), (('--listen', '0.0.0.0'), True)):
            process, address = self.begin(*words)
            target = re.sub(r'//127\.0\.0\.1', '//198.51.100.1', address)
            ran = subprocess.run([*inside, target], capture_output=True, text=True, check=False)
            self.end(process)
            self.assertEqual(ran.stdout, '200\n' if is_reached else '', ran.stderr)


if __name__ == '__main__':
    unittest.main()
