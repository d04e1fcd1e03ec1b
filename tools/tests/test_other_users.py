"""Another user of the machine, as root may become one for a test, tries each way in: to rooms, gdb's sockets, and the desk's page."""
from __future__ import annotations

import os
import re
import shlex
import signal
import subprocess
import sys
import unittest
import urllib.error
import urllib.request

from tests.desk_engine import named_library
from tests.support import SECONDS, TOOLS, ToolCase, children, example, is_there, not_run, rooms_in, until
from tests.test_gdb import Client

NOBODY = 65534
# The beginning of a program that is another user's from then on, who may have no way to Python's library.
BECOME = f"""import encodings.idna, glob, os, re, socket, sys, urllib.error, urllib.request
os.chdir('/')
os.setgroups([])
os.setgid({NOBODY})
os.setuid({NOBODY})
"""
# Connects to a port or a path, asks for memory as gdb does, and prints what comes.
ASK = """line = socket.socket() if sys.argv[1].isdecimal() else socket.socket(socket.AF_UNIX)
line.settimeout(60)
try:
    line.connect(('127.0.0.1', int(sys.argv[1])) if sys.argv[1].isdecimal() else sys.argv[1])
    line.sendall(b'$mf6000,20#f6')
    print(line.recv(1000))
except OSError as error:
    print(type(error).__name__)
"""
BIND = """line = socket.socket()
line.setsockopt(socket.SOL_SOCKET, socket.SO_REUSEADDR, 1)
line.bind(('127.0.0.1', int(sys.argv[1])))
"""
# Prints the addresses with a token in the words of any process, and whether a file can be read.
LOOK = """found = []
for path in glob.glob('/proc/[0-9]*/cmdline'):
    try:
        found += re.findall(r'http://[0-9.]+:[0-9]+/[\\w-]{32}/', open(path).read())
    except OSError:
        pass
try:
    open(sys.argv[1]).read()
    found.append(sys.argv[1])
except OSError:
    pass
print(found)
"""
FETCH = """try:
    print(urllib.request.urlopen(sys.argv[1], timeout=60).status)
except urllib.error.HTTPError as error:
    print(error.code)
"""
TRAPS = """os.umask(0)
for name in ('desk', 'deskX', 'desk-abcdefgh', 'dap-abcdefgh', 'gdb-abcdefgh', 'zebludor', 'rooms'):
    os.makedirs(f'{sys.argv[1]}/{name}')
    for trap in ('lock', 'mark', 'new'):
        os.mkfifo(f'{sys.argv[1]}/{name}/{trap}')
os.makedirs(f'{sys.argv[1]}/state/zebludor/rooms')
"""


class OtherUser(ToolCase):
    """Tools that root has started, and another user."""

    def can_be_another(self) -> bool:
        """Whether these tests are run, which only root can."""
        if os.geteuid() != 0:
            not_run('another user of the machine, who tries rooms, gdb and desk: only root can be one for a test')
        return os.geteuid() == 0

    def nobody(self, code: str, *words: str) -> subprocess.CompletedProcess[str]:
        """A program that runs as another user."""
        words = (sys.executable, '-S', '-c', BECOME + code, *words)
        return subprocess.run(words, capture_output=True, text=True, check=False, timeout=SECONDS)

    def begin(self, *words: str, **more: str) -> subprocess.Popen[str]:
        """Starts a tool, with its rooms in the test's folder."""
        environment = {'XDG_RUNTIME_DIR': self.room, 'XDG_STATE_HOME': f'{self.room}/state'} | more
        process = subprocess.Popen(
            [sys.executable, '-S', f'{TOOLS}/{words[0]}', *words[1:]],
            stdin=subprocess.PIPE,
            stdout=subprocess.PIPE,
            stderr=subprocess.PIPE,
            text=True,
            cwd=self.room,
            env=os.environ | named_library(self.room) | environment,
        )
        self.addCleanup(process.communicate)
        self.addCleanup(process.kill)
        return process

    def end(self, process: subprocess.Popen[str]) -> tuple[str, str]:
        """Ends it, and gives what it has told meanwhile."""
        process.send_signal(signal.SIGINT)
        return process.communicate(timeout=SECONDS)


class Rooms(OtherUser):
    """Traps in the folder for temporary files."""

    def test_a_desk_begins(self) -> None:
        """It waits at no FIFO, and stands in no folder of another user's, also if its state is to lie in one."""
        if not self.can_be_another():
            return
        shared = f'{self.room}/shared'
        os.mkdir(shared)
        os.chmod(self.room, 0o711)
        os.chmod(shared, 0o1777)
        self.assertEqual(self.nobody(TRAPS, shared).stderr, '')
        before = sorted(os.walk(shared))
        for login in ('', shared, f'{shared}/zebludor'):
            process = self.begin('desk', '--no-open', TMPDIR=shared, XDG_RUNTIME_DIR=login, XDG_STATE_HOME=f'{shared}/state')
            assert process.stdout
            self.assertIn('desk: http://127.0.0.1:', process.stdout.readline())
            new = [name for name in os.listdir(shared) if name.startswith('zebludor-desk-')]
            self.assertEqual([(os.stat(f'{shared}/{name}').st_uid, os.stat(f'{shared}/{name}').st_mode & 0o777) for name in new], [(0, 0o700)])
            self.end(process)
            self.assertEqual(sorted(os.walk(shared)), before)


class AtGdb(OtherUser):
    """The board of gdb."""

    def target(self, script: str) -> str:
        """Where the commands with which gdb begins lead to."""
        with open(script, encoding='utf-8') as file:
            return file.read().rpartition('target extended-remote ')[2].strip()

    def test_the_socket(self) -> None:
        """It has no way to it, by its path or by the process's handles."""
        if not self.can_be_another() or not is_there('gdb', 'another user at the socket of tools/gdb', 'gdb'):
            return
        odd = f'{self.room}/a: {"x" * 100}'
        os.mkdir(odd, 0o700)
        os.chmod(self.room, 0o711)
        for login in (self.room, odd):
            os.chmod(login, 0o700)
            process = self.begin('gdb', *example('hello'), '-q', '-nx', '-ex', 'echo ready\\n', XDG_RUNTIME_DIR=login)
            assert process.stdout
            while 'ready' not in (line := process.stdout.readline()):
                self.assertNotEqual(line, '')
            path = self.target(f'{login}/zebludor/{rooms_in(login)[0]}/begin.gdb')
            self.assertEqual(path.startswith('/proc/'), login == odd)
            self.assertEqual(self.nobody(ASK, path).stdout, 'PermissionError\n')
            out, _ = process.communicate('info registers ax\nquit\n', timeout=SECONDS)
            self.assertRegex(out, r'ax +0x0')

    def test_the_port(self) -> None:
        """It is sent away before a client, beside one and after one, and told of once; and the port can't be taken."""
        if not self.can_be_another():
            return
        process = self.begin('gdb', '--serve', *example('hello'))
        assert process.stdout
        port = self.target(shlex.split(process.stdout.readline())[-1]).partition(':')[2]
        for _ in range(3):
            self.assertIn(self.nobody(ASK, port).stdout, ("b''\n", 'ConnectionResetError\n'))
            client = Client(int(port))
            memory = client.ask('mf6000,20')
            self.assertRegex(memory, r'\A[0-9a-f]{64}\Z')
            self.assertIn(self.nobody(ASK, port).stdout, ("b''\n", 'ConnectionResetError\n'))
            self.assertIn('Address already in use', self.nobody(BIND, port).stderr)
            self.assertEqual(client.ask('mf6000,20'), memory)
            client.close()
        self.assertEqual(self.end(process)[1].count(f'another user of this machine, of number {NOBODY}, was sent away'), 1)


class AtTheDesk(OtherUser):
    """The page of the desk, and FILE."""

    def test_the_words_of_the_browser(self) -> None:
        """They show no address, and the file that they name can't be read; it leads to the page."""
        if not self.can_be_another():
            return
        words = self.file('words', '')
        browser = self.file('browser', f'#!/bin/sh\necho "$1" > {words}\nexec sleep 600 > /dev/null 2>&1\n')
        os.chmod(browser, 0o755)
        os.chmod(self.room, 0o711)
        login = f'{self.room}/login'
        os.mkdir(login, 0o700)
        process = self.begin('desk', self.file('k.asm', ''), BROWSER=f'{browser} %s', XDG_RUNTIME_DIR=login)
        assert process.stdout
        address = process.stdout.readline().split()[1]
        self.assertTrue(until(lambda: os.path.getsize(words)))
        with open(words, encoding='ascii') as file:
            path = file.read().strip().removeprefix('file://')
        self.assertEqual((os.stat(path).st_mode & 0o777, os.path.dirname(path)), (0o600, f'{login}/zebludor/{rooms_in(login)[0]}'))
        with open(path, encoding='ascii') as file:
            self.assertIn(f'content="0; url={address}"', file.read())
        self.assertEqual(self.nobody(LOOK, path).stdout, '[]\n')
        for child in children(process.pid):
            os.kill(child, signal.SIGTERM)
        self.end(process)

    def test_an_address_that_was_used(self) -> None:
        """It is good for the browser that was first, and for nobody else; the user is told another one, once."""
        if not self.can_be_another():
            return
        process = self.begin('desk', '--no-open', self.file('k.asm', '; mine\n'))
        assert process.stdout
        address = process.stdout.readline().split()[1]
        browser = urllib.request.build_opener(urllib.request.HTTPCookieProcessor())
        for _ in range(2):
            self.assertEqual(browser.open(address, timeout=SECONDS).status, 200)
        for _ in range(3):
            self.assertEqual(self.nobody(FETCH, address).stdout, '403\n')
            self.assertEqual(browser.open(f'{address}main.js', timeout=SECONDS).status, 200)
        another = process.stdout.readline().split()[-1]
        self.assertRegex(another, r'\Ahttp://127\.0\.0\.1:\d+/[\w-]{32}/\Z')
        self.assertNotEqual(another, address)
        with urllib.request.urlopen(another, timeout=SECONDS) as answer:
            self.assertEqual(answer.status, 200)
        self.assertEqual(self.nobody(FETCH, another).stdout, '403\n')
        self.assertEqual(len(re.findall('http://', self.end(process)[0])), 1)


if __name__ == '__main__':
    unittest.main()
