"""How a browser comes to the page of tools/desk: by a file that leads on, and again by its cookie; and what another browser is told."""
from __future__ import annotations

import inspect
import os
import signal
import subprocess
import sys
import threading
import unittest
import webbrowser
from typing import Any
from unittest import mock

from tests.browser import Browser
from tests.desk_engine import lacking
from tests.support import TOOLS, ToolCase, main_of, not_run, rooms_in, until
from tests.test_desk import Client, Served
from toolbox.desk.http import COOKIE

READY = "document.readyState==='complete'&&document.querySelector('#source')?.value!==undefined&&document.querySelector('#said').textContent===''"


class Tokens(Served):
    """Addresses, each of which is good once."""

    def setUp(self) -> None:
        super().setUp()
        self.addresses = list[str]()
        self.server.tell = self.addresses.append

    def test_the_cookie(self) -> None:
        """It is sent back for this address alone, is hidden from the page's script, and no other site's request has it but a link's."""
        answer = self.client.request('GET', f'/{self.client.token}/')[2]
        self.assertEqual(answer.getheader('Set-Cookie'), f'{self.client.cookie}; Path=/{self.client.token}/; HttpOnly; SameSite=Lax')
        self.assertRegex(self.client.cookie, rf'\A{COOKIE}=[\w-]{{32}}\Z')
        self.assertIsNone(self.client.request('GET', f'/{self.client.token}/main.js')[2].getheader('Set-Cookie'))

    def status(self, method: str, token: str, name: str, cookie: str | None) -> int:
        """A request's status."""
        return self.client.request(method, f'/{token}/{name}', b'{"do":"hello"}' if method == 'POST' else None, Cookie=cookie)[0]

    def test_who_comes_later(self) -> None:
        """Without the cookie nothing is answered, and the user is told one other address, which is good once too."""
        token, cookie = self.client.token, self.client.cookie
        for wrong in (None, '', COOKIE, f'{COOKIE}=', f'{cookie}x', cookie[:-1], cookie.swapcase(), f'x{cookie}', cookie.partition('=')[2]):
            for method, name in (('GET', ''), ('GET', 'main.js'), ('POST', 'do')):
                self.assertEqual(self.status(method, token, name, wrong), 403, (wrong, method, name))
        self.assertEqual(self.addresses, [self.server.address])
        self.assertNotIn(token, self.server.address)
        for right in (cookie, f'a=b; {cookie}', f'{COOKIE}=x; {cookie};'):
            for method, name in (('GET', ''), ('GET', 'main.js'), ('POST', 'do')):
                self.assertEqual(self.status(method, token, name, right), 200, (right, method, name))
        other = Client(self.addresses[0])
        self.assertIn('examples', other.ask('hello'))
        self.assertIn('examples', self.client.ask('hello'))
        self.assertEqual(self.status('GET', other.token, '', None), 403)
        self.assertEqual((len(self.addresses), len(set(self.addresses))), (2, 2))

    def test_only_the_page_uses_a_token(self) -> None:
        """What else is asked before it is refused, and leaves the address as it is."""
        self.status('GET', self.client.token, '', None)
        token = self.server.token
        for method, name in (('GET', 'main.js'), ('POST', 'do'), ('GET', 'x'), ('PUT', '')):
            self.assertGreaterEqual(self.status(method, token, name, None), 403)
        self.assertFalse(self.server.is_used)
        self.assertEqual(self.status('GET', token, '', None), 200)
        self.assertTrue(self.server.is_used)

    def test_two_at_once(self) -> None:
        """Of many that come with one token at one moment one is the first."""
        self.status('GET', self.client.token, '', None)
        token, statuses, start = self.server.token, list[int](), threading.Barrier(10)

        def come() -> None:
            start.wait()
            statuses.append(self.status('GET', token, '', None))

        threads = [threading.Thread(target=come) for _ in range(10)]
        for thread in threads:
            thread.start()
        for thread in threads:
            thread.join()
        self.assertEqual(sorted(statuses), [200] + [403] * 9)

    def test_a_refusal_for_want_of_room_uses_none(self) -> None:
        self.status('GET', self.client.token, '', None)
        token = self.server.token
        with mock.patch('toolbox.desk.http.MOST_CONNECTIONS', 0):
            self.assertEqual(self.status('GET', token, '', None), 503)
        self.assertEqual(self.status('GET', token, '', None), 200)

    def test_one_who_tells_nobody(self) -> None:
        """An output that is closed ends nothing."""
        self.server.tell = inspect.unwrap(main_of('desk')).__globals__['tell']
        with mock.patch('builtins.print', side_effect=BrokenPipeError):
            self.assertEqual(self.status('GET', self.client.token, '', None), 403)

    def opened(self, is_opened: bool) -> list[Any]:
        """What a browser is asked for, and what is told on standard error where it comes, or doesn't."""
        asked, printed = list[Any](), list[str]()
        work = inspect.unwrap(main_of('desk')).__globals__
        over = mock.Mock(wait=lambda _: False)
        server = mock.Mock(address='http://x/', is_used=is_opened)
        with mock.patch.object(webbrowser, 'open', asked.append), mock.patch('builtins.print', lambda text, **_: printed.append(text)):
            work['open_page'](server, self.room, over)
        return [*asked, *printed]

    def test_a_browser_that_does_not_come(self) -> None:
        """As one that may not read the file: then the address is told again."""
        self.assertEqual(self.opened(True), [f'file://{self.room}/open.html'])
        os.remove(f'{self.room}/open.html')
        self.assertEqual(len(self.opened(False)), 2)
        self.assertEqual(len(self.opened(False)), 1)  # the file can't be written, as on a disk that is full


class InABrowser(ToolCase):
    """The page in Chromium."""

    def begin(self) -> tuple[subprocess.Popen[str], str, str]:
        """Starts a desk, and gives its address, and what it asks the browser for."""
        words = self.file('words', '')
        command = self.file('browser', f'#!/bin/sh\necho "$1" > {words}\n')
        os.chmod(command, 0o755)
        process = subprocess.Popen(
            [sys.executable, '-S', f'{TOOLS}/desk'],
            stdout=subprocess.PIPE,
            text=True,
            cwd=self.room,
            env=os.environ | {'XDG_RUNTIME_DIR': self.room, 'XDG_STATE_HOME': f'{self.room}/state', 'BROWSER': f'{command} %s'},
        )
        self.addCleanup(process.communicate)
        self.addCleanup(process.send_signal, signal.SIGINT)
        assert process.stdout
        address = process.stdout.readline().split()[1]
        self.assertTrue(until(lambda: os.path.getsize(words)))
        with open(words, encoding='utf-8') as file:
            return process, address, file.read().strip()

    def browser(self, name: str) -> Browser:
        """One of its own."""
        os.mkdir(f'{self.room}/{name}')
        found = Browser(f'{self.room}/{name}')
        self.addCleanup(found.close)
        return found

    def test_by_the_file(self) -> None:
        """It leads to the page, which is there again after a reload and in a second tab. Another browser is told that there is another
        address, which leads there too."""
        if why := lacking():
            not_run(f'how a browser comes to the page of tools/desk; {why}')
            return
        process, address, file = self.begin()
        self.assertEqual(file, f'file://{self.room}/zebludor/{rooms_in(self.room)[0]}/open.html')
        mine, other = self.browser('mine'), self.browser('other')
        mine.open(file)
        mine.until(f"location.href==='{address}'&&{READY}")
        mine.run('window.old=true;onbeforeunload=null')
        mine.call('Page.reload')
        mine.until(f'window.old!==true&&{READY}')
        for _ in range(2):
            mine.tab()
            mine.open(address)
            mine.until(f"location.href==='{address}'&&{READY}")
        other.open(address)
        other.until("document.body?.textContent.includes('desk has printed another one')")
        assert process.stdout
        another = process.stdout.readline().split()[-1]
        other.open(another)
        other.until(f"location.href==='{another}'&&{READY}")
        mine.run('window.old=true;onbeforeunload=null')
        mine.call('Page.reload')
        mine.until(f'window.old!==true&&{READY}')


if __name__ == '__main__':
    unittest.main()
