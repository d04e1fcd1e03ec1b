"""A language server in the tests' own process, and one that is a program, as an editor talks to them."""
from __future__ import annotations

import json
import os
import queue
import subprocess
import sys
import threading
from typing import Any

from tests.support import TOOLS

from toolbox.framing import Broken, Reader
from toolbox.lsp.server import Server

Fields = dict[str, Any]
IT = 'file:///it.asm'


def span(first: int, last: int) -> Fields:
    """From the beginning of a line to that of another."""
    return {'start': {'line': first, 'character': 0}, 'end': {'line': last, 'character': 0}}


class Talk:
    """What both have: documents, and questions about them."""

    def ask(self, method: str, **asked: Any) -> Any:
        """The result of a request."""
        answer = self.answer(method, **asked)
        assert 'result' in answer, answer
        return answer['result']

    def error(self, method: str, **asked: Any) -> Fields:
        """The error of a request."""
        answer: Fields = self.answer(method, **asked)
        assert 'error' in answer, answer
        return dict(answer['error'])

    def answer(self, method: str, **asked: Any) -> Fields:
        """The answer to a request."""
        raise NotImplementedError

    def tell(self, method: str, **asked: Any) -> None:
        """Sends a notification."""
        raise NotImplementedError

    def open(self, text: str, uri: str = IT, version: int = 1) -> None:
        """Opens a document."""
        self.tell('textDocument/didOpen', textDocument={'uri': uri, 'languageId': 'asm', 'version': version, 'text': text})

    def change(self, *changes: Fields, uri: str = IT, version: int = 2) -> None:
        """Changes a document."""
        self.tell('textDocument/didChange', textDocument={'uri': uri, 'version': version}, contentChanges=list(changes))

    def at(self, method: str, line: int, column: int, uri: str = IT, **more: Any) -> Any:
        """The result of a question about a place."""
        return self.ask(f'textDocument/{method}', textDocument={'uri': uri}, position={'line': line, 'character': column}, **more)

    def of(self, method: str, uri: str = IT, **more: Any) -> Any:
        """The result of a question about a document."""
        return self.ask(f'textDocument/{method}', textDocument={'uri': uri}, **more)


class Here(Talk):
    """A server in this process: each message is answered, and all work done, before the next one."""

    def __init__(self, **options: Any) -> None:
        self.messages, self.sent = queue.Queue[Any](), list[Fields]()
        self.server = Server(self.messages, self.sent.append)
        self.count, self.found = 0, dict[str, list[Fields]]()
        self.ask('initialize', processId=None, rootUri=None, capabilities={}, initializationOptions=options)
        self.tell('initialized')

    def send(self, *messages: Any) -> list[Fields]:
        """Sends messages at once, and gives what comes of them until nothing is left to do."""
        self.sent.clear()
        for message in messages:
            self.messages.put(message)
        self.server.gather(0)
        while self.server.waiting or self.server.due:
            if self.server.waiting:
                self.server.take(self.server.waiting.popleft())
            else:
                self.server.judge_on(next(iter(self.server.due)))
        for message in self.sent:
            if message.get('method') == 'textDocument/publishDiagnostics':
                self.found[message['params']['uri']] = message['params']['diagnostics']
        return list(self.sent)

    def answer(self, method: str, **asked: Any) -> Fields:
        self.count += 1
        return next(
            message for message in self.send({'jsonrpc': '2.0', 'id': self.count, 'method': method, 'params': asked}) if message.get('id') == self.count
        )

    def tell(self, method: str, **asked: Any) -> None:
        self.send({'jsonrpc': '2.0', 'method': method, 'params': asked})


class There(Talk):
    """A server that is a program."""

    def __init__(self, room: str, begins: bool = True) -> None:
        os.makedirs(f'{room}/tmp', exist_ok=True)
        self.process = subprocess.Popen(
            [sys.executable, '-S', f'{TOOLS}/lsp', '--stdio'],
            stdin=subprocess.PIPE,
            stdout=subprocess.PIPE,
            stderr=subprocess.PIPE,
            cwd=room,
            env=os.environ | {'TMPDIR': f'{room}/tmp'},
            start_new_session=True,
        )
        assert self.process.stdout
        self.reader, self.count, self.others = Reader(self.process.stdout.fileno()), 0, list[Fields]()
        self.watch = threading.Timer(300, self.process.kill)
        self.watch.start()
        if begins:
            self.ask('initialize', processId=os.getpid(), rootUri=None, capabilities={})
            self.tell('initialized')

    def raw(self, octets: bytes) -> None:
        """Sends bytes."""
        assert self.process.stdin
        self.process.stdin.write(octets)
        self.process.stdin.flush()

    def send(self, *messages: Any) -> None:
        """Sends messages at once."""
        bodies = [json.dumps(message).encode() for message in messages]
        self.raw(b''.join(b'Content-Length: %d\r\n\r\n%b' % (len(body), body) for body in bodies))

    def read(self) -> Fields:
        """The next message."""
        message = self.reader.next()
        assert message is not None and not isinstance(message, Broken), self.process.stderr and self.process.stderr.read()
        return message

    def answer_to(self, number: Any) -> Fields:
        """The answer to a request; what comes before it is kept."""
        while True:
            message = self.read()
            if 'method' not in message and message.get('id') == number:
                return message
            self.others.append(message)

    def answer(self, method: str, **asked: Any) -> Fields:
        self.count += 1
        self.send({'jsonrpc': '2.0', 'id': self.count, 'method': method, 'params': asked})
        return self.answer_to(self.count)

    def tell(self, method: str, **asked: Any) -> None:
        self.send({'jsonrpc': '2.0', 'method': method, 'params': asked})

    def underlined(self) -> Fields:
        """What is underlined next."""
        while True:
            message = self.read()
            if message.get('method') == 'textDocument/publishDiagnostics':
                return dict(message['params'])

    def end(self) -> int:
        """Its exit status, after its client has gone."""
        assert self.process.stdin and self.process.stdout and self.process.stderr
        self.process.stdin.close()
        status = self.process.wait()
        self.watch.cancel()
        self.process.stdout.close()
        self.process.stderr.close()
        return status
