"""The protocol: messages in, answers out, and the work that goes on between them."""
from __future__ import annotations

import contextlib
import os
import queue
from collections import deque
from typing import Any, Callable

from toolbox.command import Sorry
from toolbox.framing import Broken, Read
from toolbox.guests import Guest, said_of
from toolbox.lsp import calls, colours, completing, diagnosing, hovering, layout, naming, outline
from toolbox.lsp.asked import CANCELLED, FAILED, INTERNAL, INVALID, MOST, NO_METHOD, NOT_BEGUN, PARSE, Unfit, want
from toolbox.lsp.documents import OWN, Document, Settings, path_of
from toolbox.lsp.text import Fields

OF_A_DOCUMENT: dict[str, Callable[[Document, Fields], Any]] = {
    'textDocument/codeAction': diagnosing.code_actions,
    'textDocument/completion': completing.completion,
    'textDocument/definition': naming.definition,
    'textDocument/documentHighlight': naming.highlights,
    'textDocument/documentSymbol': outline.document_symbols,
    'textDocument/foldingRange': outline.folds,
    'textDocument/formatting': layout.formatting,
    'textDocument/hover': hovering.hover,
    'textDocument/inlayHint': hovering.inlay_hints,
    'textDocument/prepareCallHierarchy': calls.prepare,
    'textDocument/prepareRename': naming.renamed_at,
    'textDocument/rangeFormatting': layout.range_formatting,
    'textDocument/references': naming.references,
    'textDocument/rename': naming.rename,
    'textDocument/semanticTokens/full': colours.semantic_tokens,
    'textDocument/signatureHelp': completing.signature_help,
    'callHierarchy/incomingCalls': calls.incoming,
    'callHierarchy/outgoingCalls': calls.outgoing,
}
CAPABILITIES: Fields = {
    'positionEncoding': 'utf-16',
    'textDocumentSync': {'openClose': True, 'change': 2},
    'codeActionProvider': {'codeActionKinds': ['quickfix']},
    'completionProvider': {'triggerCharacters': ['[', ',']},
    'definitionProvider': True,
    'documentHighlightProvider': True,
    'documentSymbolProvider': True,
    'foldingRangeProvider': True,
    'documentFormattingProvider': True,
    'hoverProvider': True,
    'inlayHintProvider': True,
    'callHierarchyProvider': True,
    'renameProvider': {'prepareProvider': True},
    'documentRangeFormattingProvider': True,
    'referencesProvider': True,
    'semanticTokensProvider': {'legend': {'tokenTypes': colours.TYPES, 'tokenModifiers': colours.MODIFIERS}, 'full': True},
    'signatureHelpProvider': {'triggerCharacters': [' ', ',']},
    'workspaceSymbolProvider': True,
}
PATIENCE = 1.0  # so often it looks whether its client is there still
LOG_ERROR, LOG_INFORMATION = 1, 3


class Left(Exception):
    """The client has gone."""


class Server:
    """One client's documents, from its first message to its last."""

    def __init__(self, messages: queue.Queue[Read], write: Callable[[Fields], None]) -> None:
        self.messages, self._write = messages, write
        self.waiting = deque[Read]()
        self.documents, self.folders, self.settings = dict[str, Document](), list[str](), Settings()
        self.due = dict[str, list[Fields] | None]()  # documents that are being judged, with what was told last of this text
        self.client, self.is_begun, self.is_shut, self.is_over, self.logged = 0, False, False, False, ''
        self.served = set[str]()  # documents of which it was told that they have the services

    def serve(self) -> int:
        """Answers messages until the client leaves, and gives the exit status."""
        with contextlib.suppress(Left, BrokenPipeError):
            while not self.is_over:
                self.gather(PATIENCE if not self.due else 0)
                if self.waiting:
                    self.take(self.waiting.popleft())
                elif self.due:
                    self.judge(next(iter(self.due)))
        return 0 if self.is_shut else 1

    def gather(self, seconds: float) -> None:
        """Takes in what has come, and waits for it so long at most if nothing has."""
        with contextlib.suppress(queue.Empty):
            if not self.waiting and seconds:
                self.keep(self.messages.get(timeout=seconds))
            while True:
                self.keep(self.messages.get_nowait())
        if self.client:
            try:
                os.kill(self.client, 0)
            except ProcessLookupError:
                raise Left from None
            except PermissionError:
                pass

    def keep(self, message: Read) -> None:
        """Puts a message after the others; one that calls off another is done with at once."""
        if message is None:
            raise Left
        if isinstance(message, dict) and message.get('method') == '$/cancelRequest':
            number = message['params'].get('id') if isinstance(message.get('params'), dict) else None
            for queued in self.waiting:
                if isinstance(queued, dict) and 'method' in queued and number is not None and queued.get('id') == number:
                    queued['method'] = '$/cancelled'
        else:
            self.waiting.append(message)

    def poll(self) -> None:
        """Between the pieces of long work: looks whether the client is there still."""
        self.gather(0)

    # Messages

    def write(self, message: Fields) -> None:
        """Sends a message."""
        self._write({'jsonrpc': '2.0'} | message)

    def refuse(self, number: Any, unfit: Unfit) -> None:
        """Sends an error for an answer."""
        self.write({'id': number, 'error': {'code': unfit.code, 'message': str(unfit)}})

    def take(self, message: Read) -> None:
        """Answers a message; what isn't as the protocol has it gets an error, or if it wants no answer, none."""
        if isinstance(message, Broken):
            self.refuse(None, Unfit(message.why, PARSE))
            return
        if message is None or not isinstance(message.get('method'), str):
            if message and 'id' in message and 'result' not in message and 'error' not in message:
                self.refuse(None, Unfit('a request has a method', INVALID))
            return
        number, is_request = message.get('id'), 'id' in message
        if is_request and (isinstance(number, bool) or not isinstance(number, (int, str))):
            self.refuse(None, Unfit("a request's id is a number or a string", INVALID))
            return
        try:
            result = self.answer(message['method'], want(message, 'params', dict, {}), is_request)
            if is_request:
                self.write({'id': number, 'result': result})
        except Unfit as unfit:
            self.fail(unfit, number, is_request)
        except Sorry as sorry:
            self.fail(Unfit(str(sorry), FAILED), number, is_request)
        except (Left, BrokenPipeError):
            raise
        except Exception as error:  # pylint: disable=broad-exception-caught
            why = f"{message['method']} can't be answered: {type(error).__name__}: {error}"
            self.fail(Unfit(why, INTERNAL), number, is_request)

    def fail(self, unfit: Unfit, number: Any, is_request: bool) -> None:
        """Tells why a message does nothing: as the answer if it wants one, else in the client's log."""
        if is_request:
            self.refuse(number, unfit)
        else:
            self.log(str(unfit))

    def log(self, text: str, kind: int = LOG_ERROR) -> None:
        """Tells the client's log, once."""
        if text != self.logged:
            self.logged = text
            self.write({'method': 'window/logMessage', 'params': {'type': kind, 'message': text}})

    def answer(self, method: str, asked: Fields, is_request: bool) -> Any:
        """The result of a request, or what a notification does."""
        if method == 'exit':
            self.is_over = True
        elif is_request and method == '$/cancelled':
            raise Unfit('called off', CANCELLED)
        elif not self.is_begun and method != 'initialize':
            if is_request:
                raise Unfit('initialize comes first', NOT_BEGUN)
        elif self.is_shut:
            if is_request:
                raise Unfit('the server is shut down', INVALID)
        elif is_request and method in OF_A_DOCUMENT:
            return OF_A_DOCUMENT[method](self.document(asked), asked)
        elif method in (self.REQUESTS if is_request else self.NOTIFICATIONS):
            return (self.REQUESTS if is_request else self.NOTIFICATIONS)[method](self, asked)
        elif is_request:
            raise Unfit(f'{method} is no request that is known here', NO_METHOD)
        return None

    def document(self, asked: Fields) -> Document:
        """The open document that a request names."""
        holder = asked.get('item') or asked.get('textDocument')
        uri = want(holder, 'uri', str)
        if uri not in self.documents:
            raise Unfit(f"{uri} isn't open", FAILED)
        return self.documents[uri]

    # The life of the server

    def initialize(self, asked: Fields) -> Fields:
        """What it can do."""
        if self.is_begun:
            raise Unfit('initialize comes once', INVALID)
        self.is_begun = True
        client = asked.get('processId')
        self.client = client if isinstance(client, int) and 0 < client <= MOST else 0
        given = asked.get('workspaceFolders')
        roots = [folder.get('uri') for folder in given] if isinstance(given, list) else [asked.get('rootUri')]
        self.folders = [path for root in roots if isinstance(root, str) and (path := path_of(root))]
        self.settings = Settings.of(asked.get('initializationOptions'))
        return {'capabilities': CAPABILITIES, 'serverInfo': {'name': 'zebludor'}}

    def shutdown(self, _: Fields) -> None:
        """The end begins: nothing is judged any more."""
        self.is_shut = True
        self.due.clear()

    def configure(self, asked: Fields) -> None:
        """Other settings, if there are some of this server's."""
        given = asked.get('settings')
        if not isinstance(given, dict) or not isinstance(given.get(OWN), dict):
            return
        self.settings = Settings.of(given)
        for document in self.documents.values():
            document.set(self.settings)
            self.due[document.uri] = None

    # Documents

    def open(self, asked: Fields) -> None:
        """A document is the client's now."""
        given = want(asked, 'textDocument', dict)
        uri = want(given, 'uri', str)
        self.documents[uri] = Document(uri, want(given, 'text', str, ''), given.get('version'), self.settings, self.poll)
        self.due[uri] = None

    def change(self, asked: Fields) -> None:
        """A document's text changes. Changes that aren't as the protocol has them leave none that is known, so it is closed."""
        given = want(asked, 'textDocument', dict)
        document = self.document(asked)
        try:
            document.change(want(asked, 'contentChanges', list), given.get('version'))
        except Unfit:
            self.close(asked)
            raise
        self.due[document.uri] = None

    def close(self, asked: Fields) -> None:
        """A document is the client's no more, and nothing is underlined in it."""
        uri = self.document(asked).uri
        del self.documents[uri]
        self.due.pop(uri, None)
        self.write({'method': 'textDocument/publishDiagnostics', 'params': {'uri': uri, 'diagnostics': []}})

    def workspace_symbols(self, asked: Fields) -> list[Fields]:
        """The names in all sources."""
        return outline.workspace_symbols(self.documents.values(), self.folders, want(asked, 'query', str, ''))

    def judge(self, uri: str) -> None:
        """Goes on with a document whose text has changed. A text that can't be judged isn't the end of the server."""
        try:
            self.judge_on(uri)
        except (Left, BrokenPipeError):
            raise
        except Exception as error:  # pylint: disable=broad-exception-caught
            self.due.pop(uri, None)
            self.log(f"{uri} can't be judged: {type(error).__name__}: {error}")

    def judge_on(self, uri: str) -> None:
        """A piece of that: the first refused line is told at once, the others together."""
        document, published = self.documents[uri], self.due[uri]
        answers = document.answers
        if published is None and not document.note:
            if not answers.is_over and not answers.refused:
                answers.step()
            refused = [diagnosing.of_a_fault(document, *refusal) for refusal in answers.refused]
            self.due[uri] = refused
            self.publish(document, refused)
        elif not document.note and not answers.is_over:
            answers.step()
        else:
            del self.due[uri]
            found = diagnosing.diagnostics(document)
            if found != published:
                self.publish(document, found)
            if not document.note and uri not in self.served and answers.is_served:
                self.served.add(uri)
                self.log(said_of(Guest(uri), os.path.basename(uri)), LOG_INFORMATION)
            if answers.broken:
                self.log(answers.broken)

    def publish(self, document: Document, found: list[Fields]) -> None:
        """Tells what is underlined."""
        params: Fields = {'uri': document.uri, 'diagnostics': found}
        version = {'version': document.version} if document.version is not None else {}
        self.write({'method': 'textDocument/publishDiagnostics', 'params': params | version})

    REQUESTS: dict[str, Callable[[Server, Fields], Any]] = {'initialize': initialize, 'shutdown': shutdown, 'workspace/symbol': workspace_symbols}
    NOTIFICATIONS: dict[str, Callable[[Server, Fields], None]] = {
        'initialized': lambda _, __: None,
        'workspace/didChangeConfiguration': configure,
        'textDocument/didOpen': open,
        'textDocument/didChange': change,
        'textDocument/didClose': close,
    }
