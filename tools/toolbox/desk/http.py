"""The server of tools/desk: one page with its parts and one place to ask, on 127.0.0.1 alone unless another address is said, for the
browser that first opens an address with a token, and has a cookie from then on. What isn't the page's own request is refused: another
host or origin, no token, no cookie, any other path, too much at once."""
from __future__ import annotations

import base64
import hashlib
import hmac
import http.server
import ipaddress
import json
import re
import secrets
import socket
import threading
import time
from typing import Any, Callable, Iterable

from toolbox.threads import begin

Fields = dict[str, Any]
HOST, COOKIE = '127.0.0.1', 'desk'
# A source of 1,048,576 bytes, written as JSON, fits twice.
LONGEST_BODY, MOST_CONNECTIONS = 4 << 20, 32
SECONDS_OF_A_REQUEST, SECONDS_OF_SILENCE, SECONDS_OF_A_REFUSAL = 10, 60, 1
# Who hasn't shown the token: so long, and so many at once, of which the oldest makes room.
SECONDS_OF_A_STRANGER, MOST_STRANGERS = 2, 32
HEADERS = (
    ('X-Content-Type-Options', 'nosniff'),
    ('Cache-Control', 'no-store'),
    ('Referrer-Policy', 'same-origin'),
    ('X-Frame-Options', 'DENY'),
    ('Cross-Origin-Resource-Policy', 'same-origin'),
    ('Cross-Origin-Opener-Policy', 'same-origin'),
)


class Refused(Exception):
    """A request that isn't answered: a status, and a sentence."""

    def __init__(self, status: int, sentence: str) -> None:
        super().__init__(sentence)
        self.status, self.sentence = status, sentence


def policy_of(page: str, scripts: list[str]) -> str:
    """The page's content security policy: its own style by its sum, its modules and those of its Worker by their addresses, WebAssembly,
    and requests to where it comes from."""
    styles = ' '.join(
        f"'sha256-{base64.b64encode(hashlib.sha256(style.encode()).digest()).decode()}'" for style in re.findall('<style>(.*?)</style>', page, re.S)
    )
    return (
        f"default-src 'none'; script-src {' '.join(scripts)} 'wasm-unsafe-eval'; style-src {styles}; connect-src 'self'; img-src data:; "
        "base-uri 'none'; form-action 'none'; frame-ancestors 'none'"
    )


class Server(http.server.ThreadingHTTPServer):
    """Serves a page with its modules, by their names, and its other parts, each with its kind, and hands what it asks to `answer`."""

    daemon_threads, block_on_close, request_queue_size = True, False, 128

    def __init__(
        self,
        page: str,
        modules: dict[str, str],
        answer: Callable[[Fields], Fields],
        port: int = 0,
        host: str = HOST,
        tell: Callable[[str], None] = lambda _: None,
        others: dict[str, tuple[str, bytes]] | None = None,
    ) -> None:
        self.answer, self.host, self.page, self.modules, self.tell = answer, host, page, tuple(modules), tell
        self.address_family = socket.AF_INET6 if ':' in host else socket.AF_INET
        self.token, self.cookie = secrets.token_urlsafe(24), secrets.token_urlsafe(24)
        self._tokens, self._unused = [self.token], {self.token}
        self.seconds_of_a_request, self.seconds_of_silence = float(SECONDS_OF_A_REQUEST), float(SECONDS_OF_SILENCE)
        self.seconds_of_a_stranger, self.seconds_of_a_refusal = float(SECONDS_OF_A_STRANGER), float(SECONDS_OF_A_REFUSAL)
        self._lock, self._reading = threading.Lock(), dict[Any, float]()
        self._strangers, self._known = dict[Any, float](), set[Any]()
        super().__init__((host, port), Handler)
        texts = {'': ('text/html', page)} | {name: ('text/javascript', text) for name, text in modules.items()}
        self.parts = {name: (f'{kind}; charset=utf-8', text.encode()) for name, (kind, text) in texts.items()} | (others or {})

    def named(self, host: str) -> str:
        """An address with the port, as requests name it."""
        return f'[{host}]:{self.server_address[1]}' if ':' in host else f'{host}:{self.server_address[1]}'

    @property
    def own_host(self) -> str:
        """The host in the address that is printed: of one that stands for all of a machine's, its own."""
        return self.named(HOST if ipaddress.ip_address(self.host).is_unspecified else self.host)

    def hosts(self, reached: str) -> set[str]:
        """The hosts that a request may name, that comes to this address of the machine: no names but localhost, so that no other site's
        name leads here. Who listens elsewhere may be reached through a forwarded port too, at the user's own machine."""
        if self.host == HOST:
            return {self.own_host}
        return {self.own_host, self.named(reached.removeprefix('::ffff:')), self.named(HOST), self.named('localhost')}

    @property
    def address(self) -> str:
        """The page's address, with the last token."""
        return f'http://{self.own_host}/{self.token}/'

    @property
    def is_used(self) -> bool:
        """Whether a browser has opened this address."""
        return self.token not in self._unused

    def knows(self, token: str) -> bool:
        """Whether it is one of the desk's tokens."""
        return any([hmac.compare_digest(token.encode(), own.encode()) for own in tuple(self._tokens)])

    def policy(self, host: str, token: str) -> str:
        """The page's policy, where it was asked for at this host."""
        return policy_of(self.page, [f'http://{host}/{token}/{name}' for name in self.modules])

    def process_request(self, request: Any, client_address: Any) -> None:
        """Begins a connection's thread. Until it shows the token it is a stranger, and makes room for others."""
        with self._lock:
            self._strangers[request] = time.monotonic()
            oldest = next(iter(self._strangers)) if len(self._strangers) > MOST_STRANGERS else None
            self._strangers.pop(oldest, None)
        if oldest:
            shut(oldest)
        begin(lambda: self.process_request_thread(request, client_address))

    def process_request_thread(self, request: Any, client_address: Any) -> None:
        """A connection, in its thread."""
        try:
            super().process_request_thread(request, client_address)
        finally:
            with self._lock:
                self._strangers.pop(request, None)
                self._known.discard(request)

    def admit(self, connection: Any, token: str, has_cookie: bool, is_page: bool) -> None:
        """Takes in a connection with one of the tokens: it shows the cookie too, or is the first that asks for the page by this one.
        Who comes later without the cookie needs another token, which is told the user."""
        with self._lock:
            is_unused = token in self._unused
            is_first = is_unused and is_page and not has_cookie
            if is_first:
                self._unused.remove(token)
        if not has_cookie and is_unused and not is_first:
            raise Refused(403, 'open the address that desk has printed')
        if not has_cookie and not is_first:
            self._tell_another()
            raise Refused(403, 'this address was good once, and was opened in another browser: desk has printed another one')
        try:
            self.shows_token(connection)
        except Refused:
            if is_first:
                self._unused.add(token)
            raise

    def _tell_another(self) -> None:
        """Tells another address, once the last one has been used."""
        with self._lock:
            if not self.is_used:
                return
            self.token = secrets.token_urlsafe(24)
            self._tokens.append(self.token)
            self._unused.add(self.token)
        self.tell(self.address)

    def shows_token(self, connection: Any) -> None:
        """A connection has shown the token. There may be so many of them; a stranger that has made room, and is being shut, isn't
        taken in any more."""
        with self._lock:
            if connection in self._known:
                return
            if self._strangers.pop(connection, None) is None or len(self._known) >= MOST_CONNECTIONS:
                raise Refused(503, 'desk is busy with other requests; try again')
            self._known.add(connection)

    def handle_error(self, request: Any, client_address: Any) -> None:
        """A connection that breaks is none of the user's business."""

    def reads(self, connection: Any, is_reading: bool) -> None:
        """Notes since when a request is being read."""
        with self._lock:
            if is_reading:
                self._reading[connection] = time.monotonic()
            else:
                self._reading.pop(connection, None)

    def cut_off(self) -> None:
        """Ends the connections that haven't shown the token in time, and those whose request comes too slowly."""
        now = time.monotonic()
        with self._lock:
            late = [each for each, since in self._strangers.items() if since < now - self.seconds_of_a_stranger]
            for connection in late:
                del self._strangers[connection]
            late += [each for each, since in self._reading.items() if since < now - self.seconds_of_a_request]
        for connection in late:
            shut(connection)


def failure(error: Exception) -> str:
    """What the page is told of a failure of the desk's own: it goes on."""
    if isinstance(error, MemoryError):
        return 'desk has not enough memory for this; close pages that you no longer need, and try again'
    return f'desk could not do this, which is a mistake of its own: {type(error).__name__}: {error}'


def shut(connection: Any) -> None:
    """Ends a connection under its thread."""
    try:
        connection.shutdown(socket.SHUT_RDWR)
    except OSError:
        pass


class Handler(http.server.BaseHTTPRequestHandler):
    """A connection."""

    protocol_version, disable_nagle_algorithm = 'HTTP/1.1', True
    server_version, sys_version = 'desk', ''
    server: Server

    def setup(self) -> None:
        self.timeout = self.server.seconds_of_silence
        super().setup()

    def handle_one_request(self) -> None:
        """Waits for a request's first byte; then the rest has its time."""
        try:
            if not self.rfile.peek(1):  # type: ignore[attr-defined]
                self.close_connection = True
                return
        except OSError:
            self.close_connection = True
            return
        self.server.reads(self.connection, True)
        super().handle_one_request()

    def finish(self) -> None:
        self.server.reads(self.connection, False)
        super().finish()

    def do_GET(self) -> None:  # pylint: disable=invalid-name
        """The page, or one of its parts."""
        try:
            token, name = self._checked(is_asking=False)
        except Refused as refused:
            self._refuse(refused)
            return
        self.server.reads(self.connection, False)
        kind, octets = self.server.parts[name]
        more = [('Content-Security-Policy', self.server.policy(self.headers['Host'], token))]
        if not name:
            more.append(('Set-Cookie', f'{COOKIE}={self.server.cookie}; Path=/{token}/; HttpOnly; SameSite=Lax'))
        self._reply(200, kind, octets, more)

    def do_POST(self) -> None:  # pylint: disable=invalid-name
        """A question."""
        try:
            self._checked(is_asking=True)
            question = self._question()
            self.server.reads(self.connection, False)
            answer = json.dumps(self.server.answer(question), separators=(',', ':')).encode()
        except Refused as refused:
            self._refuse(refused)
            return
        except Exception as error:  # pylint: disable=broad-exception-caught
            self._refuse(Refused(500, failure(error)))
            return
        self._reply(200, 'application/json', answer)

    def _checked(self, is_asking: bool) -> tuple[str, str]:
        """The token, and what is asked for behind it. What isn't the page's own request is refused."""
        server, hosts = self.server, self.headers.get_all('Host') or []
        if len(hosts) != 1 or hosts[0] not in server.hosts(self.connection.getsockname()[0]):
            raise Refused(403, 'another host')
        origins = self.headers.get_all('Origin') or []
        if origins != [f'http://{hosts[0]}'] and (is_asking or origins):
            raise Refused(403, 'another origin')
        _, token, *_ = f'{self.requestline.split()[1]}/'.split('/', 2)  # of which the standard library takes slashes
        if not server.knows(token):
            raise Refused(403, 'no token: open the address that desk has printed')
        name = self.path.removeprefix(f'/{token}/')
        if name not in (('do',) if is_asking else server.parts):
            raise Refused(404, 'nothing is there')
        server.admit(self.connection, token, self._has_cookie(), is_page=not name)
        return token, name

    def _has_cookie(self) -> bool:
        """Whether the request comes from a browser that has opened an address of the desk."""
        cookies = [each.strip().partition('=') for each in ';'.join(self.headers.get_all('Cookie') or []).split(';')]
        return any([name == COOKIE and hmac.compare_digest(value.encode(), self.server.cookie.encode()) for name, _, value in cookies])

    def _question(self) -> Fields:
        """The body, a JSON object."""
        lengths = self.headers.get_all('Content-Length') or []
        if self.headers.get('Transfer-Encoding') or len(lengths) != 1 or not re.fullmatch(r'\d{1,12}', lengths[0].strip()):
            raise Refused(411, 'a body with its length is wanted')
        if self.headers.get_content_type() != 'application/json':
            raise Refused(415, 'JSON is wanted')
        length = int(lengths[0])
        if length > LONGEST_BODY:
            raise Refused(413, f'a request has at most {LONGEST_BODY} bytes')
        body = self.rfile.read(length)
        if len(body) < length:
            raise Refused(400, 'half a request')
        try:
            found = json.loads(body)
        except (ValueError, RecursionError):
            found = None
        if not isinstance(found, dict):
            raise Refused(400, 'no JSON object')
        return found

    def _refuse(self, refused: Refused) -> None:
        """A refusal ends the connection. What is left of its request is dropped for a while, so that who sends it reads the answer."""
        self.server.reads(self.connection, False)
        self.close_connection = True
        self._reply(refused.status, 'text/plain; charset=utf-8', f'{refused.sentence}\n'.encode())
        try:
            self.connection.shutdown(socket.SHUT_WR)
            self.connection.settimeout(self.server.seconds_of_a_refusal)
            until = time.monotonic() + self.server.seconds_of_a_refusal
            while time.monotonic() < until and self.connection.recv(1 << 16):
                pass
        except OSError:
            pass

    def send_error(self, code: int, message: str | None = None, explain: str | None = None) -> None:
        """What the standard library refuses by itself: a request that is none, or another method."""
        self._refuse(Refused(code, message or 'no such request'))

    def _reply(self, status: int, kind: str, body: bytes, more: Iterable[tuple[str, str]] = ()) -> None:
        """An answer, in one piece."""
        head = [f'HTTP/1.1 {status} {self.responses.get(status, ("", ""))[0]}']
        head += [f'{name}: {value}' for name, value in (*HEADERS, *more, ('Content-Type', kind), ('Content-Length', str(len(body))))]
        head += ['Connection: close'] if self.close_connection else []
        self.wfile.write('\r\n'.join([*head, '', '']).encode() + body)

    def log_message(self, format: str, *args: Any) -> None:  # pylint: disable=redefined-builtin
        """Nothing is told of requests."""
