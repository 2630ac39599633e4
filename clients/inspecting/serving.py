"""The page and what it asks for, over HTTP, for browsers of this machine that know the token."""

from __future__ import annotations

import hmac
import io
import socket
import threading
import time
from http.server import BaseHTTPRequestHandler, ThreadingHTTPServer
from pathlib import Path
from typing import Any, Callable, Dict, Optional, Tuple
from urllib.parse import parse_qs

from .allowed import value_of
from .connections import Connections, Source
from .happened import dumped
from .pages import Pages, Refused

HERE = ("127.0.0.1", "localhost")
PAGE = Path(__file__).with_name("page")
KINDS = {".html": "text/html", ".css": "text/css", ".js": "text/javascript"}
BODY_MOST = 65_536
SECONDS_OF_NEWS = 0.2  # between two pieces of news, where there is any
SECONDS_OF_QUIET = 5  # after which it is said that nothing is new
SECONDS_TO_TAKE = 10  # in which a browser takes what it receives, or is dropped
NEWS_MOST = 32  # browsers that receive news at once
CONNECTIONS_MOST = 6 * NEWS_MOST  # of all browsers together: as many as each of them opens
SECONDS_TO_BEGIN = 30  # in which the first request of a connection has to come, whole and with the token: a browser does not ask again
SECONDS_OF_REST = 20  # in which each further one has to
POLICY = "; ".join((
    "default-src 'none'", "script-src 'self'", "style-src 'self'", "connect-src 'self'",
    "base-uri 'none'", "form-action 'none'", "frame-ancestors 'none'",
))  # fmt: skip
HEADERS = {
    "Content-Security-Policy": POLICY,
    "X-Content-Type-Options": "nosniff",
    "Referrer-Policy": "no-referrer",
    "Cross-Origin-Resource-Policy": "same-origin",
    "Cache-Control": "no-store",
}


def files_of_page() -> Dict[str, Tuple[str, bytes]]:
    """The files of the page by their names, each with its kind."""
    found = (it for it in PAGE.iterdir() if it.suffix in KINDS)
    return {it.name: (KINDS[it.suffix], it.read_bytes()) for it in found}


class Server(ThreadingHTTPServer):
    """Serves the page to browsers, each connection in a thread of its own, and only so many at once."""

    daemon_threads = True

    def __init__(self, door: socket.socket, token: str, pages: Pages) -> None:
        super().__init__(("", 0), Handler, bind_and_activate=False)
        self.socket.close()
        self.socket = door
        self.server_address = door.getsockname()[:2]
        self.token = token.encode()
        self.pages = pages
        self.files = files_of_page()
        self.news = threading.BoundedSemaphore(NEWS_MOST)
        self.connections = Connections(CONNECTIONS_MOST)
        port = self.server_address[1]
        self.hosts = [f"{host}:{port}" for host in HERE]

    def process_request(self, request: Any, client_address: Any) -> None:
        """Serves a connection, where there is room for one more; else it is refused and closed."""
        if not self.connections.enter():
            self.connections.refuse(request)
            return
        try:
            super().process_request(request, client_address)
        except RuntimeError:  # no thread can be started
            self.connections.leave()
            self.connections.refuse(request)

    def process_request_thread(self, request: Any, client_address: Any) -> None:
        try:
            super().process_request_thread(request, client_address)
        finally:
            self.connections.leave()

    def handle_error(self, _request: Any, _address: Any) -> None:
        """Says nothing of a browser that has gone."""


class Handler(BaseHTTPRequestHandler):
    """What one browser asks for."""

    server: Server
    protocol_version = "HTTP/1.1"
    server_version, sys_version = "metad-inspect", ""
    seconds = SECONDS_TO_BEGIN

    def setup(self) -> None:
        super().setup()
        self.source = Source(self.connection)
        self.rfile.close()
        self.rfile = io.BufferedReader(self.source)

    def handle_one_request(self) -> None:
        """Answers one request, which has to come whole within a time."""
        self.source.await_request(self.seconds)
        super().handle_one_request()

    def log_message(self, *_words: Any) -> None:
        """Keeps no log, because it would contain tokens."""

    def send_error(self, code: int, _message: Optional[str] = None, _explain: Optional[str] = None) -> None:
        """Refuses what is no request, and methods that there are not."""
        self.refuse(code)

    def do_GET(self) -> None:
        self.answer(self.get)

    def do_POST(self) -> None:
        self.answer(self.post)

    # ---- who may ask ----

    def answer(self, do: Callable[[str, Dict[str, str]], None]) -> None:
        """Answers whoever may ask, whose connection may then stay open; refuses all others without saying why."""
        path, _, query = self.path.partition("?")
        token, _, name = path[1:].partition("/")
        if not self.is_known(token):
            return self.refuse(403)
        self.seconds = SECONDS_OF_REST
        try:
            asked = {key: values[-1] for key, values in parse_qs(query, keep_blank_values=True).items()}
            do(name, asked)
        except Refused as refused:
            self.refuse(refused.status)
        except (LookupError, ValueError, TypeError, AttributeError, ArithmeticError, RecursionError):
            self.refuse(400)

    def is_known(self, token: str) -> bool:
        """Whether a request has the token, and comes from a page of this server's own if from any."""
        is_right = hmac.compare_digest(token.encode("utf-8", "replace"), self.server.token)
        hosts = self.headers.get_all("Host") or []
        origin = self.headers.get("Origin")
        is_own = len(hosts) == 1 and hosts[0] in self.server.hosts
        is_from_here = origin is None or origin in [f"http://{it}" for it in self.server.hosts]
        return is_right and is_own and is_from_here

    def refuse(self, status: int) -> None:
        """Refuses a request, and closes the connection, also where not all of the request was read."""
        self.close_connection = True
        self.send(status, "text/plain", b"refused\n" if status == 403 else b"there is no such thing\n")
        self.source.pass_over()

    def send(self, status: int, kind: str, body: bytes) -> None:
        """Sends a whole answer, which the browser has to take within a time."""
        self.connection.settimeout(SECONDS_TO_TAKE)
        self.send_response(status)
        for name, value in HEADERS.items():
            self.send_header(name, value)
        self.send_header("Content-Type", f"{kind}; charset=utf-8")
        self.send_header("Content-Length", str(len(body)))
        if self.close_connection:
            self.send_header("Connection", "close")
        self.end_headers()
        if self.command != "HEAD":
            self.wfile.write(body)

    # ---- what is asked ----

    def get(self, name: str, asked: Dict[str, str]) -> None:
        """Answers with a file of the page, with news, or with what is known."""
        if name == "news":
            return self.tell_news()
        found = self.server.files.get(name or "index.html")
        if found is not None:
            return self.send(200, *found)
        self.send(200, "application/json", self.server.pages.answer(name, asked))

    def post(self, name: str, _asked: Dict[str, str]) -> None:
        """Does what the page asks for."""
        self.send(200, "application/json", dumped(self.server.pages.post(name, self.body())))

    def body(self) -> Any:
        """The value that a request brings: JSON of a length that is said, and is not too large."""
        words = self.headers.get_all("Content-Length") or []
        is_plain = len(words) == 1 and words[0].isascii() and words[0].isdecimal() and len(words[0]) < 9
        if not is_plain or self.headers.get("Transfer-Encoding") or self.headers.get_content_type() != "application/json":
            raise Refused(400)
        length = int(words[0])
        if length > BODY_MOST:
            raise Refused(400)
        body = self.rfile.read(length)
        if len(body) < length:
            raise Refused(400)
        return value_of(body)

    def tell_news(self) -> None:
        """Tells a browser of each change, until it has gone or takes nothing any more."""
        if not self.server.news.acquire(blocking=False):
            raise Refused(503)
        try:
            self.close_connection = True
            self.connection.settimeout(SECONDS_TO_TAKE)
            self.begin_news()
            self.go_on_telling()
        except OSError:
            pass
        finally:
            self.server.news.release()

    def begin_news(self) -> None:
        self.send_response(200)
        for name, value in HEADERS.items():
            self.send_header(name, value)
        self.send_header("Content-Type", "text/event-stream")
        self.send_header("Connection", "close")
        self.end_headers()

    def go_on_telling(self) -> None:
        before: Optional[bytes] = None
        told_at = 0.0
        while True:
            news = self.server.pages.answer_news()
            if news != before or time.monotonic() - told_at > SECONDS_OF_QUIET:
                self.wfile.write(b"data: " + news + b"\n\n")
                before, told_at = news, time.monotonic()
            time.sleep(SECONDS_OF_NEWS)


def serve(door: socket.socket, token: str, pages: Pages) -> Server:
    """Begins to serve; answers what does."""
    door.setblocking(True)
    server = Server(door, token, pages)
    threading.Thread(target=server.serve_forever, kwargs={"poll_interval": 0.5}, daemon=True).start()
    return server
