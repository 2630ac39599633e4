"""The connections of browsers to the inspector: how many there may be, and how long one may take for a request."""

import http.client
import select
import socket
import threading
import time
from unittest import mock

from inspecting import serving
from inspecting.classes import Classes
from inspecting.feed import Asking
from inspecting.pages import Leave, Pages
from inspecting.serving import CONNECTIONS_MOST, NEWS_MOST, Handler
from inspecting.world import World

from tests.support.closing import give, has_closed

from .fronts import PATIENCE, ClientCases

TOKEN = "token"
SHORT = 0.5  # seconds in which requests have to come here
LONG = 600
PIECES_MOST = 30  # of a request that is too large


class Connections(ClientCases):
    """Browsers, and others of this machine, that connect."""

    def serve(self, begin=LONG):
        """A server of the page in this process."""
        self.enterContext(mock.patch.object(Handler, "seconds", begin))
        self.enterContext(mock.patch.object(serving, "SECONDS_OF_REST", LONG))
        door = self.enterContext(socket.socket())
        door.bind(("127.0.0.1", 0))
        door.listen(64)
        self.own = "127.0.0.1:%d" % door.getsockname()[1]
        server = serving.serve(door, TOKEN, Pages(World(Classes()), Asking(None), Leave(), []))
        self.addCleanup(server.shutdown)
        return server

    def link(self):
        """A connection on which nothing was said yet."""
        host, _, port = self.own.partition(":")
        return self.enterContext(socket.create_connection((host, int(port)), PATIENCE))

    def request(self, path=f"/{TOKEN}/about", more=""):
        return f"GET {path} HTTP/1.1\r\nHost: {self.own}\r\n{more}\r\n".encode()

    def ask(self, link, **how):
        """The status that a request is answered by."""
        link.sendall(self.request(**how))
        answer = http.client.HTTPResponse(link)
        answer.begin()
        answer.read()
        return answer.status

    def is_closed(self, link, seconds=PATIENCE):
        """Whether the other side has closed, or does within a time, having said nothing more."""
        return bool(select.select([link], [], [], seconds)[0]) and has_closed(link)

    def test_most(self):
        """One connection too many is refused by 503 and closed, takes no thread, and there is room again when one has gone."""
        self.serve()
        before = set(threading.enumerate())  # some of them may be about to end
        links = [self.link() for _ in range(CONNECTIONS_MOST)]
        self.assertEqual({self.ask(link) for link in links}, {200})
        self.assertEqual(len(set(threading.enumerate()) - before), CONNECTIONS_MOST)
        for _ in range(40):
            late = self.link()
            late.settimeout(PATIENCE)
            answer = http.client.HTTPResponse(late)
            answer.begin()
            self.assertEqual((answer.status, answer.getheader("Connection"), answer.read()), (503, "close", b"busy\n"))
            self.assertTrue(self.is_closed(late))
        self.assertEqual(len(set(threading.enumerate()) - before), CONNECTIONS_MOST)
        self.assertEqual(self.ask(links[1]), 200, "one that was there before")
        links[0].close()
        self.until(lambda: self.again() == 200)

    def again(self):
        """What a new connection is answered."""
        with socket.create_connection(("127.0.0.1", int(self.own.partition(":")[2])), PATIENCE) as link:
            try:
                return self.ask(link)
            except (OSError, http.client.HTTPException):
                return None

    def until(self, holds):
        """Waits until it is so."""
        until = time.monotonic() + PATIENCE
        while not holds():
            self.assertLess(time.monotonic(), until, "it is not so")
            time.sleep(0.05)

    def test_news(self):
        """Only so many connections may wait for news, so that there is room for others."""
        self.serve()
        told = [self.link() for _ in range(NEWS_MOST)]
        for link in told:
            link.sendall(self.request(f"/{TOKEN}/news"))
            self.assertEqual(link.recv(12), b"HTTP/1.1 200")
        self.assertEqual(self.ask(self.link(), path=f"/{TOKEN}/news"), 503)
        self.assertEqual(self.ask(self.link()), 200)

    def test_silent(self):
        """A connection on which no request comes is closed."""
        self.serve(begin=SHORT)
        links = [self.link() for _ in range(CONNECTIONS_MOST)]
        for link in links:
            self.assertTrue(self.is_closed(link))
        self.until(lambda: self.again() == 200)

    def test_half(self):
        """One on which half a request comes is closed when its time is over, though byte after byte comes, with the token too."""
        self.serve(begin=1)
        body = f"POST /{TOKEN}/ask HTTP/1.1\r\nHost: {self.own}\r\nContent-Type: application/json\r\nContent-Length: 1000\r\n\r\n".encode()
        for start in (b"GET /", f"GET /{TOKEN}/about HTTP/1.1\r\nHost: {self.own}\r\n".encode(), body):
            begun, link = time.monotonic(), self.link()
            link.sendall(start)
            while not self.is_closed(link, 0.05):
                self.assertLess(time.monotonic() - begun, PATIENCE, start)
                if not give(link, b"x"):
                    break
            self.assertGreater(time.monotonic() - begun, 0.9, start)

    def test_idle(self):
        """A connection that stays open after a request is closed if no other request comes. Until then it is answered."""
        self.serve()
        link = self.link()
        for _ in range(3):
            self.assertEqual(self.ask(link), 200)
        self.enterContext(mock.patch.object(serving, "SECONDS_OF_REST", SHORT))
        self.assertEqual(self.ask(link), 200)
        self.assertTrue(self.is_closed(link))

    def test_token(self):
        """Without the token nothing stays open, and nothing of a body is awaited."""
        self.serve()
        for path, more in (("/", ""), ("/x/about", "Connection: keep-alive\r\n"), ("/x/news", ""), ("//[", ""), ("/x/ask", "Content-Length: 1000\r\n")):
            link = self.link()
            self.assertEqual(self.ask(link, path=path, more=more), 403, path)
            self.assertTrue(self.is_closed(link), path)

    def test_large(self):
        """A request of more bytes than one may have is not read to its end."""
        self.serve()
        link, sent = self.link(), 0
        link.sendall(b"GET / HTTP/1.1\r\n")
        while not self.is_closed(link, 0.2 if sent < PIECES_MOST else PATIENCE):
            self.assertLess(sent, PIECES_MOST)
            if not give(link, b"a: " + b"x" * 60_000 + b"\r\n"):
                break
            sent += 1
