"""WebSockets of tests, by bytes as they are, and relays for them. They know nothing of the library that the relay uses."""

import base64
import functools
import hashlib
import os
import re
import signal
import socket
import struct
import subprocess
import sys
import unittest
from contextlib import contextmanager
from pathlib import Path

from tests.support.closing import CLOSED
from tests.support.program import ROOT

from .fronts import PATIENCE, FrontCases, Log
from .stand_servers import wait_until_true

WEB = ROOT / "clients" / "web"
TEXT, BINARY, CLOSE, PING, PONG = 1, 2, 8, 9, 10
SALT = "258EAFA5-E914-47DA-95CA-C5AB0DC85B11"  # of RFC 6455
KEY = base64.b64encode(bytes(range(16))).decode()
ACCEPTED = base64.b64encode(hashlib.sha1((KEY + SALT).encode()).digest()).decode()
ANY = "127.0.0.1:0"


@functools.lru_cache(maxsize=None)
def python_with_web_sockets():
    """A Python that has the package websockets, or None."""
    for path in (sys.executable, "/usr/bin/python3"):
        words = [path, "-c", "import websockets.legacy.server"]
        if os.path.exists(path) and subprocess.run(words, capture_output=True, timeout=PATIENCE).returncode == 0:
            return path
    return None


def frame(kind, data, is_last=True):
    """A frame as a browser sends it."""
    mask = b"\x01\x02\x03\x04"
    size = len(data)
    if size < 126:
        length = bytes([0x80 | size])
    else:
        length = b"\xfe" + struct.pack("!H", size) if size < 65_536 else b"\xff" + struct.pack("!Q", size)
    whole = bytes(byte ^ mask[at % 4] for at, byte in enumerate(data))
    return bytes([(0x80 if is_last else 0) | kind]) + length + mask + whole


class WebSocket:
    """A client of a relay, which sends and reads frames as they are."""

    def __init__(self, port, context=None, path="/", receive=None, **headers):
        self.link = socket.socket()
        if receive is not None:
            self.link.setsockopt(socket.SOL_SOCKET, socket.SO_RCVBUF, receive)
        self.link.settimeout(PATIENCE)
        self.link.connect(("127.0.0.1", port))
        if context is not None:
            self.link = context.wrap_socket(self.link, server_hostname="localhost")
        self.reader = self.link.makefile("rb")
        self.port = port
        self.status, self.headers, self.body = self.asked(path, **headers)

    def asked(self, path, **headers):
        """The status, the headers and the body of what is answered to the request."""
        given = {
            "Host": f"127.0.0.1:{self.port}", "Upgrade": "websocket", "Connection": "Upgrade", "Sec-WebSocket-Version": "13",
            "Sec-WebSocket-Key": KEY, **{key.replace("_", "-"): value for key, value in headers.items()},
        }  # fmt: skip
        lines = [f"GET {path} HTTP/1.1", *(f"{key}: {value}" for key, value in given.items() if value is not None), "", ""]
        self.link.sendall("\r\n".join(lines).encode())
        status = int(self.reader.readline().split()[1])
        found = {}
        while line := self.reader.readline().decode().strip():
            key, _, value = line.partition(": ")
            found[key.lower()] = value
        return status, found, b"" if status == 101 else self.reader.read()

    def __enter__(self):
        return self

    def __exit__(self, *_error):
        self.leave()

    def leave(self):
        self.reader.close()
        self.link.close()

    def say(self, *lines):
        self.link.sendall(b"".join(frame(TEXT, line if isinstance(line, bytes) else line.encode()) for line in lines))

    def read(self):
        """The next frame: its kind and its data; None at the end of the connection."""
        try:
            head = self.reader.read(2)
            if len(head) < 2:
                return None
            size = head[1]
            if size == 126:
                (size,) = struct.unpack("!H", self.reader.read(2))
            elif size == 127:
                (size,) = struct.unpack("!Q", self.reader.read(8))
            return head[0] & 0x0F, self.reader.read(size)
        except CLOSED:
            return None

    def hear(self):
        """The next line, or the code and the reason by which the relay closes."""
        while True:
            found = self.read()
            if found is None:
                return None
            kind, data = found
            if kind == TEXT:
                return data.decode()
            if kind == CLOSE:
                return struct.unpack("!H", data[:2])[0], data[2:].decode()
            if kind == PING:
                self.link.sendall(frame(PONG, data))

    def ask(self, line):
        self.say(line)
        return self.hear()


@unittest.skipIf(python_with_web_sockets() is None, "no Python here has websockets (Debian: python3-websockets)")
class WebCases(FrontCases):
    """Tests of relays."""

    def started(self, place, *options):
        """A relay that listens, with what it says in `log`."""
        log = Log(Path(self.room, "relay.log"))
        with log.path.open("wb") as stderr:
            words = [python_with_web_sockets(), WEB, "--listen", ANY, *options, place]
            process = subprocess.Popen(words, stdin=subprocess.DEVNULL, stdout=subprocess.PIPE, stderr=stderr)
        process.log = log
        return process

    @contextmanager
    def relay(self, place, *options, name=WEB.name):
        """The port of a relay to a front, and its process. At the end it is asked to end, and has to, with nothing to say."""
        with self.started(place, *options) as process:
            try:
                port = self.port_of(process)
                yield port, process
                process.send_signal(signal.SIGTERM)
                said = process.communicate(timeout=PATIENCE)[0]
                lines = [line for line in process.log.lines() if not re.match(rf"{name}: (files|listening) at ", line)]
                self.assertEqual((process.returncode, said, lines), (0, b"", []), "the relay's end")
            finally:
                process.kill()

    def port_of(self, process):
        """The port at which a relay says that it listens."""
        found = []

        def is_said():
            self.assertIsNone(process.poll(), f"the relay has ended: {process.log.lines()}")
            found[:] = [re.search(r"listening at wss?://\S+:(\d+)/$", line) for line in process.log.lines() if "listening" in line]
            return bool(found)

        wait_until_true(self, is_said, "the relay listens")
        return int(found[0][1])

    @contextmanager
    def fronted(self, *options, words=(), server=None):
        """A front and a relay to it: the port of the relay, the path of the front, the relay's process and the front's."""
        with self.front(*words, server=server, options=("--quiet", "--share", "team")) as (path, front):
            with self.relay(path, *options) as (port, process):
                yield port, path, process, front

    def opened(self, port, **headers):
        """A WebSocket that the relay has opened."""
        made = WebSocket(port, **headers)
        self.assertEqual((made.status, made.headers.get("sec-websocket-accept")), (101, ACCEPTED), made.body)
        return made
