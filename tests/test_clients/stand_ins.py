"""Fronts whose page's process is another program: it writes given bytes, or hands its end of the socket to the test."""

import json
import os
import shutil
import socket
import subprocess
import time
from contextlib import contextmanager
from pathlib import Path

from tests.support.closing import CLOSED, give

from .fronts import FRONT, PATIENCE, FrontCases, Log

WRITES = """import os, socket, sys
link = socket.socket(fileno=int(sys.argv[1].partition("=")[2]))
held = b""
while b'"session":"c1"}' not in held:
    held += link.recv(65536)
link.sendall(open(os.environ["SENT"], "rb").read())
while link.recv(65536):
    pass
"""  # writes the given bytes, once there is a session c1
HANDS_OVER = """import os, socket, sys, time
number = int(sys.argv[1].partition("=")[2])
with socket.socket(socket.AF_UNIX) as link:
    link.connect(os.environ["HANDED_TO"])
    socket.send_fds(link, [b"%d" % os.getpid()], [number])
os.close(number)
time.sleep(3600)
"""  # hands over its end, and waits to be ended
MARK = 999_999_999_999_999  # the number of requests by which a test knows that those before were heard


def is_running(number):
    """Whether there is a process of this number that has not ended."""
    try:
        return Path(f"/proc/{number}/stat").read_text().rpartition(")")[2].split()[0] != "Z"
    except OSError:
        return False


class Page:
    """The end of the socket that belongs to the page's process, and the number of that process."""

    def __init__(self, link, number):
        self.link, self.number = link, number
        self.held = b""
        link.settimeout(PATIENCE)

    def say(self, data):
        """Writes bytes; returns whether the front takes them."""
        return give(self.link, data)

    def told(self, is_last=lambda _line: False):
        """The lines that the front sends, up to the last one or to the end."""
        while True:
            *lines, self.held = self.held.split(b"\n")
            for at, line in enumerate(lines):
                yield line
                if is_last(line):
                    self.held = b"\n".join([*lines[at + 1 :], self.held])
                    return
            try:
                piece = self.link.recv(1 << 20)
            except CLOSED:
                piece = b""
            if not piece:
                return
            self.held += piece

    def until_refused(self, number=MARK):
        """The lines up to that which refuses a request of this number, for a session that is not there."""
        self.say(b'\n%d nobody {"do":"status"}\n' % number)
        return list(self.told(lambda line: line == b'!{"refused":[%d]}' % number))

    def until_answered(self, *sessions):
        """The lines up to the answers of these sessions to a question of each."""
        lines = []
        for name in sessions:
            self.say(b'\n%d %s {"do":"status"}\n' % (MARK, name.encode()))
            lines += self.told(lambda line: line.startswith(b"?%d " % MARK))
            lines += self.told(lambda line: line.endswith(b'"session":"%s"}' % name.encode()) and line[:1] == b"{")
        return lines

    def has_ended(self):
        """Whether the process ends."""
        until = time.monotonic() + PATIENCE
        while is_running(self.number):
            if time.monotonic() > until:
                return False
            time.sleep(0.01)
        return True


def refused_in(lines):
    """The numbers of requests that were refused, in their order."""
    return [it for line in lines if line.startswith(b'!{"refused"') for it in json.loads(line[1:])["refused"]]


def given_in(lines):
    """The requests that the server was given, each as its number and the command."""
    asked = [line[1:].partition(b" ") for line in lines if line[:1] == b"?"]
    return [(int(number), json.loads(command)) for number, _, command in asked if int(number) != MARK]


class StandInCases(FrontCases):
    """Tests of fronts whose page's process is another program."""

    @contextmanager
    def front_with(self, program, *options, own=()):
        """The path of such a front, its process, and its log. At the end it is asked to end, and has to."""
        place, path = Path(self.room, "place"), Path(self.room, "socket")
        log = Log(Path(self.room, "log"))
        if not place.exists():
            place.mkdir()
            shutil.copy(FRONT, place / "metad-front")
        (place / "inspect").write_text(program)
        words = [place / "metad-front", "--quiet", "--inspect", "0", *options, path, self.program]
        with log.path.open("wb") as stderr, subprocess.Popen(words, stderr=stderr, env={**os.environ, **dict(own)}) as process:
            try:
                log.wait_for(self, f"metad-front: listening at {path}", process)
                yield path, process, log
                process.terminate()
                self.assertEqual(process.wait(PATIENCE), 0, log.lines())
            finally:
                process.kill()

    @contextmanager
    def handed(self, *options):
        """A front whose page's end of the socket the test has: the path, the process, the log, and that end."""
        where = Path(self.room, "handed")
        where.unlink(missing_ok=True)
        with socket.socket(socket.AF_UNIX) as listener:
            listener.bind(str(where))
            listener.listen()
            listener.settimeout(PATIENCE)
            with self.front_with(HANDS_OVER, *options, own={"HANDED_TO": str(where)}) as (path, process, log):
                with listener.accept()[0] as link:
                    number, (end,), *_ = socket.recv_fds(link, 64, 1)
                with socket.socket(fileno=end) as page:
                    yield path, process, log, Page(page, int(number))
