"""How tests start servers and fronts, and clients that talk with a front by lines as they are."""

import argparse
import json
import os
import re
import socket
import subprocess
import sys
import threading
import time
from contextlib import contextmanager, suppress
from pathlib import Path
from tempfile import TemporaryDirectory

from tests.support.cases import ProgramCases
from tests.support.closing import give, rest_of
from tests.support.lines import text_of
from tests.support.program import ROOT, SECONDS

from . import PYTHON

FRONT = Path(os.environ.get("METAD_FRONT") or ROOT / "bin" / "metad-front")  # the front that is tested
PASSED = "-"  # stands for a socket that the front was passed
PATIENCE = 60  # seconds in which a front has to listen, to answer and to end: more than any machine needs
STATUS = '{"do":"status"}'
GREETED = '{"error":"E02","session":"-"}'  # the server's answer to the front's first line
GREETED_BY_PYTHON = f"import sys; sys.stdin.readline(); print('{GREETED}', flush=True)\n"
GREETED_BY_SHELL = f"read line; echo '{GREETED}'; "
NEW = '{"class":"Probe","do":"new"}'


def reply(value, session):
    return text_of({"reply": value, "session": session})


def error(code, session):
    return text_of({"error": code, "session": session})


def classes_in(room, classes):
    path = Path(room, "classes.json")
    path.write_text(text_of({"classes": classes}))
    return str(path)


class Client:
    """A client of a front, or a monitor, that writes and reads lines as they are."""

    def __init__(self, path):
        self.link = socket.socket(socket.AF_UNIX)
        self.link.connect(str(path))  # waits where many others do
        self.link.settimeout(PATIENCE)
        self.reader = self.link.makefile("rb")

    def __enter__(self):
        return self

    def __exit__(self, *_error):
        self.leave()

    def say(self, *lines):
        self.link.sendall("".join(f"{line}\n" for line in lines).encode())

    def offer(self, *lines):
        """Writes lines to a side that may have closed, as the test expects; returns whether it still took them."""
        return give(self.link, "".join(f"{line}\n" for line in lines).encode())

    def hear(self):
        """The next line, empty at the end."""
        return self.reader.readline().decode().rstrip("\n")

    def ask(self, line):
        self.say(line)
        return self.hear()

    def name(self):
        """The name that the front gave to the session of a client that receives nothing but answers."""
        return json.loads(self.ask(STATUS))["session"]

    def rest(self):
        """All lines until the end, when it writes no more."""
        self.link.shutdown(socket.SHUT_WR)
        return self.reader.read().decode().splitlines()

    def until_closed(self):
        """All that comes until the other side closes, with or without having read what this one wrote."""
        return rest_of(self.reader)

    def told(self):
        """The lines that come until the other side closes."""
        return self.until_closed().decode().splitlines()

    def leave(self):
        self.reader.close()
        self.link.close()


def front_of(*words, **how):
    pipe = subprocess.PIPE
    return subprocess.Popen([FRONT, *words], stdout=pipe, stderr=pipe, text=True, **how)


def front_help():
    """The front's answer to its words."""
    return subprocess.run([FRONT, "--help"], capture_output=True, text=True, timeout=PATIENCE, check=True).stdout


def parser():
    """Reads words as the front's help says that the front does."""
    made = argparse.ArgumentParser(allow_abbrev=False)
    for name, value in re.findall(r"^  (--[a-z-]+)(?: ([A-Z]+))?(?:  |$)", front_help(), re.MULTILINE):
        made.add_argument(name, **({"type": int if value == "N" else str} if value else {"action": "store_true"}))
    made.add_argument("socket")
    made.add_argument("program")
    made.add_argument("args", nargs=argparse.REMAINDER)
    return made


@contextmanager
def monitored(room, *texts):
    """A socket that stands for a front: each one that connects there receives these texts, and then no more."""
    path = Path(room, "monitors")
    with socket.socket(socket.AF_UNIX) as listener:
        listener.bind(str(path))
        listener.listen()

        def write():
            with suppress(OSError):  # it listens no more
                while True:
                    with listener.accept()[0] as link:
                        for text in texts:
                            link.sendall(text.encode())

        thread = threading.Thread(target=write, daemon=True)
        thread.start()
        try:
            yield path
        finally:
            listener.shutdown(socket.SHUT_RDWR)
            thread.join(PATIENCE)
            path.unlink()


def listens(path):
    """Whether a front listens there."""
    with socket.socket(socket.AF_UNIX) as link:
        return link.connect_ex(str(path)) == 0


class ClientCases(ProgramCases):
    """Tests that have a folder of their own, and have to end in a time, also on a machine that does much else."""

    seconds = 3 * SECONDS

    def setUp(self):
        self.room = self.enterContext(TemporaryDirectory(prefix="metad-clients-"))
        self.enterContext(self.within(self.seconds))

    def ran_example(self, path, *words):
        """A run of an example in Python, which finds the client in this repository."""
        own = {**os.environ, "PYTHONPATH": str(PYTHON), "PYTHONDONTWRITEBYTECODE": "1", "TMPDIR": self.room}
        words = [sys.executable, "-W", "error", path, *words]
        return subprocess.run(words, capture_output=True, text=True, timeout=SECONDS, env=own, stdin=subprocess.DEVNULL)

    def raised(self, what, kind, call, *args, **keys):
        """The exception of this kind that a call has to raise."""
        with self.assertRaises(kind, msg=what) as caught:
            call(*args, **keys)
        return caught.exception


def whole_lines(path):
    """The lines of a file that is being written, without a last line that is not complete yet."""
    text = path.read_bytes().rpartition(b"\n")[0].decode()
    return text.split("\n") if text else []


class Log:
    """What a front says on standard error, which goes to a file."""

    def __init__(self, path):
        self.path = path
        self.path.touch()

    def lines(self):
        return whole_lines(self.path)

    def wait_for(self, test, line, process=None):
        """Waits until a line is said."""
        until = time.monotonic() + PATIENCE
        while line not in self.lines():
            if time.monotonic() > until or (process and process.poll() is not None):
                test.fail(f"{line!r} is not said, but {self.lines()}")
            time.sleep(0.01)


class FrontCases(ClientCases):
    """Tests of a front, with many clients and servers at once."""

    def wait_for(self, path, process):
        """Waits until a front listens."""
        until = time.monotonic() + PATIENCE
        while not listens(path):
            if time.monotonic() > until or process.poll() is not None:
                process.kill()
                self.fail(f"the front does not listen: {process.communicate()}")
            time.sleep(0.01)

    @contextmanager
    def front(self, *words, options=("--quiet",), server=None):
        """The path of a front, and its process, whose log is `log`. At the end it is asked to end, and has to; where it
        is quiet, with nothing to say."""
        path, log = Path(self.room, "socket"), Log(Path(self.room, "log"))
        given = [FRONT, *options, path, *(server or [self.program]), *words]
        with log.path.open("wb") as stderr, subprocess.Popen(given, stdout=subprocess.PIPE, stderr=stderr) as process:
            process.log = log
            try:
                log.wait_for(self, f"metad-front: listening at {path}", process)
                yield path, process
                process.terminate()
                said = process.communicate(timeout=PATIENCE)[0]
                self.assertEqual((process.returncode, said, path.exists()), (0, b"", False), f"the front's end: {log.lines()}")
                if options == ("--quiet",):
                    self.assertEqual(log.lines(), [f"metad-front: listening at {path}"], "what the front says")
            finally:
                process.kill()
