"""The parts of hard use of a front: the front with its log and figures, and clients whose every line is known in advance."""

from __future__ import annotations

import json
import os
import selectors
import signal
import socket
import subprocess
import time
from pathlib import Path
from typing import Callable, Dict, List, Sequence

from metad.fronts import front_words

PATIENCE = 60  # seconds in which something has to come
AHEAD = 8  # commands of a pump that are under way
CHUNK = 262_144
EARLY = 0.05  # seconds between two checks of a condition
BEGINS = (
    '{"class":"Cell","do":"new"%s}',
    '{"do":"connect","method":"seen(int)","receiver":1,"sender":1,"signal":"xChanged(int)"%s}',
)


class Failed(Exception):
    """The front did something that it must not do."""


def wait_until(holds: Callable[[], bool], what: str, pause: Callable[[float], object] = time.sleep) -> None:
    """Waits until something holds."""
    until = time.monotonic() + PATIENCE
    while not holds():
        if time.monotonic() > until:
            raise Failed(f"not within {PATIENCE} seconds: {what}")
        pause(EARLY)


class Front:
    """A front that is started here, with its files in a folder. As a context manager, it is killed at the end."""

    def __init__(self, room: Path, server: Sequence[str], *options: str, before: Sequence[str] = ()) -> None:
        self.path = room / "socket"
        self.log = room / "log"
        words = [*before, *map(str, front_words()), "--quiet", *options, str(self.path), *server]
        with self.log.open("ab") as log:
            begun = self.log.stat().st_size
            self.process = subprocess.Popen(words, stderr=log, start_new_session=True)
        wait_until(lambda: self.is_listening(begun), "the front listens")

    def __enter__(self) -> Front:
        return self

    def __exit__(self, *_error: object) -> None:
        if self.process.poll() is None:
            self.kill()

    def is_listening(self, begun: int) -> bool:
        """Whether the log says so, after so many bytes of it."""
        self.check()
        return b": listening at " in self.log.read_bytes()[begun:]

    def servers(self) -> List[int]:
        """The processes that the front has started."""
        number = self.process.pid
        return [int(it) for it in Path(f"/proc/{number}/task/{number}/children").read_text().split()]

    def said(self, words: str) -> int:
        """How many lines of the log have these words."""
        return sum(words in line for line in self.log.read_text().splitlines())

    def figure(self, name: str) -> int:
        """A figure of the front's memory in KiB, as `VmHWM`."""
        self.check()
        status = Path(f"/proc/{self.process.pid}/status").read_text()
        return int(next(line.split()[1] for line in status.splitlines() if line.startswith(f"{name}:")))

    def files(self) -> int:
        """How many files the front has open."""
        return len(os.listdir(f"/proc/{self.process.pid}/fd"))

    def check(self) -> None:
        """Fails if the front has ended."""
        if self.process.poll() is not None:
            raise Failed(f"the front has ended with status {self.process.returncode}: {self.log.read_text()[-2_000:]}")

    def kill(self) -> None:
        """Kills the front; its servers end by themselves."""
        servers = self.servers()
        self.process.kill()
        self.process.wait()
        wait_until(lambda: not any(Path(f"/proc/{it}").exists() for it in servers), "its servers have ended")

    def end(self) -> None:
        """Asks the front to end, which it has to do in time and with status 0."""
        self.check()
        self.process.send_signal(signal.SIGTERM)
        if self.process.wait(PATIENCE) != 0:
            raise Failed(f"the front has ended with status {self.process.returncode}")


def connected(path: Path) -> socket.socket:
    """A connection with a front."""
    link = socket.socket(socket.AF_UNIX)
    link.settimeout(PATIENCE)
    link.connect(str(path))
    return link


def ask(link: socket.socket, line: str) -> Dict[str, object]:
    """The answer to a line, if no other line comes before it."""
    link.sendall(line.encode() + b"\n")
    told = b""
    while not told.endswith(b"\n"):
        piece = link.recv(CHUNK)
        if not piece:
            raise Failed(f"a client was closed: {told!r}")
        told += piece
    found = json.loads(told)
    assert isinstance(found, dict)
    return found


class Pump:
    """A client that counts up a property of its object, and receives a call and a reply for each change.

    So each line that it receives is known before. A client that names its session continues with the number that it finds.
    """

    def __init__(self, path: Path, hello: str = "", named: str = "", is_begun: bool = False, ahead: int = AHEAD) -> None:
        self.link = connected(path)
        self.own = f',"session":"{named}"' if named else ""
        self.ahead = ahead
        self.sent = self.answered = 0
        self.name = named or str(ask(self.link, hello or '{"do":"status"}')["session"])
        self.begin(is_begun)
        self.link.setblocking(False)
        self.held = b""

    def begin(self, is_begun: bool) -> None:
        """Makes the object, or finds the one that is there."""
        if is_begun:
            found = ask(self.link, f'{{"do":"get","object":1,"property":"x"{self.own}}}').get("reply")
            if not isinstance(found, int):
                raise Failed(f"{self.name} is not there any more")
            self.sent = self.answered = found
        else:
            for line in BEGINS:
                if "reply" not in ask(self.link, line % self.own):
                    raise Failed(f"{self.name} cannot begin")

    def lines(self, number: int) -> bytes:
        """The lines that come when the property gets this number."""
        call = f'{{"args":[{number}],"call":"seen(int)","object":1,"sender":1,"session":"{self.name}"}}\n'
        return f'{call}{{"reply":true,"session":"{self.name}"}}\n'.encode()

    def push(self) -> None:
        """Writes commands up to the limit of those under way."""
        for self.sent in range(self.sent + 1, self.answered + self.ahead + 1):
            line = f'{{"do":"set","object":1,"property":"x","value":{self.sent}{self.own}}}\n'.encode()
            if self.link.send(line) != len(line):
                raise Failed(f"{self.name} cannot write {AHEAD} lines")

    def hear(self) -> bool:
        """Reads lines, and compares them with those that have to come; returns whether the connection is open."""
        try:
            piece = self.link.recv(CHUNK)
        except ConnectionError:
            piece = b""
        self.held += piece
        while self.held:
            wanted = self.lines(self.answered + 1)
            if len(self.held) < len(wanted) and wanted.startswith(self.held):
                break
            if self.answered == self.sent or not self.held.startswith(wanted):
                raise Failed(f"{self.name} receives {self.held[:300]!r}, and {wanted!r} has to come")
            self.held = self.held[len(wanted) :]
            self.answered += 1
        return bool(piece)


class Pumps:
    """Pumps that are driven by one loop."""

    def __init__(self, pumps: Sequence[Pump]) -> None:
        self.selector = selectors.DefaultSelector()
        self.all: List[Pump] = []
        for pump in pumps:
            self.add(pump)

    def add(self, pump: Pump) -> None:
        self.all.append(pump)
        self.selector.register(pump.link, selectors.EVENT_READ, pump)
        pump.push()

    def drop(self, pump: Pump) -> None:
        """Disconnects one of them, with commands under way."""
        self.all.remove(pump)
        self.selector.unregister(pump.link)
        pump.link.close()

    def drive(self, seconds: float, goes_on: bool = True) -> None:
        """Drives them for some time; it is a fault if the front closes one."""
        until = time.monotonic() + seconds
        while time.monotonic() < until:
            for key, _ in self.selector.select(EARLY):
                if not key.data.hear():
                    raise Failed(f"{key.data.name} was closed")
                if goes_on:
                    key.data.push()

    def drain(self) -> None:
        """Waits until each command that was written is answered."""
        until = time.monotonic() + PATIENCE
        while any(pump.answered < pump.sent for pump in self.all):
            self.drive(EARLY, goes_on=False)
            if time.monotonic() > until:
                raise Failed(f"commands are not answered within {PATIENCE} seconds")

    def hear_ends(self) -> None:
        """Reads what is left, after the front has ended."""
        for pump in self.all:
            pump.link.settimeout(PATIENCE)
            while pump.hear():
                pass
            pump.link.close()
        self.selector.close()

    def close(self) -> None:
        for pump in list(self.all):
            self.drop(pump)
        self.selector.close()


def group_hello(group: str, is_live: bool = False) -> str:
    """The first line of a group's client."""
    return json.dumps({"front": "hello", "group": group, **({"live": True} if is_live else {})})
