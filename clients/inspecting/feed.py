"""What the front tells the inspector, line by line, and what the inspector asks for."""

from __future__ import annotations

import json
import select
import socket
import threading
from time import monotonic_ns
from typing import Any, Callable, Dict, List, Optional

from .entries import Entry
from .world import World

CHUNK = 262_144  # bytes that are read at once
PIECE = 400  # lines that are taken before the page may look
SECONDS_TO_ANSWER = 10

Ended = Callable[[Entry], None]


class Asking:
    """The commands that the inspector has asked for. Each waits for its answer."""

    def __init__(self, link: Optional[socket.socket]) -> None:
        self.link = link
        self.lock = threading.Lock()
        self.number = 0
        self.waiting: Dict[int, threading.Event] = {}
        self.answers: Dict[int, Entry] = {}

    def ask(self, session: str, command: bytes) -> Optional[Entry]:
        """Asks for a command in the name of a session; answers it with the lines it received, or None where these did not come.
        The name is one of a session, and the command one line without its end."""
        if self.link is None:
            return None
        done = threading.Event()
        with self.lock:
            self.number += 1
            number = self.number
            self.waiting[number] = done
            try:
                self.link.sendall(b"%d %s %s\n" % (number, session.encode(), command))
            except OSError:
                done.set()  # the front has ended
        done.wait(SECONDS_TO_ANSWER)
        with self.lock:
            self.waiting.pop(number, None)
            return self.answers.pop(number, None)

    def answer(self, number: int, entry: Optional[Entry]) -> None:
        """A command was answered, or refused by the front."""
        with self.lock:
            done = self.waiting.get(number)
            if done is not None and entry is not None:
                self.answers[number] = entry
        if done is not None:
            done.set()

    def answer_all(self) -> None:
        """Nothing is known any more of what was asked."""
        with self.lock:
            for done in self.waiting.values():
                done.set()


class Feed:
    """Takes what the front tells, and makes a world of it."""

    def __init__(self, world: World, asking: Asking) -> None:
        self.world = world
        self.asking = asking
        self.begun = b""
        self.asked: Dict[int, int] = {}  # numbers of what the inspector asked for, by those of the commands

    def take(self, data: bytes) -> None:
        """Takes bytes as they come, in pieces between which the page may look."""
        *lines, self.begun = (self.begun + data).split(b"\n")
        for at in range(0, len(lines), PIECE):
            with self.world.lock:
                for line in lines[at : at + PIECE]:
                    self.line(line)
                if self.world.now:
                    self.world.compare_clocks(monotonic_ns() // 1_000)

    def line(self, line: bytes) -> None:
        """Takes one line."""
        mark = line[:1]
        if mark == b"{":
            self.end(self.world.tell(line))
        elif mark == b">":
            self.world.begin(line[1:])
        elif mark == b"@":
            self.world.now = int(line[1:])
        elif mark == b"?":
            number, _, command = line[1:].partition(b" ")
            self.asked[self.world.begin(command, by_inspector=True).number] = int(number)
        elif mark == b"!":
            self.note(json.loads(line[1:]))

    def end(self, entry: Optional[Entry]) -> None:
        """A command has ended, which the inspector may have asked for."""
        if entry is not None and entry.by_inspector:
            self.asking.answer(self.asked.pop(entry.number, 0), entry)

    def note(self, said: Dict[str, Any]) -> None:
        """Takes what the front says unasked."""
        if "gone" in said:
            self.world.go(said["gone"])
        for number in said.get("refused", ()):
            self.asking.answer(number, None)
        if "left" in said:
            names: List[str] = [name for name, _ in said["under_way"]]
            self.world.leave_out(said["left"], said["sessions"], names)
            self.asked.clear()
            self.asking.answer_all()


def first_line(link: socket.socket) -> Dict[str, Any]:
    """The first that the front says: how the inspector is to work."""
    held = b""
    while not held.endswith(b"\n"):
        byte = link.recv(1)
        if not byte:
            return {}
        held += byte
    said = json.loads(held[1:])
    return said if isinstance(said, dict) else {}


def follow(feed: Feed, link: socket.socket) -> None:
    """Takes what the front tells until it ends. Where nothing more has come, what is known is not late."""
    while True:
        if not select.select([link], [], [], 0)[0]:
            with feed.world.lock:
                feed.world.lag = 0
        data = link.recv(CHUNK)
        if not data:
            return
        feed.take(data)
