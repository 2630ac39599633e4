"""What a transcript says about the objects of all sessions, command by command."""

from __future__ import annotations

from typing import Collection, Iterator

from common.changes import Done, change
from common.following import Bodies

from . import drawing
from .commands import FORMS, Command
from .lines import NO_SESSION, Call, Error, Line, Reply, Warned
from .objects import Objects
from .words import plain


class Knowledge:
    """What is known of the objects of each session, and what was called and warned of in the command that is being done.
    `slots` says what slots do, where it is known."""

    def __init__(self, slots: Bodies | None = None) -> None:
        self.slots = slots
        self.sessions: dict[str, Objects] = {}
        self.calls: list[Call] = []
        self.warned: set[int] = set()

    def hear(self, line: Line) -> None:
        """A call or a warning of the command that is being done."""
        if isinstance(line, Call):
            self.calls.append(line)
        elif isinstance(line, Warned) and line.object:
            self.warned.add(line.object)

    def end(self, command: Command, line: Line) -> None:
        """The command is done or refused."""
        if line.session == NO_SESSION:
            return
        reply = line.reply if isinstance(line, Reply) else None
        error = line.error if isinstance(line, Error) else None
        done = Done(command.asked, reply, error, self.calls, self.warned, command.word in FORMS)
        self.calls, self.warned = [], set()
        change(self.sessions.setdefault(line.session, Objects()), done, self.slots)
        if command.word == "reset" and error is None:
            self.sessions[line.session] = Objects()

    def missing(self, name: str, numbers: Collection[int]) -> str:
        """Which of these objects do not exist, when a session receives that at least one does not."""
        return self.sessions.get(name, Objects()).missing(numbers)

    def drawn(self) -> Iterator[str]:
        for name in sorted(self.sessions):
            yield f"objects of session {plain(name)}:"
            yield from (f"    {line}" for line in drawing.drawn(self.sessions[name]))
