"""How a transcript is explained, line by line, next to the commands that it answers."""

from __future__ import annotations

from dataclasses import dataclass, field
from typing import Callable, Iterator

from common.files import Said
from common.objects import Misfit

from .commands import Command
from .drawing import MARKS
from .knowledge import Knowledge
from .lines import NO_SESSION, Error, Line, OfFront, line_of
from .refusing import further
from .words import counted, plain


@dataclass
class Telling:
    """A transcript that is explained, and the commands that it answers. `advise` says what to do about a code."""

    say: Callable[[Said], None]
    commands: Iterator[Command] | None = None
    command: Command | None = None
    knowledge: Knowledge = field(default_factory=Knowledge)
    misfits: bool = False
    advise: Callable[[str], str] = lambda _code: ""

    def tell(self, raw: bytes) -> None:
        """Says a line and what it means."""
        line = line_of(raw)
        if isinstance(line, OfFront):
            self.say(raw.rstrip(b"\n"))
            return self.mean(f"session {plain(line.session)}: {line.said()}")
        if line is not None and self.commands and self.command is None:
            self.begin()
        self.say(raw.rstrip(b"\n"))
        if line is None:
            return self.mean("not a line of metad")
        command = self.command
        name = "no session" if line.session == NO_SESSION else f"session {plain(line.session)}"
        try:
            said = self.paired(self.command, line) if self.command else line.said()
        except Misfit:
            return self.give_up(f"{name}: {line.said()}")
        self.mean(f"{name}: {said}")
        if isinstance(line, Error) and command:
            for it in further(line.faults(command), self.advise(line.error)):
                self.mean(f"    {it}")

    def mean(self, words: str) -> None:
        self.say(f"    {words}")

    def begin(self) -> None:
        self.command = next(self.commands, None) if self.commands else None
        if self.command:
            self.say(b"> " + self.command.raw.rstrip(b"\n"))
        else:
            self.give_up()

    def give_up(self, said: str | None = None) -> None:
        """Goes on without commands, as they are not those of the transcript."""
        if said and self.command:
            self.mean(said)
            number = self.command.number
            self.mean(f"this does not answer line {number} of the commands, which are left aside from here on")
        else:
            self.mean("there is no command left that the next line could answer")
        self.commands, self.command, self.misfits = None, None, True

    def paired(self, command: Command, line: Line) -> str:
        """What a line means where it belongs to the command, which it may end."""
        if line.session != command.session and not (line.session == NO_SESSION and isinstance(line, Error)):
            raise Misfit
        if not line.ends:
            self.knowledge.hear(line)
            return line.said()
        said = line.said_to(command, self.knowledge.missing) if isinstance(line, Error) else line.said_to(command)
        self.knowledge.end(command, line)
        self.command = None
        return said

    def end(self) -> None:
        """What is left without an answer."""
        if self.commands is None:
            return
        first = self.command or next(self.commands, None)
        if first:
            further = sum(1 for _ in self.commands)
            rest = f"; unanswered after it: {counted(further, 'line')}" if further else ""
            self.mean(f"line {first.number} of the commands has no answer{rest}")

    def draw(self) -> None:
        """Says what is known of the objects of each session, and what the marks there mean."""
        if self.misfits:
            return self.say("no tree: the commands are not those of this transcript")
        lines = list(self.knowledge.drawn())
        ends = {word for line in lines for word in line.rsplit(" ", 2)[1:]}
        for line in (*lines, *(f"{mark}: {meaning}" for mark, meaning in MARKS.items() if mark in ends)):
            self.say(line)
