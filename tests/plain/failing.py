"""The answers where memory is refused: the refusals that the answers to a run's lines report.

A session fails in a command of its own, with any number of the command's posts made by then, or where a post reaches it; a
line is lost while it is read; and a session is not entered. Nothing else may come of a refusal while the program goes on.
"""

from copy import deepcopy
from dataclasses import dataclass

from tests.support.lines import lines_of

from .lines import NOBODY, answer, command_of, error
from .session import TURNS
from .world import Server, done

FAILED, RECEIVER_FAILED, LINE_LOST, NOT_ENTERED = "session failed", "receiver failed", "line lost", "session not entered"


@dataclass(frozen=True)
class Refusal:
    """What came of a refused growth, and the session that was hit by it, which for a lost line is nobody."""

    kind: str
    session: str


class Followed(Server):
    """A server on which memory was refused in some ways, and which sessions posts have reached since their last command."""

    def __init__(self, classes=None, turns=TURNS):
        super().__init__(classes, turns)
        self.refusals, self.reached = (), set()

    def deliver(self, session, posts):
        self.reached |= {other.name for post in posts for other in self.joiners(session, post)}
        super().deliver(session, posts)

    def joiners(self, session, post):
        """The other sessions that join a post of a session."""
        return [it for it in self.sessions.values() if it is not session and it.joins_of(session.name, post)]

    def copied(self):
        return deepcopy(self, {id(self.classes): self.classes})

    def hit(self, kind, name):
        """A session, or nobody, was hit by a refusal."""
        self.refusals += (Refusal(kind, name),)
        return self

    def fail(self, kind, name):
        """A session has failed."""
        self.session(name).fail()
        self.reached.discard(name)
        return self.hit(kind, name)


def told_error(code, session):
    return lines_of(error(code, session))


def failures(server, command):
    """What a server may be once a command was answered by E21 for its session."""
    name = command["session"]
    entered = server.copied()
    session = entered.session(name)
    _, posts = done(deepcopy(session, {id(session.classes): session.classes}), command)
    heard = [post for post in posts if entered.joiners(session, post)]
    for made in range(len(heard) + 1):
        after = entered.copied()
        after.deliver(after.session(name), heard[:made])
        yield after.fail(FAILED, name)
    if name not in server.sessions:
        yield server.hit(NOT_ENTERED, name)


def after_line(server, line, told):
    """What a server may be once a line was answered so, or nothing where it cannot be."""
    if told == told_error("E21", NOBODY):
        return [server.hit(LINE_LOST, NOBODY)]
    command = command_of(line)
    name = command["session"] if command else NOBODY
    if command and told == told_error("E21", name):
        return list(failures(server, command))
    if command and told == told_error("E20", name) and name in server.reached and command["do"] != "reset":
        server.fail(RECEIVER_FAILED, name)
    if command:
        server.reached.discard(name)
    return [server] if answer(server, line) == told else []


def followed(server, lines, answers):
    """What a server, which is used up, may be once lines were answered so, each with the refusals that led there.

    There may be more lines than answers.
    """
    servers = [server]
    for line, told in zip(lines, answers):
        servers = [after for before in servers for after in after_line(before, line, told)]
    return servers
