"""Sessions side by side, and what reaches one of them from the others."""

from .commands import COMMANDS
from .session import TURNS, Session
from .values import Refused, refuse


def done(session, command):
    """The lines that a session prints for a command, and the posts that it makes, in their order."""
    session.begin()
    try:
        is_answered = not session.failed or command["do"] == "reset"
        last = {"reply": COMMANDS[command["do"]](session, command) if is_answered else refuse("E20")}
    except Refused as refused:
        session.begin()
        last = {"error": str(refused)}
    return [{**line, "session": session.name} for line in (*session.lines, last)], session.posts


class Server:
    """Sessions by their names. What one of them posts arrives at all others once its command is done."""

    def __init__(self, classes=None, turns=TURNS):
        self.classes, self.turns, self.sessions = classes, turns, {}

    def session(self, name):
        return self.sessions.setdefault(name, Session(name, self.classes, self.turns))

    def joined_by(self, name):
        """The names of the sessions that have a join of something of this one."""
        return frozenset(it.name for it in self.sessions.values() if any(join.source == name for join in it.joins))

    def done(self, command):
        """The answers to a command, line by line, and what it has posted to the others."""
        session = self.session(command["session"])
        lines, posts = done(session, command)
        self.deliver(session, posts)
        return lines, posts

    def deliver(self, session, posts):
        """The posts of a session arrive at all others."""
        for post in posts:
            for other in self.sessions.values():
                if other is not session:
                    other.arrive(session.name, post)

    def step(self, command):
        """The answers to a command, line by line."""
        return self.done(command)[0]


def told_alone(session, items):
    """The lines that a session alone prints for its commands and the posts that reach it, each with the name of its sender."""
    lines = []
    for item in items:
        if isinstance(item, dict):
            lines += done(session, item)[0]
        else:
            session.arrive(*item)
    return lines
