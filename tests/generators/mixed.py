"""Random runs of a few sessions that listen to each other, and what of a run decides the output of one of its sessions.

The sessions of a run publish signals of their objects, join each other, mostly by what another one publishes, and
leave and are reset now and then; else they do what sessions of `bindings` do. So what one of them posts reaches others
whose slots post on. Several runs share a server and take turns at random: their sessions never name each other.
"""

from dataclasses import dataclass, field
from string import ascii_lowercase

from tests.plain.slicing import kept
from tests.plain.world import Server

from . import bindings, reads, signals

RUNS = 500
RUNS_AT_ONCE = 10
SESSIONS = (2, 5)
SOURCES = 2  # sessions that a session listens to, at most
COMMANDS = 60  # of a session
FIRST_OBJECTS, FIRST_CONNECTIONS = 2, 4
NAMES = ("p", "q", "r", "end")
STRANGE_TYPES = (["no"], ["int", "double"], ["int"] * 11, ["Int"])
LISTENING = {"publish": 8, "join": 10, "unpublish": 1, "leave": 2, "reset": 0.3, "block": 2, "spin": 14, "invoke": 20}


class Chance(bindings.Chance):
    """Random commands of sessions that listen to each other."""

    def command_among(self, server, name, sources):
        """A command of the session of this name, which may listen to those of the sources."""
        session = server.session(name)
        if len(session.rows) < FIRST_OBJECTS and self.is_so(0.8):
            return {"do": "new", "class": "Lamp"}
        if session.last_connection < FIRST_CONNECTIONS and session.rows and self.is_so(0.5):
            return self.command_of(self.first_connection(), self.own_object(session), self.own_object(session))
        if session.rows and self.is_so(reads.SHARE_BEFORE):
            return reads.read_of(self, session, self.old_row(session).number)
        if self.is_so(0.5):
            return self.listening(server, session, sources)
        return self.command(session)

    def listening(self, server, session, sources):
        kind = self.choices(list(LISTENING), LISTENING.values())[0]
        made = {
            "publish": lambda: self.publish(session),
            "join": lambda: self.join(server, session, sources),
            "unpublish": lambda: {"name": self.choice(NAMES)},
            "leave": lambda: self.leave(session, sources),
            "block": lambda: {"object": self.publisher(session)[0], "on": self.is_so(0.5)},
            "invoke": lambda: self.send(session),
        }
        return {"do": kind, **(made[kind]() if kind in made else {})}

    def own_object(self, session):
        living = [row.number for row in session.rows]
        return self.object(living) if living and self.is_so(0.95) else session.last_number + 1

    def publish(self, session):
        signal = self.method() if self.is_so(0.1) else self.signal(0.25)
        return {"object": self.own_object(session), "signal": signal, "name": self.choice(NAMES)}

    def publisher(self, session):
        """An object and its signal, most times one that is published."""
        if session.publications and self.is_so(0.9):
            found = self.choice(session.publications)
            return found.number, session.methods(found.number)[found.signal].text
        return self.own_object(session), self.signal()

    def send(self, session):
        number, signal = self.publisher(session)
        return {"object": number, "method": signal, "args": [self.value(it) for it in signals.kinds_of(signal)], **self.type(0.2)}

    def join(self, server, session, sources):
        source = session.name if self.is_so(0.03) else self.choice(sources)
        name, kinds = self.published(server.session(source))
        method = self.joined_method(kinds)
        types = self.choice(STRANGE_TYPES) if self.is_so(0.03) else kinds
        return {"from": source, "name": name, "types": types, "object": self.own_object(session), "method": method}

    def published(self, session):
        """A name and types, most times those of something that a session publishes."""
        if session.publications and self.is_so(0.8):
            found = self.choice(session.publications)
            kinds = session.methods(found.number)[found.signal].kinds
            return found.name, kinds if self.is_so(0.85) else self.kinds()
        return self.choice(NAMES), self.kinds()

    def kinds(self):
        return signals.kinds_of(self.signal(0.2))

    def joined_method(self, kinds):
        """A method, most times one that fits these kinds."""
        methods = (*signals.SLOTS, *signals.SIGNALS, "deleteLater()")
        fitting = [it for it in methods if kinds[: len(signals.kinds_of(it))] == signals.kinds_of(it)]
        return self.choice(fitting) if self.is_so(0.9) else self.method()

    def leave(self, session, sources):
        if session.joins and self.is_so(0.8):
            found = self.choice(session.joins)
            method = session.methods(found.number)[found.method].text
            return {"from": found.source, "name": found.name, "object": found.number, "method": method}
        return {"from": self.choice(sources), "name": self.choice(NAMES), "object": self.own_object(session), "method": self.method()}


@dataclass
class Step:
    """A command, the lines that it is answered by, its posts, the number of events that they have become, and whose joins
    have named its session before."""

    command: dict
    lines: list
    posts: list
    arrived: int
    joined_by: frozenset

    @property
    def session(self):
        return self.command["session"]

    def joined(self):
        """The session that is named by this join, where it is one that was not refused."""
        return self.command["from"] if self.command["do"] == "join" and "reply" in self.lines[-1] else None


@dataclass
class Run:
    """The commands of sessions on one server of the plain program, one after another, and the groups of those sessions."""

    server: Server
    groups: list
    steps: list = field(default_factory=list)

    def do(self, command):
        sessions = self.server.sessions
        joined_by = self.server.joined_by(command["session"])
        others = [session for name, session in sessions.items() if name != command["session"]]
        before = sum(len(it.queue) for it in others)
        lines, posts = self.server.done(command)
        self.steps.append(Step(command, lines, posts, sum(len(it.queue) for it in others) - before, joined_by))

    def commands(self):
        return [step.command for step in self.steps]

    def lines(self):
        return [line for step in self.steps for line in step.lines]

    def commands_beside(self, name):
        """The commands of a session and of those that it may name."""
        group = next(it for it in self.groups if name in it)
        return [step.command for step in self.steps if step.session in group]

    def told(self, name):
        """The lines of a session."""
        return [line for step in self.steps for line in step.lines if step.session == name]

    def items(self, name):
        """The input of a session: its commands, and the posts of the others with their names."""
        for step in self.steps:
            if step.session == name:
                yield step.command
            else:
                yield from ((step.session, post) for post in step.posts)

    def influence(self, name):
        """The sessions that may affect a session's output: itself, and whom a join of one of these has named."""
        found, joins = {name}, {(step.session, step.joined()) for step in self.steps}
        while more := {source for session, source in joins if session in found and source is not None} - found:
            found |= more
        return found

    def within_influence(self, name):
        """The commands of the sessions that may have told a session something."""
        found = self.influence(name)
        return [step.command for step in self.steps if step.session in found]

    def slice(self, name):
        """The commands that may affect a session's output, each found by the joins that were made before it."""
        return [step.command for step in kept(self.steps, name)]


def group_of(chance, number):
    """The names of a few sessions, each with those that it may listen to."""
    names = [f"{letter}{number}" for letter in ascii_lowercase[: chance.randint(*SESSIONS)]]
    others = {name: [it for it in names if it != name] for name in names}
    return {name: chance.sample(of, min(len(of), chance.randint(1, SOURCES))) for name, of in others.items()}


def run_of(chance, server, number=RUNS_AT_ONCE, commands=COMMANDS):
    """So many runs, which take turns on a server, with so many commands for each session."""
    run = Run(server, [group_of(chance, at) for at in range(number)])
    for _ in range(commands * sum(map(len, run.groups))):
        name, sources = chance.choice(list(chance.choice(run.groups).items()))
        run.do({**chance.command_among(server, name, sources), "session": name})
    return run


def renamed(command, more):
    """A command in which all sessions have longer names."""
    return {**command, **{key: command[key] + more for key in ("session", "from") if key in command}}


def renamed_line(line, more):
    """An output line in which the sessions that a reply to `joins` names have longer names, but not that of the line itself."""
    reply = line.get("reply")
    if isinstance(reply, list) and all(isinstance(it, dict) and "from" in it for it in reply):
        return {**line, "reply": [{**it, "from": it["from"] + more} for it in reply]}
    return line
