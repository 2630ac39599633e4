"""Random groups of sessions, and clients that drive them over a front with several workers."""

import json
import os
import signal
import subprocess
import threading
import time
from collections import defaultdict
from contextlib import contextmanager, suppress
from hashlib import blake2b
from pathlib import Path

from tests.generators import mixed, signals
from tests.plain.classes import Classes
from tests.plain.world import Server
from tests.support.lines import text_of

from .fronts import FRONT, PATIENCE, Client, FrontCases, classes_in

TWICE_MOST = 3  # workers of one front that are killed while they are brought back
ANSWERS = ('{"reply":', '{"error":')


def hello(group):
    return text_of({"front": "hello", "group": group})


class Runs:
    """Random commands of groups of sessions, in one order. The sessions of a group listen to each other."""

    def __init__(self, seed, groups, commands, room):
        made = mixed.Chance(seed)
        declared, turns = list(made.classes()), made.choice(signals.TURNS)
        run = mixed.run_of(made, Server(Classes(declared), turns), groups, commands)
        self.words = [classes_in(room, declared), "--turns", str(turns)]
        self.group_of = {name: f"g{at}" for at, names in enumerate(run.groups) for name in names}
        self.steps = run.commands()

    def known_as(self, names):
        """The commands with other names for the sessions."""
        for command in self.steps:
            yield {**command, **{key: names.get(command[key], command[key]) for key in ("session", "from") if key in command}}

    def told_alone(self, program, names):
        """What each session receives from one server that is given all commands."""
        given = "".join(text_of(command) + "\n" for command in self.known_as(names))
        ran = subprocess.run([program, *self.words], input=given, capture_output=True, text=True, check=True)
        return by_session(ran.stdout.splitlines())


def by_session(lines):
    """The lines of each session."""
    told = defaultdict(list)
    for line in lines:
        told[json.loads(line)["session"]].append(line)
    return told


class Greeted:
    """A client for each session, which has said hello for the session's group. The commands of a group are given one after
    another, since those of several clients have no order else; those of other groups are under way meanwhile."""

    def __init__(self, path, runs):
        self.runs = runs
        self.clients = {name: Client(path) for name in runs.group_of}
        answers = {name: client.ask(hello(runs.group_of[name])) for name, client in self.clients.items()}
        self.names = {name: json.loads(answer)["session"] for name, answer in answers.items()}
        self.told = defaultdict(list)

    def drive(self):
        """Gives all commands, and hears all the output."""
        under_way = {}
        for own, command in zip(self.runs.steps, self.runs.known_as(self.names)):
            name, group = own["session"], self.runs.group_of[own["session"]]
            if group in under_way:
                self.hear(under_way.pop(group))
            self.clients[name].say(text_of({**command, "session": "mine"}))
            under_way[group] = name
        for name in under_way.values():
            self.hear(name)

    def hear(self, name):
        """Hears the output of a command, up to its answer."""
        line = ""
        while not line.startswith(ANSWERS):
            line = self.clients[name].hear()
            self.told[self.names[name]].append(line)
            if not line:
                raise EOFError(f"{name} is closed")

    def leave(self):
        """Checks that nothing more comes, and closes all clients."""
        for name, client in self.clients.items():
            self.told[self.names[name]] += client.rest()
            client.leave()


class Named:
    """A few clients that name sessions by themselves, each those of some groups, and write all their lines without waiting."""

    def __init__(self, path, runs, clients):
        self.names = {name: f"{group}__{name}" for name, group in runs.group_of.items()}
        groups = sorted(set(runs.group_of.values()))
        self.lines = {at: [] for at in range(min(clients, len(groups)))}
        for own, command in zip(runs.steps, runs.known_as(self.names)):
            at = groups.index(runs.group_of[own["session"]]) % len(self.lines)
            self.lines[at].append(text_of(command))
        self.path = path
        self.told = defaultdict(list)

    def drive(self):
        """Gives all commands, and hears all the output."""
        threads = [threading.Thread(target=self.live, args=(lines,)) for lines in self.lines.values()]
        for thread in threads:
            thread.start()
        for thread in threads:
            thread.join()

    def live(self, lines):
        """What one client does."""
        with Client(self.path) as client:
            writer = threading.Thread(target=client.say, args=lines)
            writer.start()
            answers = 0
            while answers < len(lines):
                line = client.hear()
                if not line:
                    break
                answers += line.startswith(ANSWERS)
                self.told[json.loads(line)["session"]].append(line)
            writer.join()
            for line in client.rest():
                self.told[json.loads(line)["session"]].append(line)

    def leave(self):
        """All have gone already."""


class Meddler(threading.Thread):
    """Meddles with a front while a block runs, and ends with the block, also where that fails: a thread that went on would keep
    the tests from ending."""

    def __init__(self, chance):
        super().__init__()
        self.chance = chance
        self.ended = threading.Event()

    def __enter__(self):
        self.start()
        return self

    def __exit__(self, *_error):
        self.ended.set()
        self.join()


class Killer(Meddler):
    """Kills workers of a front, each at any moment, and now and then one that is brought back."""

    def __init__(self, chance, process):
        super().__init__(chance)
        self.process = process
        self.kills = self.twice = 0

    def run(self):
        while not self.ended.wait(self.chance.random() * 0.03):
            if self.is_whole() or self.twice < TWICE_MOST:
                self.twice += not self.is_whole()
                self.kill()

    def is_whole(self):
        """Whether all workers are where they were."""
        return self.said("is where it was") == self.kills

    def said(self, words):
        return sum(line.endswith(words) for line in self.process.log.lines())

    def kill(self):
        """Kills one, if one is there, and waits until the front knows."""
        before, servers = self.said("was ended by signal 9"), servers_of(self.process)
        if not servers:
            return
        os.kill(self.chance.choice(servers), signal.SIGKILL)
        self.kills += 1
        while self.said("was ended by signal 9") == before and not self.ended.wait(0.001):
            pass


class Mover(Meddler):
    """Moves random groups, one after the other, as long as there is output to come."""

    def __init__(self, test, chance, groups, workers):
        super().__init__(chance)
        self.test = test
        self.groups = groups
        self.workers = workers
        self.answers = []

    def run(self):
        while not self.ended.wait(self.chance.random() * 0.005):
            asked = {"front": "move", "group": self.chance.choice(self.groups), "worker": self.chance.randint(1, self.workers)}
            self.answers.append((asked, self.test.ask_front(**asked)))


class WorkerCases(FrontCases):
    """Tests of a front with several workers."""

    @contextmanager
    def workers(self, count, *words, options=(), server=None):
        """A front with so many workers, whose log is not looked at."""
        given = ("--quiet", "--workers", str(count), "--control", self.control_path, *options)
        with self.front(*words, options=given, server=server) as (path, process):
            yield path, process

    @property
    def control_path(self):
        return str(Path(self.room, "control"))

    @property
    def records(self):
        return Path(self.room, "records")

    def front_words(self, *options):
        """The words of a front, up to those of its server."""
        return [str(FRONT), "--quiet", *options, str(Path(self.room, "socket"))]

    def ask_front(self, **asked):
        """What the front answers at its control socket."""
        with Client(self.control_path) as client:
            return json.loads(client.ask(text_of(asked)))

    def places(self):
        """Which group is with which worker."""
        return {row["group"]: row["worker"] for row in self.ask_front(front="groups")["reply"]}

    def check_told(self, runs, clients):
        """Each session has received what one server that is given all commands sends it."""
        wanted = runs.told_alone(self.program, clients.names)
        for name in sorted(wanted.keys() | clients.told.keys()):
            self.assertEqual(clients.told[name], wanted[name], f"what {name} receives")


def worker_of(group, count):
    """The worker that a group belongs to with so many workers, computed as the front's page says it, without a ring."""

    def point(text):
        return int(blake2b(text.encode(), digest_size=8).hexdigest(), 16)

    points = [(point(f"{number}/{at}"), number) for number in range(1, count + 1) for at in range(128)]
    behind = [it for it in points if it[0] >= point(group)]
    return min(behind or points)[1]


def servers_of(process):
    """The processes that a front has started and not waited for."""
    found = Path(f"/proc/{process.pid}/task/{process.pid}/children").read_text().split()
    return [int(it) for it in found]


def wait_until(test, holds, what):
    """Waits until something holds."""
    until = time.monotonic() + PATIENCE
    while not holds():
        if time.monotonic() > until:
            test.fail(f"this does not happen: {what}")
        time.sleep(0.005)


def write_until(test, link, lines, holds, what):
    """Writes these lines again and again, as many as the other side takes, and reads nothing, until something holds."""
    rest = b""

    def holds_now():
        nonlocal rest
        with suppress(OSError):  # the other side takes nothing more, for now or at all
            for _ in range(1_000):
                rest = rest or lines
                rest = rest[link.send(rest) :]
        return holds()

    link.setblocking(False)
    wait_until(test, holds_now, what)
