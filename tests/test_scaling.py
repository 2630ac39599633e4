"""What docs/SCALING.md says of sessions on servers apart, and that its sums are right."""

import json
import os
import random
import re
import shlex
import signal
import subprocess
import unittest
from collections import defaultdict
from pathlib import Path
from tempfile import TemporaryDirectory

from tests.test_clients.fronts import NEW, Client, FrontCases, front_help, parser


from .generators import mixed, signals
from .plain.classes import Classes
from .plain.world import Server
from .support.cases import ProgramCases
from .support.lines import lines_of, text_of
from .support.markdown import section
from .support.program import ROOT
from .support.seeds import seed_of

PAGE = ROOT / "docs" / "SCALING.md"
RUNS, GROUPS, SERVERS_MOST = 20, 8, 4
ROW = re.compile(r"^\| (?!what )(.*) \| (.*) \|$", re.MULTILINE)
SUM = re.compile(r"`([0-9,.*/()^ ]+) = ([0-9,.]+)`")
COMMAND = re.compile(r"^```\n((?:(?!```).*\n)+)```$", re.MULTILINE)
PING = '{"do":"invoke","object":1,"method":"ping()","args":[]}'
PUBLISH = '{"do":"publish","object":1,"signal":"ping()","name":"bell"}'
SPIN = '{"do":"spin"}'
HAS_WORKERS = "--workers" in front_help()
ROUNDED = 0.05  # by how much a sum may differ from what is said, which is rounded


def join(source, **more):
    return text_of({"do": "join", "from": source, "name": "bell", "types": [], "object": 1, "method": "note()", **more})


def told_by(program, commands, words=()):
    """The answers to each session by a server that is given these commands."""
    ran = subprocess.run([program, *words], input=lines_of(commands), capture_output=True, check=True)
    told = defaultdict(list)
    for line in ran.stdout.splitlines():
        told[json.loads(line)["session"]].append(line)
    return told


class Apart(ProgramCases):
    """Sessions on servers apart."""

    def setUp(self):
        self.room = self.enterContext(TemporaryDirectory(prefix="metad-scaling-"))
        self.seed = seed_of(self)

    def test_groups(self):
        """Random groups of sessions, which listen to each other within a group, receive the same from one server as from
        some servers over which the groups are spread in any way."""
        self.check_each(((f"run {at}", self.seed + at) for at in range(RUNS)), self.fault_of)

    def fault_of(self, seed):
        """What is wrong with one run, or None."""
        chance = mixed.Chance(seed)
        declared, turns = list(chance.classes()), chance.choice(signals.TURNS)
        run = mixed.run_of(chance, Server(Classes(declared), turns), GROUPS)
        path = Path(self.room, f"{seed}.json")
        path.write_text(text_of({"classes": declared}))
        words = (str(path), "--turns", str(turns))
        count = chance.randint(2, SERVERS_MOST)
        home = {name: number for names in run.groups for number in [chance.randrange(count)] for name in names}
        apart = {}
        for number in range(count):
            apart.update(told_by(self.program, [it for it in run.commands() if home[it["session"]] == number], words))
        if not any('"call"' in line.decode() for lines in apart.values() for line in lines):
            return "no slot is called"
        return None if apart == told_by(self.program, run.commands(), words) else f"seed {seed}: {words}"

    def test_join_elsewhere(self):
        """A join of a session on another server is answered as where that session is, and hears nothing; so it is with a
        session that nobody has."""
        one = [json.loads(it) | {"session": "a"} for it in (NEW, PUBLISH)]
        other = [json.loads(it) | {"session": "b"} for it in (NEW, join("a"), join("nobody"))]
        ping, spin = json.loads(PING) | {"session": "a"}, json.loads(SPIN) | {"session": "b"}
        beside, apart = told_by(self.program, [*one, *other, ping, spin])["b"], told_by(self.program, [*other, spin])["b"]
        self.assertEqual(beside[:3], apart[:3], "the answers to the joins")
        self.assertEqual(beside[3], b'{"args":[],"call":"note()","object":1,"sender":0,"session":"b"}', "what is heard")
        self.assertEqual(json.loads(apart[3])["reply"]["events"], 0, "what is heard on another server")
        self.assertEqual(told_by(self.program, [*one, ping])["a"], told_by(self.program, [*one, *other, ping, spin])["a"])

    def test_order(self):
        """The answers to a session are in the order of its commands, whatever commands of others are between them."""
        mine = [{"do": "new", "class": "Probe", "session": "a"} for _ in range(50)]
        others = [{"do": "new", "class": "Probe", "session": f"b{number % 7}"} for number in range(200)]
        chance = random.Random(self.seed)
        given = [(chance.random(), it) for it in others] + list(zip(sorted(chance.random() for _ in mine), mine))
        told = told_by(self.program, [it for _, it in sorted(given, key=lambda pair: pair[0])])["a"]
        self.assertEqual([json.loads(it)["reply"] for it in told], list(range(1, 51)))


class Fronts(FrontCases):
    """Clients of fronts."""

    def test_files(self):
        """A client takes one file of the front."""
        with self.front() as (path, process):
            files = Path(f"/proc/{process.pid}/fd")
            first = self.enterContext(Client(path))
            first.ask(NEW)
            before = len(os.listdir(files))
            for _ in range(20):
                self.enterContext(Client(path)).ask(NEW)
            self.assertEqual(len(os.listdir(files)) - before, 20)

    def test_names(self):
        """Two fronts give their clients the same names, and a join of one means the session of its own server."""
        with self.front() as (path, _), Client(path) as host, Client(path) as guest:
            for client in (host, guest):
                client.ask(NEW)
            host.ask(PUBLISH)
            name = host.name()
            other = Path(self.room, "other")
            other.mkdir()
            self.room, before = str(other), self.room
            with self.front() as (beside, _), Client(beside) as stranger, Client(beside) as listener:
                for client in (stranger, listener):
                    client.ask(NEW)
                self.assertEqual(stranger.name(), name, "the first client of the other front")
                for client in (guest, listener):
                    self.assertIn('"reply":true', client.ask(join(name)))
                host.ask(PING)
                self.assertIn('"call":"note()"', guest.ask(SPIN), "who is on the same server")
                self.assertIn('"events":0', listener.ask(SPIN), "who is on the other one")
            self.room = before

    @unittest.skipUnless(HAS_WORKERS, "this front has no workers")
    def test_workers(self):
        """Clients that say the same group hear each other, with whatever worker they are; those of other groups do not."""
        with self.front(options=("--quiet", "--workers", "4")) as (path, _):
            for number in range(12):
                clients = [self.enterContext(Client(path)) for _ in range(3)]
                groups = (f"desk{number}", f"desk{number}", f"hall{number}")
                hellos = [text_of({"front": "hello", "group": it}) for it in groups]
                names = [json.loads(client.ask(hello))["session"] for client, hello in zip(clients, hellos)]
                for client in clients:
                    client.ask(NEW)
                clients[0].ask(PUBLISH)
                for client in clients[1:]:
                    self.assertIn('"reply":true', client.ask(join(names[0])))
                clients[0].ask(PING)
                self.assertIn('"call":"note()"', clients[1].ask(SPIN), names)
                self.assertIn('"events":0', clients[2].ask(SPIN), names)

    @unittest.skipUnless(HAS_WORKERS, "this front has no workers")
    def test_worker_that_ends(self):
        """With a record, a session is where it was when its worker was killed, and can go on."""
        options = ("--quiet", "--workers", "2", "--record", str(Path(self.room, "records")))
        with self.front(options=options) as (path, process), Client(path) as client:
            client.ask(NEW)
            children = Path(f"/proc/{process.pid}/task/{process.pid}/children").read_text().split()
            self.assertEqual(len(children), 2, "the workers")
            for child in children:
                os.kill(int(child), signal.SIGKILL)
            self.assertIn('"reply":[1]', client.ask('{"do":"children"}'), "what it has")

    @unittest.skipUnless(HAS_WORKERS, "this front has no workers")
    def test_group_that_moves(self):
        """A group moves to another worker by the record, and its session is where it was."""
        control = Path(self.room, "control")
        options = ("--quiet", "--workers", "2", "--record", str(Path(self.room, "records")), "--control", str(control))
        with self.front(options=options) as (path, _), Client(path) as client, Client(control) as asking:
            client.ask('{"front":"hello","group":"desk"}')
            client.ask(NEW)
            for worker in (1, 2):
                move = text_of({"front": "move", "group": "desk", "worker": worker})
                self.assertIn('"reply"', asking.ask(move), f"to the worker {worker}")
                self.assertIn('"reply":[1]', client.ask('{"do":"children"}'), f"on the worker {worker}")


class Page(ProgramCases):
    """What can be looked at in the page itself."""

    def test_commands(self):
        """Each command of the page is one that its program takes."""
        commands = [shlex.split(it) for it in COMMAND.findall(PAGE.read_text())]
        self.assertEqual([it[0] for it in commands], ["metad-front", "metad-front", "haproxy"])
        for words in commands[: 2 if HAS_WORKERS else 1]:
            taken = parser().parse_args(words[1:])
            self.assertEqual((taken.socket, taken.program, taken.args), ("metad.sock", "metad", []), words)
        self.assertTrue((ROOT / commands[2][-1]).is_file(), commands[2])

    def test_sums(self):
        """An estimate is the result of its sum, and what was measured is no sum."""
        measured, estimated = map(ROW.findall, section(PAGE.read_text(), "What to expect").split("\n### Estimated\n"))
        self.assertEqual([what for what, value in measured if SUM.search(value)], [], "figures that are measured and have a sum")
        self.assertGreaterEqual(min(len(measured), len(estimated)), 10)
        for what, value in estimated:
            with self.subTest(what):
                (left, right), *_ = SUM.findall(value)
                came = eval(left.replace(",", "").replace("^", "**"), {"__builtins__": {}})
                said = float(right.replace(",", ""))
                self.assertLessEqual(abs(came - said), ROUNDED * said, f"{left} is {came}")
