"""Records of groups that a front shortens (front/src/compacting.rs, clients/compact)."""

import json
import os
import random
import shutil
import signal
import subprocess
import sys
from collections import Counter
from contextlib import contextmanager
from pathlib import Path
from tempfile import TemporaryDirectory

from compacting.groups import CHANGING
from compacting.program import compacted
from compacting.record import write
from compacting.serving import Kept, Server

from tests.support.closing import CLOSED
from tests.support.lines import text_of
from tests.support.program import ROOT
from tests.support.protocol import all_commands
from tests.support.seeds import seed_of

from .fronts import FRONT, PATIENCE, Client, Log, reply
from .grouped import Greeted, Killer, Runs, WorkerCases, hello, servers_of, wait_until
from .stand_servers import wait_until_true

COMPACT = ROOT / "clients" / "compact"
AT = 20_000
SHARE = '{"front":"share","session":"desk__team"}'
CELL = text_of({"do": "new", "class": "Cell"})
TEN_CHANGES = [{"do": "set", "object": 1, "property": "x", "value": it} for it in range(10)]
GROUPS, COMMANDS, ROUNDS, KILLS = 4, 80, 3, 10
GUESTS, OF_GUEST = 12, 250  # clients that come and go, and the commands of each
CUTS = int(os.environ.get("CUTS", "40"))  # random records that are cut
SPINS = 6  # of each session, so that hardly any events wait
STEPS = {
    "begun": "stop()",
    "half": "new = open(into, 'wb'); new.write(old[: len(old) // 2]); new.flush(); stop()",
    "whole": "open(into, 'wb').write(old); stop()",
    "told": "open(into, 'wb').write(old); print(told, flush=True); os.close(1); stop()",
}
# copies the record, so that the new one is as long as the old one, and ends the front at a step
STAND_IN = """
import json, os, signal, sys
size, path, into = int(sys.argv[1].partition("=")[2]), *sys.argv[2:4]
old = open(path, "rb").read(size)
told = json.dumps({"outcome": "compacted", "lines": old.count(b"\\n> ") + 1, "bytes": len(old), "copied": 0})
front = os.getppid()
def stop():
    os.kill(front, signal.SIGKILL)
    sys.exit()
"""
# stops itself the first time that it is started, and is then the program that shortens
STOPS = f"""
import os, signal, sys
try:
    os.mkdir(__file__ + ".stopped")
    os.kill(os.getpid(), signal.SIGSTOP)
except FileExistsError:
    pass
os.execv(sys.executable, [sys.executable, {str(COMPACT)!r}, *sys.argv[1:]])
"""


def setting(value):
    return text_of({"do": "set", "object": 1, "property": "x", "value": value})


def answer_to(client):
    """The next answer, without calls before it."""
    line = client.hear()
    while line.startswith('{"args":'):
        line = client.hear()
    return line


def answers_until_killed(client):
    """The lines that come until the front is killed."""
    lines = []
    try:
        while line := client.hear():
            lines.append(line)
    except CLOSED:
        pass
    return lines


class ServerKiller(Killer):
    """Kills servers a few times, and not the program that shortens records."""

    def kill(self):
        if self.kills == KILLS:
            self.ended.set()
            return
        before, servers = self.said("was ended by signal 9"), [it for it in servers_of(self.process) if is_server(it)]
        if servers:
            os.kill(self.chance.choice(servers), signal.SIGKILL)
            self.kills += 1
            while self.said("was ended by signal 9") == before and not self.ended.wait(0.001):
                pass


def is_server(number):
    """Whether a child of a front is a server. A child that has ended or is just becoming another program has no words, and one
    that has not become one yet has those of the front."""
    try:
        words = Path(f"/proc/{number}/cmdline").read_bytes()
    except OSError:
        return False
    return words != b"" and b"compact" not in words


class CompactCases(WorkerCases):
    """Tests of fronts that shorten records."""

    front_program = FRONT

    def start(self, *options, before=(), server=None):
        """A front with records that are shortened."""
        path, log = Path(self.room, "socket"), Log(Path(self.room, "log"))
        words = [*before, self.front_program, "--quiet", "--workers", "1", "--record", self.records, "--compact-at", str(AT)]
        words += ["--share", "desk__team", *options, path, *(server or [self.program])]
        with log.path.open("wb") as stderr:
            process = subprocess.Popen(words, stderr=stderr)
        self.addCleanup(process.wait)
        self.addCleanup(process.kill)
        process.log = log
        log.wait_for(self, f"metad-front: listening at {path}", process)
        return path, process

    @contextmanager
    def stand_in(self, text):
        """A front next to another program in place of the one that shortens."""
        place = Path(self.room, "place")
        place.mkdir(exist_ok=True)
        shutil.copy(FRONT, place / "metad-front")
        (place / "compact").write_text(text)
        self.front_program = place / "metad-front"
        yield
        self.front_program = FRONT

    def end(self, process):
        process.terminate()
        self.assertEqual(process.wait(PATIENCE), 0, process.log.lines())
        self.assertEqual([it.name for it in self.records.iterdir() if "compact" in it.name], [], "what is left")

    @property
    def record(self):
        return self.records / "desk.lines"

    def member(self, path):
        client = self.enterContext(Client(path))
        self.assertEqual(client.ask(SHARE), reply(True, "desk__team"), "a share")
        return client

    def set_many(self, client, count):
        """Sets a property so often that the record gets long."""
        lines = [setting(value) for value in range(count)]
        client.say(*lines)
        self.assertEqual([answer_to(client) for _ in lines], [reply(True, "desk__team")] * count, "the answers")

    def wait_for_words(self, process, words, count=1):
        wait_until_true(self, lambda: process.log.path.read_text().count(words) >= count, f"{words!r} is logged")


class Compacts(CompactCases):
    """Fronts that shorten records."""

    def test_short(self):
        """A long record becomes short, and restores what it restored before: objects, values, connections and numbers, where a
        worker ends, and where the front is killed."""
        path, process = self.start()
        client = self.member(path)
        for number in (1, 2, 3):
            self.assertEqual(client.ask(CELL), reply(number, "desk__team"), "an object")
        self.assertEqual(client.ask('{"do":"delete","object":3}'), reply(True, "desk__team"), "one is deleted")
        connect = {"do": "connect", "sender": 1, "signal": "xChanged(int)", "receiver": 2, "method": "setX(int)"}
        self.assertEqual(client.ask(text_of(connect)), reply(1, "desk__team"), "a connection")
        self.set_many(client, 400)
        self.wait_for_words(process, "metad-front: the record of desk is compacted: ")
        wait_until_true(self, lambda: self.record.stat().st_size < AT, "it is short")
        self.check_held(client, 399, 4)
        os.kill(servers_of(process)[0], signal.SIGKILL)
        self.check_held(client, 399, 5)
        process.kill()
        process.wait()
        path, process = self.start("--resume")
        self.check_held(self.member(path), 399, 6)
        self.end(process)

    def check_held(self, client, value, number):
        """The session has this value in two objects, which are connected, and this is the number of its next object."""
        get = [text_of({"do": "get", "object": it, "property": "x"}) for it in (1, 2)]
        self.assertEqual([client.ask(it) for it in get], [reply(value, "desk__team")] * 2, "the values")
        self.assertEqual(client.ask(CELL), reply(number, "desk__team"), "the next object")
        for it in (value + 1, value):
            client.say(setting(it))
            self.assertEqual(answer_to(client), reply(True, "desk__team"), "another value")
            self.assertEqual(client.ask(get[1]), reply(it, "desk__team"), "what is connected")

    def test_again(self):
        """A record does not grow with what is done, and is shortened again and again."""
        path, process = self.start()
        client = self.member(path)
        client.ask(CELL)
        for count in (1, 2, 3):
            self.set_many(client, 600)
            self.wait_for_words(process, "the record of desk is compacted: ", count)
        wait_until_true(self, lambda: self.record.stat().st_size < AT, "it is short")
        os.kill(servers_of(process)[0], signal.SIGKILL)
        self.assertEqual(client.ask(text_of({"do": "get", "object": 1, "property": "x"})), reply(599, "desk__team"), "its value")
        self.end(process)

    @contextmanager
    def stopped(self):
        """A client of a front, the front and its server, while the program that shortens the client's record is stopped."""
        with self.stand_in(STOPS):
            path, process = self.start()
        client = self.member(path)
        client.ask(CELL)
        (server,) = servers_of(process)
        self.set_many(client, 300)
        wait_until(self, lambda: len(servers_of(process)) > 1, "the program is started")
        (child,) = (it for it in servers_of(process) if it != server)
        stat = Path(f"/proc/{child}/stat")
        wait_until(self, lambda: stat.read_text().rpartition(")")[2].split()[0] == "T", "it has stopped")
        yield client, process, server
        os.kill(child, signal.SIGCONT)

    def test_not_in_the_way(self):
        """Clients are answered while the program that shortens is stopped, and what is recorded meanwhile is not lost."""
        with self.stopped() as (client, process, server):
            self.set_many(client, 1_000)
        self.wait_for_words(process, "the record of desk is compacted: ")
        os.kill(server, signal.SIGKILL)
        self.assertEqual(client.ask(text_of({"do": "get", "object": 1, "property": "x"})), reply(999, "desk__team"), "its value")
        self.end(process)

    def test_kept(self):
        """A record is kept if events wait, which no command makes again, and if nothing can be left out; the log says so."""
        path, process = self.start()
        client = self.member(path)
        client.ask(CELL)
        client.ask(text_of({"do": "invoke", "object": 1, "method": "setX(int)", "args": [5], "type": "queued"}))
        self.set_many(client, 300)
        self.wait_for_words(process, "metad-front: the record of desk is not compacted: events wait")
        self.assertGreater(self.record.stat().st_size, AT, "its size")
        os.kill(servers_of(process)[0], signal.SIGKILL)
        client.say('{"do":"spin"}')
        self.assertEqual(json.loads(answer_to(client))["reply"]["events"], 1, "the event")
        self.end(process)

    def test_guests(self):
        """Where events wait, which no command makes again, a record still loses the commands of sessions that are over: so the
        time to restore a group does not grow with the clients that come and go."""
        path, process = self.start()
        client = self.member(path)
        client.ask(CELL)
        client.ask(text_of({"do": "invoke", "object": 1, "method": "setX(int)", "args": [5], "type": "queued"}))
        for _ in range(GUESTS):
            with Client(path) as guest:
                name = json.loads(guest.ask(hello("desk")))["session"]
                guest.say(CELL, *[setting(value) for value in range(OF_GUEST)])
                self.assertEqual([answer_to(guest) for _ in range(OF_GUEST + 1)][-1], reply(True, name), "its last answer")
        self.wait_for_words(process, "the record of desk is compacted: ")
        few = GUESTS * OF_GUEST / 2
        wait_until_true(self, lambda: self.record.read_text().count("\n> ") < few, "few commands restore the group")
        wait_until_true(self, lambda: len(servers_of(process)) == 1, "no record is being shortened")
        given = self.record.read_text().count("\n> ")
        self.assertLess(given, few, "the commands that restore the group")
        self.tell(f"{GUESTS * OF_GUEST} commands of guests; left: {given}")
        os.kill(servers_of(process)[0], signal.SIGKILL)
        client.say('{"do":"spin"}')
        self.assertEqual(json.loads(answer_to(client))["reply"]["events"], 1, "the event")
        self.assertEqual(client.ask(text_of({"do": "get", "object": 1, "property": "x"})), reply(5, "desk__team"), "its effect")
        self.end(process)

    def test_reset_meanwhile(self):
        """A record that begins again while it is shortened is not replaced."""
        with self.stopped() as (client, process, server):
            self.assertEqual(client.ask('{"do":"reset"}'), reply(True, "desk__team"), "a reset")
            self.assertEqual(client.ask(CELL), reply(1, "desk__team"), "an object")
        self.wait_for_words(process, "metad-front: the record of desk is not compacted: it has changed meanwhile")
        os.kill(server, signal.SIGKILL)
        self.assertEqual(client.ask(CELL), reply(2, "desk__team"), "the next one")
        self.end(process)

    def test_random(self):
        """Random groups, whose records are shortened all the time while workers are killed, receive what one server tells them."""
        seed, compacted = seed_of(self), 0
        for at in range(ROUNDS):
            with self.subTest(seed=seed, round=at):
                runs = Runs(f"{seed} {at}", GROUPS, COMMANDS, self.room)
                options = ("--record", str(self.records), "--compact-at", "4096")
                with self.workers(2, *runs.words, options=options) as (path, process):
                    clients = Greeted(path, runs)
                    with ServerKiller(random.Random(f"{seed} {at}"), process):
                        clients.drive()
                    wait_until_true(self, lambda: len(servers_of(process)) == 2, "the last one has ended")
                    clients.leave()
                    text = process.log.path.read_text()
                    compacted += text.count(" is compacted: ")
                    self.assertNotIn("cannot be", text)
                self.check_told(runs, clients)
        self.tell(f"compacted: {compacted}")

    def test_failing(self):
        """What kills servers ends where a test fails meanwhile: otherwise the tests would never end."""
        with self.workers(2) as (_, process):
            with self.assertRaises(EOFError), ServerKiller(random.Random(seed_of(self)), process) as killer:
                raise EOFError
            killer.join(PATIENCE)
            self.assertFalse(killer.is_alive())

    def test_words(self):
        """The option needs records and workers, and a size."""
        for words, said in (
            (("--compact-at", "9999"), "--compact-at needs --record and --workers"),
            (("--compact-at", "9999", "--workers", "1"), "--compact-at needs --record and --workers"),
            (("--compact-at", "1", "--workers", "1"), "'1' is no number of bytes, at least 4096"),
        ):
            ran = subprocess.run([FRONT, *words, "s", "p"], capture_output=True, text=True, timeout=PATIENCE)
            self.assertEqual((ran.returncode, ran.stdout), (2, ""), words)
            self.assertIn(said, ran.stderr)


class Killed(CompactCases):
    """Fronts that are killed at each step."""

    def check_killed(self, what, *before):
        """A front that is killed while it shortens a record leaves one that restores all that was answered."""
        shutil.rmtree(self.records, ignore_errors=True)
        path, process = self.start(before=before)
        client = self.member(path)
        self.assertEqual(client.ask(CELL), reply(1, "desk__team"), what)
        client.offer(*[setting(value) for value in range(2_000)])  # the front may end before it has read all
        told = answers_until_killed(client)
        self.assertEqual(set(told), {reply(True, "desk__team")}, what)
        self.assertEqual(process.wait(PATIENCE), -signal.SIGKILL, what)
        self.front_program = FRONT
        path, process = self.start("--resume")
        value = json.loads(self.member(path).ask(text_of({"do": "get", "object": 1, "property": "x"})))["reply"]
        self.assertGreaterEqual(value, len(told) - 1, what)
        self.end(process)

    def test_steps(self):
        """Fronts that are killed when the program begins, has written half a record, a whole one, and says so."""
        for step in STEPS:
            with self.subTest(step), self.stand_in(STAND_IN + STEPS[step]):
                self.check_killed(step)

    def test_rename(self):
        """A front that is killed where it puts the new record in the place of the old one, before that and after it."""
        if shutil.which("strace") is None or subprocess.run(["strace", "-D", "-o", "/dev/null", "true"]).returncode:
            self.skipTest("strace is not on the path, or may not be used: apt-get install strace (Debian)")
        for call in ("rename", "unlink"):  # the second one removes what is left of the new name, after the rename
            with self.subTest(call):
                self.check_killed(call, "strace", "-D", "-qq", "-o", "/dev/null", "-e", f"trace={call}", "-e", f"inject={call}:signal=KILL:when=1")


class Tool(CompactCases):
    """The program that shortens, as people use it."""

    def ran(self, *words):
        return subprocess.run([sys.executable, COMPACT, *map(str, words)], capture_output=True, text=True, timeout=PATIENCE)

    def test_words(self):
        """Help, wrong words, missing files, and a missing server."""
        self.assertEqual((self.ran("--help").returncode, self.ran("--help").stderr), (0, ""))
        for words, status in (((), 2), (("a",), 2), (("--bytes", "x", "a", "b", "c"), 2), (("/nowhere", "b", "c"), 1)):
            ran = self.ran(*words)
            self.assertEqual((ran.returncode, ran.stdout), (status, ""), words)
            self.assertNotIn("Traceback", ran.stderr)
        record = Path(self.room, "desk.lines")
        record.write_text(f"> {CELL}\n{reply(1, 'a')}\n")
        ran = self.ran(record, Path(self.room, "short"), "/nowhere")
        self.assertEqual((ran.returncode, ran.stderr), (1, "compact: /nowhere cannot be started: No such file or directory\n"))

    def test_random(self):
        """After a short record a server answers all further commands of random sessions as it does after the long one, byte for
        byte, wherever the record was cut. Events are delivered before that, so that most records can be compacted."""
        words = self.reasons(0)
        self.assertGreater(words.count(""), CUTS // 20, words)

    def test_random_ended(self):
        """The same where most sessions are over, so that their commands are left out if the others cannot be made again."""
        words = self.reasons(0.7)
        self.assertGreater(words.count("left out"), 0, words)

    def reasons(self, share):
        """Why random records are kept, empty where they are not, if such a share of their sessions is reset in the end."""
        seed = seed_of(self)
        tried = [(f"{seed} {at}", (f"{seed} {at}", share)) for at in range(CUTS)]
        came = self.check_each(tried, lambda how: self.cut_and_compare(*how), lambda found: found[0])
        words = [why for _, why in came]
        self.tell(f"compacted: {words.count('')}, {Counter(filter(None, words))}")
        return words

    def cut_and_compare(self, seed, share):
        """What is wrong after a short record in place of the first part of a random one, or None; and why it was kept."""
        with TemporaryDirectory(prefix="metad-compacts-") as room:
            runs = Runs(seed, 1, 60, room)
            words = [self.program, *runs.words]
            chance = random.Random(seed)
            cut = chance.randrange(len(runs.steps) // 4, len(runs.steps))
            names = sorted({it["session"] for it in runs.steps})
            ended = {name for name in names if chance.random() < share}
            given = [text_of(command).encode() for command in runs.steps[:cut]]
            given += [text_of({"do": "reset", "session": name}).encode() for name in sorted(ended)]
            if not ended:
                given += [text_of({"do": "spin", "session": name}).encode() for _ in range(SPINS) for name in names]
            more = [text_of(command).encode() for command in runs.steps[cut:] if command["session"] not in ended]
            with Server(words) as server:
                answers = server.ask([*given, *more])
            record = Path(room, "record")
            with record.open("wb") as file:
                write(file, given, answers[: len(given)])
            try:
                short, told = compacted(words, record, record.stat().st_size)
            except Kept as why:
                return None, str(why)
            with Server(words) as server:
                again = server.ask([*short, *more])
        if again[: len(short)] != told:
            return f"{seed}: the short record is answered otherwise", ""
        pairs = zip(again[len(short) :], answers[len(given) :])
        differs = next((at for at, pair in enumerate(pairs) if pair[0] != pair[1]), None)
        if differs is None:
            return None, "left out" if ended and set(short) <= set(given) else ""
        return f"{seed}: cut at {cut}, line {cut + differs}: {more[differs]}: {again[len(short) + differs]}, {answers[len(given) + differs]}", ""

    def test_open_group(self):
        """Changes that an open group holds back keep a record; an open group that holds back none is made again."""
        self.assertEqual(CHANGING, {it.word for it in all_commands() if it.effect == "calls"} - {"end"}, "commands that change properties")
        begin, end, get = {"do": "begin"}, {"do": "end"}, {"do": "get", "object": 1, "property": "x"}
        change, refused = ({"do": "set", "object": number, "property": "x", "value": 9} for number in (1, 2))
        for what, commands, outcome in (
            ("nothing", [begin], "compacted"),
            ("reads", [begin, get], "compacted"),
            ("a refused change", [begin, refused], "compacted"),
            ("a change", [begin, change], "kept"),
            ("a change in an inner group", [begin, begin, change, end], "kept"),
            ("a change in an earlier group", [begin, change, end, begin], "compacted"),
        ):
            with self.subTest(what):
                self.assertEqual(self.outcome([{"do": "new", "class": "Cell"}, *TEN_CHANGES, *commands]), outcome)

    def outcome(self, commands):
        """What is done with the record of a session that has given these commands."""
        given = [text_of({**command, "session": "a"}).encode() for command in commands]
        record = Path(self.room, "open")
        with Server([self.program]) as server, record.open("wb") as file:
            write(file, given, server.ask(given))
        ran = self.ran(record, Path(self.room, "short"), self.program)
        self.assertEqual((ran.returncode, ran.stderr), (0, ""))
        return json.loads(ran.stdout)["outcome"]

    def test_another_server(self):
        """A record that the server answers otherwise is kept."""
        record, into = Path(self.room, "desk.lines"), Path(self.room, "short")
        given = text_of({"do": "new", "class": "Cell", "session": "a"})
        record.write_text(f"> {given}\n{reply(2, 'a')}\n")
        ran = self.ran(record, into, self.program)
        self.assertEqual((ran.returncode, ran.stderr), (0, ""))
        self.assertEqual(json.loads(ran.stdout), {"outcome": "kept", "why": "the server answers the record otherwise", "soon": False})
        self.assertFalse(into.exists())

    def test_replayed(self):
        """The server answers a short record as it says, byte for byte. The servers that try it have a low priority."""
        priority = Path(self.room, "priority")
        record, into = Path(self.room, "desk.lines"), Path(self.room, "short")
        steps = [{"do": "new", "class": "Cell"}, *({"do": "set", "object": 1, "property": "x", "value": value} for value in range(50))]
        steps += [{"do": "bind", "object": 1, "property": "y", "to": {"prop": "x"}}, {"do": "new", "class": "Probe"}]
        given = [text_of({**step, "session": name}) for step in steps for name in ("a", "b")]
        told = subprocess.run([self.program], input="\n".join(given), capture_output=True, text=True, check=True).stdout.splitlines()
        self.assertEqual(len(told), len(given), "answers alone")
        record.write_text("".join(f"> {line}\n{answer}\n" for line, answer in zip(given, told)))
        ran = self.ran(record, into, "sh", "-c", 'nice > "$1"; exec "$0"', self.program, priority)
        self.assertEqual((ran.returncode, ran.stderr, json.loads(ran.stdout)["outcome"]), (0, "", "compacted"))
        self.assertEqual(int(priority.read_text()), min(os.nice(0) + 10, 19), "their priority")
        lines = into.read_text().splitlines()
        given = [line[2:] for line in lines if line.startswith("> ")]
        self.assertEqual(len(given), 2 * 4, "two objects, a value and a binding of each session")
        again = subprocess.run([self.program], input="\n".join(given), capture_output=True, text=True, check=True).stdout
        self.assertEqual(again.splitlines(), [line for line in lines if not line.startswith("> ")], "the answers")
