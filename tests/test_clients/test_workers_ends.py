"""Workers of a front that end: with a record nothing is lost and nothing told twice, without one the clients are closed."""

import json
import os
import random
import select
import signal
import stat
import subprocess
import sys
from pathlib import Path

from tests.support.documents import WORKERS_PAGE
from tests.support.lines import text_of
from tests.support.seeds import seed_of

from .fronts import NEW, PATIENCE, Client, error, reply
from .grouped import Greeted, Killer, Named, Runs, WorkerCases, hello, servers_of, wait_until, worker_of

KILLS = 100
GROUPS, COMMANDS = 6, 60  # of a round
RECORDED = "--record"
LAMPS = ("lamp", "torch", "candle", "moon", "sun")
ON_REPLAY = """\
if mkdir "$0"; then exec "$@"; else "$@" | sed -u 's/"reply":2,"session":"odd__/"reply":3,"session":"odd__/'; fi
"""
HALF = """\
import os, sys, time
path, later, together = sys.argv[1:]
is_first = not os.path.exists(path)
open(path, "w").close()
if is_first:  # only then the front asks for something of its own
    sys.stdin.readline()
    print('{"error":"E02","session":"-"}', flush=True)
for at, line in enumerate(sys.stdin, 1):
    told = '"object":1,"sender":0,"session":"%s"}' % line.split('"session":"')[1].split('"')[0]
    print('{"args":[%s],"call":"one()",%s' % ("" if is_first else later, told), flush=is_first)
    if is_first:
        time.sleep(60)
    print('{"args":[],"call":"two()",%s' % told)
    print('{"reply":true,%s' % told[told.index('"session"'):], flush=at % int(together) == 0)
"""
POISON = """\
import os, sys
for line in sys.stdin:
    if "poison" in line:
        os.abort()
    print('{"reply":true,"session":"%s"}' % line.split('"session":"')[1].split('"')[0], flush=True)
"""
BROKEN = POISON.replace('"poison" in line', "os.path.exists(sys.argv[1])")


class Killed(WorkerCases):
    """Workers that are killed at any moment, with a record."""

    def run_killed(self, kind, options):
        seed, kills, at = seed_of(self), 0, 0
        while kills < KILLS // 2:
            at += 1
            with self.subTest(seed=seed, round=at):
                runs = Runs(f"{seed} {at}", GROUPS, COMMANDS, self.room)
                recorded = (*options, RECORDED, str(self.records))
                with self.workers(2, *runs.words, options=recorded) as (path, process):
                    clients = kind(path, runs)
                    with Killer(random.Random(f"{seed} {at}"), process) as killer:
                        clients.drive()
                    clients.leave()
                self.check_told(runs, clients)
            kills += killer.kills
        self.tell(f"kills: {kills} in {at} rounds")

    def test_hello(self):
        """Clients that say hello receive what a single server sends, and nothing twice."""
        self.run_killed(Greeted, ())

    def test_names(self):
        """So are clients that name sessions."""
        self.run_killed(lambda path, runs: Named(path, runs, 3), ("--group-from", "name"))


class Ends(WorkerCases):
    """What is done where a worker ends."""

    def kill_all(self, process):
        for server in servers_of(process):
            os.kill(server, signal.SIGKILL)

    def far_from(self, group):
        """A group that is with the other one of two workers."""
        return next(it for it in LAMPS if worker_of(it, 2) != worker_of(group, 2))

    def near(self, group):
        """A group that is with the same one of two workers."""
        return next(it for it in LAMPS if worker_of(it, 2) == worker_of(group, 2))

    def half(self, later, *options, together=1):
        """A front whose server tells half of its first answer, and once it is started again all, with these arguments and so
        many answers together."""
        program = Path(self.room, "half.py")
        program.write_text(HALF)
        words = (str(program), str(Path(self.room, "flag")), later, str(together))
        return self.workers(1, *words, options=options, server=[sys.executable])

    def test_lost(self):
        """Without a record, the clients of a killed worker's groups are notified and closed. The others go on. A later client
        has a new session."""
        with self.workers(2) as (path, process), Client(path) as one, Client(path) as mate:
            names = [json.loads(it.ask(hello("desk")))["session"] for it in (one, mate)]
            self.assertEqual([it.ask(NEW) for it in (one, mate)], [reply(1, name) for name in names], "their objects")
            others = [Client(path) for _ in range(8)]
            for other in others:
                other.ask(NEW)
            places = self.places()
            victims = {name for name, worker in places.items() if worker == places["desk"]}
            self.assertTrue({"desk"} < victims < places.keys(), f"groups of both workers: {places}")
            os.kill(servers_of(process)[places["desk"] - 1], signal.SIGKILL)
            self.assertEqual([it.told() for it in (one, mate)], [[error("F04", name)] for name in names], "what they receive")
            for number, other in enumerate(others, 3):
                name = f"c{number}"
                if name in victims:
                    self.assertEqual(other.told(), [error("F04", name)], "another one of that worker")
                else:
                    self.assertEqual(other.ask(NEW), reply(2, name), "one of the other worker")
                other.leave()
            with Client(path) as later:
                name = json.loads(later.ask(hello("desk")))["session"]
                self.assertNotIn(name, names, "its session")
                self.assertEqual(later.ask(NEW), reply(1, name), "its object")

    def test_shared(self):
        """All clients of a shared session are notified when it is lost. A later client finds it empty."""
        share = '{"front":"share","session":"desk__team"}'
        with self.workers(2, options=("--share", "desk__team")) as (path, process):
            with Client(path) as one, Client(path) as other:
                for number, client in enumerate((one, other), 1):
                    self.assertEqual(client.ask(share), reply(True, "desk__team"), "a share")
                    self.assertEqual(client.ask(NEW), reply(number, "desk__team"), "an object")
                self.kill_all(process)
                self.assertEqual([it.told() for it in (one, other)], [[error("F04", "desk__team")]] * 2, "what they receive")
            with Client(path) as later:
                self.assertEqual(later.ask(share), reply(True, "desk__team"), "a later share")
                self.assertEqual(later.ask(NEW), reply(1, "desk__team"), "its object")

    def test_under_way(self):
        """A command that was under way is lost too. Its client receives only the error that says so."""
        with self.half("") as (path, process), Client(path) as client:
            client.say(NEW, NEW)
            self.assertIn('"one()"', client.hear(), "the first half")
            self.kill_all(process)
            self.assertEqual(client.told(), [error("F04", "c1")], "the rest")

    def test_told_in_part(self):
        """If the server ends in the middle of a command's output, the client receives the rest, and nothing twice."""
        with self.half("", RECORDED, str(self.records)) as (path, process), Client(path) as client:
            client.say(NEW, NEW)
            told = [client.hear()]
            self.kill_all(process)
            told += client.rest()
        calls = [text_of({"args": [], "call": f"{it}()", "object": 1, "sender": 0, "session": "c1"}) for it in ("one", "two")]
        self.assertEqual(told, [*calls, reply(True, "c1")] * 2, "what the client receives")

    def test_difference(self):
        """Where a record's answers are others the second time, that group is closed, and the others go on."""
        server = ["sh", "-c", ON_REPLAY, str(Path(self.room, "flag")), self.program]
        with self.workers(1, server=server, options=(RECORDED, str(self.records))) as (path, process):
            with Client(path) as odd, Client(path) as even:
                self.assertEqual(odd.ask(hello("odd")), reply(True, "odd__c1"), "a hello")
                self.assertEqual(even.ask(hello("even")), reply(True, "even__c2"), "another one")
                for number in (1, 2, 3):
                    self.assertEqual(odd.ask(NEW), reply(number, "odd__c1"), "an object")
                    self.assertEqual(even.ask(NEW), reply(number, "even__c2"), "an object of the other")
                self.kill_all(process)
                self.assertEqual(odd.told(), [error("F04", "odd__c1")], "the one that differs")
                self.assertEqual(even.ask(NEW), reply(4, "even__c2"), "the other")
            length = len(reply(2, "odd__c1"))
            why = f"answer 2 of its record is a reply of {length} bytes, and is now a reply of {length} bytes"
            wanted = f"metad-front: odd cannot be brought back: {why}"
            process.log.wait_for(self, wanted)
            with Client(path) as later:
                self.assertEqual(later.ask(hello("odd")), reply(True, "odd__c3"), "a later one")
                self.assertEqual(later.ask(NEW), reply(1, "odd__c3"), "its object")

    def test_difference_under_way(self):
        """If a command's output differs on replay from the part already sent, its client is closed. Later commands get no answer."""
        with self.half("9", RECORDED, str(self.records), together=5) as (path, process), Client(path) as client:
            client.say(*[NEW] * 5)
            self.assertEqual(json.loads(client.hear())["args"], [], "the first half")
            self.kill_all(process)
            self.assertEqual(client.told(), [error("F04", "c1")], "what the client receives then")
            wait_until(self, lambda: not self.places(), "the group has gone")

    def test_record_is_cut(self):
        """A record that somebody has cut is recognized, and its group is lost."""
        with self.workers(1, options=(RECORDED, str(self.records))) as (path, process), Client(path) as client:
            for number in range(1, 9):
                self.assertEqual(client.ask(NEW), reply(number, "c1"), "an object")
            record = self.records / "c1.lines"
            wait_until(self, lambda: len(record.read_bytes().splitlines()) == 16, "all is written")
            os.truncate(record, record.stat().st_size // 2)
            self.kill_all(process)
            self.assertEqual(client.told(), [error("F04", "c1")], "what the client receives")

    def test_again_and_again(self):
        """A group at whose command its worker ends five times is brought back no more, and all others are."""
        program = Path(self.room, "poison.py")
        program.write_text(POISON)
        options, near, far = (RECORDED, str(self.records)), self.near("desk"), self.far_from("desk")
        with self.workers(2, str(program), options=options, server=[sys.executable]) as (path, process):
            with Client(path) as bad, Client(path) as mate, Client(path) as beside, Client(path) as other:
                names = [json.loads(it.ask(hello(group)))["session"] for it, group in ((bad, "desk"), (mate, "desk"), (beside, near), (other, far))]
                for client, name in zip((mate, beside, other), names[1:]):
                    self.assertEqual(client.ask(NEW), reply(True, name), "a command")
                bad.say('{"do":"poison"}')
                self.assertEqual(bad.told(), [error("F04", names[0])], "who has asked for that")
                self.assertEqual(mate.told(), [error("F04", names[1])], "who is in its group")
                self.assertEqual(beside.ask(NEW), reply(True, names[2]), "another group of the same worker")
                self.assertEqual(other.ask(NEW), reply(True, names[3]), "one of the other worker")
            ended = [line for line in process.log.lines() if "was ended by signal 6" in line]
            self.assertEqual(len(ended), 6, "how often it has ended: once, and five times while it was brought back")

    def test_broken(self):
        """Where each process ends that takes the place of one, at whatever command, all groups of that worker are lost, and
        none moves there."""
        program, flag, far = Path(self.room, "broken.py"), Path(self.room, "flag"), self.far_from("desk")
        program.write_text(BROKEN)
        options = (RECORDED, str(self.records))
        with self.workers(2, str(program), str(flag), options=options, server=[sys.executable]) as (path, process):
            with Client(path) as one, Client(path) as mate, Client(path) as other:
                groups = ((one, "desk"), (mate, self.near("desk")), (other, far))
                names = [json.loads(client.ask(hello(group)))["session"] for client, group in groups]
                for (client, _), name in zip(groups, names):
                    self.assertEqual(client.ask(NEW), reply(True, name), "a command")
                places = self.places()
                flag.touch()
                os.kill(servers_of(process)[places["desk"] - 1], signal.SIGKILL)
                self.assertEqual([it.told() for it in (one, mate)], [[error("F04", name)] for name in names[:2]], "what they receive")
                told = self.ask_front(front="move", group=far, worker=places["desk"])
                self.assertEqual((told["error"], self.places()), ("F08", {far: places[far]}), "a move")
            said = f"metad-front: worker {places['desk']} has ended too often, and restarts in "
            self.assertEqual(sum(line.startswith(said) for line in process.log.lines()), 1, "what is said")

    def test_gone_meanwhile(self):
        """The commands of a client that has ended its side are answered, also by a worker that was brought back."""
        with self.workers(1, options=(RECORDED, str(self.records))) as (path, process), Client(path) as client:
            self.assertEqual(client.ask(NEW), reply(1, "c1"), "an object")
            client.say(*[NEW] * 2_000)
            self.kill_all(process)
            self.assertEqual(client.rest(), [reply(number, "c1") for number in range(2, 2_002)], "all that it asked for")

    def test_full(self):
        """A front whose clients have all files that they may still has some for a worker that is started again."""
        words = ["sh", "-c", 'ulimit -n 64; exec "$@"', "sh", *self.front_words("--workers", "2", RECORDED, str(self.records))]
        path = Path(self.room, "socket")
        with subprocess.Popen([*words, self.program], stderr=subprocess.PIPE, text=True) as process:
            try:
                self.wait_for(path, process)
                clients = [Client(path) for _ in range(80)]
                for client in clients:
                    client.say(NEW)
                wait_until(self, lambda: len(self.answered(clients)) > 9, "some are let in")
                answered = self.answered(clients)
                told = [client for client in clients if client.link in answered]
                self.assertLess(len(told), len(clients), "not all are let in")
                names = [json.loads(client.hear())["session"] for client in told]
                self.kill_all(process)
                self.assertEqual([it.ask(NEW) for it in told], [reply(2, name) for name in names], "those that are")
                for client in clients:
                    client.leave()
            finally:
                process.terminate()

    def answered(self, clients):
        """The connections of those that are answered by now."""
        return select.select([client.link for client in clients], [], [], 0)[0]

    def test_monitors(self):
        """A monitor receives the lines of all workers, each once, even when a worker is brought back."""
        monitors = str(Path(self.room, "monitors"))
        with self.workers(2, options=(RECORDED, str(self.records), "--monitor", monitors)) as (path, process):
            with Client(monitors) as monitor, Client(path) as one, Client(path) as other:
                groups = ((one, "desk"), (other, self.far_from("desk")))
                names = [json.loads(client.ask(hello(group)))["session"] for client, group in groups]
                told = [client.ask(NEW) for client in (one, other, one)]
                self.assertEqual([monitor.hear() for _ in told], told, "what both workers tell")
                self.kill_all(process)
                for client, wanted in ((one, reply(3, names[0])), (other, reply(2, names[1]))):
                    self.assertEqual((client.ask(NEW), monitor.hear()), (wanted, wanted), "what comes after that")

    def test_class_file(self):
        """A front whose servers cannot be started ends with status 1."""
        words = [*self.front_words("--workers", "2"), self.program, "/dev/null"]
        ran = subprocess.run(words, capture_output=True, text=True, timeout=PATIENCE)
        self.assertEqual(ran.returncode, 1, ran.stderr)
        self.assertIn("metad-front: the server has ended with status 1\n", ran.stderr, "what it says")


class Records(WorkerCases):
    """What the records of groups contain."""

    def recorded(self, count=1, *options):
        return self.workers(count, options=(RECORDED, str(self.records), *options))

    def lines_of(self, group):
        return (self.records / f"{group}.lines").read_text().splitlines()

    def test_lines(self):
        """Input lines have a mark in front, and output lines are unchanged. Nobody else may read the record."""
        with self.recorded() as (path, _), Client(path) as client:
            client.ask(hello("desk"))
            client.ask(NEW)
            self.assertEqual(client.ask("nonsense"), error("E01", "-"), "a line that is no command")
            given = '> {"class":"Probe","do":"new","session":"desk__c1"}'
            wait_until(self, lambda: len(self.lines_of("desk")) == 4, "all is written")
            self.assertEqual(self.lines_of("desk"), [given, reply(1, "desk__c1"), "> nonsense", error("E01", "-")], "the record")
            rights = [stat.S_IMODE(it.stat().st_mode) for it in (self.records, self.records / "desk.lines")]
            self.assertEqual(rights, [0o700, 0o600], "the rights")

    def test_replay(self):
        """The page's command makes a server repeat the recorded output byte for byte."""
        command = "sed -n 's/^> //p' records/desk.lines | bin/metad"
        self.assertIn(command, WORKERS_PAGE.read_text(), "the page's command")
        seed = seed_of(self)
        runs = Runs(str(seed), 1, 40, self.room)
        runs.group_of = dict.fromkeys(runs.group_of, "desk")
        with self.workers(1, *runs.words, options=(RECORDED, str(self.records))) as (path, _):
            clients = Greeted(path, runs)
            clients.drive()
            told = sum(map(len, clients.told.values()))
            wait_until(self, lambda: sum(not it.startswith("> ") for it in self.lines_of("desk")) == told, "all is written")
            script = command.replace("bin/metad", '"$0" "$@"')
            ran = subprocess.run(["sh", "-c", script, self.program, *runs.words], cwd=self.room, capture_output=True, text=True)
            self.assertEqual(ran.stdout.splitlines(), [it for it in self.lines_of("desk") if not it.startswith("> ")], f"SEED={seed}")
            clients.leave()

    def test_anew(self):
        """A record starts again when no session of its group holds anything. Its file is removed with the last client."""
        reset = text_of({"do": "reset"})
        with self.recorded() as (path, _), Client(path) as one:
            one.ask(hello("desk"))
            with Client(path) as other:
                other.ask(hello("desk"))
                for client in (one, other, one):
                    client.ask(NEW)
                self.assertEqual(one.ask(reset), reply(True, "desk__c1"), "one that is reset")
                wait_until(self, lambda: len(self.lines_of("desk")) == 8, "all is kept, since the other one holds something")
            wait_until(self, lambda: not self.lines_of("desk"), "the record is empty")
            self.assertEqual(one.ask(NEW), reply(1, "desk__c1"), "one that stays")
            wait_until(self, lambda: len(self.lines_of("desk")) == 2, "it starts again")
            one.leave()
            wait_until(self, lambda: not any(self.records.iterdir()), "no file is left")

    def test_not_written(self):
        """Where a record cannot be written that is said, and its group is lost with its worker."""
        with self.recorded() as (path, process), Client(path) as client:
            os.mkdir(self.records / "c1.lines")
            self.assertEqual(client.ask(NEW), reply(1, "c1"), "an object")
            wanted = f"metad-front: {self.records / 'c1.lines'} cannot be written: Is a directory; its group cannot be brought back"
            process.log.wait_for(self, wanted)
            for server in servers_of(process):
                os.kill(server, signal.SIGKILL)
            self.assertEqual(client.told(), [error("F04", "c1")], "what it receives")
