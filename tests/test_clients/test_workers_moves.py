"""Groups of a front that move from worker to worker, and its control socket."""

import json
import os
import random
import stat
import subprocess
import threading
from concurrent.futures import ThreadPoolExecutor
from pathlib import Path

from tests.generators.sessions import CLASSES, life_of
from tests.support.lines import text_of
from tests.support.seeds import seed_of

from .fronts import FRONT, NEW, PATIENCE, STATUS, Client, classes_in, error, reply
from .grouped import Greeted, Killer, Mover, Named, Runs, WorkerCases, by_session, hello, servers_of, wait_until

GROUPS, CLIENTS, WORKERS = 50, 200, 4
LIFE = 100  # commands of a client that writes meanwhile
PARTS = 5  # of these in fifty
ROUNDS = 4
MOVED = "odd"
OTHERWISE = """\
if mkdir "$0"; then exec "$@"; else "$@" | sed -u 's/"reply":2,"session":"odd__/"reply":3,"session":"odd__/'; fi
"""


class Moves(WorkerCases):
    """Groups that move while their clients write."""

    def recorded(self, count, *words, options=(), **how):
        return self.workers(count, *words, options=(*options, "--record", str(self.records)), **how)

    def test_many(self):
        """All of fifty groups move while 200 clients write, and each client receives the same as it would alone."""
        classes = classes_in(self.room, CLASSES)
        lives = [list(life_of(number))[:LIFE] for number in range(CLIENTS)]

        def live(number):
            with Client(path) as client:
                name = json.loads(client.ask(hello(f"g{number % GROUPS}")))["session"]
                greeted.wait(PATIENCE)
                for at in range(0, LIFE, GROUPS // PARTS):
                    client.say(*map(text_of, lives[number][at : at + GROUPS // PARTS]))
                    moved[min(at, GROUPS - 1)].wait(PATIENCE)
                return name, client.rest()

        greeted = threading.Barrier(CLIENTS + 1)
        moved = [threading.Event() for _ in range(GROUPS)]
        with self.recorded(WORKERS, classes) as (path, _), ThreadPoolExecutor(CLIENTS) as pool:
            told = pool.map(live, range(CLIENTS))
            greeted.wait(PATIENCE)
            places = self.places()
            self.assertEqual(len(places), GROUPS, "the groups")
            for (group, worker), event in zip(places.items(), moved):
                wanted = {"reply": True, "group": group, "worker": 1 + worker % WORKERS}
                self.assertEqual(self.ask_front(front="move", group=group, worker=wanted["worker"]), wanted, "a move")
                event.set()
            told = dict(told)
        given = "".join(text_of({**command, "session": name}) + "\n" for name, life in zip(told, lives) for command in life)
        ran = subprocess.run([self.program, classes], input=given, capture_output=True, text=True, check=True)
        self.assertEqual(told, by_session(ran.stdout.splitlines()), "what the clients receive")

    def move_meanwhile(self, kind, options):
        seed = seed_of(self)
        moves = 0
        for at in range(ROUNDS):
            with self.subTest(seed=seed, round=at):
                runs = Runs(f"{seed} {at}", 4, 60, self.room)
                with self.recorded(WORKERS, *runs.words, options=options) as (path, _):
                    clients = kind(path, runs)
                    with Mover(self, random.Random(f"{seed} {at}"), sorted(set(runs.group_of.values())), WORKERS) as mover:
                        clients.drive()
                    clients.leave()
                done = [answer for asked, answer in mover.answers if answer == {"reply": True, "group": asked["group"], "worker": asked["worker"]}]
                failed = [answer for _, answer in mover.answers if answer not in done and answer.get("error") != "F05"]
                self.assertEqual(failed, [], "moves that have failed, but of groups that are not there yet")
                self.check_told(runs, clients)
                moves += len(done)
        self.assertGreater(moves, ROUNDS, "moves")
        self.tell(f"moves: {moves}")

    def test_hello(self):
        """Sessions that listen to each other receive the same as from one server, wherever their group is."""
        self.move_meanwhile(Greeted, ())

    def test_names(self):
        """So are those of clients that name sessions."""
        self.move_meanwhile(lambda path, runs: Named(path, runs, 2), ("--group-from", "name"))

    def test_killed_meanwhile(self):
        """So are they where workers are killed meanwhile, though a group may then stay where it was."""
        seed = seed_of(self)
        for at in range(ROUNDS):
            with self.subTest(seed=seed, round=at):
                runs, chance = Runs(f"{seed} {at}", 8, 60, self.room), random.Random(f"{seed} {at}")
                with self.recorded(WORKERS, *runs.words) as (path, process):
                    clients = Greeted(path, runs)
                    groups = sorted(set(runs.group_of.values()))
                    with Killer(chance, process), Mover(self, chance, groups, WORKERS):
                        clients.drive()
                    clients.leave()
                self.check_told(runs, clients)

    def test_nothing_is_left(self):
        """Nothing of a group is left with the worker that it has moved from: moved back it is what it was, and no more."""
        with self.recorded(2) as (path, _), Client(path) as client:
            client.ask(hello("desk"))
            for number in range(1, 20):
                self.assertEqual(client.ask(NEW), reply(number, "desk__c1"), "an object")
                answer = self.ask_front(front="move", group="desk", worker=1 + number % 2)
                self.assertEqual(answer, {"reply": True, "group": "desk", "worker": 1 + number % 2}, "a move")
            self.assertEqual(json.loads(client.ask(STATUS))["reply"]["objects"], 19, "its objects")

    def test_difference(self):
        """A group that the other worker would tell something else stays where it is, and so does all that it holds."""
        server = ["sh", "-c", OTHERWISE, str(Path(self.room, "flag")), self.program]
        with self.recorded(2, server=server) as (path, process), Client(path) as client:
            client.ask(hello(MOVED))
            name, place = f"{MOVED}__c1", self.places()[MOVED]
            second = [client.ask(NEW) for _ in range(3)][1]
            other = reply(3 if second == reply(2, name) else 2, name)
            why = f"answer 2 of its record is a reply of {len(second)} bytes, and is now a reply of {len(other)} bytes"
            told = self.ask_front(front="move", group=MOVED, worker=3 - place)
            self.assertEqual(told, {"error": "F09", "group": MOVED, "why": why, "worker": place}, "a move to the other one")
            self.assertEqual(client.ask(NEW), reply(4, name), "its next object")
            self.assertEqual(self.places(), {MOVED: place}, "where it is")

    def test_worker_ends(self):
        """A worker that ends while a group moves to it or from it loses nothing."""
        seed = seed_of(self)
        chance = random.Random(seed)
        with self.recorded(2) as (path, process), Client(path) as client:
            client.ask(hello("desk"))
            number = 0
            for _ in range(3):
                client.say(*[NEW] * 500)
                with ThreadPoolExecutor(1) as pool:
                    answer = pool.submit(self.ask_front, front="move", group="desk", worker=3 - self.places()["desk"])
                    os.kill(chance.choice(servers_of(process)), 9)
                    self.assertTrue(answer.result().get("error") in (None, "F08", "F09"), f"the move, SEED={seed}")
                for number in range(number + 1, number + 501):
                    self.assertEqual(client.hear(), reply(number, "desk__c1"), f"an object, SEED={seed}")


class Control(WorkerCases):
    """What is asked of a running front."""

    def run_front(self, *words):
        ran = subprocess.run([FRONT, *words], capture_output=True, text=True, timeout=PATIENCE)
        return ran.returncode, ran.stdout, ran.stderr

    def test_words(self):
        """The program asks a front to move a group and which there are, and prints the answers."""
        control = ("--control", self.control_path)
        with self.workers(2, options=("--record", str(self.records))) as (path, _), Client(path) as one, Client(path) as other:
            for client in (one, other):
                client.ask(hello("desk"))
                client.ask(NEW)
            place = self.places()["desk"]
            wanted = f"group  worker  sessions  clients  lines\ndesk   {place}       2         2        2\n"
            self.assertEqual(self.run_front("--groups", *control), (0, wanted, ""), "the groups")
            for number in (3 - place, place, place):
                told = self.run_front("--move", "desk", str(number), *control)
                self.assertEqual(told, (0, f"desk is with worker {number}\n", ""), "a move")
            told = self.run_front("--move", "chair", "1", *control)
            self.assertEqual(told, (1, "", "metad-front: F05: there is no such group\n"), "a group that is not there")
            told = self.run_front(*control, "--move", "desk", "3")
            self.assertEqual(told, (1, "", "metad-front: F06: there is no such worker, but 1 to 2\n"), "a worker that is not there")
            self.assertEqual(stat.S_IMODE(os.stat(self.control_path).st_mode), 0o600, "who may ask")
        self.assertEqual(self.run_front("--groups", *control)[0], 1, "a front that has ended")

    def test_until(self):
        """A group stays where it has moved to as long as a client speaks for it; a new one of its name begins by the ring."""
        with self.workers(2, options=("--record", str(self.records))) as (path, _):
            with Client(path) as one:
                one.ask(hello("desk"))
                one.ask(NEW)
                place = self.places()["desk"]
                self.ask_front(front="move", group="desk", worker=3 - place)
                with Client(path) as other:
                    self.assertEqual(other.ask(hello("desk")), reply(True, "desk__c2"), "one more")
                    one.leave()
                    self.assertEqual(other.ask(NEW), reply(1, "desk__c2"), "its object")
                    self.assertEqual(self.places(), {"desk": 3 - place}, "where it is")
            wait_until(self, lambda: not self.places(), "the group has gone")
            with Client(path) as later:
                self.assertEqual(later.ask(hello("desk")), reply(True, "desk__c3"), "a later one")
                self.assertEqual(self.places(), {"desk": place}, "where a new one is")

    def test_no_record(self):
        """Without records no group moves."""
        with self.workers(2) as (path, _), Client(path) as client:
            client.ask(hello("desk"))
            self.assertEqual(self.ask_front(front="move", group="desk", worker=1)["error"], "F07", "a move")
            told = self.run_front("--move", "desk", "1", "--control", self.control_path)
            self.assertEqual(told, (1, "", "metad-front: F07: a group moves by its record: the front has to be started with --record\n"), "the program")

    def test_lines(self):
        """What is no question is answered by an error, and the next line as usual."""
        with self.workers(1) as _, Client(self.control_path) as client:
            for line in ("nonsense", "{}", '{"front":"stop"}', '{"front":"move"}', '{"front":"groups","more":1}', '{"do":"status"}'):
                self.assertEqual(json.loads(client.ask(line))["error"], "F01", line)
            self.assertEqual(json.loads(client.ask('{"front":"groups"}')), {"reply": [], "workers": 1}, "the next line")

    def test_mistakes(self):
        """Words that mean nothing are mistakes in the command line."""
        for words in (
            ("--groups",), ("--move", "desk", "1"), ("--control", "x"), ("--move", "desk", "--control", "x"),
            ("--move", "desk", "0", "--control", "x"), ("--move", "desk", "1", "--groups", "--control", "x"),
            ("--workers", "0", "s", "p"), ("--workers", "65", "s", "p"), ("--workers", "x", "s", "p"), ("--group-from", "name", "s", "p"),
            ("--control", "c", "s", "p"), ("--workers", "2", "--inspect", "0", "s", "p"), ("--workers", "2", "--group-from", "no", "s", "p"),
            ("--workers", "1", "--group-from", "name", "--inspect", "0", "s", "p"),
            ("--workers", "1", "--group-from", "name", "--share", "team", "s", "p"), ("--workers", "1", "--share", "desk__c1", "s", "p"),
        ):
            with self.subTest(words=words):
                status, shown, said = self.run_front(*words)
                self.assertEqual((status, shown), (2, ""), said)
                self.assertIn("metad-front: error: ", said, "what it says")
        said = self.run_front("--workers", "2", "--inspect", "0", "s", "p")[2]
        self.assertIn("--inspect shows the sessions of one server", said, "why not")


class Unread(WorkerCases):
    """Commands that wait while their group moves."""

    def test_error(self):
        """Refusals and lines that are no commands are also answered once and in order."""
        with self.workers(2, options=("--record", str(self.records))) as (path, _), Client(path) as client:
            client.ask(hello("desk"))
            lines, wanted = ["nonsense", NEW, "{}"], [error("E01", "-"), None, error("E02", "desk__c1")]
            for at in range(1, 200):
                client.say(*lines)
                if at % 20 == 0:
                    self.ask_front(front="move", group="desk", worker=1 + at // 20 % 2)
                told = [client.hear() for _ in lines]
                self.assertEqual(told, [wanted[0], reply(at, "desk__c1"), wanted[2]], "what the client receives")
