"""Faults that an earlier front had: harm by clients, by files and by other users."""

import fcntl
import json
import os
import resource
import select
import subprocess
import sys
from collections import Counter
from contextlib import contextmanager
from pathlib import Path

from tests.support.lines import text_of
from tests.support.peaks import peak_of

from .fronts import FRONT, GREETED_BY_PYTHON, NEW, PATIENCE, Client, FrontCases, error, reply, whole_lines
from .grouped import WorkerCases, hello, servers_of, wait_until
from .stand_servers import UNDER_WAY, in_steps, make_gate, open_gate, stopped, wait_until_read, wait_until_true

WRITTEN = 100
MEMBERS = 24
UNREAD_OF_ALL = 256 * 1024 * 1024
# of a front whose clients leave that much unread: what grows takes twice its memory, and something else is there too
MEMORY_MOST = 640 * 1024
# answers the first line at once, and each further one after 15 MB of calls
TELLS_MUCH = """\
import sys
call = '{"args":["%s"],"call":"hear(QString)","object":1,"sender":1,"session":"team"}\\n' % ("x" * 60_000)
for at, line in enumerate(sys.stdin):
    sys.stdout.write((call * 250 if at else "") + '{"reply":%d,"session":"team"}\\n' % at)
    sys.stdout.flush()
"""


class Faults(FrontCases):
    """Fronts with one server."""

    def test_all_is_done(self):
        """All lines that a client has written are done, even if it disconnects at once and reads nothing."""
        record = Path(self.room, "record")
        with self.front(options=("--quiet", "--record", record)) as (path, _), Client(path) as stays:
            for number in range(2, 7):
                with Client(path) as goes:
                    goes.say(*[NEW] * WRITTEN)
                self.assertIn('"reply":', stays.ask(NEW), "one that stays")
                reset = f'{{"do":"reset","session":"c{number}"}}'
                wait_until(self, lambda line=reset: line in record.read_text().splitlines(), "its session is reset")
                own = [line for line in record.read_text().splitlines() if f'"c{number}"' in line]
                self.assertEqual((len(own), own[-1]), (WRITTEN + 1, reset), "what was done for it")

    def test_escaped_key(self):
        """A first line whose key is written by escapes asks the front too."""
        with self.front(options=("--quiet", "--share", "team")) as (path, _), Client(path) as client:
            self.assertEqual(client.ask('{"\\u0066ront":"share","session":"team"}'), reply(True, "team"), "a share")

    def test_records_are_files(self):
        """A record is no pipe that nobody reads, and follows no link."""
        path, pipe, link, target = (Path(self.room, name) for name in ("socket", "pipe", "link", "target"))
        os.mkfifo(pipe)
        target.write_text("kept")
        link.symlink_to(target)
        for record in (pipe, link):
            words = [FRONT, "--record", record, path, self.program]
            ran = subprocess.run(words, capture_output=True, text=True, timeout=PATIENCE)
            self.assertEqual((ran.returncode, ran.stdout), (1, ""), ran.stderr)
            self.assertTrue(ran.stderr.startswith(f"metad-front: {record} cannot be written: "), ran.stderr)
        self.assertEqual(target.read_text(), "kept", "what the link leads to")

    def test_locked_folder(self):
        """A process that keeps the folder of a socket locked does not prevent a start."""
        number = os.open(self.room, os.O_RDONLY)
        try:
            fcntl.flock(number, fcntl.LOCK_EX)
            with self.front() as (path, _), Client(path) as client:
                self.assertEqual(client.ask(NEW), reply(1, "c1"), "an object")
        finally:
            os.close(number)

    def test_clients_last(self):
        """Whoever finds the socket of the clients finds all others, also if those take long to make: their folder is locked."""
        path, folder = Path(self.room, "socket"), Path(self.room, "others")
        folder.mkdir()
        monitors, metrics = folder / "monitors", folder / "metrics"
        number = os.open(folder, os.O_RDONLY)
        try:
            fcntl.flock(number, fcntl.LOCK_EX)
            words = [FRONT, "--quiet", "--monitor", monitors, "--metrics", metrics, path, self.program]
            with subprocess.Popen(words, stderr=subprocess.DEVNULL) as process:
                try:
                    self.wait_for(path, process)
                    for place in (monitors, metrics):
                        Client(place).leave()
                finally:
                    process.terminate()
                self.assertEqual(process.wait(PATIENCE), 0, "its end")
        finally:
            os.close(number)

    def test_no_files(self):
        """If the system lets no client in, and none is connected that could leave, the front tries again on its own."""
        with self.front() as (path, process):
            limits = resource.prlimit(process.pid, resource.RLIMIT_NOFILE)
            resource.prlimit(process.pid, resource.RLIMIT_NOFILE, (3, limits[1]))
            with Client(path) as client:
                self.assertEqual(select.select([client.link], [], [], 0.5)[0], [], "what it receives meanwhile")
                resource.prlimit(process.pid, resource.RLIMIT_NOFILE, limits)
                self.assertEqual(client.ask(NEW), reply(1, "c1"), "an object")

    def test_members_that_do_not_read(self):
        """All who speak for a shared session and do not read leave no more than a bound unread: those that have left most
        are closed, and one that reads receives all."""
        share = '{"front":"share","session":"team"}'
        server = [sys.executable, "-c", GREETED_BY_PYTHON + TELLS_MUCH]
        with self.front(options=("--share", "team"), server=server) as (path, process), Client(path) as reads:
            self.assertEqual([reads.ask(share), reads.ask(NEW)], [reply(True, "team"), reply(0, "team")], "one that reads")
            members = [self.enterContext(Client(path)) for _ in range(MEMBERS)]
            for member in members:
                self.assertEqual(member.ask(share), reply(True, "team"), "one that does not read")
            reads.say(NEW)
            told = [reads.hear() for _ in range(251)]
            self.assertEqual((told[-1], len(set(told[:-1]))), (reply(1, "team"), 1), "what one that reads receives")
            closed = f"is closed: of all clients, which have left more than {UNREAD_OF_ALL} bytes unread, it has left most"
            wait_until(self, lambda: any(closed in line for line in process.log.lines()), "somebody is closed")
            self.assertLess(peak_of(process), MEMORY_MOST, "KiB of memory of the front")
            self.assertEqual(sum("is closed" in line for line in process.log.lines() if closed not in line), 0, "closed otherwise")

    def test_by_turns(self):
        """Clients whose lines have all arrived take turns command by command, also where a front reads their lines in
        several pieces."""
        names, count = [f"c{number}" for number in range(1, 9)], 800
        with self.in_steps(count * len(names)) as (path, process, given):
            with stopped(self, process):
                clients = [self.enterContext(Client(path)) for _ in names]
                for number, client in enumerate(clients):
                    client.say(*[NEW + " " * number] * count)  # the pieces of no two end at the same line
            for name, client in zip(names, clients):
                self.assertEqual([client.hear() for _ in range(count)], [reply(True, name)] * count, f"what {name} receives")
            order = given()
        for at in range(0, len(order), len(names)):
            self.assertEqual(sorted(order[at : at + len(names)]), names, f"the round of commands from {at} on")

    def test_late(self):
        """A client whose lines arrive when others have had many turns takes turns with them: it goes first once, and then
        it is never more than two commands ahead."""
        names, count, gate = [f"c{number}" for number in range(1, 8)], 200, make_gate(self.room)
        with self.in_steps(1_300, 704, gate) as (path, process, given):
            with stopped(self, process):
                clients = [self.enterContext(Client(path)) for _ in [*names, "c8"]]
                for client in clients[:-1]:
                    client.say(*[NEW] * count)
            wait_until_true(self, lambda: len(given()) == 704 + UNDER_WAY, "the others have had their turns")
            clients[-1].say(*[NEW] * count)
            wait_until_read(self, clients[-1].link)
            open_gate(gate)
            for name, client in zip([*names, "c8"], clients):
                self.assertEqual([client.hear() for _ in range(count)], [reply(True, name)] * count, f"what {name} receives")
            order = given()
        begun, end = order.index("c8"), min(max(at for at, it in enumerate(order) if it == name) for name in names)
        self.assertEqual(begun, 704 + UNDER_WAY, "its first command")
        self.assertGreater(end, begun + 400, "all wait for turns meanwhile")
        for last in range(begun, end):
            had = Counter(order[begun : last + 1])
            self.assertLessEqual(had["c8"], min(had[name] for name in names) + 2, f"who has had turns: {order[begun : last + 1]}")

    @contextmanager
    def in_steps(self, total, pause=0, gate=""):
        """A front with a server that answers in steps: its path, its process, and the clients of the server's commands."""
        record = Path(self.room, "record")
        with self.front(options=("--quiet", "--record", record), server=in_steps(total, pause, gate)) as (path, process):
            yield path, process, lambda: [json.loads(line)["session"] for line in whole_lines(record)]


class WorkerFaults(WorkerCases):
    """Fronts with workers."""

    def test_refused_reset(self):
        """A reset that the server refuses leaves the record as it is: nothing is lost with the worker."""
        with self.workers(1, options=("--record", str(self.records))) as (path, process), Client(path) as client:
            self.assertEqual(client.ask(hello("desk")), reply(True, "desk__c1"), "a hello")
            self.assertEqual(client.ask(NEW), reply(1, "desk__c1"), "an object")
            self.assertEqual(client.ask('{"do":NaN,"do":"reset"}'), error("E01", "-"), "an invalid reset")
            for server in servers_of(process):
                os.kill(server, 9)
            self.assertEqual(client.ask(NEW), reply(2, "desk__c1"), "the next object")

    def test_joins_in_vain(self):
        """Joins of other groups are mentioned a limited number of times."""
        join = {"do": "join", "name": "level", "types": [], "object": 1, "method": "note()"}
        with self.workers(1) as (path, process):
            for group in range(12):
                with Client(path) as client:
                    client.ask(hello(f"g{group}"))
                    client.ask(NEW)
                    for other in range(100):
                        client.ask(text_of({**join, "from": f"h{other}"}))
            said = sum("has joined" in line for line in process.log.lines())
            self.assertEqual(said, 1_000, "how many were mentioned")
            self.assertIn("metad-front: further joins of other groups are not mentioned", process.log.lines())
