"""Servers that answer only when a test lets them, so that what waits, and where, does not depend on the machine's speed."""

import json
import os
import sys
from contextlib import contextmanager
from pathlib import Path

from .fronts import STATUS, Client
from .grouped import WorkerCases, hello, servers_of, worker_of

# answers `status` with its process's number, and all else with `true`; while there is a file of that number in the folder it
# answers nothing
HOLDS = """\
import json, os, sys, time
held = os.path.join(sys.argv[1], str(os.getpid()))
for line in sys.stdin:
    while os.path.exists(held):
        time.sleep(0.002)
    session = json.loads(line).get("session", "-")
    reply = os.getpid() if '"do":"status"' in line else "true"
    print('{"reply":%s,"session":"%s"}' % (reply, session), flush=True)
"""


def groups_on(worker, count, many, begin="g"):
    """So many names of groups that the ring gives to a worker, if there are so many workers."""
    found, at = [], 0
    while len(found) < many:
        at += 1
        if worker_of(f"{begin}{at}", count) == worker:
            found.append(f"{begin}{at}")
    return found


class HeldCases(WorkerCases):
    """Tests of a front whose servers hold back their answers."""

    @contextmanager
    def held_workers(self, count, *options):
        """A front with so many workers, and the number of the process of each."""
        folder = Path(self.room, "held")
        folder.mkdir(exist_ok=True)
        server = [sys.executable, "-c", HOLDS, str(folder)]
        with self.workers(count, options=("--record", str(self.records), *options), server=server) as (path, process):
            yield path, process, [self.number_at(path, worker, count) for worker in range(1, count + 1)]

    @contextmanager
    def held_front(self, *options):
        """A front with one server, and the number of its process."""
        folder = Path(self.room, "held")
        folder.mkdir()
        server = [sys.executable, "-c", HOLDS, str(folder)]
        with self.front(options=("--quiet", *options), server=server) as (path, process):
            yield path, servers_of(process)[0]

    def number_at(self, path, worker, count):
        """The number of the process of a worker, which it answers to a client of one of its groups."""
        (group,) = groups_on(worker, count, 1, "who")
        with Client(path) as client:
            client.ask(hello(group))
            return json.loads(client.ask(STATUS))["reply"]

    def hold(self, *numbers):
        """Has processes answer nothing until they are released."""
        for number in numbers:
            Path(self.room, "held", str(number)).touch()

    def let(self, *numbers):
        for number in numbers:
            os.unlink(Path(self.room, "held", str(number)))

    def greeted(self, path, group):
        """A client of a group."""
        client = self.enterContext(Client(path))
        client.ask(hello(group))
        return client

    def told_by(self, client, count):
        """The numbers of the processes that have answered a client's next commands."""
        return [json.loads(client.hear())["reply"] for _ in range(count)]
