"""Fronts with limits: the file of `--limits`, and clients that exceed them next to one that does not."""

import re
import statistics
import subprocess
import time
from contextlib import contextmanager
from pathlib import Path

from tests.support.closing import rest_of

from .fronts import FRONT, NEW, PATIENCE, Client, reply
from .grouped import WorkerCases

SAMPLES = 200  # round trips of a client that means well
RUNS, TRIES = 3, 20  # of so many the median counts; of so many medians one has to be good, since others use the machine too
TIMES = 5  # how much longer others may wait under an attack than alone
LEAST = 0.004  # seconds: shorter waits are not compared, since machines of tests have other things to do


def exceeded(code, limit, session="-"):
    """The line of a front that says which limit was exceeded."""
    return f'{{"error":"{code}","limit":"{limit}","session":"{session}"}}'


def refusals_of(metrics, code):
    """How often a front has refused something by this code, as its metrics say."""
    with Client(metrics) as asker:
        asker.say("GET /metrics HTTP/1.0\r", "\r")
        found = re.findall(rf'^metad_front_refusals_total{{code="{code}"}} (\d+)$', asker.until_closed().decode(), re.MULTILINE)
        return sum(map(int, found))


def round_trips(client, count=SAMPLES):
    """How long each of so many commands takes, each answered as it has to be."""
    name, found = client.name(), []
    for number in range(count):
        begun = time.perf_counter()
        answer = client.ask(NEW if number == 0 else '{"do":"children","object":1}')
        found.append(time.perf_counter() - begun)
        wanted = reply(1 if number == 0 else [], name)
        if answer != wanted:
            raise AssertionError(f"{answer!r} came, and {wanted!r} has to come")
    return found


def p99(times):
    return statistics.quantiles(times, n=100)[98]


class LimitedCases(WorkerCases):
    """Tests of fronts with a file of limits."""

    @property
    def limits(self):
        return Path(self.room, "limits.toml")

    @contextmanager
    def limited(self, text, *options, server=None, words=()):
        """A front with these limits: its path and its process."""
        self.limits.write_text(text)
        with self.front(*words, options=("--quiet", "--limits", self.limits, *options), server=server) as (path, process):
            yield path, process

    def refused(self, text=None, *options):
        """The status of a front that does not start with these limits, or with those that are there, and what it says."""
        if text is not None:
            self.limits.write_text(text)
        words = [FRONT, "--limits", self.limits, *options, Path(self.room, "socket"), self.program]
        ran = subprocess.run(words, capture_output=True, text=True, timeout=PATIENCE)
        return ran.returncode, ran.stderr

    def closed_lines(self, client):
        """The lines that come until the front closes the connection, even if it has not read all."""
        return rest_of(client.reader).decode().splitlines()

    def check_wait(self, path, attack, what):
        """Others wait at most some times as long as alone while an attack goes on, and lose nothing."""
        alone, beside = self.median_of_waits(path), []
        with attack():
            while not beside or (beside[-1] > TIMES * max(alone, LEAST) and len(beside) < TRIES):
                beside.append(self.median_of_waits(path))
        alone = max(alone, self.median_of_waits(path))
        self.tell(f"{what}: p99 {alone * 1e3:.2f} ms alone, {min(beside) * 1e3:.2f} ms under attack")
        self.assertLessEqual(min(beside), TIMES * max(alone, LEAST), what)

    def median_of_waits(self, path):
        return statistics.median(p99(self.honest(path)) for _ in range(RUNS))

    def honest(self, path):
        with Client(path) as client:
            return round_trips(client)
