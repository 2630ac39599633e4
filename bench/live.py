#!/usr/bin/env python3
"""Measures subscribers of the Python client behind a front: the processor time of those that wait, and the time from a
signal of one client to the callback of another.

The waiting subscribers are in a process of their own, as threads and, in asyncio, as tasks of one thread. The time is
measured in another process, with live sessions. It is compared with `live=False`, where the client polls by `spin`, and with
sockets without the client. Other load on the machine affects the figures: they are for people, and decide nothing.
"""

from __future__ import annotations

import argparse
import asyncio
import json
import socket
import statistics
import subprocess
import sys
import threading
import time
from pathlib import Path
from typing import Dict, List, Tuple

from ending import ended

CLIENTS = Path(__file__).resolve().parent.parent / "clients"
sys.path += [str(CLIENTS), str(CLIENTS / "python")]

import metad  # noqa: E402
from metad import aio  # noqa: E402

COUNT, SECONDS, ROUNDS = 100, 5.0, 300
PAUSE = 0.002  # seconds between an event and the next signal
LEVEL, SIGNAL, SLOT = "level", "xChanged(int)", "seen(int)"
HELLO = b'{"front":"hello","live":true}\n'
NEW = b'{"do":"new","class":"Cell"}\n'
PUBLISH = b'{"do":"publish","object":1,"signal":"xChanged(int)","name":"level"}\n'
JOIN = b'{"do":"join","from":"%s","name":"level","types":["int"],"object":1,"method":"seen(int)"}\n'
SET = b'{"do":"set","object":1,"property":"x","value":%d}\n'


def processor_seconds(number: int) -> float:
    """The processor time that a process has used, in all its threads."""
    tasks = Path(f"/proc/{number}/task").glob("*/schedstat")
    return sum(int(task.read_text().split()[0]) for task in tasks) / 1e9


def server_of(front: int) -> int:
    """The server of a front."""
    return int(Path(f"/proc/{front}/task/{front}/children").read_text().split()[0])


# ---- what runs in a process of its own ----


def subscribe(path: str, host: str, how: str) -> metad.Session:
    """A client that listens to the host."""
    session = metad.connect(path, live=how != "polling").session("guest")
    session.join(host, LEVEL, ["int"], session.new("Cell"), SLOT)
    return session


def wait_in_threads(path: str, host: str, count: int) -> None:
    """Clients that wait, each in a thread of its own."""
    for session in [subscribe(path, host, "live") for _ in range(count)]:
        threading.Thread(target=next, args=(session.calls(),), daemon=True).start()
    print("listening", flush=True)
    sys.stdin.read()


async def wait_in_tasks(path: str, host: str, count: int) -> None:
    """Clients that wait, all in one thread."""
    servers = [await aio.connect(path) for _ in range(count)]
    for server in servers:
        session = server.session("guest")
        await session.join(host, LEVEL, ["int"], await session.new("Cell"), SLOT)
    print("listening", flush=True)
    await asyncio.get_running_loop().run_in_executor(None, sys.stdin.read)
    for server in servers:
        await server.close()


def answer(path: str, host: str, how: str) -> None:
    """A client that reports when it has received each event."""
    session = subscribe(path, host, how)
    session.on(1, SLOT, lambda call: print(time.monotonic_ns(), flush=True))
    print("listening", flush=True)
    while True:
        session.wait_for(lambda: False, timeout=None)


async def answer_in_task(path: str, host: str) -> None:
    """A client that reports when it has received each event, in asyncio, where nothing blocks."""
    server = await aio.connect(path)
    session = server.session("guest", lambda call: print(time.monotonic_ns(), flush=True))
    await session.join(host, LEVEL, ["int"], await session.new("Cell"), SLOT)
    print("listening", flush=True)
    await asyncio.get_running_loop().run_in_executor(None, sys.stdin.read)
    await server.close()


def part(kind: str, path: str, host: str, count: int) -> None:
    """The work of one process of the measurement."""
    if kind == "threads":
        wait_in_threads(path, host, count)
    elif kind == "tasks":
        asyncio.run(wait_in_tasks(path, host, count))
    elif kind == "asyncio":
        asyncio.run(answer_in_task(path, host))
    else:
        answer(path, host, kind)


# ---- measurements ----


class Plain:
    """A connection with a front, over which lines are sent unchanged."""

    def __init__(self, path: str) -> None:
        self.link = socket.socket(socket.AF_UNIX)
        self.link.connect(path)
        self.reader = self.link.makefile("rb")

    def ask(self, line: bytes) -> bytes:
        """Sends a line; returns the answer."""
        self.link.sendall(line)
        return self.reader.readline()

    def close(self) -> None:
        """Closes it."""
        self.reader.close()
        self.link.close()


class Measured:
    """A front with its server, and a host that publishes."""

    def __init__(self, program: str) -> None:
        self.front = metad.start_front(program)
        self.server = self.front.connect(live=False)
        self.host = self.server.session("host")
        self.host.publish(self.host.new("Cell"), SIGNAL, LEVEL)
        self.value = 0

    def started(self, kind: str, count: int) -> subprocess.Popen[str]:
        """A process that listens to the host."""
        words = [sys.executable, __file__, "--part", kind, self.front.path, str(self.host.known_as), "--clients", str(count)]
        pipe = subprocess.PIPE
        process = subprocess.Popen(words, stdin=pipe, stdout=pipe, text=True)
        assert process.stdout
        if process.stdout.readline() != "listening\n":
            raise SystemExit(f"live.py: the subscribers ({kind}) have not begun")
        return process

    def idle(self, kind: str, count: int, seconds: float) -> Dict[str, float]:
        """The shares of a processor that are used while so many wait."""
        process, front = self.started(kind, count), self.front._process.pid
        try:
            time.sleep(1)
            numbers = {"the front": front, "the server": server_of(front), "the subscribers": process.pid}
            before = {name: processor_seconds(number) for name, number in numbers.items()}
            time.sleep(seconds)
            return {name: (processor_seconds(number) - before[name]) / seconds for name, number in numbers.items()}
        finally:
            process.kill()
            process.communicate()

    def times(self, kind: str, rounds: int) -> List[float]:
        """Milliseconds from the command that sends a signal to the function that is called for it."""
        process = self.started(kind, 1)
        assert process.stdout
        found = []
        try:
            for _ in range(rounds):
                self.value += 1
                began = time.monotonic_ns()
                self.host.send("set", object=1, property="x", value=self.value)
                found.append((int(process.stdout.readline()) - began) / 1e6)
                time.sleep(PAUSE)
            return found
        finally:
            process.kill()
            process.communicate()

    def plain_times(self, rounds: int) -> List[float]:
        """Milliseconds from the line that sends a signal to the line that reports it, over sockets without this client."""
        host, guest = Plain(self.front.path), Plain(self.front.path)
        guest.ask(HELLO)
        name = json.loads(host.ask(NEW))["session"]
        host.ask(PUBLISH)
        guest.ask(NEW)
        guest.ask(JOIN % name.encode())
        found = []
        for value in range(1, rounds + 1):
            began = time.monotonic_ns()
            host.link.sendall(SET % value)
            guest.reader.readline()
            found.append((time.monotonic_ns() - began) / 1e6)
            guest.reader.readline()  # the front's answer to its `spin`
            host.reader.readline()
            time.sleep(PAUSE)
        host.close()
        guest.close()
        return found

    def close(self) -> None:
        """Ends the host and the front."""
        self.server.close()
        self.front.close()


def show(what: str, times: List[float]) -> None:
    """Prints some times: the median, and the most that one and 99 of 100 take."""
    times = sorted(times)
    low, high = times[len(times) // 100], times[int(0.99 * len(times))]
    print(f"{what}: {statistics.median(times):.2f} ms, 1 of 100 within {low:.2f} ms, 99 of 100 within {high:.2f} ms", flush=True)


def measure(given: argparse.Namespace) -> None:
    """Measures, and prints the results."""
    measured = Measured(given.program)
    try:
        for kind, said in (("threads", "threads"), ("tasks", "asyncio")):
            shares = measured.idle(kind, given.clients, given.seconds)
            told = ", ".join(f"{name} {share:.3f}" for name, share in shares.items())
            print(f"{given.clients} subscribers that wait ({said}), share of a processor: {told}", flush=True)
        kinds: Tuple[Tuple[str, str], ...] = (("live", "live"), ("asyncio", "live, asyncio"), ("polling", "not live"))
        for kind, said in kinds:
            show(f"until a function is called ({said})", measured.times(kind, given.rounds))
        show("until a line arrives, over plain sockets", measured.plain_times(given.rounds))
    finally:
        measured.close()


def positive(text: str) -> int:
    """A number of at least 1."""
    number = int(text)
    if number < 1:
        raise ValueError
    return number


def parser() -> argparse.ArgumentParser:
    """Reads the command line."""
    made = argparse.ArgumentParser(description=__doc__, formatter_class=argparse.RawDescriptionHelpFormatter)
    made.add_argument("program", metavar="PROGRAM", help="the server")
    made.add_argument("host", nargs="?", help=argparse.SUPPRESS)
    made.add_argument("--clients", type=positive, default=COUNT, metavar="N", help=f"subscribers that wait, {COUNT} without it")
    made.add_argument("--seconds", type=float, default=SECONDS, help=f"how long they are watched, {SECONDS:.0f} without it")
    made.add_argument("--rounds", type=positive, default=ROUNDS, metavar="N", help=f"events that are timed, {ROUNDS} without it")
    made.add_argument("--part", help=argparse.SUPPRESS)
    return made


def work(given: argparse.Namespace) -> None:
    """Does a part of a measurement, or measures. A part ends well where the server has gone."""
    if not given.part:
        return measure(given)
    try:
        part(given.part, given.program, given.host, given.clients)
    except metad.ServerGone:
        pass


def main() -> int:
    given = parser().parse_args()
    return ended("live.py", lambda: work(given), (OSError, ValueError, metad.MetadError))


if __name__ == "__main__":
    sys.exit(main())
