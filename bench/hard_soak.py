"""A long mixed load: clients that connect, leave and vanish, with moves, killed workers, monitors and checks of health."""

from __future__ import annotations

import json
import os
import random
import signal
import socket
import time
from pathlib import Path
from typing import Dict, List, Optional, Set, Tuple

from hard_clients import Failed, Front, Pump, Pumps, ask, connected, group_hello, wait_until
from hard_lines import Lines

ACTORS, GROUPS = 40, 60
LIFE = (0.2, 10.0)  # seconds that a client stays
PAUSE = 0.05
KILL_EVERY = 45.0  # seconds
HEALTH = ("alive", "slow", "replaying", "full")
MORE = 1_024, 0.1  # KiB, and the share, by which memory may grow


class Soak:
    """The clients that are connected, and their work."""

    def __init__(self, front: Front, room: Path, chance: random.Random) -> None:
        self.front = front
        self.room = room
        self.chance = chance
        self.pumps = Pumps([])
        self.until: Dict[Pump, float] = {}
        self.others: List[Tuple[float, socket.socket]] = []
        self.counts: Dict[str, int] = {}
        self.commands = 0
        self.kill_at = time.monotonic() + KILL_EVERY

    def end_of(self) -> float:
        return time.monotonic() + self.chance.uniform(*LIFE)

    def step(self) -> None:
        """Does one step of the work."""
        if len(self.until) + len(self.others) < ACTORS:
            others = (self.half, self.rubbish, self.share, self.monitor, self.check, self.move)
            kind = self.chance.choice((*[self.pump] * 3, *others))
            self.counts[kind.__name__] = self.counts.get(kind.__name__, 0) + 1
            kind()
        if time.monotonic() > self.kill_at:
            self.kill()
        self.pumps.drive(PAUSE / 2)
        time.sleep(PAUSE / 2)
        self.let_go(time.monotonic())

    def let_go(self, now: float) -> None:
        """Clients whose time is over vanish, some of them with commands under way."""
        for pump in [it for it, until in self.until.items() if until < now]:
            del self.until[pump]
            self.commands += pump.answered
            self.pumps.drop(pump)
        for pair in [it for it in self.others if it[0] < now]:
            self.others.remove(pair)
            pair[1].close()

    def pump(self) -> None:
        pump = Pump(self.front.path, group_hello(f"g{self.chance.randrange(GROUPS)}"), ahead=self.chance.choice((1, 2, 8)))
        self.until[pump] = self.end_of()
        self.pumps.add(pump)

    def stay(self, link: socket.socket) -> None:
        self.others.append((self.end_of(), link))

    def half(self) -> None:
        link = connected(self.front.path)
        link.sendall(b'{"do":"status"' + b" " * self.chance.randrange(40_000))
        self.stay(link)

    def rubbish(self) -> None:
        """Random lines, whose answers are not read."""
        lines = Lines(self.chance.random())
        lines.others = ["c1", "g1__c2", "team"]
        link = connected(self.front.path)
        link.sendall(b"\n".join(lines.line() for _ in range(200)))
        self.stay(link)

    def share(self) -> None:
        link = connected(self.front.path)
        if ask(link, '{"front":"share","session":"team"}').get("reply") is not True:
            raise Failed("a session is not shared any more")
        ask(link, '{"do":"status"}')
        self.stay(link)

    def monitor(self) -> None:
        """A monitor, which does not read."""
        self.stay(connected(self.room / "monitor"))

    def check(self) -> None:
        with connected(self.room / "health") as link, link.makefile("rb") as reader:
            link.sendall(b"GET / HTTP/1.0\r\n\r\n")
            answer = reader.read().decode()
        if answer.partition("\r\n\r\n")[2].strip() not in HEALTH:
            raise Failed(f"its health is {answer!r}")

    def names(self, link: socket.socket) -> Set[str]:
        """The names of the present groups."""
        rows = ask(link, '{"front":"groups"}')["reply"]
        assert isinstance(rows, list)
        return {row["group"] for row in rows}

    def move(self) -> None:
        """Moves a group, if there is one."""
        with connected(self.room / "control") as link:
            names = sorted(self.names(link))
            if names:
                asked = {"front": "move", "group": self.chance.choice(names), "worker": self.chance.randint(1, 2)}
                link.sendall(json.dumps(asked).encode() + b"\n")
                self.wait_for_answer(link)

    def wait_for_answer(self, link: socket.socket) -> None:
        """Lets all clients continue until a move is answered."""
        told = b""
        link.setblocking(False)

        def is_told() -> bool:
            nonlocal told
            try:
                told += link.recv(4_096)
            except BlockingIOError:
                pass
            return told.endswith(b"\n")

        wait_until(is_told, "a move is answered", self.pumps.drive)
        found = json.loads(told)
        if found.get("error") not in (None, "F05", "F08"):
            raise Failed(f"a group has not moved: {found}")

    def kill(self) -> None:
        """Kills a worker, and waits until it is brought back."""
        before = self.front.said("is where it was")
        os.kill(self.chance.choice(self.front.servers()), signal.SIGKILL)
        wait_until(lambda: self.front.said("is where it was") > before, "a worker is where it was", self.pumps.drive)
        self.counts["kill"] = self.counts.get("kill", 0) + 1
        self.kill_at = time.monotonic() + KILL_EVERY

    def rest(self, files_most: Optional[int] = None) -> Tuple[int, int]:
        """Closes all clients; returns the front's memory in KiB, and the number of its open files, which has to fall to the most
        where that is given."""
        self.pumps.drain()
        self.let_go(float("inf"))
        with connected(self.room / "control") as link:
            wait_until(lambda: self.names(link) <= {"team"}, "all groups have gone but that of a shared session")
        time.sleep(1)
        if files_most is not None:
            wait_until(lambda: self.front.files() <= files_most, f"no more than {files_most} files are open at rest")
        return self.front.figure("VmRSS"), self.front.files()


def soak(room: Path, program: str, chance: random.Random, seconds: int) -> str:
    """Runs for so long, and compares the front at rest after the first quarter with the front at the end."""
    paths = [word for name in ("control", "monitor", "health") for word in (f"--{name}", str(room / name))]
    options = ("--workers", "2", "--record", str(room / "records"), "--share", "team", "--share", "one", *paths)
    with Front(room, [program], *options) as front:
        load, begun = Soak(front, room, chance), time.monotonic()
        first: Optional[Tuple[int, int]] = None
        while time.monotonic() < begun + seconds:
            load.step()
            front.check()
            if first is None and time.monotonic() > begun + seconds / 4:
                first = load.rest()
        assert first is not None
        last = load.rest(first[1])
        peak = front.figure("VmHWM")
        front.end()
    if last[0] > first[0] * (1 + MORE[1]) + MORE[0]:
        raise Failed(f"KiB of memory at rest: {first[0]:,} after a quarter, and {last[0]:,} at the end")
    did = ", ".join(f"{count} {name}" for name, count in sorted(load.counts.items()))
    after = f"{first[0]:,} KiB and {first[1]} files after a quarter, {last[0]:,} KiB and {last[1]} files at the end"
    return f"at rest {after}; peak {peak:,} KiB; {load.commands:,} commands; {did}"
