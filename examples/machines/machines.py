"""An edge, its machines and the sockets of its clients: how they are started, and how each is ended."""

from __future__ import annotations

import os
import shutil
import signal
import socket
import subprocess
import time
from pathlib import Path
from typing import Callable, Dict, List, Mapping, Sequence

from metad.fronts import front_words

from places import Addresses

HERE = Path(__file__).resolve().parent
EDGE, CLIENTS = "edge", "clients"
MACHINES = ("one", "two", "three")
PLACES = (EDGE, *MACHINES, CLIENTS)
PORT, INNER_PORT, HEALTH_PORT = 7070, 7071, 7072
PATIENCE, PAUSE = 30, 0.02
OF_SYSTEM = "/usr/local/sbin:/usr/sbin:/sbin"  # programs are here that a user's path may not reach
UP, DOWN = ("UP", "L7OK"), ("DOWN",)  # what the edge says of a machine that has answered, and of one that has gone


class NotThere(Exception):
    """Something that is needed is not there, or does not come."""


def haproxy() -> str:
    """The program haproxy."""
    found = shutil.which("haproxy", path=f"{os.environ.get('PATH', os.defpath)}:{OF_SYSTEM}")
    if found is None:
        raise NotThere("haproxy is not on the path: apt-get install haproxy (Debian)")
    return found


def answers(path: Path) -> bool:
    """Whether somebody listens at a socket."""
    with socket.socket(socket.AF_UNIX) as link:
        return link.connect_ex(str(path)) == 0


class Machines:
    """All of it, in a folder, where each place's programs are."""

    config = "edge.cfg"

    def __init__(self, program: Sequence[str], room: Path, places: Addresses, options: Sequence[str], **settings: str) -> None:
        self.program = list(program)
        self.room = room
        self.places = places
        self.options = options  # of the fronts, in addition to those that all have
        self.common = {"METAD_CERTIFICATES": str(room), "METAD_ADMIN": str(room / "edge.admin"), **settings}
        self.running: Dict[str, List[subprocess.Popen[bytes]]] = {}
        self.logs: Dict[int, Path] = {}  # by the numbers of the processes

    def start(self, place: str, words: Sequence[str], log: str, more: Mapping[str, str]) -> None:
        """Starts a program at a place, which writes to a file that no other one that runs has."""
        with open(self.room / log, "ab") as sink:
            process = subprocess.Popen(
                [*self.places.words(place), *words],
                stdin=subprocess.DEVNULL,
                stdout=sink,
                stderr=sink,
                env={**os.environ, **self.common, **more},
                start_new_session=True,
            )
        self.running.setdefault(place, []).append(process)
        self.logs[process.pid] = self.room / log

    def wait_until(self, what: str, is_so: Callable[[], bool]) -> None:
        """Waits until something is so, as long as all that was started runs."""
        until = time.monotonic() + PATIENCE
        while not is_so():
            self.look()
            if time.monotonic() > until:
                raise NotThere(f"{what}: not within {PATIENCE} seconds")
            time.sleep(PAUSE)

    def look(self) -> None:
        """Looks whether all that was started runs."""
        for place, processes in self.running.items():
            for process in processes:
                if process.poll() is not None:
                    said = self.logs[process.pid].read_text().splitlines()
                    raise NotThere(f"what runs at {place} has ended: {' '.join(said[-1:])}")

    def proxy(self, place: str, config: Path, log: str, more: Mapping[str, str]) -> None:
        """Starts haproxy at a place."""
        self.start(place, [haproxy(), "-db", "-f", str(config)], log, more)

    def certify(self, *names: str) -> None:
        """Makes certificates, that of the edge among them."""
        ran = subprocess.run(["sh", str(HERE / "certificates.sh"), str(self.room), *names], capture_output=True, text=True)
        if ran.returncode:
            raise NotThere(f"no certificates: {ran.stderr.strip()}")

    def start_machine(self, name: str) -> None:
        """Starts a machine: its front with a server, and what takes the edge's connections."""
        path = self.room / f"{name}.front"
        health = self.room / f"{name}.health"
        options = ["--quiet", "--health", str(health), "--record", str(self.room / f"{name}.record"), *self.options]
        self.start(name, [*map(str, front_words()), *options, str(path), *self.program], f"{name}.log", {})
        self.wait_until(f"the front of {name}", lambda: answers(path))
        own = self.places.addresses[name]
        at = {"METAD_AT": f"{own}:{INNER_PORT}", "METAD_SOCKET": str(path), "METAD_EDGE": self.places.seen(EDGE)}
        more = {"METAD_HEALTH_AT": f"{own}:{HEALTH_PORT}", "METAD_HEALTH": str(health)}
        files = ["-f", str(HERE / "machine.cfg"), "-f", str(HERE / "health.cfg")]
        self.start(name, [haproxy(), "-db", *files], f"{name}.proxy.log", {**at, **more})

    def start_edge(self) -> None:
        """Starts the edge, and waits until it has asked all machines."""
        (self.room / "edge.admin").unlink(missing_ok=True)  # which one that has ended leaves
        at = {f"METAD_{name.upper()}": f"{self.places.addresses[name]}:{INNER_PORT}" for name in MACHINES}
        self.proxy(EDGE, HERE / self.config, "edge.log", {**at, "METAD_AT": f"{self.places.addresses[EDGE]}:{PORT}"})
        self.wait_until("the edge", (self.room / "edge.admin").exists)
        for name in MACHINES:
            self.wait_for(name, UP)

    def start_all(self) -> None:
        """Starts the machines and the edge."""
        self.certify()
        for name in MACHINES:
            self.start_machine(name)
        self.start_edge()

    def open(self, name: str) -> Path:
        """A socket whose clients reach the edge with the certificate of this name."""
        self.certify(name)
        path = self.room / f"{name}.sock"
        path.unlink(missing_ok=True)
        files = {"METAD_CERTIFICATE": str(self.room / f"{name}.pem"), "METAD_AUTHORITY": str(self.room / "authority.crt")}
        at = {"METAD_SOCKET": str(path), "METAD_EDGE": f"{self.places.addresses[EDGE]}:{PORT}"}
        self.proxy(CLIENTS, HERE / "client.cfg", f"{name}.log", {**at, **files})
        self.wait_until(f"the socket of {name}", path.exists)
        return path

    def rule(self, words: str) -> str:
        """Has the edge do something, or say something; answers what it says."""
        with socket.socket(socket.AF_UNIX) as link:
            link.connect(str(self.room / "edge.admin"))
            link.sendall(f"{words}\n".encode())
            with link.makefile() as reader:
                return reader.read()

    def states(self) -> Dict[str, Sequence[str]]:
        """What the edge says of each machine: its state, and the result of its last check, without the star of one that is
        under way."""
        head, *rows = (line.split(",") for line in self.rule("show stat").splitlines() if line)
        name, state, check = (head.index(it) for it in ("svname", "status", "check_status"))
        return {row[name]: (row[state], row[check].lstrip("* ")) for row in rows}

    def wait_for(self, name: str, wanted: Sequence[str]) -> None:
        """Waits until the edge says so of a machine."""
        self.wait_until(f"{wanted} of {name}", lambda: tuple(self.states()[name])[: len(wanted)] == tuple(wanted))

    def homes(self, name: str) -> List[str]:
        """The machines that clients of a name have reached, in their order, as the edge has said."""
        said = (line.split(" is on ") for line in (self.room / "edge.log").read_text().splitlines())
        return [words[1] for words in said if words[0] == name]

    def kill(self, place: str) -> None:
        """Ends all that runs at a place, at once."""
        for process in self.running.pop(place, []):
            with_all(process, signal.SIGKILL)
            process.wait()

    def close(self) -> None:
        """Ends everything, in order."""
        for place in (CLIENTS, EDGE, *MACHINES):
            for process in self.running.pop(place, []):
                with_all(process, signal.SIGTERM)
                process.wait()


def with_all(process: subprocess.Popen[bytes], number: signal.Signals) -> None:
    """Sends a signal to a program and to what it has started, where it has not ended."""
    if process.poll() is None:
        os.killpg(process.pid, number)
