"""Places at which programs run, each with an address: network namespaces, or addresses of this machine."""

from __future__ import annotations

import subprocess
from typing import Dict, List, Sequence

HOLD = ["sh", "-c", "echo; exec cat"]  # ends as soon as its input does, so with whoever has started it
OWN = ["unshare", "--user", "--map-root-user", "--net"]  # takes no rights, and changes nothing outside


class NoPlaces(Exception):
    """Why something cannot be had of places here."""


class Addresses:
    """Places that share the network of this machine, and have an address of it each."""

    how = "on addresses of this machine"
    network = "127.77.0"
    may_be_cut = False

    def __init__(self, places: Sequence[str]) -> None:
        self.addresses = {place: f"{self.network}.{number}" for number, place in enumerate(places, 1)}

    def seen(self, place: str) -> str:
        """The address that others see of a place's programs."""
        return "127.0.0.1"

    def words(self, place: str) -> List[str]:
        """The words before those of a program, which have it run at a place."""
        return []

    def cut(self, place: str, is_cut: bool) -> None:
        """Takes a place from the network, or lets it in again."""
        raise NoPlaces("a place that shares the network of others cannot be cut off")

    def close(self) -> None:
        """Takes all places away, at which nothing runs any more."""


class Namespaces(Addresses):
    """Places that are a network namespace each, with a cable to one bridge."""

    how = "in network namespaces"
    network = "10.77.0"
    may_be_cut = True

    def __init__(self, places: Sequence[str]) -> None:
        super().__init__(places)
        # processes that do nothing but keep their namespaces there
        self.all_held: List[subprocess.Popen[bytes]] = []
        self.held: Dict[str, subprocess.Popen[bytes]] = {}
        try:
            self.bridge = self.hold(OWN)
            self.do(self.bridge, "ip", "link", "add", "name", "bridge", "type", "bridge")
            self.do(self.bridge, "ip", "link", "set", "bridge", "up")
            for place in places:
                self.held[place] = self.hold([*self.at(self.bridge), "unshare", "--net"])
                self.tie(place, self.held[place])
        except NoPlaces:
            self.close()
            raise

    def hold(self, words: Sequence[str]) -> subprocess.Popen[bytes]:
        """Keeps a new namespace there, which these words make."""
        pipe = subprocess.PIPE
        try:
            process = subprocess.Popen([*words, *HOLD], stdin=pipe, stdout=pipe, stderr=pipe)
        except OSError as error:
            raise NoPlaces(f"{words[0]}: {error.strerror}") from None
        self.all_held.append(process)
        assert process.stdout and process.stderr
        if not process.stdout.readline():
            raise NoPlaces(process.stderr.read().decode(errors="replace").strip())
        return process

    def at(self, process: subprocess.Popen[bytes]) -> List[str]:
        """The words before those of a program, which have it run in the namespaces of a process."""
        return ["nsenter", "--target", str(process.pid), "--user", "--net", "--preserve-credentials"]

    def do(self, process: subprocess.Popen[bytes], *words: str) -> None:
        """Runs a program to its end in the namespaces of a process."""
        try:
            ran = subprocess.run([*self.at(process), *words], capture_output=True, text=True)
        except OSError as error:
            raise NoPlaces(f"{self.at(process)[0]}: {error.strerror}") from None
        if ran.returncode:
            raise NoPlaces(ran.stderr.strip())

    def tie(self, place: str, held: subprocess.Popen[bytes]) -> None:
        """Gives a place its cable and its address."""
        cable = ["ip", "link", "add", "name", place, "type", "veth", "peer", "name", "cable", "netns", str(held.pid)]
        self.do(self.bridge, *cable)
        self.do(self.bridge, "ip", "link", "set", "dev", place, "master", "bridge", "up")
        self.do(held, "ip", "address", "add", f"{self.addresses[place]}/24", "dev", "cable")
        for name in ("lo", "cable"):
            self.do(held, "ip", "link", "set", name, "up")

    def seen(self, place: str) -> str:
        return self.addresses[place]

    def words(self, place: str) -> List[str]:
        return self.at(self.held[place])

    def cut(self, place: str, is_cut: bool) -> None:
        self.do(self.bridge, "ip", "link", "set", "dev", place, "down" if is_cut else "up")

    def close(self) -> None:
        for process in self.all_held:
            process.kill()
            process.communicate()
        self.all_held.clear()


def best(places: Sequence[str]) -> Addresses:
    """Namespaces where they can be had, and else addresses of this machine."""
    try:
        return Namespaces(places)
    except NoPlaces:
        return Addresses(places)
