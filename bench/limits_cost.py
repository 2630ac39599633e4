#!/usr/bin/env python3
"""Counts the instructions of a front per line, with and without limits, by valgrind's callgrind: for one client that waits
for each answer, and for ten that write ahead.

Usage: limits_cost.py PROGRAM. It fails if limits add more than 5 % to what a line takes in the front and in PROGRAM together.
`make bin/own_name.so` builds what it preloads.
"""

from __future__ import annotations

import os
import re
import signal
import socket
import subprocess
import sys
import time
from pathlib import Path
from tempfile import TemporaryDirectory
from typing import List

ROOT = Path(__file__).resolve().parent.parent
FRONT, PRELOADED = ROOT / "bin" / "metad-front", ROOT / "bin" / "own_name.so"
MOST = 1.05
FEW, MANY = 1_000, 5_000
PATIENCE = 120.0
LINES = (b'{"do":"children","object":1}\n', b'{"do":"set","object":1,"property":"x","value":7}\n')
NEW = b'{"class":"Cell","do":"new"}\n'
LIMITS = """\
front_memory = 1000000000
[client]
commands = { per_second = 1000000, burst = 1000000 }
input_bytes = { per_second = 1000000000, burst = 1000000000 }
unread_bytes = 16000000
half_line_bytes = 65536
half_line_seconds = 60
idle_seconds = 3600
joins = 100
[uid]
connections = 1000
commands = { per_second = 1000000, burst = 1000000 }
input_bytes = { per_second = 1000000000, burst = 1000000000 }
unread_bytes = 100000000
joins = 1000
[group]
commands = { per_second = 1000000, burst = 1000000 }
[rights]
default = "refuse"
[[rights.rule]]
connect = true
join = ["desk"]
"""


class Fault(Exception):
    """Why nothing can be counted."""


def connected(path: Path) -> socket.socket:
    link = socket.socket(socket.AF_UNIX)
    link.settimeout(PATIENCE)
    until = time.monotonic() + PATIENCE
    while link.connect_ex(str(path)):
        if time.monotonic() > until:
            raise Fault("the front does not listen")
        time.sleep(0.05)
    return link


def drive(path: Path, clients: int, ahead: int, count: int) -> None:
    """Each client writes so many lines, with so many ahead, and reads an answer to each."""
    links = [connected(path) for _ in range(clients)]
    readers = [link.makefile("rb") for link in links]
    for link, reader in zip(links, readers):
        link.sendall(NEW)
        reader.readline()
    for at in range(0, count, ahead):
        for link in links:
            link.sendall(b"".join(LINES[(at + more) % len(LINES)] for more in range(ahead)))
        for reader in readers:
            for _ in range(ahead):
                reader.readline()
    for link, reader in zip(links, readers):
        reader.close()
        link.close()


def instructions(program: str, options: List[str], clients: int, ahead: int, count: int) -> int:
    """The instructions that a front takes in all."""
    with TemporaryDirectory(prefix="metad-cost-") as room:
        path, limits = Path(room, "socket"), Path(room, "limits.toml")
        limits.write_text(LIMITS)
        words = ["valgrind", "--tool=callgrind", "--callgrind-out-file=/dev/null", FRONT, "--quiet"]
        words += [str(limits) if it == "FILE" else it for it in options]
        own = {**os.environ, "LD_PRELOAD": str(PRELOADED), "OWN_NAME": str(FRONT)}
        with subprocess.Popen([*words, path, program], stderr=subprocess.PIPE, text=True, env=own) as front:
            try:
                drive(path, clients, ahead, count)
                front.send_signal(signal.SIGTERM)
                said = front.communicate(timeout=PATIENCE)[1]
            finally:
                front.kill()
    return collected(said)


def collected(said: str) -> int:
    """The instructions that callgrind says it has counted."""
    found = re.search(r"Collected : (\d+)", said)
    if found is None:
        raise Fault(f"callgrind does not say how many instructions it has collected: {said[-500:]}")
    return int(found[1])


def of_server(program: str) -> float:
    """The instructions per line of the server alone, without those of the start."""
    counts = []
    for count in (FEW, MANY):
        lines = [NEW, *(LINES[at % len(LINES)] for at in range(count))]
        given = b"".join(line.replace(b"{", b'{"session":"c1",', 1) for line in lines).decode()
        words = ["valgrind", "--tool=callgrind", "--callgrind-out-file=/dev/null", program]
        ran = subprocess.run(words, input=given, capture_output=True, text=True, timeout=PATIENCE)
        counts.append(collected(ran.stderr))
    return (counts[1] - counts[0]) / (MANY - FEW)


def per_line(program: str, options: List[str], clients: int, ahead: int) -> float:
    """The instructions per line of the front, without those of the start."""
    few, many = (instructions(program, options, clients, ahead, count // clients) for count in (FEW, MANY))
    return (many - few) / (MANY - FEW)


def main() -> int:
    if sys.argv[1:] == ["--help"]:
        print(__doc__)
        return 0
    if len(sys.argv) != 2:
        print("usage: limits_cost.py PROGRAM", file=sys.stderr)
        return 2
    program, worst = str(Path(sys.argv[1]).resolve()), 0.0
    if not PRELOADED.exists():
        print("limits_cost.py: bin/own_name.so is missing; `make bin/own_name.so` builds it", file=sys.stderr)
        return 1
    try:
        server = of_server(program)
        print(f"the server: {server:,.0f} instructions per line", flush=True)
        for what, clients, ahead in (("one client that waits", 1, 1), ("ten clients that write ahead", 10, 20)):
            without, limited = (per_line(program, options, clients, ahead) for options in ([], ["--limits", "FILE"]))
            share, of_both = limited / without - 1, (limited - without) / (server + without)
            worst = max(worst, 1 + of_both)
            print(f"the front, {what}: {without:,.0f}, {limited:,.0f} with limits: {share:+.1%}, {of_both:+.1%} of both", flush=True)
    except (Fault, OSError, subprocess.TimeoutExpired) as fault:
        print(f"limits_cost.py: {fault}", file=sys.stderr)
        return 1
    return int(worst > MOST)


if __name__ == "__main__":
    sys.exit(main())
