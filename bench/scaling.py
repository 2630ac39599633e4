#!/usr/bin/env python3
"""Measures what you need to plan for many clients: memory per client of a front, lines per second, and moved groups.

Usage: scaling.py PROGRAM. haproxy is measured too if it is on the path. Other load on the machine affects all times: they are
for people, and decide nothing.
"""

from __future__ import annotations

import os
import re
import resource
import selectors
import shutil
import socket
import statistics
import subprocess
import sys
import threading
import time
from contextlib import ExitStack
from pathlib import Path
from tempfile import TemporaryDirectory
from typing import Callable, Dict, List, Sequence

from beside import fronted, front_words, private_bytes
from ending import measured

ROOT = Path(__file__).resolve().parent.parent
MACHINES = ROOT / "examples" / "machines"
sys.path += [str(ROOT / "clients"), str(MACHINES)]
sys.dont_write_bytecode = True  # nothing is left among the examples

from machines import CLIENTS as CLIENTS_PLACE  # noqa: E402
from machines import EDGE, PLACES, Machines, NotThere  # noqa: E402
from places import best  # noqa: E402

CLIENTS, OF_EDGE, PASSING, LINES = 10_000, 1_000, 5_000, 500_000
SPARE = 200  # files that are for other things than clients
TURNS, SECONDS = 5, 2.0
BUSY, AHEAD = 200, 8  # clients that keep a front busy, each with so many commands under way
GROUPS, NAMES = 100_000, 1_000
REPLAYED = 100_000  # lines of a group that moves
CHUNK = 262_144
MOVE = b'{"front":"move","group":"desk","worker":%d}\n'
NEW = b'{"class":"Cell","do":"new"}\n'
PAIR = b'{"do":"set","object":1,"property":"x","value":5}\n{"do":"get","object":1,"property":"x"}\n'
TICKS = os.sysconf("SC_CLK_TCK")


def connected(path: str) -> socket.socket:
    """A client of a front."""
    link = socket.socket(socket.AF_UNIX)
    link.connect(path)
    return link


def say(link: socket.socket, line: bytes) -> bytes:
    """Gives one line, and waits for its answer."""
    link.sendall(line)
    return link.recv(CHUNK)


def server_of(front: int) -> int:
    """The server that a front has started."""
    return int(Path(f"/proc/{front}/task/{front}/children").read_text().split()[0])


def files_of(process: int) -> int:
    """How many files a process has open."""
    return len(os.listdir(f"/proc/{process}/fd"))


def seconds_of(process: int) -> float:
    """What a process has taken of the processor."""
    fields = Path(f"/proc/{process}/stat").read_text().rpartition(")")[2].split()
    return (int(fields[11]) + int(fields[12])) / TICKS


def measure_clients(program: str) -> None:
    """What clients take that are connected, that have an object, and that have gone."""
    count = min(CLIENTS, resource.getrlimit(resource.RLIMIT_NOFILE)[0] - SPARE)
    with fronted(program) as (path, process), ExitStack() as stack:
        front, server = process.pid, server_of(process.pid)
        say(stack.enter_context(connected(path)), NEW)
        sizes, files = [private_bytes(front)], files_of(front)
        links = [stack.enter_context(connected(path)) for _ in range(count)]
        say(stack.enter_context(connected(path)), NEW)  # after which all of them were taken in
        sizes.append(private_bytes(front))
        files, before = files_of(front) - files, private_bytes(server)
        for link in links:
            say(link, NEW)
        sizes.append(private_bytes(front))
        held = private_bytes(server) - before
    idle, busy = ((it - sizes[0]) / count for it in sizes[1:])
    print(f"one of {count:,} clients that says nothing: {idle:,.0f} bytes of the front, {files / count:.2f} files")
    print(f"one with one object: {busy:,.0f} bytes of the front, {held / count:,.0f} of the server")
    with fronted(program) as (path, process):
        before, size = private_bytes(server_of(process.pid)), private_bytes(process.pid)
        for _ in range(PASSING):
            with connected(path) as link:
                say(link, NEW)
        with connected(path) as link:
            say(link, NEW)
        left, size = private_bytes(server_of(process.pid)) - before, private_bytes(process.pid) - size
    print(f"a client that has come and gone: {left / PASSING:,.0f} bytes of the server, {size / PASSING:,.0f} of the front")


def rate(program: str, given: Path) -> float:
    """Lines of a program for each second that it takes of the processor, from file to file."""
    before = resource.getrusage(resource.RUSAGE_CHILDREN)
    with given.open("rb") as source, open(os.devnull, "wb") as sink:
        subprocess.run([program], stdin=source, stdout=sink, check=True)
    after = resource.getrusage(resource.RUSAGE_CHILDREN)
    return LINES / (after.ru_utime - before.ru_utime + after.ru_stime - before.ru_stime)


def measure_program(program: str, room: Path) -> None:
    """Lines a second of the program alone, in one session and in many, as it is given a record."""
    for sessions in (1, 1_000):
        given = room / f"given{sessions}"
        with given.open("wb") as file:
            for number in range(LINES):
                session, turn = number % sessions, number // sessions
                line = NEW if not turn else PAIR.splitlines(keepends=True)[turn % 2]
                file.write(line[:-2] + b',"session":"c%d"}\n' % session)
        rates = [rate(program, given) for _ in range(TURNS)]
        found = f"{statistics.median(rates):,.0f} lines a second of the processor, at best {max(rates):,.0f}"
        print(f"the program alone, {sessions:,} sessions: {found}")


def flood(path: str) -> int:
    """Keeps a front busy for some seconds; answers how many lines were answered."""
    selector, answered = selectors.DefaultSelector(), 0
    for _ in range(BUSY):
        link = connected(path)
        say(link, NEW)
        link.sendall(AHEAD // 2 * PAIR)
        selector.register(link, selectors.EVENT_READ, [link, 0])
    until = time.perf_counter() + SECONDS
    while time.perf_counter() < until:
        for key, _ in selector.select():
            link, rest = key.data
            count = link.recv(CHUNK).count(b"\n")
            answered += count
            rest += count
            link.sendall(rest // 2 * PAIR)
            key.data[1] = rest % 2
    return answered


def measure_front(program: str) -> None:
    """Lines a second through one front, and what each costs front and server."""
    rates: List[float] = []
    costs: Dict[str, List[float]] = {"front": [], "server": []}
    for _ in range(TURNS):
        with fronted(program) as (path, process):
            both = {"front": process.pid, "server": server_of(process.pid)}
            before = {name: seconds_of(it) for name, it in both.items()}
            words = [sys.executable, __file__, "--flood", path]
            answered = int(subprocess.run(words, check=True, capture_output=True).stdout)
            rates.append(answered / SECONDS)
            for name, it in both.items():
                costs[name].append(1e6 * (seconds_of(it) - before[name]) / answered)
    print(f"through one front, {BUSY} clients: {statistics.median(rates):,.0f} lines a second, at best {max(rates):,.0f}")
    for name, found in costs.items():
        middle = statistics.median(found)
        print(f"    a line costs the {name} {middle:.1f} microseconds of the processor, at least {min(found):.1f}")


def measure_edge(program: str, room: Path) -> None:
    """What a client takes of HAProxy at an edge, on a machine and on its own, by TLS between the first and the last."""
    places = best(PLACES)
    machines = Machines([program], room, places, ())
    try:
        machines.start_all()
        path = str(machines.open("ann"))
        with ExitStack() as stack:
            say(stack.enter_context(connected(path)), NEW)
            machines.wait_until("the home", lambda: bool(machines.homes("ann")))
            places_of = {"the edge": EDGE, "a machine": machines.homes("ann")[0], "a client's machine": CLIENTS_PLACE}
            both = {name: machines.running[place][-1].pid for name, place in places_of.items()}
            before = {name: (private_bytes(it), files_of(it)) for name, it in both.items()}
            for _ in range(OF_EDGE):
                say(stack.enter_context(connected(path)), NEW)
            for name, it in both.items():
                size, files = private_bytes(it) - before[name][0], files_of(it) - before[name][1]
                print(f"a connected client: {size / OF_EDGE:,.0f} bytes and {files / OF_EDGE:.2f} files of HAProxy at {name}")
    except NotThere as error:
        print(f"nothing of an edge: {error}")
    finally:
        machines.close()
        places.close()


def measure_replay(program: str, room: Path) -> None:
    """How quickly a group is brought to another worker by its record."""
    try:
        from ring import Ring
    except ImportError:
        return
    path, control = str(room / "workers.sock"), str(room / "workers.control")
    options = ["--quiet", "--workers", "2", "--record", str(room / "records"), "--control", control]
    with subprocess.Popen([*front_words(), *options, path, program], stderr=subprocess.PIPE) as process, ExitStack() as stack:
        stack.callback(process.terminate)
        assert process.stderr
        for line in process.stderr:
            if b": listening at " in line:
                break
        link = stack.enter_context(connected(path))
        say(link, b'{"front":"hello","group":"desk"}\n')
        say(link, NEW)
        reader = link.makefile("rb")
        for _ in range(REPLAYED // 100):
            link.sendall(50 * PAIR)
            for _ in range(100):
                reader.readline()
        begun = time.perf_counter()
        answer = say(stack.enter_context(connected(control)), MOVE % (3 - Ring(2).number_of("desk")))
        seconds = time.perf_counter() - begun
    fault = "" if b'"reply"' in answer else f", but {answer!r}"
    print(f"a group of {REPLAYED:,} lines moves in {seconds:.2f} seconds, {REPLAYED / seconds:,.0f} lines a second{fault}")


def listen(path: str, name: bytes) -> None:
    """Tells whoever connects at a socket this name, once something was said."""
    listener = socket.socket(socket.AF_UNIX)
    listener.bind(path)
    listener.listen(1_024)

    def serve() -> None:
        while True:
            link, _ = listener.accept()
            with link:
                link.recv(CHUNK)
                link.sendall(name)

    threading.Thread(target=serve, daemon=True).start()


def homes(haproxy: str, room: Path, machines: Sequence[int]) -> List[str]:
    """The machine to which HAProxy sends a client of each name, by the lines of the example's edge."""
    text = (MACHINES / "edge.cfg").read_text()
    kind, weight = (re.search(it, text, re.MULTILINE) for it in (r"^    hash-type .*", r"weight \d+"))
    assert kind and weight
    lines = ["defaults", "    mode tcp", *(f"    timeout {it} 20s" for it in ("connect", "client", "server"))]
    lines += ["listen names", f"    bind unix@{room}/in", "    tcp-request inspect-delay 5s"]
    lines += [f"    tcp-request content {it} if {{ req.len ge 1 }}" for it in ("set-var(sess.name) req.payload(0,0)", "accept")]
    lines += ["    balance hash var(sess.name)", kind[0]]
    lines += [f"    server m{it} unix@{room}/m{it} id {it} {weight[0]}" for it in machines]
    (room / "cfg").write_text("\n".join(lines) + "\n")
    (room / "in").unlink(missing_ok=True)
    with subprocess.Popen([haproxy, "-db", "-f", room / "cfg"], stderr=subprocess.DEVNULL) as process:
        while not (room / "in").exists() and process.poll() is None:
            time.sleep(0.01)
        try:
            found = []
            for number in range(NAMES):
                with connected(str(room / "in")) as link:
                    found.append(say(link, b"client%d" % number).decode())
            return found
        finally:
            process.kill()


def tell_moves(what: str, one: Sequence[object], more: Sequence[object], newest: object) -> None:
    """Prints how many have moved, and how many of these not to the newest."""
    moved = [it for before, it in zip(one, more) if before != it]
    strays = sum(it != newest for it in moved)
    print(f"{what}: {len(moved) / len(one):.4f} of them move, {strays} of these to another one than the new one")


def measure_moves(room: Path) -> None:
    """How many groups move when another worker or another machine is added."""
    try:
        from ring import Ring
    except ImportError:
        print("this front has no workers")
    else:
        names = [f"group{number}" for number in range(GROUPS)]
        for count in (1, 2, 3, 4, 8, 16):
            one, more = (list(map(ring.number_of, names)) for ring in (Ring(count), Ring(count + 1)))
            tell_moves(f"groups, from {count} workers to {count + 1}", one, more, count + 1)
            largest = max(map(more.count, set(more))) * (count + 1) / GROUPS
            print(f"    the worker with the most of them has {largest:.2f} of its share")
    haproxy = shutil.which("haproxy", path=f"{os.environ.get('PATH', '')}:/usr/sbin")
    if haproxy is None:
        print("haproxy is not on the path")
        return
    for number in range(1, 5):
        listen(f"{room}/m{number}", f"m{number}".encode())
    tell_moves("names, from 3 machines to 4", homes(haproxy, room, (1, 2, 3)), homes(haproxy, room, (1, 2, 3, 4)), "m4")


def measure(program: str) -> None:
    """Measures, and prints what came of it."""
    found = re.search(r"^model name\s*: (.*)", Path("/proc/cpuinfo").read_text(), re.MULTILINE)
    print(f"{os.cpu_count()} processors, {found[1] if found else 'of an unknown kind'}; Python {sys.version.split()[0]}")
    soft, hard = resource.getrlimit(resource.RLIMIT_NOFILE)
    resource.setrlimit(resource.RLIMIT_NOFILE, (min(hard, 65_536), hard))
    with TemporaryDirectory(prefix="metad-scaling-") as room:
        steps: List[Callable[[], None]] = [
            lambda: measure_clients(program),
            lambda: measure_program(program, Path(room)),
            lambda: measure_front(program),
            lambda: measure_moves(Path(room)),
            lambda: measure_replay(program, Path(room)),
            lambda: measure_edge(program, Path(room)),
        ]
        for step in steps:
            step()
            sys.stdout.flush()


def main() -> int:
    if len(sys.argv) == 3 and sys.argv[1] == "--flood":
        print(flood(sys.argv[2]))
        return 0
    return measured("scaling.py", str(__doc__), sys.argv[1:], measure, (OSError, subprocess.CalledProcessError))


if __name__ == "__main__":
    sys.exit(main())
