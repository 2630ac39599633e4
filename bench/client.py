#!/usr/bin/env python3
"""Measures what the client in Python costs: commands of each kind next to a bare loop that needs no client.

Usage: client.py PROGRAM. The bare loop writes a line to PROGRAM, reads one, and reads its JSON. For commands one at a time, sent ahead,
in a batch, and with asyncio it prints the processor time per command, without that of PROGRAM, and the commands per second as
a share of those of the bare loop. If bin/libmetad.so is there, it does the same for a server inside this program, where the bare
loop calls the library by ctypes. All kinds are measured by turns in one run, and the best turn of each counts. Other load on the
machine affects the figures: they are for people, and decide nothing.
"""

from __future__ import annotations

import asyncio
import ctypes
import json
import subprocess
import sys
import time
from contextlib import ExitStack
from pathlib import Path
from typing import Awaitable, Callable, Dict, List, Tuple

from ending import measured

ROOT = Path(__file__).resolve().parent.parent
sys.path.append(str(ROOT / "clients" / "python"))

import metad  # noqa: E402
from metad import aio  # noqa: E402
from metad.library import library_at  # noqa: E402

TURNS, COMMANDS = 150, 200  # in each turn so many commands of each kind
ROOM = 65_536
LIBRARY = ROOT / "bin" / "libmetad.so"
NEW = b'{"class":"QObject","do":"new","session":"a"}\n'
GET = b'{"object":1,"property":"objectName","do":"get","session":"a"}\n'

Run = Callable[[], object]
"""Gives as many commands as a turn has, and takes their replies."""


def bare(stack: ExitStack, program: str) -> Run:
    """A loop with a program, without the client."""
    pipe = subprocess.PIPE
    process = stack.enter_context(subprocess.Popen([program], stdin=pipe, stdout=pipe))
    assert process.stdin and process.stdout
    stdin, stdout = process.stdin, process.stdout

    def ask(line: bytes) -> object:
        stdin.write(line)
        stdin.flush()
        return json.loads(stdout.readline())["reply"]

    ask(NEW)
    return lambda: [ask(GET) for _ in range(COMMANDS)]


def bare_inside(stack: ExitStack) -> Run:
    """A loop with a server inside this program, without the client."""
    library, server = library_at(LIBRARY), ctypes.c_void_p()
    library.metad_open(ctypes.byref(server), b"", 0, 10_000, None, None)
    stack.callback(library.metad_close, ctypes.byref(server))
    room, length = ctypes.create_string_buffer(ROOM), ctypes.c_size_t()

    def ask(line: bytes) -> object:
        library.metad_lines(server, line, len(line), None)
        library.metad_output(server, room, ROOM, ctypes.byref(length))
        return json.loads(ctypes.string_at(room, length.value))["reply"]

    ask(NEW)
    return lambda: [ask(GET) for _ in range(COMMANDS)]


def kinds_of(session: metad.Session) -> Dict[str, Run]:
    """The kinds of commands of a session that waits, by their names."""
    number = session.new("QObject")

    def one() -> None:
        for _ in range(COMMANDS):
            session.get(number, "objectName")

    def ahead() -> None:
        sent = [session.send("get", object=number, property="objectName") for _ in range(COMMANDS)]
        for it in sent:
            it.result()

    def batch() -> None:
        with session.batch() as batch:
            for _ in range(COMMANDS):
                batch.get(number, "objectName")
        for it in batch:
            it.result()

    return {"one at a time": one, "sent ahead": ahead, "batch": batch}


async def started(stack: ExitStack, program: str) -> Tuple[aio.Session, int]:
    """A session for asyncio, with an object."""
    server = await aio.start(program)
    stack.callback(lambda: asyncio.get_event_loop().run_until_complete(server.close()))
    session = server.session("a")
    return session, await session.new("QObject")


def awaited(stack: ExitStack, program: str) -> Dict[str, Run]:
    """The kinds of commands with asyncio, by their names."""
    loop = asyncio.new_event_loop()
    asyncio.set_event_loop(loop)
    stack.callback(loop.close)
    session, number = loop.run_until_complete(started(stack, program))

    async def one() -> None:
        for _ in range(COMMANDS):
            await session.get(number, "objectName")

    async def batch() -> None:
        async with session.batch() as batch:
            for _ in range(COMMANDS):
                batch.get(number, "objectName")
        for it in batch:
            it.result()

    def run(work: Callable[[], Awaitable[None]]) -> Run:
        return lambda: loop.run_until_complete(work())

    return {"asyncio, one at a time": run(one), "asyncio, batch": run(batch)}


def compare(kinds: Dict[str, Run]) -> None:
    """Runs all kinds by turns, and prints what each takes; the first one is the bare loop."""
    spent: Dict[str, List[float]] = {name: [] for name in kinds}
    passed: Dict[str, List[float]] = {name: [] for name in kinds}
    for _ in range(TURNS):
        for name, run in kinds.items():
            begun, at = time.process_time(), time.perf_counter()
            run()
            spent[name].append(time.process_time() - begun)
            passed[name].append(time.perf_counter() - at)
    of_bare = min(passed[next(iter(kinds))])
    for name in kinds:
        share, micros = of_bare / min(passed[name]), 1e6 * min(spent[name]) / COMMANDS
        print(f"{name}: {share:.2f} of the bare loop's commands per second, {micros:.1f} microseconds of processor time", flush=True)


def measure(program: str) -> None:
    """Measures, and prints what came of it."""
    with ExitStack() as stack:
        server = stack.enter_context(metad.start(program))
        compare({"bare loop": bare(stack, program), **kinds_of(server.session("a")), **awaited(stack, program)})
    if not LIBRARY.exists():
        print("a server inside this program: bin/libmetad.so is not here (make library)")
        return
    with ExitStack() as stack:
        own = kinds_of(stack.enter_context(metad.inside(LIBRARY)).session("a"))
        compare({"bare loop inside": bare_inside(stack), **{f"inside, {name}": run for name, run in own.items()}})


def main() -> int:
    return measured("client.py", str(__doc__), sys.argv[1:], measure, (OSError, metad.MetadError))


if __name__ == "__main__":
    sys.exit(main())
