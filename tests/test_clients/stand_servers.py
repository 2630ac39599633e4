"""Servers that replace `metad` where a test has to know when each command is answered."""

import fcntl
import os
import signal
import struct
import sys
import termios
import time
from contextlib import contextmanager
from pathlib import Path

from .fronts import GREETED_BY_PYTHON, PATIENCE

UNDER_WAY = 32  # commands that a front gives a server ahead
OF_ONE = 8  # those of one client among these, where there are others
IN_STEPS = """import json, os, sys
at_once, total, pause = map(int, sys.argv[1:4])
held, read, answered = [], 0, 0
for line in sys.stdin.buffer:
    held.append(json.loads(line)["session"])
    read += 1
    while len(held) >= at_once or held and read >= total:
        names, held = held[:at_once], held[at_once:]
        os.write(1, "".join('{"reply":true,"session":"%s"}\\n' % name for name in names).encode())
        answered += len(names)
        if answered == pause:
            open(sys.argv[4]).read()
"""


def in_steps(total, pause=0, gate=""):
    """A server that answers commands in groups, as many as a front gives it of one client; after `total` lines it answers all.
    After `pause` answers it waits until somebody opens the gate, a named pipe, and closes it."""
    return [sys.executable, "-c", GREETED_BY_PYTHON + IN_STEPS, *map(str, (OF_ONE, total, pause, gate))]


def wait_until_true(test, holds, what):
    """Waits until something holds."""
    until = time.monotonic() + PATIENCE
    while not holds():
        test.assertLess(time.monotonic(), until, f"it takes too long until {what}")
        time.sleep(0.01)


@contextmanager
def stopped(test, process):
    """Stops a process meanwhile: others' lines to it wait, and it finds all of them at once when it continues."""
    process.send_signal(signal.SIGSTOP)
    try:
        stat = Path(f"/proc/{process.pid}/stat")
        wait_until_true(test, lambda: stat.read_text().rpartition(")")[2].split()[0] == "T", "the process has stopped")
        yield
    finally:
        process.send_signal(signal.SIGCONT)


def wait_until_read(test, link):
    """Waits until the other side of a connection has read all that was written to it."""
    unread = lambda: struct.unpack("i", fcntl.ioctl(link, termios.TIOCOUTQ, struct.pack("i", 0)))[0]
    wait_until_true(test, lambda: unread() == 0, "all is read")


def open_gate(gate):
    """Lets a server continue that waits at a gate."""
    with open(gate, "w"):
        pass


def make_gate(room):
    gate = Path(room, "gate")
    os.mkfifo(gate)
    return gate
