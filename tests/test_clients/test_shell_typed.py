"""`shell` (clients/shell) on a pseudo-terminal: what is typed and shown."""

import json
import os
import pty
import subprocess
import sys
import time
from contextlib import contextmanager
from pathlib import Path

from .terminals import PATIENCE, Terminal, make_controlling
from .test_shell import COLOUR, SHELL, ShellCases


class Typed(ShellCases):
    """What is typed on a terminal."""

    @contextmanager
    def terminal(self, *words, server=None, **more):
        """A shell that shows its first prompt."""
        master, slave = pty.openpty()
        words = [sys.executable, SHELL, *words, *((self.program,) if server is None else server)]
        how = {"start_new_session": True, "preexec_fn": make_controlling, "cwd": self.room, "env": self.environment(**more)}
        with subprocess.Popen(words, stdin=slave, stdout=slave, stderr=slave, **how) as process:
            os.close(slave)
            try:
                terminal = Terminal(self, process, master)
                terminal.wait("a> ")
                yield terminal
            finally:
                process.kill()
                os.close(master)

    def history(self):
        """The lines of the history."""
        return Path(self.room, ".local/state/metad/history").read_text().splitlines()

    def test_lines(self):
        """Lines are answered in colours, up to the end of the input; the history has them, and the next run too."""
        with self.terminal() as terminal:
            terminal.do("new Probe as p", "\x1b[32mobject 1 is made, of class Probe, a root; it is p\x1b[0m")
            terminal.do("delete 9", "\x1b[31mrefused, E04: there is no object 9\x1b[0m")
            terminal.type("session b\r")
            terminal.wait("b> ")
            terminal.leave()
        self.assertEqual(self.history(), ["new Probe as p", "delete 9", "session b"])
        with self.terminal() as terminal:
            terminal.do("\x1b[A\x1b[A\x1b[A", "object 1 is made, of class Probe, a root; it is p")
            terminal.leave("quit\r")
        self.assertEqual(self.history()[-2:], ["new Probe as p", "quit"])

    def test_plain(self):
        """With NO_COLOR nothing is coloured. A history that cannot be written is not kept."""
        Path(self.room, "file").write_text("")
        with self.terminal(NO_COLOR="1", XDG_STATE_HOME=f"{self.room}/file") as terminal:
            terminal.do("status", "the session has no object")
            terminal.leave("quit\r")
            self.assertNotIn(COLOUR, terminal.all)
            self.assertNotIn("Traceback", terminal.all)
        self.assertFalse(Path(self.room, ".local").exists(), "a history elsewhere")

    def test_completion(self):
        """The tabulator completes commands, classes, names, methods and properties."""
        with self.terminal(NO_COLOR="1") as terminal:
            for typed, said in (
                ("new Pro\t as p", "object 1 is made, of class Probe, a root; it is p"),
                ("p.pi\t", "ping() of object p was called or sent"),
                ("new Ce\t as cell", "object 2 is made, of class Cell, a root; it is cell"),
                ("cell.fl\t = true", "flag of object cell was set to true"),
                ("cell.setX\t5)", "setX(int) of object cell was called or sent, argument 5"),
                ("conn\t ce\t.xCh\t -> ce\t.see\t que\t", "xChanged(int) of object cell posts a call of seen(int)"),
                ("stat\t", "the session has 2 objects and 1 connection"),
            ):
                terminal.do(typed, said)
            terminal.leave()

    def test_interrupt(self):
        """It cancels the line and nothing else, neither the server nor a wait for an answer."""
        with self.terminal(NO_COLOR="1") as terminal:
            terminal.do("new Probe as p", "it is p")
            terminal.type("delete p")
            terminal.wait("delete p")
            terminal.interrupt("a> ")
            terminal.do("names", "p: object 1, of class Probe")
            terminal.leave()
            self.assertNotIn("Traceback", terminal.all)

    def wait_for(self, path):
        """Waits until there is a file."""
        until = time.monotonic() + PATIENCE
        while not path.exists():
            self.assertLess(time.monotonic(), until, f"{path} does not come")
            time.sleep(0.05)

    def test_interrupted_wait(self):
        """It gives up a wait for an answer; that is left aside when it comes, and the next command has its own."""
        answers = (f"echo '{json.dumps({'reply': numbers, 'session': 'a'})}'" for numbers in ([1], [2]))
        late = "touch asked; until [ -e given_up ]; do sleep 0.1; done"
        server = ("sh", "-c", f"read line; {late}; {'; read line; '.join(answers)}; cat > /dev/null")
        with self.terminal(server=server, NO_COLOR="1") as terminal:
            terminal.type("children\r")
            self.wait_for(Path(self.room, "asked"))
            terminal.interrupt("a> ")
            Path(self.room, "given_up").touch()
            terminal.do("children", "the root is 2")
            terminal.leave()
            self.assertNotIn("the root is 1", terminal.all)
            self.assertNotIn("Traceback", terminal.all)

    def test_server_ends(self):
        """The shell reports the server's end with its status."""
        with self.terminal(server=("sh", "-c", "read line; exit 3")) as terminal:
            terminal.type("status\r")
            terminal.wait("shell: the server has ended with status 3")
            self.assertEqual(terminal.end(), 1, "the end")
