"""`shell` (clients/shell) behind a front that has live sessions: what comes is shown while the prompt waits."""

import subprocess
import sys
from contextlib import contextmanager
from pathlib import Path
from unittest import mock

import metad

from . import CLIENTS, test_shell, test_shell_typed
from .fronts import PATIENCE, FrontCases
from .talking import Talker
from .test_client_live import GREETED, LIVE, NEW

OTHER = "import sys; sys.path[:0] = ['{clients}', '{clients}/python']; {before}; from shelling.program import main; sys.exit(main())"
SEEN = "c.seen(int) called with [{}] by a command or a post"


class LiveShell(FrontCases, test_shell.ShellCases):
    """A shell that listens to another client."""

    terminal = test_shell_typed.Typed.terminal

    def host_of(self, path):
        """A client that is c1 and publishes a signal as `level`; it has to be closed."""
        server = metad.connect(path)
        host = server.session("host")
        host.publish(host.new("Cell"), "xChanged(int)", "level")
        self.assertEqual(host.known_as, "c1", "its name")
        return host

    @contextmanager
    def listening(self):
        """A host and a shell at a terminal that listens to it, behind a front."""
        with self.front() as (path, _):
            host = self.host_of(path)
            with host.server, self.terminal("--socket", str(path), server=(), NO_COLOR="1") as terminal:
                self.listen(terminal)
                yield host, terminal

    @contextmanager
    def piped(self, *words):
        """A host and a shell on pipes that has begun to listen to it, behind a front."""
        with self.front() as (path, _):
            host = self.host_of(path)
            words, pipe = [sys.executable, test_shell.SHELL, *words, "--socket", str(path)], subprocess.PIPE
            with host.server, subprocess.Popen(words, stdin=pipe, stdout=pipe, env=self.environment(), text=True) as process:
                try:
                    process.stdin.write("new Cell as c\njoin c1.level(int) -> c.seen(int)\n")
                    process.stdin.flush()
                    for _ in range(2):
                        process.stdout.readline()
                    yield host, process
                finally:
                    process.kill()

    def listen(self, terminal):
        """Has the shell at a terminal listen to the host."""
        terminal.do("new Cell as c", "it is c")
        terminal.do("join c1.level(int) -> c.seen(int)", "is joined by seen(int)")

    def test_typed(self):
        """A call is shown while the prompt waits, and what is typed by then stays, and is shown again."""
        with self.listening() as (host, terminal):
            host.set(1, "x", 1)
            terminal.wait(f"{SEEN.format(1)}\r\n")
            terminal.wait("a> ")
            terminal.type("c.y = 2")
            terminal.wait("c.y = 2")
            terminal.type("\x1b[D")  # the cursor goes before the 2
            for value in (2, 3):
                host.set(1, "x", value)
                terminal.wait(f"{SEEN.format(value)}\r\n")
                terminal.wait("a> c.y = 2")
            terminal.do("4", "y of object c was set to 42")
            terminal.type("spin\r")
            self.assertNotIn("called", terminal.wait("a> "), "what is left for `spin`")
            terminal.leave()
            self.assertNotIn("Traceback", terminal.all)

    def test_many(self):
        """Calls that come while commands are typed are all shown, in order, and no answer is missed."""
        with self.listening() as (host, terminal):
            for value in range(1, 41):
                host.set(1, "x", value)
                if value % 4 == 0:
                    terminal.type(f"c.y = {value}\r")
                    terminal.wait(f"set to {value}\r\n")
            if SEEN.format(40) not in terminal.all:
                terminal.wait(SEEN.format(40))
            told = [line.split("[")[1].split("]")[0] for line in terminal.all.splitlines() if "called with [" in line]
            self.assertEqual(told, [str(value) for value in range(1, 41)], "what is shown")
            sets = [int(line.rpartition(" ")[2]) for line in terminal.all.splitlines() if "was set to" in line]
            self.assertEqual(sets, list(range(4, 41, 4)), "the answers")
            terminal.leave("quit\r")

    def test_other_editors(self):
        """With another line editor, or without one, calls are shown too, and what is typed is not lost."""
        for before in ("import shelling.prompting; shelling.prompting.editor = lambda: None", "sys.modules['readline'] = None"):
            shell = Path(self.room, "shell")
            shell.write_text(OTHER.format(clients=str(CLIENTS), before=before))
            with mock.patch.object(test_shell, "SHELL", shell), self.listening() as (host, terminal):
                terminal.type("c.y = 4")
                terminal.wait("c.y = 4")
                host.set(1, "x", 1)
                terminal.wait(f"{SEEN.format(1)}\r\n")
                terminal.wait("a> ")
                terminal.type("2\r")
                terminal.wait("y of object c was set to 42")
                terminal.leave("quit\r")

    def test_interrupted(self):
        """Ctrl-C cancels the line as usual, even after a call was shown."""
        with self.listening() as (host, terminal):
            terminal.type("delete c")
            terminal.wait("delete c")
            host.set(1, "x", 1)
            terminal.wait("a> delete c")
            terminal.interrupt("a> ")
            terminal.type("names\r")
            terminal.wait("c: object 1, of class Cell")
            terminal.leave("quit\r")

    def test_piped(self):
        """Calls are shown while the next line does not come, also if the input is no terminal."""
        with self.piped() as (host, process):
            for value in (1, 2):
                host.set(1, "x", value)
                self.assertEqual(process.stdout.readline(), f"{SEEN.format(value)}\n", "what is said")
            self.assertEqual(process.communicate("c.y\n", timeout=PATIENCE)[0], "y of object c is 0\n", "an answer")
            self.assertEqual(process.returncode, 0, "the end")

    def test_no_live(self):
        """With --no-live what comes waits for `spin`."""
        with self.piped("--no-live") as (host, process):
            host.set(1, "x", 1)
            told = process.communicate("status\nspin\n", timeout=PATIENCE)[0].splitlines()
        self.assertIn("1 event in its queue", told[0], "what waits")
        self.assertEqual(told[1], SEEN.format(1), "what `spin` brings")
        ran = self.ran("", "--no-live")
        self.assertEqual((ran.returncode, ran.stdout), (2, b""), "without a socket")

    def test_failed(self):
        """If the front's own spin fails, the shell says so, and the session continues."""
        failed = {"error": "E21", "front": "spin", "session": "c1"}
        new, status = NEW, '{"do":"new","session":"a"}'
        with Talker(self.room) as talker:
            talker.play([(LIVE, [GREETED]), (new, [{"reply": 1, "session": "c1"}, failed]), (status, [{"reply": 2, "session": "c1"}])])
            said = self.said("new Cell\nnew Cell\n", "--socket", str(talker.path), server=())
        self.assertIn("refused, E21: ", said, "what is said")
        self.assertIn("events are not shown as they come any more", said, "and what it means")
