"""How tests type into a program on a pseudo-terminal, and read what it shows."""

import fcntl
import os
import select
import termios
import time

PATIENCE = 60  # seconds in which a terminal has to show what is waited for


def make_controlling():
    """Makes standard input the terminal of the process, whose keys then interrupt it."""
    fcntl.ioctl(0, termios.TIOCSCTTY, 0)


class Terminal:
    """A shell on a pseudo-terminal."""

    def __init__(self, test, process, master):
        self.test, self.process, self.master = test, process, master
        self.shown = ""  # what has not been waited for yet
        self.all = ""

    def type(self, text):
        os.write(self.master, text.encode())

    def wait(self, text):
        """Waits until a text is shown; answers what came before it."""
        if not self.comes(text, PATIENCE):
            self.test.fail(f"{text!r} is not shown, but {self.shown!r}")
        before, self.shown = self.shown.split(text, 1)
        return before

    def do(self, line, shown):
        """Types a line, and waits for what it shows and for the next prompt."""
        self.type(f"{line}\r")
        self.wait(shown)
        self.wait("a> ")

    def leave(self, typed="\x04"):
        """Ends the shell, by the end of its input or a line; its status is 0."""
        self.type(typed)
        self.test.assertEqual(self.end(), 0, "the end")

    def interrupt(self, text):
        """Presses Ctrl-C until a text is shown, as one would: a line editor that has just shown its prompt, and does not
        wait for a key yet, sees the interrupt when the next key comes."""
        for _ in range(PATIENCE):
            self.type("\x03")
            if self.comes(text, 1):
                break
        self.wait(text)

    def comes(self, text, seconds):
        """Whether a text is shown in that time."""
        until = time.monotonic() + seconds
        while text not in self.shown:
            ready, _, _ = select.select([self.master], [], [], max(0, until - time.monotonic()))
            if not ready or not self.read():
                return False
        return True

    def read(self):
        """Takes what is shown; answers whether there was anything before the end."""
        try:
            data = os.read(self.master, 65_536).decode(errors="replace")
        except OSError:
            return False
        self.shown += data
        self.all += data
        return bool(data)

    def end(self):
        """The status of the shell, when all that it shows is read."""
        while self.read():
            pass
        return self.process.wait(PATIENCE)
