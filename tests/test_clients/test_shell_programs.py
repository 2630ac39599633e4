"""`shell` (clients/shell) over programs that are not metad, and its word `save`."""

import sys
import time
from pathlib import Path

from .fronts import FrontCases
from .test_shell import ShellCases

BOUND = 50  # seconds in which the shell has to say what is wrong, however busy the machine is
SILENT = "has answered nothing in 10 seconds; is {} metad?"
STRANGE = "no line of the protocol: "
ENDED = "the server has ended with status 0; is {} metad?"
GARBAGE = "import sys; print('%s', flush=True); sys.stdin.read()"
HALF = "import time; print('{', end='', flush=True); time.sleep(60)"
LATE = """
import sys, time
input(), print('{"reply":[1],"session":"a"}')
input(), time.sleep(11), print('{"reply":[2],"session":"a"}')
sys.stdin.read()
"""
OTHERS = (  # programs that are not metad, with what has to be said of them
    (("cat",), STRANGE),
    (("true",), ENDED),
    (("yes",), STRANGE),
    (("head", "-c", "100000000", "/dev/zero"), STRANGE),
    ((sys.executable, "-c", GARBAGE % "no JSON"), STRANGE),
    ((sys.executable, "-c", GARBAGE % "[1]"), STRANGE),
)


class Others(FrontCases, ShellCases):
    """Programs that are not metad."""

    def fault_of(self, case):
        """What is wrong with a run over a program, which has to end in time and to say what is wrong, or None."""
        given, words, wanted = case
        began = time.monotonic()
        ran = self.ran(given, server=words)
        said, seconds = ran.stderr.decode().splitlines()[-1:], time.monotonic() - began
        is_right = (ran.returncode, ran.stdout) == (1, b"") and said and wanted in said[0] and seconds < BOUND
        return None if is_right else f"{seconds} seconds: {ran}"

    def check_runs(self, others):
        """Tries programs, each with a line and with nothing."""
        cases = [(given, words, wanted.format(words[0])) for words, wanted in others for given in ("status\n", "")]
        self.check_each([(f"{words} given {given!r}", (given, words, wanted)) for given, words, wanted in cases], self.fault_of)

    def test_others(self):
        """Where what is written is no answer, that is said at once, also where nothing was asked."""
        self.check_runs(OTHERS)

    def test_silent(self):
        """A program that answers nothing is given up after a while."""
        self.check_runs([(("sleep", "60"), SILENT), ((sys.executable, "-c", HALF), SILENT)])

    def test_late(self):
        """One that has answered once may take as long as it likes."""
        said = self.said("children\nchildren\n", server=(sys.executable, "-uc", LATE))
        self.assertEqual(said, "the root is 1\nthe root is 2\n", "what is said")

    def test_nothing_asked(self):
        """The end of an empty input is no fault of metad, nor behind a front."""
        self.assertEqual(self.said(""), "", "an empty input")
        with self.front() as (path, _):
            self.assertEqual(self.said("", "--socket", str(path), server=()), "", "an empty input behind a front")


class Saving(ShellCases):
    """The word `save`."""

    def test_save(self):
        """It writes a new file, and leaves one that is there as it is; `save!` writes over it."""
        path = Path(self.room, "sent")
        path.write_text("kept")
        said = self.said("status\nsave sent\n").splitlines()
        self.assertEqual(said[1:], ["not sent: sent exists already; `save! sent` writes over it"], "what is said")
        self.assertEqual(path.read_text(), "kept", "the file")
        self.assertEqual(self.said("status\nsave! sent\nsave other\n").splitlines()[1:], ["1 line in sent", "1 line in other"])
        for it in (path, Path(self.room, "other")):
            self.assertEqual(it.read_text(), '{"do":"status","session":"a"}\n', "the file")

    def test_links(self):
        """A link that leads nowhere is something that is there, too."""
        path = Path(self.room, "link")
        path.symlink_to(Path(self.room, "end"))
        self.assertIn("exists already", self.said("status\nsave link\n"))
        self.assertFalse(Path(self.room, "end").exists(), "whether something was written")

    def test_help(self):
        """The help describes both."""
        said = self.said("help\n").splitlines()
        self.assertIn("save FILE", said)
        self.assertIn("save! FILE", said)
        self.assertIn("writes over it", self.said("help save!\n"))
