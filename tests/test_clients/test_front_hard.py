"""A small share of the hard use of a front (bench/hard_use.py)."""

import subprocess
import sys

from tests.support.cases import ProgramCases
from tests.support.program import ROOT
from tests.support.seeds import seed_of

from .fronts import PATIENCE

HARD_USE, ECHO = (ROOT / "bench" / name for name in ("hard_use.py", "hard_echo.py"))
SECONDS = 600  # in which a trial has to end, however slow the machine is
PART = "25"


class HardUse(ProgramCases):
    """The trials of bench/hard_use.py."""

    def ran(self, *words, seconds=PATIENCE):
        return subprocess.run([sys.executable, "-W", "error", HARD_USE, *words], capture_output=True, text=True, timeout=seconds)

    def check(self, trial, *words, program=None):
        """A trial finds no fault, and reports its work."""
        seed = seed_of(self)
        ran = self.ran("--seed", str(seed), *words, program or self.program, trial, seconds=SECONDS)
        self.assertEqual((ran.returncode, ran.stderr), (0, ""), f"SEED={seed}")
        said = ran.stdout.splitlines()
        self.assertEqual((len(said), said[0]), (2, f"seed {seed}"), ran.stdout)
        self.assertTrue(said[1].startswith(f"{trial}: "), said[1])

    def test_rubbish(self):
        """Clients that write random lines and forgeries receive what the program alone would send each of them."""
        self.check("rubbish", "--part", PART)

    def test_handed_on(self):
        """Each of these lines is handed on once, with the client's session and otherwise byte for byte."""
        self.check("rubbish", "--part", "20", program=ECHO)
        for words, status in ((("--help",), 0), (("more",), 2)):
            ran = subprocess.run([ECHO, *words], capture_output=True, text=True, timeout=PATIENCE)
            self.assertEqual((ran.returncode, "usage: " in (ran.stdout + ran.stderr).lower()), (status, True), words)

    def test_kills(self):
        """Where workers are killed under load, each command is answered once."""
        self.check("kills", "--part", "4")

    def test_resume(self):
        """Where fronts are killed under load, what was answered is there when the next one continues."""
        self.check("resume", "--part", "4")

    def test_storm(self):
        """Half lines, clients that do not read, floods and storms of connections end no front, and others are served."""
        self.check("storm", "--part", PART)

    def test_soak(self):
        """Clients that connect, leave and vanish leave nothing with the front."""
        self.check("soak", "--seconds", "8")

    def test_words(self):
        """Wrong words give status 2 and a line of usage, help is shown, and a program that cannot run gives status 1."""
        for words in ((), ("bin/metad",), ("bin/metad", "no"), ("--part", "0", "bin/metad", "kills"), ("--seed", "x", "bin/metad", "kills")):
            ran = self.ran(*words)
            self.assertEqual((ran.returncode, ran.stdout), (2, ""), words)
            self.assertIn("usage: hard_use.py", ran.stderr, words)
        ran = self.ran("--help")
        self.assertEqual((ran.returncode, ran.stderr), (0, ""))
        self.assertIn("soak", ran.stdout)
        ran = self.ran("/dev/null", "kills")
        self.assertEqual(ran.returncode, 1)
        self.assertRegex(ran.stderr, r"^hard_use\.py: kills: .+\n$")
