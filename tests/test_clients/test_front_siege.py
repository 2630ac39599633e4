"""All attacks on a front with limits at once (bench/siege.py), for a short time."""

import subprocess
import sys

from tests.support.cases import ProgramCases
from tests.support.program import ROOT

from .fronts import PATIENCE

SIEGE = ROOT / "bench" / "siege.py"
SECONDS = 600  # in which it has to end, however slow the machine is


class Siege(ProgramCases):
    """The front under all attacks."""

    def ran(self, *words, seconds=PATIENCE):
        return subprocess.run([sys.executable, "-W", "error", SIEGE, *words], capture_output=True, text=True, timeout=seconds)

    def test_siege(self):
        """Those that mean well lose nothing, and the memory of the front and of its servers does not grow."""
        ran = self.ran("--seconds", "20", self.program, seconds=SECONDS)
        self.assertEqual((ran.returncode, ran.stderr), (0, ""))
        self.assertRegex(ran.stdout, r"^siege: [\d,]+ commands of 40 clients, each answered once; attacks: ")
        for name in ("flood", "blank", "half_line", "long_loop", "guess", "share", "check_health", "storm"):
            self.assertIn(f'"{name}"', ran.stdout, "attacks that were made")
        self.tell(ran.stdout.strip())

    def test_words(self):
        """Wrong words give status 2 and a line of usage, help is shown, and a program that cannot run gives status 1."""
        for words in ((), ("--seconds", "1", "bin/metad"), ("--seconds", "x", "bin/metad"), ("bin/metad", "more")):
            ran = self.ran(*words)
            self.assertEqual((ran.returncode, ran.stdout), (2, ""), words)
            self.assertIn("usage: siege.py", ran.stderr, words)
        ran = self.ran("--help")
        self.assertEqual((ran.returncode, ran.stderr), (0, ""))
        ran = self.ran("--seconds", "4", "/dev/null")
        self.assertEqual(ran.returncode, 1)
        self.assertRegex(ran.stderr, r"^siege\.py: .+\n$")
