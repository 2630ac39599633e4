"""The host with a plug-in (examples/plug_in_host/host.py), which finds the client and the front in this repository."""

import os
from pathlib import Path

from tests.support.documents import COOKBOOK
from tests.support.program import ROOT

from .fronts import ClientCases

HOST = ROOT / "examples" / "plug_in_host" / "host.py"

LINES_MOST = 40

# `Speller` says something of `teh` alone. The host is the first client of the front, and the plug-in the second. Functions
# of Python hear signals by `hear` of a relay; `deleteLater()` was posted, and so is the deletion that it posts.
SAID = """the plug-in says teh: the?
c2 check(QString) ['teh']
c1 hear(QString) ['teh: the?']
c2 deleteLater() []
c2 hear() []
"""


class Host(ClientCases):
    """Runs of the example."""

    def test_host(self):
        """The plug-in hears a word and its end from the host, the host what the plug-in says, and the observer all."""
        ran = self.ran_example(HOST, self.program)
        self.assertEqual((ran.returncode, ran.stdout, ran.stderr), (0, SAID, ""))
        self.assertEqual(os.listdir(self.room), [], "what it leaves")

    def test_nothing_to_start(self):
        """Where there is no server, or one that does not start, it says so and ends."""
        for program, said in ((Path(self.room, "nothing"), "No such file or directory"), ("false", "has ended with status 1")):
            ran = self.ran_example(HOST, program)
            self.assertEqual((ran.returncode, ran.stdout), (1, ""), ran.stderr)
            self.assertRegex(ran.stderr, rf"^host: .*{said}[^\n]*\n$")
            self.assertEqual(os.listdir(self.room), [], "what it leaves")

    def test_length(self):
        """It is as short as docs/COOKBOOK.md says."""
        self.assertLessEqual(len(HOST.read_text().splitlines()), LINES_MOST)
        self.assertIn(f"{LINES_MOST} lines of Python", COOKBOOK.read_text())
