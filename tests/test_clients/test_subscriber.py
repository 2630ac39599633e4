"""The subscriber (examples/subscriber/subscriber.py), which finds the client and the front in this repository."""

import os
from pathlib import Path

from tests.support.program import ROOT

from .fronts import ClientCases

SUBSCRIBER = ROOT / "examples" / "subscriber" / "subscriber.py"
SAID = "".join(f"the subscriber says: {it}\n" for it in ("it listens", "x is 1", "x is 2", "x is 3"))


class Subscriber(ClientCases):
    """Runs of the example."""

    def test_subscriber(self):
        """Each value is printed as it comes: the publisher gives the next one when it knows that the last one was printed."""
        ran = self.ran_example(SUBSCRIBER, self.program)
        self.assertEqual((ran.returncode, ran.stdout, ran.stderr), (0, SAID, ""))
        self.assertEqual(os.listdir(self.room), [], "what it leaves")

    def test_nothing_to_start(self):
        """Where there is no server it says so and ends."""
        ran = self.ran_example(SUBSCRIBER, Path(self.room, "nothing"))
        self.assertEqual((ran.returncode, ran.stdout), (1, ""), ran.stderr)
        self.assertRegex(ran.stderr, r"^subscriber: .*No such file or directory[^\n]*\n$")
