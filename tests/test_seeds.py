"""What keeps a run of the tests from depending on chance: one seed for all random tests, and signals that are not ignored. Also
`make soak`, which tries other seeds."""

import os
import re
import signal
import subprocess
import sys
import unittest

from .support.program import ROOT, SECONDS
from .support.soak import modules

TESTS = ROOT / "tests"
OWN = {TESTS / "support" / "seeds.py", TESTS / "support" / "soak.py", TESTS / "test_seeds.py"}
OF_SEEDS = re.compile(r"\bseeds import\b|\bSEED\b|\bseed_of\b")
OF_ENVIRONMENT = re.compile(r"environ[^\n]*\bSEED\b")
WITHOUT_SEED = re.compile(r"\brandom\.(?!Random\b)[a-z]+\(|\bRandom\(\)")  # of the module itself, or without a seed
QUICK = "Apart.test_order"  # a random test that takes no time
IGNORED = """
import signal
for number in (signal.SIGHUP, signal.SIGINT, signal.SIGQUIT, signal.SIGTERM):
    signal.signal(number, signal.SIG_IGN)
import subprocess, tests
for line in subprocess.run(["cat", "/proc/self/status"], capture_output=True, text=True).stdout.splitlines():
    if line.startswith("SigIgn:"):
        print(line.split()[1])
"""


def python(*words, **variables):
    """Runs Python at the top of the repository with these words and variables."""
    own = {**{key: value for key, value in os.environ.items() if key not in ("SEED", "CASE")}, **variables}
    return subprocess.run([sys.executable, *words], cwd=ROOT, env=own, capture_output=True, text=True, timeout=SECONDS)


class Seeds(unittest.TestCase):
    """The seed of random tests."""

    def test_one_place(self):
        """All random tests have the seed from one place, and no test draws random numbers without a seed."""
        for path in sorted({*TESTS.rglob("*.py")} - OWN):
            for wrong in (OF_ENVIRONMENT, WITHOUT_SEED):
                self.assertIsNone(wrong.search(path.read_text()), path)

    def test_modules(self):
        """`make soak` runs all modules that get the seed. Only these get it: what they share is given it."""
        of_seeds = [path for path in sorted({*TESTS.rglob("*.py")} - OWN) if OF_SEEDS.search(path.read_text())]
        with_tests = [".".join(path.relative_to(ROOT).with_suffix("").parts) for path in of_seeds if path.name.startswith("test_")]
        self.assertEqual(modules(), with_tests)
        self.assertLess(15, len(with_tests), "the modules")
        shared = [path for path in of_seeds if "seeds import" in path.read_text() and not path.name.startswith("test_")]
        self.assertEqual(shared, [], "what tests share")

    def test_default(self):
        """Random tests try the same cases each time, and others with SEED."""
        for variables, wanted in (({}, 1), ({"SEED": "7"}, 7), ({"SEED": ""}, 1)):
            ran = python("-c", "from tests.support.seeds import SEED; print(SEED)", **variables)
            self.assertEqual((ran.stdout, ran.stderr), (f"{wanted}\n", ""), variables)

    def test_soak(self):
        """The seed that `make soak` prints is another one each time, and that of its tests; with SEED it is that one."""
        seeds = []
        for variables in ({}, {}, {"SEED": "7"}):
            ran = python("-m", "tests.support.soak", "-k", QUICK, **variables)
            self.assertEqual(ran.returncode, 0, ran.stderr)
            seeds.append(ran.stdout)
            self.assertRegex(ran.stdout, r"^SEED=[0-9]+\n$")
            self.assertIn(f"... {ran.stdout.strip()} ... ok", ran.stderr)
        self.assertEqual((len(set(seeds)), seeds[-1]), (3, "SEED=7\n"))


class Signals(unittest.TestCase):
    """Signals that the tests were started with."""

    def test_ignored(self):
        """Programs under test do not ignore signals, even if the tests do: `nohup make tests` passes."""
        ran = python("-c", IGNORED)
        mask = int(ran.stdout, 16)
        for number in (signal.SIGHUP, signal.SIGINT, signal.SIGQUIT, signal.SIGTERM):
            self.assertEqual(mask >> (number - 1) & 1, 0, f"{number!r} is ignored")
