"""Runs the modules with random tests once more, with a random seed, which it prints first and, after a failure, last.

`python3 -m tests.support.soak [WORD...]`; the words are for unittest, such as `-k NAME`. `SEED=NUMBER` gives the seed, so that
the cases of an earlier run are tried again.
"""

from __future__ import annotations

import os
import random
import re
import subprocess
import sys

from .program import ROOT

TAKES_SEED = re.compile(r"^from (?:tests)?\.support\.seeds import ", re.MULTILINE)
"""How modules with random tests get the seed."""
SEEDS = 2**32
FAILED, INTERRUPTED = 1, 130  # exit statuses


def modules() -> list[str]:
    """The modules with random tests."""
    paths = (path for path in sorted((ROOT / "tests").rglob("test_*.py")) if TAKES_SEED.search(path.read_text()))
    return [".".join(path.relative_to(ROOT).with_suffix("").parts) for path in paths]


def main(words: list[str]) -> int:
    if words in (["-h"], ["--help"]):
        print(__doc__)
        return 0
    seed = os.environ.get("SEED") or str(random.randrange(SEEDS))
    print(f"SEED={seed}", flush=True)
    command = [sys.executable, "-m", "unittest", "-v", *words, *modules()]
    try:
        status = subprocess.run(command, cwd=ROOT, env={**os.environ, "SEED": seed}).returncode
    except KeyboardInterrupt:
        return INTERRUPTED
    if status == FAILED:
        print(f"SEED={seed} make soak tries the same cases again", flush=True)
    return status


if __name__ == "__main__":
    sys.exit(main(sys.argv[1:]))
