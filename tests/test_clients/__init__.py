"""Tests of `clients`: the client in Python with its page, the front, `explain`, `check`, `shell`,
`slice` and `inspect`."""

import sys
from pathlib import Path

from tests.support.program import ROOT

CLIENTS = ROOT / "clients"
PYTHON = CLIENTS / "python"
sys.path += [str(CLIENTS), str(PYTHON)]  # where the modules of the tools, and `metad`, are found


def load_tests(loader, tests, _pattern):
    """All tests of the package, also where it is named alone."""
    for module in sorted(path.stem for path in Path(__file__).parent.glob("test_*.py")):
        tests.addTests(loader.loadTestsFromName(f"{__name__}.{module}"))
    return tests
