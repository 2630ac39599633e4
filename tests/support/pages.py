"""How the programs of a page are run: a block of Python, followed by a block of what it prints."""

import os
import re
import subprocess
import sys

from .documents import BLOCK
from .program import ROOT, SECONDS

PYTHON = ROOT / "clients" / "python"
PROGRAM_AND_PRINT = re.compile(rf"^```python\n{BLOCK}```\n+```text\n{BLOCK}```$", re.MULTILINE)


def check_page(test, page, room):
    """Runs the programs of a page in a folder, and compares what they print; answers how many there are."""
    examples = PROGRAM_AND_PRINT.findall(page.read_text())
    where = {**os.environ, "PYTHONPATH": str(PYTHON), "PYTHONDONTWRITEBYTECODE": "1"}
    for code, wanted in examples:
        words = [sys.executable, "-W", "error", "-c", code]
        ran = subprocess.run(words, cwd=room, env=where, capture_output=True, text=True, timeout=SECONDS)
        test.assertEqual((ran.stdout, ran.stderr), (wanted, ""), f"what this prints:\n{code}")
    return len(examples)
