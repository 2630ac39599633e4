#!/usr/bin/env python3
"""Raises the version of metad wherever it occurs, and begins its part of CHANGELOG.md.

Usage: version.py REPOSITORY VERSION
"""

import re
import sys
from pathlib import Path

SAID = Path("clients/python/metad/__init__.py")
CHANGES = Path("CHANGELOG.md")
UNRELEASED = "## Unreleased\n"
PLACES = [
    SAID,
    Path("include/metad.h"),
    Path("clients/js/package.json"),
    Path("README.md"),
    Path("clients/qt/CMakeLists.txt"),
    Path("crates/command_line/src/options.rt"),
    Path("man/metad.1"),
    Path("examples/kubernetes/README.md"),
    Path("examples/kubernetes/statefulset.yaml"),
]
VERSION = re.compile(r"\d+\.\d+\.\d+")


def raised(root, new):
    """The texts of all places with the new version, by their paths. Nothing is written."""
    old = re.search(rf'^__version__ = "({VERSION.pattern})"$', (root / SAID).read_text(), re.MULTILINE)[1]
    texts = {path: (root / path).read_text() for path in PLACES}
    missing = [str(path) for path, text in texts.items() if old not in text]
    if missing:
        raise ValueError(f"{old} does not occur in {', '.join(missing)}")
    texts = {path: text.replace(old, new) for path, text in texts.items()}
    return {**texts, CHANGES: begun((root / CHANGES).read_text(), old, new)}


def begun(changes, old, new):
    """The changes with a part of the new version, which is that of what is unreleased where there is one."""
    head, rule, rest = changes.partition(f"## {old}\n")
    if not rule:
        raise ValueError(f"{CHANGES} has no part {old}")
    if UNRELEASED in head:
        return head.replace(UNRELEASED, f"## {new}\n", 1) + rule + rest
    return f"{head}## {new}\n\n{rule}{rest}"


def main():
    if len(sys.argv) != 3 or not VERSION.fullmatch(sys.argv[2]):
        sys.exit(__doc__)
    root = Path(sys.argv[1])
    try:
        texts = raised(root, sys.argv[2])
    except ValueError as fault:
        sys.exit(f"version.py: {fault}")
    for path, text in texts.items():
        (root / path).write_text(text)
    print(f"{len(texts)} files")


if __name__ == "__main__":
    main()
