#!/usr/bin/env python3
"""Writes the tables of documents that are made from sources: the crates in docs/internals/ARCHITECTURE.md, lowest first.

A table is between two comments of the page, `<!-- table: NAME -->` and `<!-- end of table -->`; all else on the page
stays unchanged. With --check nothing is written, and the status is 1 where a table is not what the sources make of it.
"""

from __future__ import annotations

import argparse
import re
import sys
from pathlib import Path
from typing import Callable, Dict, List, Set

ROOT = Path(__file__).resolve().parent.parent
ARCHITECTURE = Path("docs", "internals", "ARCHITECTURE.md")
BETWEEN = r"(<!-- table: {} -->\n).*?(<!-- end of table -->\n)"
SENTENCE = re.compile(r"(.+?)\.(?= |$)")
SUBJECT = re.compile(r"[^:;]+(?=[:;] |$)")  # what a sentence says before it gives details
KEEPS = re.compile(r"^This crate (\w)")

Crates = Dict[str, List[str]]


class Unwritten(Exception):
    """Why a table cannot be made, as a text for people."""


def crates_of(root: Path) -> Crates:
    """The crates of the repository in the order of crates.txt, each with those of the repository that its line names."""
    lines = (line.partition("#")[0].strip() for line in (root / "crates.txt").read_text().splitlines())
    named = {head.split()[0]: tail.split() for head, _, tail in (line.partition(":") for line in lines if line)}
    return {name: [it for it in below if it in named] for name, below in named.items()}


def all_below(name: str, crates: Crates) -> Set[str]:
    """The crates below another one, at any depth."""
    found: Set[str] = set()
    waiting = list(crates[name])
    while waiting:
        crate = waiting.pop()
        if crate not in found:
            found.add(crate)
            waiting += crates[crate]
    return found


def builds_on(name: str, crates: Crates) -> List[str]:
    """The crates that a crate names, without those that are below another one that it names."""
    named = crates[name]
    covered = {it for other in named for it in all_below(other, crates)}
    return [it for it in named if it not in covered]


def description_of(crate: Path) -> str:
    """What a crate is: the first sentence of its own description, which its root file begins with, without details."""
    sources = [it for it in (crate / "src" / "lib.rt", crate / "src" / "main.rt") if it.is_file()]
    if not sources:
        raise Unwritten(f"{crate} has neither src/lib.rt nor src/main.rt")
    source = sources[0]
    lines = []
    for line in source.read_text().splitlines():
        if not line.startswith("//! "):
            break
        lines.append(line[4:].strip())
    sentence = SENTENCE.match(" ".join(lines))
    if sentence is None:
        raise Unwritten(f"{source} does not begin with a sentence that describes the crate")
    subject = SUBJECT.match(sentence[1])
    return KEEPS.sub(lambda found: found[1].upper(), subject[0] if subject else sentence[1])


def cell(names: List[str]) -> str:
    """A cell of a table with these names."""
    return f" {', '.join(f'`{it}`' for it in names)} " if names else " "


def table_of_crates(root: Path) -> str:
    """Each crate, what it is, and what it builds on."""
    crates = crates_of(root)
    rows = ["| crate | what it is | builds on |", "|---|---|---|"]
    for name in crates:
        rows.append(f"| `{name}` | {description_of(root / 'crates' / name)} |{cell(builds_on(name, crates))}|")
    return "".join(f"{row}\n" for row in rows)


TABLES: Dict[str, Callable[[Path], str]] = {"crates": table_of_crates}


def written(root: Path) -> Dict[Path, str]:
    """The pages with their tables made again."""
    text = (root / ARCHITECTURE).read_text()
    for name, table in TABLES.items():
        between = re.compile(BETWEEN.format(name), re.DOTALL)
        if len(between.findall(text)) != 1:
            raise Unwritten(f"{ARCHITECTURE} has not one place for the table: {name}")
        made = table(root)
        text = between.sub(lambda found: f"{found[1]}\n{made}\n{found[2]}", text)
    return {ARCHITECTURE: text}


def main() -> int:
    parser = argparse.ArgumentParser(description="Writes the tables of the documents that are made of sources.")
    parser.add_argument("--check", action="store_true", help="only says which pages would change; the status is 1 then")
    parser.add_argument("--root", type=Path, default=ROOT, help="the repository, in place of the one that this tool is in")
    given = parser.parse_args()
    try:
        pages = written(given.root)
        stale = [path for path, text in pages.items() if (given.root / path).read_text() != text]
        for path in stale:
            print(f"{path}: {'its tables are stale; make tables writes them' if given.check else 'written'}")
            if not given.check:
                (given.root / path).write_text(pages[path])
    except (Unwritten, OSError) as fault:
        print(f"tables.py: {fault}", file=sys.stderr)
        return 1
    return 1 if given.check and stale else 0


if __name__ == "__main__":
    sys.exit(main())
