#!/usr/bin/env python3
"""Proves the crates that a program or a library for C builds on, in parallel where they do not need each other.

A crate starts as soon as all that it builds on is ready. The start of the longest chain goes first, and the crate under way
with the longest chain above it gets as many jobs as there are processors. The output of `rt` goes to the crate's own
`out/build.log`, and is shown if the crate fails. An `rt` locks every crate that it reads, so each works on links to the
sources and libraries.
Usage: build.py REPOSITORY PROGRAM
"""

from __future__ import annotations

import argparse
import os
import re
import shutil
import subprocess
import sys
import time
from concurrent.futures import FIRST_COMPLETED, ThreadPoolExecutor, wait
from pathlib import Path

AT_ONCE = 2
JOBS = os.cpu_count() or 1


def crates_of(repository):
    """The crates of the repository, each with those of them that it names."""
    lines = (line.partition("#")[0].strip() for line in (repository / "crates.txt").read_text().splitlines())
    named = {head.split()[0]: tail.split() for head, _, tail in (line.partition(":") for line in lines if line)}
    return {name: [it for it in below if it in named] for name, below in named.items()}


def needed_by(program, crates):
    """The crates below a program or another crate, at any depth."""
    needed, found = set(), list(crates[program])
    while found:
        name = found.pop()
        if name not in needed:
            needed.add(name)
            found += crates[name]
    return {name: crates[name] for name in crates if name in needed}


def heights_of(crates, lines):
    """For each crate how many lines the longest chain has that ends in it and goes up."""
    above = {name: [it for it in crates if name in crates[it]] for name in crates}
    heights = {}

    def height(name):
        if name not in heights:
            heights[name] = lines[name] + max(map(height, above[name]), default=0)
        return heights[name]

    return {name: height(name) for name in crates}


def lines_of(folder):
    return sum(path.read_bytes().count(b"\n") for ending in ("rt", "antt") for path in folder.rglob(f"*.{ending}"))


def link(folder, copy):
    """Makes a crate's folder once more of links to its files: its sources, and its library where it is built."""
    shutil.copytree(folder, copy, copy_function=os.link, ignore=shutil.ignore_patterns("incremental", "build.log"))


def build(repository, name, below, words, jobs):
    """Builds one crate while others are built, and answers whether that went well."""
    work = repository / "bin" / "build" / name
    shutil.rmtree(work, ignore_errors=True)
    (work / "crates").mkdir(parents=True)
    shutil.copy(repository / "HANDLES", work)
    named = (line for line in (repository / "crates.txt").read_text().splitlines() if {*line.partition(":")[0].split()[:1]} & {name, *below})
    (work / "crates.txt").write_text("".join(f"{line}\n" for line in named))
    for it in below:
        link(repository / "crates" / it, work / "crates" / it)
    folder, own = repository / "crates" / name, work / "crates" / name
    shutil.copytree(folder, own, copy_function=os.link, ignore=shutil.ignore_patterns("out"))
    (folder / "out").mkdir(exist_ok=True)
    os.rename(folder / "out", own / "out")
    try:
        with open(own / "out" / "build.log", "w") as log:
            return subprocess.run(["rt", *words, "--jobs", str(jobs)], cwd=own, stdin=subprocess.DEVNULL, stdout=log, stderr=log).returncode == 0
    finally:
        os.rename(own / "out", folder / "out")
        shutil.rmtree(work, ignore_errors=True)


def is_static(repository, name):
    """Whether a crate is a library for programs in C rather than a program."""
    return re.search(rf"^{name} +staticlib\b", (repository / "crates.txt").read_text(), re.MULTILINE) is not None


def build_all(repository, crates):
    """Builds the crates, each after those it builds on; answers the first that fails, or None."""
    heights = heights_of(crates, {name: lines_of(repository / "crates" / name) for name in crates})
    waiting, built, running = set(crates), set(), {}
    start = time.monotonic()
    with ThreadPoolExecutor(AT_ONCE) as pool:
        while waiting or running:
            ready = sorted((it for it in waiting if built.issuperset(crates[it])), key=heights.get, reverse=True)[: AT_ONCE - len(running)]
            tallest = max([*running.values(), *ready], key=heights.get)
            for name in ready:
                waiting.remove(name)
                jobs = JOBS if name == tallest else 1
                running[pool.submit(build, repository, name, needed_by(name, crates), ["lib"], jobs)] = name
            for done in wait(running, return_when=FIRST_COMPLETED).done:
                name = running.pop(done)
                if not done.result():
                    return name
                built.add(name)
                print(f"{time.monotonic() - start:5.0f} s: {name}, {len(built)} of {len(crates)}", flush=True)
    return None


def options():
    """The words of the command line."""
    parser = argparse.ArgumentParser(description="Proves and builds a program and the crates that it builds on.")
    parser.add_argument("repository", type=Path, help="the folder that has crates.txt in it")
    parser.add_argument("program", help="the crate of the program")
    given = parser.parse_args()
    if not (given.repository / "crates" / given.program).is_dir():
        parser.error(f"there is no crate {given.program} in {given.repository}")
    return given


def main():
    given = options()
    if shutil.which("rt") is None:
        print("build.py: rt is not on the PATH; it comes with the Rattle toolchain", file=sys.stderr)
        return 1
    repository, program = given.repository.resolve(), given.program
    crates = crates_of(repository)
    last = "lib" if is_static(repository, program) else "run"
    failed = build_all(repository, needed_by(program, crates))
    if failed is None and not build(repository, program, needed_by(program, crates), [last], JOBS):
        failed = program
    if failed is not None:
        print((repository / "crates" / failed / "out" / "build.log").read_text()[-4_000:])
        print(f"{failed} is not built")
        return 1
    return 0


if __name__ == "__main__":
    sys.exit(main())
