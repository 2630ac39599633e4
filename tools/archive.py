#!/usr/bin/env python3
"""Proves and compiles the crate of a library for programs in C, over the libraries that `rt ci` has proved and left.

`rt ci` checks such a crate, and leaves nothing that can be linked. `rt lib` would prove all libraries below it once more.
This proves the crate alone, and writes crates/NAME/out/libNAME.a.
Usage: archive.py REPOSITORY NAME
"""

from __future__ import annotations

import argparse
import os
import shutil
import subprocess
import sys
from pathlib import Path
from typing import List

from build import crates_of, needed_by


def of_kit(repository: Path, name: str) -> List[str]:
    """The libraries of the toolchain that a crate names."""
    lines = (line.partition("#")[0].partition(":") for line in (repository / "crates.txt").read_text().splitlines())
    named = next(tail.split() for head, _, tail in lines if head.split()[:1] == [name])
    return ["std", *(it for it in named if it != "std" and it not in crates_of(repository))]


def command(repository: Path, name: str, kit: Path, made: Path) -> List[str]:
    """The words that prove and compile the crate."""
    crates = crates_of(repository)

    def library(it: str) -> Path:
        return repository / "crates" / it / "out" / "rlib" / f"{it}.rlib"

    words = [str(kit / "bin" / "rattle"), "build", "--crate-name", name, "src/lib.rt"]
    for it in of_kit(repository, name):
        words += ["--extern", f"{it}={kit / 'rlibs' / it}.rlib"]
    words += ["-L", f"dependency={kit / 'rlibs'}"]
    for it in crates[name]:
        words += ["--extern", f"{it}={library(it)}"]
    for it in needed_by(name, crates):
        words += ["-L", f"dependency={library(it).parent}"]
    words += ["--antt-project", str(kit / "rattle/logic/antt-project.json"), "--logic-built", str(kit / "logic_built")]
    words += ["--links", f"{name}=", "--crate-type", "staticlib", "--jobs", str(min(2, os.cpu_count() or 1))]
    return [*words, "--toolchain", str(kit / "toolchain"), "--backend", "llvm", "-o", str(made)]


def archive(repository: Path, name: str, kit: Path) -> int:
    """Makes the archive; answers the status."""
    folder = repository / "crates" / name
    (folder / "out").mkdir(exist_ok=True)
    made = folder / "out" / f"lib{name}.a"
    made.unlink(missing_ok=True)
    ran = subprocess.run(command(repository, name, kit, made), cwd=folder, stdin=subprocess.DEVNULL, capture_output=True, text=True, errors="replace")
    if ran.returncode or not made.is_file():
        print(f"{ran.stdout}{ran.stderr}"[-4_000:], file=sys.stderr)
        print(f"archive.py: {name} is not built", file=sys.stderr)
        return 1
    print(f"{made.relative_to(repository)} is built")
    return 0


def options() -> argparse.Namespace:
    """The words of the command line."""
    parser = argparse.ArgumentParser(description="Proves and compiles the crate of a library for programs in C over the libraries that rt ci has left.")
    parser.add_argument("repository", type=Path, help="the folder that has crates.txt in it")
    parser.add_argument("name", help="the crate of the library")
    given = parser.parse_args()
    if not (given.repository / "crates" / given.name).is_dir():
        parser.error(f"there is no crate {given.name} in {given.repository}")
    return given


def main() -> int:
    given = options()
    found = shutil.which("rt")
    if found is None:
        print("archive.py: rt is not on the PATH; it comes with the Rattle toolchain", file=sys.stderr)
        return 1
    try:
        return archive(given.repository.resolve(), given.name, Path(found).resolve().parent.parent)
    except OSError as error:
        print(f"archive.py: {error.filename}: {error.strerror}", file=sys.stderr)
        return 1
    except KeyboardInterrupt:
        return 130


if __name__ == "__main__":
    sys.exit(main())
