#!/usr/bin/env python3
"""Answers a session of commands in about two minutes, by a metad that is compiled but not proved.

`rt try` compiles the program with checks and runs it once; its own output is shown only if it fails. Answers go to standard
output. A line on standard error says that this run is not proved.
"""

from __future__ import annotations

import argparse
import subprocess
import sys
from pathlib import Path
from typing import List

CRATE = Path(__file__).resolve().parent.parent / "crates" / "meta_main"
SESSION = CRATE / "stdin"
NAME = "classes.json"  # of the class file, in the folder that the program runs in
NOT_PROVED = "This run is not proved: it compiles metad with checks, which takes about two minutes; make run proves it."
INTERRUPTED = 130


def arguments() -> argparse.Namespace:
    """The words of the command line."""
    parser = argparse.ArgumentParser(description=(__doc__ or "").partition("\n")[0])
    parser.add_argument("--session", type=file, default=SESSION, metavar="FILE", help="commands, one a line; without it a sample")
    parser.add_argument("--classes", type=file, metavar="FILE", help="a class file, in place of the demonstration classes")
    parser.add_argument("words", nargs="*", metavar="-- WORDS", help="options of metad, such as --turns 100")
    return parser.parse_args()


def file(path: str) -> Path:
    """The whole path of a file that must be there."""
    if not Path(path).is_file():
        raise argparse.ArgumentTypeError(f"there is no file {path}")
    return Path(path).resolve()


def command(given: argparse.Namespace) -> List[str]:
    """The words of `rt try`, run in the program's crate."""
    data = ["--data", f"{NAME}={given.classes}"] if given.classes else []
    words = [*given.words, *([NAME] if given.classes else [])]
    return ["rt", "try", *data, *(["--", *words] if words else [])]


def attempt(given: argparse.Namespace) -> int:
    """Runs the program, and prints its answers, and the log where it fails; the status is that of `rt try`."""
    print(NOT_PROVED, file=sys.stderr, flush=True)
    with given.session.open("rb") as session:
        ran = subprocess.run(command(given), stdin=session, stdout=subprocess.PIPE, stderr=subprocess.PIPE, cwd=CRATE)
    sys.stdout.buffer.write(ran.stdout)
    sys.stdout.buffer.flush()
    if ran.returncode:
        sys.stderr.write(ran.stderr.decode(errors="replace"))
    return ran.returncode if ran.returncode >= 0 else 1


def main() -> int:
    given = arguments()
    try:
        return attempt(given)
    except BrokenPipeError:
        sys.stderr.close()
        return 1
    except OSError as error:
        print(f"try.py: {error.filename or 'rt'}: {error.strerror}", file=sys.stderr)
        return 1
    except KeyboardInterrupt:
        return INTERRUPTED


if __name__ == "__main__":
    sys.exit(main())
