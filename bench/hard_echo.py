#!/usr/bin/env python3
"""A server for trials of a front, which answers each line with a digest of it, for the session that it names.

Usage: hard_use.py hard_echo.py rubbish. It shows that a front forwards each line once, with the session of its client and
otherwise byte for byte. It is quicker than a server that does commands. A line that is no object is answered by `E01` for
the session `-`.
"""

from __future__ import annotations

import re
import sys
from hashlib import blake2b
from pathlib import Path

sys.path.insert(0, str(Path(__file__).resolve().parent))

from hard_lines import LINE_MOST, object_in  # noqa: E402

NAME = re.compile(r"[A-Za-z_][A-Za-z0-9_]{0,63}\Z")


def answer(line: bytes) -> bytes:
    """The answer to a line."""
    found = object_in(line) if len(line) <= LINE_MOST else None
    if found is None:
        return b'{"error":"E01","session":"-"}\n'
    name = found.get("session")
    is_named = isinstance(name, str) and NAME.match(name)
    digest = blake2b(line, digest_size=16).hexdigest()
    return b'{"reply":"%s","session":"%s"}\n' % (digest.encode(), name.encode() if is_named else b"-")


def main() -> int:
    if len(sys.argv) > 1:
        is_help = sys.argv[1:] == ["--help"]
        print(__doc__ if is_help else "usage: hard_use.py hard_echo.py rubbish", file=sys.stdout if is_help else sys.stderr)
        return 0 if is_help else 2
    try:
        for line in iter(sys.stdin.buffer.readline, b""):
            line = line[:-1] if line.endswith(b"\n") else line
            if line.strip(b" \t\r"):
                sys.stdout.buffer.write(answer(line))
                sys.stdout.buffer.flush()
    except (BrokenPipeError, KeyboardInterrupt):
        sys.stderr.close()
        return 1
    return 0


if __name__ == "__main__":
    sys.exit(main())
