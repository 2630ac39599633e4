"""Phrases that are no plain English, and the places where they are.

`python3 -m tests.support.phrases` lists each of them with its file and line, and what to write instead; with the path of a
file or folder only those there. Its status is 1 if there are any.
"""

from __future__ import annotations

import argparse
import io
import os
import re
import sys
import tokenize
from pathlib import Path
from typing import Callable, Dict, Iterator, Tuple

from .program import ROOT

OWN = ("tests/support/phrases.py", "tests/test_phrases.py")
# what to look for, and what to write instead
BANNED: Dict[str, str] = {
    r"want of memory": "out of memory",
    r"by chance": "random, at random",
    r"(?:is|are|was|were|be|been|being) told": "is notified, receives; or say who tells whom",
    r"tells? of": "reports, describes, notifies about",
    r"lets? go of|letting go of": "drops, releases",
    r"com(?:e|es|ing) to(?! (?:rest|an end))|came to": "is, gets, amounts to",
    r"reckon\w*": "estimate",
    r"(?:one|a) (?!or )\w+ more\b(?! than)": "per .., another ..",
    r"a front of": "a front for",
    r"as it was": "unchanged, as before",
    r"of which": "a sentence of its own",
    r"behind(?! (?:an? |the |its |that |this |each )?(?:\w+ )?(?:fronts?|sockets?|edges?|proxy|proxies)\b)": "after",
    r"beside(?!\.py)": "in addition to, next to",
    r"(?<!there\s)(?:is|are|was|were|be) (?-i:none)": "is not a .., there are no ..",
    r"(?:stands?|stood|standing)(?! for\b)(?!-)": "is, exists, remains",
    r"anew": "again, from the start",
    r"(?:mend|mends|mended)": "fix",
    r"but for": "except",
    r"takes? away|taken away|taking away": "removes",
    r"for ever": "forever, without end",
    r"hands? on": "passes on, forwards",
    r"as (?:many|much|long|far) as may be": "the maximum",
    r"by itself": "itself, automatically",
    r"at an end": "over",
    r"nobody waits": "nothing blocks",
    r"in its turn": "in order",
}
PATTERN = re.compile(r"\b(?:" + "|".join(f"({it})" for it in BANNED).replace(" ", r"\s+") + r")\b", re.IGNORECASE)
FENCED = re.compile(r"^```.*?^```$", re.MULTILINE | re.DOTALL)
QUOTED = re.compile(r"`[^`\n]*`|\]\([^)\s]*\)")  # code within a line, and where a link leads
DOCUMENTED = re.compile(r"(?:^[ \t]*//[/!].*\n)+", re.MULTILINE)  # doc comments in Rust and Rattle
RAW = re.compile(r'r#"(.*?)"#', re.DOTALL)  # long texts there, as that of a help
NOTED = re.compile(r"^[ \t]*(?://|\*|/\*\*).*$", re.MULTILINE)  # comments in JavaScript and C
FIELD = re.compile(r"\{[^{}\n]*\}")  # an expression in an f-string
MARK = re.compile(r"^[ \t]*//[/!]", re.MULTILINE)
DEFINED = re.compile(r"(?:^[ \t]*--.*\n)+", re.MULTILINE)  # comments of definitions

Part = Tuple[int, str]  # where a part of a file begins, as a line's number, and its text


def line_of(text: str, at: int) -> int:
    """The number of the line at a place of a text."""
    return text.count("\n", 0, at) + 1


def of_page(text: str) -> Iterator[Part]:
    """The prose of a Markdown file, or of a plain text."""
    yield 1, QUOTED.sub("`", FENCED.sub(lambda found: "\n" * found[0].count("\n"), text))


def of_python(text: str) -> Iterator[Part]:
    """The comments and texts of a Python source: docstrings, helps and messages."""
    for token in tokenize.generate_tokens(io.StringIO(text).readline):
        if token.type in (tokenize.COMMENT, tokenize.STRING) or token.type == FSTRING:
            text = QUOTED.sub("`", FIELD.sub("", token.string))
            if " " in text:  # a single word is a key, and no text for people
                yield token.start[0], text


FSTRING = getattr(tokenize, "FSTRING_MIDDLE", -1)  # since Python 3.12 the texts of f-strings are tokens of their own


def of_rust(text: str) -> Iterator[Part]:
    """The doc comments of a source in Rust or Rattle, and its raw texts, which are helps."""
    for pattern in (DOCUMENTED, RAW):
        for found in pattern.finditer(text):
            yield line_of(text, found.start()), MARK.sub("", found[0])


def of_definitions(text: str) -> Iterator[Part]:
    """The comments in a file of definitions."""
    for found in DEFINED.finditer(text):
        yield line_of(text, found.start()), QUOTED.sub("`", re.sub(r"^[ \t]*--", "", found[0], flags=re.MULTILINE))


def of_script(text: str) -> Iterator[Part]:
    """The comments of a source in JavaScript or C that have lines of their own."""
    for found in NOTED.finditer(text):
        yield line_of(text, found.start()), found[0]


READERS: Dict[str, Callable[[str], Iterator[Part]]] = {
    ".md": of_page, ".1": of_page, ".txt": of_page, ".py": of_python, "": of_python, ".rs": of_rust, ".rt": of_rust,
    ".antt": of_definitions, ".js": of_script, ".mjs": of_script, ".ts": of_script, ".c": of_script, ".h": of_script, ".cpp": of_script,
}  # fmt: skip
PLACES = ("docs", "clients", "tools", "bench", "tests", "examples", "man", "front", "crates")  # and the pages above these
MADE = ("__pycache__", "target", "build", "out", "proofs", "must-fail")  # folders that are not read: what is built, and proofs
NOT_READ = ("tests/rows/", "tests/explained/", "CHANGELOG.md", "bench/worst.txt", *OWN)  # data, and the past
SCRIPT = b"#!/usr/bin/env python3"


def is_read(path: Path) -> bool:
    """Whether a file is one of those with text for people."""
    if not path.is_file() or str(path.relative_to(ROOT)).startswith(NOT_READ):
        return False
    return path.suffix in READERS if path.suffix else path.read_bytes().startswith(SCRIPT)


def all_files() -> Iterator[Path]:
    """The files of the repository that are searched."""
    yield from filter(is_read, sorted(ROOT.glob("*.md")))
    for place in PLACES:
        for folder, folders, names in os.walk(ROOT / place):
            folders[:] = sorted(it for it in folders if it not in MADE and not it.endswith(".egg-info"))
            for path in (Path(folder, name) for name in sorted(names)):
                if is_read(path):
                    yield path


def found_in(path: Path) -> Iterator[Tuple[int, str, str]]:
    """The banned phrases of a file: the line, the phrase, and what to write instead."""
    advice = list(BANNED.values())
    for first, part in READERS[path.suffix](path.read_text()):
        for found in PATTERN.finditer(part):
            assert found.lastindex is not None
            yield first + part.count("\n", 0, found.start()), " ".join(found[0].split()), advice[found.lastindex - 1]


def all_found(start: str = "") -> Iterator[str]:
    """A line for each banned phrase in the files whose paths begin like this."""
    for path in all_files():
        name = str(path.relative_to(ROOT))
        if name.startswith(start):
            for line, phrase, instead in found_in(path):
                yield f"{name}:{line}: {phrase!r}: {instead}"


def main() -> int:
    """Lists the phrases."""
    parser = argparse.ArgumentParser(prog="phrases", description="Lists phrases that are no plain English, with what to write instead.")
    parser.add_argument("path", nargs="?", default="", help="a file or folder of the repository; all of it without")
    found = list(all_found(parser.parse_args().path))
    print("".join(f"{it}\n" for it in found), end="")
    return 1 if found else 0


if __name__ == "__main__":
    sys.exit(main())
