"""The examples of the documents.

An example is a fenced block that begins with three backticks and the word `session`; what follows on that
line are words for the program. Its lines with `> ` in front are the input of one run of the program, and
all its other lines are what it writes. A block with the word `classes` right before it is the class file of
that run.
"""

import re
from pathlib import Path

from .program import ROOT, Row

README = ROOT / "README.md"
TUTORIAL = ROOT / "docs" / "TUTORIAL.md"
COOKBOOK = ROOT / "docs" / "COOKBOOK.md"
QT = ROOT / "docs" / "QT.md"
FRONT_PAGE = ROOT / "docs" / "FRONT.md"
WORKERS_PAGE = ROOT / "docs" / "WORKERS.md"
WEB_PAGE = ROOT / "docs" / "WEB.md"
OPERATING_PAGE = ROOT / "docs" / "OPERATING.md"
VERSION = re.compile(r"^`metad` (\S+) is proved with `([^`]+)`", re.MULTILINE)  # of the program and of the prover
BLOCK = r"((?:(?!```).*\n)*)"  # the lines of a fenced block
EXAMPLE = re.compile(rf"(?:^```classes\n{BLOCK}```\n+)?^```session((?: .*)?)\n{BLOCK}```$", re.MULTILINE)
GIVEN = "> "


def all_documents():
    return [README, *sorted((ROOT / "docs").glob("*.md"))]


def line_number(text, found):
    """The number of the line where something begins that was found in a text."""
    return text[: found.start()].count("\n") + 1


def examples_of(document, room):
    """The examples of a document, whose class files are put into the room."""
    text = document.read_text()
    for example in EXAMPLE.finditer(text):
        name = f"{document.name}:{line_number(text, example)}"
        classes, words, lines = example[1], example[2].split(), example[3].splitlines(keepends=True)
        given = "".join(it[len(GIVEN) :] for it in lines if it.startswith(GIVEN))
        wanted = "".join(it for it in lines if not it.startswith(GIVEN))
        row = Row(name, given.encode(), wanted.encode(), words=tuple(words))
        if classes is not None:
            path = Path(room, name)
            path.write_text(classes)
            row.words += (str(path),)
        yield row


def all_examples(room):
    """The examples of all documents."""
    return [example for document in all_documents() for example in examples_of(document, room)]


def version():
    """The versions of the program and of its prover that the README says."""
    return VERSION.search(README.read_text()).groups()
