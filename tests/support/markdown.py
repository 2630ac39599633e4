"""What is in the Markdown files of the repository: links, the anchors that they lead to, and tables."""

import re
from pathlib import Path
from typing import Iterator, List, Tuple

from .program import ROOT

FENCED = re.compile(r"^```.*?^```$", re.MULTILINE | re.DOTALL)
INLINE = re.compile(r"`[^`\n]*`")
LINK = re.compile(r"\]\((?!\w+:)([^)#\s]*)(?:#([^)\s]+))?\)")  # a link to a file or folder, to an anchor, or to both
HEADING = re.compile(r"^#+ +(.*?) *$", re.MULTILINE)
SPACE_OR_MARK = re.compile(r"[^\w\- ]")


def all_pages() -> List[Path]:
    """Each Markdown file of the repository."""
    return sorted(path for pattern in ("*.md", "docs/*.md", "docs/internals/*.md", "clients/*/*.md", "examples/*/*.md") for path in ROOT.glob(pattern))


def prose_of(text: str) -> str:
    """A text without its fenced blocks."""
    return FENCED.sub("", text)


def links_in(text: str) -> List[Tuple[str, str]]:
    """The links of a text that lead to files or anchors: the path and the anchor of each, each of the two may be empty."""
    return LINK.findall(INLINE.sub("`", prose_of(text)))


def anchors_in(text: str) -> List[str]:
    """The anchors of a text's headings, as those that show pages make them."""
    anchors: List[str] = []
    for heading in HEADING.findall(prose_of(text)):
        anchor = SPACE_OR_MARK.sub("", heading.lower()).replace(" ", "-")
        before = sum(it == anchor for it in anchors)
        anchors.append(f"{anchor}-{before}" if before else anchor)
    return anchors


def titles_in(text: str) -> List[str]:
    """The headings of the second level of a text."""
    return re.findall(r"^## +(.*?) *$", prose_of(text), re.MULTILINE)


def section(text: str, heading: str) -> str:
    """What is below a heading of the second level, up to the next one."""
    return text.split(f"\n## {heading}\n", 1)[1].split("\n## ", 1)[0]


def table_in(text: str, columns: int) -> Iterator[List[str]]:
    """The rows of the tables of a text that have so many columns, without the first two, which are the head."""
    rows = [line.strip("|").split("|") for line in text.splitlines() if line.startswith("|")]
    fitting = [row for row in rows if len(row) == columns]
    return ([cell.strip() for cell in row] for row in fitting[2:])
