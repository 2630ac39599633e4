#!/usr/bin/env python3
"""Writes every list of commands, codes and limits that is made of the tables of docs/PROTOCOL.md.

A generated file says so in its first line. In a page that people write, a list is between two comments, `list: NAME` and
`end of list`. Programs tools/*_commands.py write the lists of further clients, and are run too.

With --check nothing is written, and the status is 1 where a list is not what the tables make of it. With --rename the word of a
command is changed wherever a command is recorded: `"do":"OLD"` in tests, examples and pages. Rename it in the table first.
"""

from __future__ import annotations

import argparse
import re
import subprocess
import sys
from pathlib import Path
from typing import Callable, Dict, List, Optional

ROOT = Path(__file__).resolve().parent.parent
sys.path.insert(0, str(ROOT))

from tools.listing import clients, pages, python  # noqa: E402
from tools.protocol import Unread  # noqa: E402

Writer = Callable[[], str]
FILES: Dict[str, Writer] = {
    "clients/python/metad/commands.py": python.commands,
    "clients/python/metad/session_commands.py": python.session_commands,
    "clients/python/metad/code_meanings.py": python.code_meanings,
    "clients/shelling/form_commands.py": clients.shell_forms,
    "clients/explaining/known_commands.py": clients.known_commands,
    "front/src/commands.rs": clients.front_commands,
}
PAGES: Dict[str, Dict[str, Writer]] = {
    "man/metad.1": {"commands": pages.manual_commands, "codes": pages.manual_codes, "limits": pages.manual_limits, "statuses": pages.manual_statuses},
    "README.md": {"limits": pages.short_limits},
}
RECORDED = ("*.md", "docs/*.md", "docs/*/*.md", "examples/*/*", "tests/**/*", "clients/*/*.md", "clients/inspecting/page/*.js", "clients/**/*.py", "bench/*.txt")


def listed(path: str) -> str:
    """A page with its lists made again."""
    text = (ROOT / path).read_text()
    for name, writer in PAGES[path].items():
        begin, end = pages.marks(path, name)
        before, has_begin, rest = text.partition(begin)
        _, has_end, after = rest.partition(end)
        if not (has_begin and has_end):
            raise Unread(f"{path} has no place for the list {name}")
        text = f"{before}{begin}{writer()}{end}{after}"
    return text


def written() -> Dict[str, str]:
    """Each file that is generated, and each page with lists, with its text."""
    return {**{path: writer() for path, writer in FILES.items()}, **{path: listed(path) for path in PAGES}}


def stale() -> Dict[str, str]:
    """The files that are not what the tables make of them, with what they should be."""
    return {path: text for path, text in written().items() if not (ROOT / path).is_file() or (ROOT / path).read_text() != text}


def run_others(is_check: bool) -> bool:
    """Runs the programs that write the lists of further clients; returns whether all of them end well."""
    words = ["--check"] if is_check else []
    found = sorted((ROOT / "tools").glob("*_commands.py"))
    return all([subprocess.run([sys.executable, str(it), *words]).returncode == 0 for it in found])


def rename(old: str, new: str) -> List[str]:
    """Changes the word of a command wherever one is recorded; returns the files that have changed."""
    in_command = re.compile(rf'((?<![\w.])"?do"?: ?"){old}(?=")')
    in_worst = re.compile(rf"^(`){old}(` \| ){old}(?= )", re.MULTILINE)
    in_refusal = re.compile(rf"^(    session \w+: ){old}(?= is refused)", re.MULTILINE)  # of transcripts that are explained
    changed = []
    for path in sorted({it for pattern in RECORDED for it in ROOT.glob(pattern) if it.is_file() and not it.is_symlink()}):
        if path.name == "CHANGELOG.md" or path.suffix == ".png" or str(path.relative_to(ROOT)) in FILES:
            continue
        text = path.read_bytes().decode("latin-1")  # some recorded lines are no UTF-8
        after = in_worst.sub(rf"\g<1>{new}\g<2>{new}", in_refusal.sub(rf"\g<1>{new}", in_command.sub(rf"\g<1>{new}", text)))
        if after != text:
            path.write_bytes(after.encode("latin-1"))
            changed.append(str(path.relative_to(ROOT)))
    return changed


def main(words: Optional[List[str]] = None) -> int:
    parser = argparse.ArgumentParser(prog="lists.py", description="Writes the lists that are made of the tables of docs/PROTOCOL.md.")
    parser.add_argument("--check", action="store_true", help="only says which lists would change; the status is 1 then")
    parser.add_argument("--rename", nargs=2, metavar=("OLD", "NEW"), help="also changes the word of recorded commands")
    given = parser.parse_args(words)
    try:
        if given.rename and not given.check:
            if not all(re.fullmatch(r"[a-z][A-Za-z]*", it) for it in given.rename):
                parser.error("a word of a command has letters only")
            for changed in rename(*given.rename):
                print(f"{changed}: renamed")
        texts = stale()
        for path, text in texts.items():
            print(f"{path}: {'it is stale; make lists writes it' if given.check else 'written'}")
            if not given.check:
                (ROOT / path).write_text(text)
    except (Unread, OSError) as fault:
        print(f"lists.py: {fault}", file=sys.stderr)
        return 1
    sys.stdout.flush()
    is_well = run_others(given.check)
    return 0 if is_well and not (given.check and texts) else 1


if __name__ == "__main__":
    sys.exit(main())
