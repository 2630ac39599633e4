#!/usr/bin/env python3
"""Prints the size of each crate, and fails if one is over a limit.

For each crate it prints the lines of code (with contracts, without comments and blank lines) and of definitions, the lines
of proof per line of code, the public functions, the edits, and the longest contract. The limits are 8 clauses in a contract,
1,500 lines of code in a crate and 800 in a file, 160 characters in a line of code, definitions or proofs, two edits for each
public function, and 220 edits in all. In crates of tests, lines that a program prints may be longer. An edit that begins
with a line `wrong body: WORDS` counts only for the total.
Usage: budget.py REPOSITORY
"""

from __future__ import annotations

import argparse
import re
from dataclasses import dataclass
from pathlib import Path

MOST_CLAUSES = 8
MOST_IN_CRATE = 1_500
MOST_IN_FILE = 800
MOST_IN_LINE = 160
MOST_FOR_FUNCTION = 2
MOST_EDITS = 220

EXPORT = re.compile(r"^pub use ([^;]+);", re.MULTILINE)
BLOCK = re.compile(r"^(?:pub )?(?:unsafe )?(?P<kind>impl|trait)\b(?P<head>[^{]*)\{")
FUNCTION = re.compile(r'^(?P<indent> *)(?P<open>pub(?:\([^)]*\))? )?(?:const )?(?:unsafe )?(?:extern "C" )?fn (?P<name>\w+)')
CLAUSE = re.compile(r"^ +(?:requires|ensures)\*?(?: |$)")
WRONG_BODY = re.compile(r"^wrong body: \S", re.MULTILINE)


def code_of(text):
    """The lines of a source that are neither blank nor a comment."""
    return [line for line in text.splitlines() if line.strip() and not line.lstrip().startswith(("//", "--"))]


def lines_in(folder, ending):
    return sum(len(code_of(path.read_text())) for path in folder.rglob(f"*{ending}")) if folder.is_dir() else 0


def long_lines_in(folder):
    """The places of lines of code, definitions and proofs that are longer than they may be."""
    paths = [*folder.glob("src/**/*.rt"), *folder.glob("specs/**/*.antt"), *folder.glob("proofs/**/*.antt")]
    lines = ((path, number, line) for path in sorted(paths) for number, line in enumerate(path.read_text().splitlines(), 1))
    return [f"{path.relative_to(folder)}:{number}" for path, number, line in lines if len(line) > MOST_IN_LINE]


@dataclass
class Function:
    """A function of a source: the type or trait that it belongs to, and how many clauses it has."""

    owner: str | None
    name: str
    is_open: bool
    clauses: int = 0

    def is_among(self, exported):
        return self.is_open and (self.owner or self.name) in exported


def owner_of(kind, head):
    """The name of the type or trait that a block is about."""
    subject = head.split(" for ")[-1] if kind == "impl" else head
    subject = re.sub(r"<(?:[^<>]|<[^<>]*>)*>", "", subject.split(" where ")[0]).strip()
    return re.split(r"[\s:]", subject)[0]


def functions_of(text):
    """The functions of a source."""
    owner, is_trait, found = None, False, []
    for line in text.splitlines():
        block = BLOCK.match(line)
        if block:
            owner, is_trait = owner_of(block["kind"], block["head"]), block["kind"] == "trait" or " for " in block["head"]
        elif line.startswith("}"):
            owner, is_trait = None, False
        function = FUNCTION.match(line)
        if function:
            of = owner if function["indent"] else None
            found.append(Function(of, function["name"], function["open"] == "pub " or bool(of) and is_trait))
        elif CLAUSE.match(line) and found:
            found[-1].clauses += 1
    return found


def exported_by(root, functions):
    """The names that a library's root hands out; a program hands out all that is `pub` in it."""
    if root.name == "main.rt":
        return {it.owner or it.name for it in functions}
    paths = EXPORT.findall(root.read_text())
    listed = {it.split("::")[-1].split(" as ")[-1].strip() for path in paths for it in re.sub(r".*\{|\}", "", path, flags=re.DOTALL).split(",")}
    return listed | {it.owner or it.name for it in functions_of(root.read_text())}


@dataclass
class Crate:
    """What a crate weighs."""

    name: str
    code: int
    longest_file: int
    long_lines: list
    specs: int
    proofs: int
    functions: list
    public: int
    edits: int
    wrong_bodies: int

    def longest_contract(self):
        return max(self.functions, key=lambda it: it.clauses, default=None)

    def faults(self):
        """What is heavier than it may be."""
        if self.code > MOST_IN_CRATE:
            yield f"{self.code:,} lines of code; at most {MOST_IN_CRATE:,}"
        if self.longest_file > MOST_IN_FILE:
            yield f"a file of {self.longest_file:,} lines of code; at most {MOST_IN_FILE:,}"
        for place in self.long_lines:
            yield f"{place} has more than {MOST_IN_LINE} characters"
        for function in self.functions:
            if function.clauses > MOST_CLAUSES:
                yield f"{function.name} has {function.clauses} clauses; at most {MOST_CLAUSES}"
        if self.edits > MOST_FOR_FUNCTION * self.public:
            yield f"{self.edits} edits for {self.public} public functions; at most {MOST_FOR_FUNCTION} for each"

    def __str__(self):
        longest = self.longest_contract()
        contract = f"{longest.clauses} ({longest.name})" if longest else "-"
        edits = f"{self.edits}+{self.wrong_bodies}"
        return f"{self.name:20} {self.code:6,} {self.specs:6,} {self.proofs / max(self.code, 1):6.2f} {self.public:7} {edits:>7}  {contract}"


def crate_in(folder):
    texts = {path: path.read_text() for path in sorted(folder.glob("src/**/*.rt"))}
    functions = [it for text in texts.values() for it in functions_of(text)]
    exported = exported_by(next(path for path in texts if path.name in ("lib.rt", "main.rt")), functions)
    edits = [path.read_text() for path in folder.glob("must-fail/*.edit")]
    wrong_bodies = sum(bool(WRONG_BODY.search(text)) for text in edits)
    return Crate(
        name=folder.name,
        code=sum(len(code_of(text)) for text in texts.values()),
        longest_file=max((len(code_of(text)) for text in texts.values()), default=0),
        long_lines=[] if folder.name.startswith("tests_of_") else long_lines_in(folder),
        specs=lines_in(folder / "specs", ".antt"),
        proofs=lines_in(folder / "proofs", ".antt"),
        functions=functions,
        public=sum(it.is_among(exported) for it in functions),
        edits=len(edits) - wrong_bodies,
        wrong_bodies=wrong_bodies,
    )


def main():
    parser = argparse.ArgumentParser(description="Prints what each crate weighs, and fails where one is heavier than it may be.")
    parser.add_argument("repository", type=Path, help="the folder that has crates/ in it")
    crates = [crate_in(folder) for folder in sorted(parser.parse_args().repository.glob("crates/*")) if (folder / "src").is_dir()]
    print(f"{'crate':20} {'code':>6} {'specs':>6} {'proof':>6} {'public':>7} {'edits':>7}  longest contract")
    failed = 0
    for crate in crates:
        faults = list(crate.faults())
        failed += len(faults)
        print("\n".join([str(crate), *(f"  too heavy: {fault}" for fault in faults)]))
    edits = sum(it.edits + it.wrong_bodies for it in crates)
    if edits > MOST_EDITS:
        failed += 1
        print(f"  too heavy: {edits} edits; at most {MOST_EDITS}")
    code, proofs = sum(it.code for it in crates), sum(it.proofs for it in crates)
    print(f"budget: {len(crates)} crates, {code:,} lines of code, {proofs:,} of proof, {edits} edits; {failed} too heavy")
    return 1 if failed or not crates else 0


if __name__ == "__main__":
    raise SystemExit(main())
