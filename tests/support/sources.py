"""The names that the sources of crates declare, and the glossary, which says which word each of them carries."""

import re
from dataclasses import dataclass, field
from pathlib import Path
from typing import Dict, Iterator, List, Set

from .markdown import section, table_in
from .program import ROOT

CRATES = ROOT / "crates"
GLOSSARY = ROOT / "docs" / "internals" / "ARCHITECTURE.md"
OF_TESTS = "tests_of_"
# types and functions of code that others may name, methods aside
OF_CODE = re.compile(r"^pub(?:\(\w+\))? (?:const |unsafe )?(?:fn|struct|enum|trait|type) (\w+)", re.MULTILINE)
# definitions and types, which are known by their names alone
OF_SPECS = re.compile(r"^ *(?:(?:abbrev|unfoldable) pub|pub (?:record|data)) ([^\s:(){}]+)", re.MULTILINE)
FUNCTION = re.compile(r"\bfn (\w+)")
NAMED = re.compile(r"`(\w+)::(\w+)`")


def declared_in(crate: Path) -> Iterator[str]:
    """The names of what a crate declares and others may name."""
    for folder, pattern, names in (("src", "*.rt", OF_CODE), ("specs", "*.antt", OF_SPECS)):
        for path in sorted((crate / folder).rglob(pattern)):
            yield from names.findall(path.read_text())


def all_declared() -> Dict[str, Set[str]]:
    """The crates that declare each name; those of tests aside."""
    found: Dict[str, Set[str]] = {}
    for crate in sorted(CRATES.iterdir()):
        if crate.is_dir() and not crate.name.startswith(OF_TESTS):
            for name in declared_in(crate):
                found.setdefault(name, set()).add(crate.name)
    return found


def crates_that_define(file: str, name: str) -> Set[str]:
    """The crates that define this in a file of `specs` that is called so."""
    return {path.parts[-3] for path in CRATES.glob(f"*/specs/{file}.antt") if name in OF_SPECS.findall(path.read_text())}


def all_functions() -> Set[str]:
    """The names of all functions and methods of code."""
    return {it for path in CRATES.glob("*/src/*.rt") for it in FUNCTION.findall(path.read_text())}


def names_of(word: str) -> Set[str]:
    """What is called as a word is: a type, also of several, and a function or definition."""
    type_name = "".join(part.capitalize() for part in word.split())
    return {type_name, f"{type_name}s", word.replace(" ", "_")}


@dataclass
class Entry:
    """A row of the glossary: its words, what carries them, and what has their names and means something else."""

    words: List[str]
    carried: Set[str] = field(default_factory=set)
    other: Set[str] = field(default_factory=set)

    @property
    def listed(self) -> Set[str]:
        return self.carried | self.other


def items_in(cell: str) -> Set[str]:
    return {"::".join(it) for it in NAMED.findall(cell)}


def glossary() -> List[Entry]:
    """The rows of the table of words."""
    entries = []
    for words, _, items in table_in(section(GLOSSARY.read_text(), "Glossary"), 3):
        carried, _, other = items.partition("not ")
        entries.append(Entry(words.split(", "), items_in(carried), items_in(other)))
    return entries
