"""Checks that crates.txt is true: it names for each crate those that its sources name, and lower ones only."""

import re
from pathlib import Path
from tempfile import TemporaryDirectory
from typing import Dict, List, Set

from .support.cases import Cases
from .support.program import ROOT

IN_SPECS = re.compile(r"\bRattle\.(\w+)\.")
IN_CODE = re.compile(r"(?<![:\w])(\w+)::")


def lines_of(root: Path) -> Dict[str, List[str]]:
    """The crates in the order of crates.txt, each with what its line names."""
    lines = (line.partition("#")[0].strip() for line in (root / "crates.txt").read_text().splitlines())
    return {head.split()[0]: tail.split() for head, _, tail in (line.partition(":") for line in lines if line)}


def named_by(crate: Path) -> Set[str]:
    """All crates that the sources of a crate name."""
    found: Set[str] = set()
    for path in crate.rglob("*"):
        if "out" in path.relative_to(crate).parts or path.suffix not in (".rt", ".antt"):
            continue
        text = path.read_text()
        found.update(IN_SPECS.findall(text))
        if path.suffix == ".rt":
            found.update(IN_CODE.findall(text))
    return found - {crate.name}


def faults_in(root: Path) -> List[str]:
    """The faults of crates.txt, one text each."""
    lines = lines_of(root)
    known = {*lines, *(name for names in lines.values() for name in names)}
    faults, earlier = [], set()
    for crate, names in lines.items():
        used = named_by(root / "crates" / crate) & known
        faults += [f"{crate} names no {name}" for name in names if name not in used]
        faults += [f"{crate} names {name}, and its line does not" for name in sorted(used - set(names))]
        faults += [f"{crate} is listed before {name}" for name in names if name in lines and name not in earlier]
        earlier.add(crate)
    here = {path.name for path in (root / "crates").iterdir() if (path / "src").is_dir()}
    return faults + [f"{name} has no line" for name in sorted(here - set(lines))]


class Crates(Cases):
    """The file that `rt ci` goes by."""

    def test_lines(self) -> None:
        """Each line names the crates that the sources of its crate name, and no other."""
        self.assertGreater(len(lines_of(ROOT)), 20)
        self.assertEqual(faults_in(ROOT), [])

    def test_faults(self) -> None:
        """A name too many, one too few, a wrong order and a crate without a line are found."""
        room = Path(self.enterContext(TemporaryDirectory(prefix="metad-crates-")))
        (room / "crates.txt").write_text("# Base\nhigh: low itoa\nlow: slab\nside:\n")
        texts = {"high": "use low::It;", "low": "use itoa::Buffer;\nuse slab::Slab;", "side": "use crate::low::It;", "more": ""}
        for name, text in texts.items():
            (room / "crates" / name / "src").mkdir(parents=True)
            (room / "crates" / name / "src" / "lib.rt").write_text(f"{text}\n")
        (room / "crates" / "side" / "specs").mkdir()
        (room / "crates" / "side" / "specs" / "It.antt").write_text("use Rattle.high.specs.It.{it}\n")
        wanted = ["high names no itoa", "high is listed before low", "low names itoa, and its line does not", "side names high, and its line does not"]
        self.assertEqual(faults_in(room), [*wanted, "more has no line"])
