"""The version is raised wherever it is written, by tools/version.py."""

import shutil
import subprocess
import sys
from pathlib import Path
from tempfile import TemporaryDirectory

from .support.cases import Cases
from .support.documents import version
from .support.program import ROOT

TOOL = ROOT / "tools" / "version.py"
WHERE = ("README.md", "CHANGELOG.md", "docs", "man", "examples", "clients", "crates", "bench", "tools", "include", "library")
NEW = "98.7.6"


def texts_below(root: Path) -> dict:
    """The sources and documents of a repository, by their paths."""
    paths = (path for name in WHERE for path in [root / name, *sorted((root / name).rglob("*"))])
    return {path.relative_to(root): path.read_text() for path in paths if path.is_file() and is_text(path)}


def is_text(path: Path) -> bool:
    return not {"out", "__pycache__"} & set(path.parts) and b"\0" not in path.read_bytes()


class Version(Cases):
    """A copy of what says the version."""

    def raised(self, *words: str) -> "subprocess.CompletedProcess[str]":
        return subprocess.run([sys.executable, str(TOOL), *words], capture_output=True, text=True)

    def test_raised(self) -> None:
        """The version is in no other place, and the changes keep what they said of it."""
        room, old = Path(self.enterContext(TemporaryDirectory(prefix="metad-version-"))), version()[0]
        before = {path: text for path, text in texts_below(ROOT).items() if old in text}
        for path in before:
            (room / path).parent.mkdir(parents=True, exist_ok=True)
            shutil.copy(ROOT / path, room / path)
        self.assertEqual(self.raised(str(room), NEW).stdout, f"{len(before)} files\n")
        changes = Path("CHANGELOG.md")
        wanted = {path: text.replace(old, NEW) for path, text in before.items()}
        wanted[changes] = self.changed(before[changes], old)
        self.assertEqual({path: (room / path).read_text() for path in before}, wanted)

    def changed(self, changes: str, old: str) -> str:
        """The changes with a heading of the new version, in place of that of what is unreleased where there is one."""
        if "## Unreleased\n" in changes:
            return changes.replace("## Unreleased\n", f"## {NEW}\n", 1)
        return changes.replace(f"## {old}\n", f"## {NEW}\n\n## {old}\n", 1)

    def test_changes(self) -> None:
        """What is unreleased becomes the part of the new version; without it an empty part is begun."""
        room, old = Path(self.enterContext(TemporaryDirectory(prefix="metad-version-"))), version()[0]
        files = ("README.md", "man", "examples", "clients/python/metad", "clients/js", "clients/qt/CMakeLists.txt", "crates/command_line/src", "include")
        for name in files:
            copy = shutil.copytree if (ROOT / name).is_dir() else shutil.copy
            (room / name).parent.mkdir(parents=True, exist_ok=True)
            copy(ROOT / name, room / name)
        for before, wanted in (
            (f"# Changes\n\n## Unreleased\n\n- new\n\n## {old}\n\n- old\n", f"# Changes\n\n## {NEW}\n\n- new\n\n## {old}\n\n- old\n"),
            (f"# Changes\n\n## {NEW}\n\n- old\n", f"# Changes\n\n## 98.7.7\n\n## {NEW}\n\n- old\n"),
        ):
            (room / "CHANGELOG.md").write_text(before)
            ran = self.raised(str(room), NEW if "Unreleased" in before else "98.7.7")
            self.assertEqual(ran.returncode, 0, ran.stderr)
            self.assertEqual((room / "CHANGELOG.md").read_text(), wanted)

    def test_refused(self) -> None:
        """What is no version, and a repository that does not say one, are left as they are."""
        for words in ((), (str(ROOT),), (str(ROOT), "1.2"), (str(ROOT), "1.2.3", "x")):
            self.assertEqual(self.raised(*words).returncode, 1, words)
