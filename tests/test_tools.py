"""The programs in tools/ and the Makefile's targets: `make try` with a stand-in for `rt`, and what each says that needs a
program that is missing."""

from __future__ import annotations

import json
import os
import re
import shutil
import subprocess
import sys
from pathlib import Path
from tempfile import TemporaryDirectory
from typing import Iterator, Tuple

from .support.cases import Cases
from .support.program import OF_MAKE, ROOT, SECONDS

TRY = ROOT / "tools" / "try.py"
SAMPLE = ROOT / "crates" / "meta_main" / "stdin"
ANSWERS = b'{"reply":1,"session":"a"}\n'
LOG = b"checked: ended status=0\nrun=ended proved=no\n"
# writes down its words, folder and input, and then answers
STAND_IN = """#!{python}
import json, os, pathlib, sys
note = dict(words=sys.argv[1:], folder=os.getcwd(), given=sys.stdin.read())
pathlib.Path({note!r}).write_text(json.dumps(note))
sys.stdout.buffer.write({answers!r})
sys.stderr.buffer.write({log!r})
sys.exit({status})
"""
OLD_PYTHON = '#!/bin/sh\nif [ "$1" = --version ]; then echo Python 3.7.16; else exit 1; fi\n'
LACKING = {
    "rt": ("all", "run", "test", "try"),
    "cc": ("test", "tests", "soak", "rows", "bench", "libraries"),
    "python3": ("all", "run", "test", "tests", "soak", "rows", "test_install", "try", "bench", "lists", "tables", "budget", "dist", "deb"),
    "objdump": ("dist", "deb"),
    "dpkg-deb": ("deb",),
    "flake8": ("lint",),
}
BUILDING = ("all", "run", "test", "try")  # these need no bin/metad, which the others take as it is


def executables() -> Iterator[Tuple[str, str]]:
    """The programs on the path, each with where it is; Python is the one that runs this."""
    found = {"python3": sys.executable}
    for folder in os.environ["PATH"].split(os.pathsep):
        for path in sorted(Path(folder).glob("*")) if folder else ():
            found.setdefault(path.name, str(path))
    return iter(found.items())


class Tools(Cases):
    """Tools and targets, each run in a folder of its own or with a path of its own."""

    def setUp(self) -> None:
        self.room = Path(self.enterContext(TemporaryDirectory(prefix="metad-tools-")))
        self.path = self.room / "path"
        self.path.mkdir()
        for name, path in executables():
            if name != "rt":
                (self.path / name).symlink_to(path)

    def stand_in(self, status: int = 0) -> None:
        """Puts a stand-in for `rt` on the path."""
        text = STAND_IN.format(python=sys.executable, note=str(self.room / "note"), answers=ANSWERS, log=LOG, status=status)
        self.put("rt", text)

    def put(self, name: str, text: str) -> None:
        """Puts a script on the path, in place of the program of its name."""
        (self.path / name).unlink(missing_ok=True)
        (self.path / name).write_text(text)
        (self.path / name).chmod(0o755)

    def ran(self, *words: object, folder: Path = ROOT) -> subprocess.CompletedProcess[bytes]:
        own = {key: value for key, value in os.environ.items() if key not in OF_MAKE}
        own["PATH"] = str(self.path)
        command = [str(it) for it in words]
        return subprocess.run(command, cwd=folder, env=own, capture_output=True, stdin=subprocess.DEVNULL, timeout=SECONDS)

    def note(self) -> dict:
        """What the stand-in was given."""
        return json.loads((self.room / "note").read_text())


class Try(Tools):
    """`make try`, which runs `rt try`."""

    def test_sample(self) -> None:
        """It gives the sample session, and shows the answers and one line, which says that nothing is proved."""
        self.stand_in()
        for words in ([sys.executable, TRY], ["make", "try"]):
            ran = self.ran(*words)
            self.assertEqual((ran.returncode, ran.stdout), (0, ANSWERS), ran.stderr)
            self.assertEqual(ran.stderr.count(b"\n"), 1, ran.stderr)
            self.assertIn(b"not proved", ran.stderr)
            wanted = {"words": ["try"], "folder": str(SAMPLE.parent), "given": SAMPLE.read_text()}
            self.assertEqual(self.note(), wanted, "what rt is given")

    def test_session(self) -> None:
        """Commands and classes of one's own, and options of the program, from any folder and of names with spaces."""
        self.stand_in()
        session, classes = self.room / "my session", self.room / "my classes.json"
        session.write_text('{"session":"a","do":"status"}\n')
        classes.write_text('{"classes":[]}')
        for words in (
            ["make", "-C", ROOT, "try", "-s", f"SESSION={session}", f"CLASSES={classes}"],
            [sys.executable, TRY, "--session", session.name, "--classes", classes.name],
        ):
            ran = self.ran(*words, folder=self.room)
            self.assertEqual((ran.returncode, ran.stdout), (0, ANSWERS), ran.stderr)
            note = self.note()
            self.assertEqual(note["words"], ["try", "--data", f"classes.json={classes}", "--", "classes.json"])
            self.assertEqual(note["given"], session.read_text())
        self.assertEqual(self.ran(sys.executable, TRY, "--", "--turns", "5").returncode, 0)
        self.assertEqual(self.note()["words"], ["try", "--", "--turns", "5"])

    def test_failure(self) -> None:
        """Where `rt try` fails its lines are shown and its status is handed on."""
        self.stand_in(status=4)
        ran = self.ran(sys.executable, TRY)
        self.assertEqual((ran.returncode, ran.stdout), (4, ANSWERS))
        self.assertTrue(ran.stderr.endswith(LOG), ran.stderr)

    def test_wrong_words(self) -> None:
        """A file that is not there is named; wrong words are status 2 with a usage line; help is shown."""
        self.stand_in()
        for words in (["--session", "none.txt"], ["--classes", "none.txt"], ["--else"]):
            ran = self.ran(sys.executable, TRY, *words)
            self.assertEqual((ran.returncode, ran.stdout), (2, b""), words)
            self.assertTrue(ran.stderr.startswith(b"usage: try.py "), ran.stderr)
            self.assertIn(words[-1].encode(), ran.stderr)
        self.assertNotEqual(self.ran("make", "try", "SESSION=none.txt").returncode, 0)
        self.assertEqual(self.ran(sys.executable, TRY, "--help").returncode, 0)
        self.assertFalse((self.room / "note").exists(), "rt is not started")


class Archive(Tools):
    """`tools/archive.py`, which proves and compiles the crate of a library over the libraries that `rt ci` has left."""

    def setUp(self) -> None:
        super().setUp()
        (self.room / "kit" / "bin").mkdir(parents=True)
        self.repository = self.room / "repository"
        for name in ("low", "middle", "top_c"):
            (self.repository / "crates" / name).mkdir(parents=True)
        (self.repository / "crates.txt").write_text("# a comment\nlow:\nmiddle: low json\ntop_c staticlib: std_heap middle\n")

    def kit(self, status: int) -> None:
        """Puts a stand-in for the toolchain on the path, whose `rattle` notes its words, writes its output and ends so."""
        text = STAND_IN.format(python=sys.executable, note=str(self.room / "note"), answers=b"", log=LOG, status=status)
        text = text.replace("sys.stdout.buffer", f"pathlib.Path(sys.argv[-1]).touch() if not {status} else None\nsys.stdout.buffer")
        for name in ("rattle", "rt"):
            (self.room / "kit" / "bin" / name).write_text(text)
            (self.room / "kit" / "bin" / name).chmod(0o755)
        (self.path / "rt").symlink_to(self.room / "kit" / "bin" / "rt")

    def archive(self, *words: object) -> subprocess.CompletedProcess[bytes]:
        return self.ran(sys.executable, ROOT / "tools" / "archive.py", *words)

    def test_built(self) -> None:
        """The crate's own proof is over all libraries below it, and its archive is put into its `out`."""
        self.kit(0)
        ran = self.archive(self.repository, "top_c")
        made = self.repository / "crates" / "top_c" / "out" / "libtop_c.a"
        self.assertEqual((ran.returncode, ran.stdout, ran.stderr), (0, b"crates/top_c/out/libtop_c.a is built\n", b""))
        words, crates, kit = self.note()["words"], self.repository / "crates", self.room / "kit"
        self.assertEqual(words[:4], ["build", "--crate-name", "top_c", "src/lib.rt"])
        externs = [words[at + 1] for at, it in enumerate(words) if it == "--extern"]
        kits = [f"{it}={kit}/rlibs/{it}.rlib" for it in ("std", "std_heap")]
        self.assertEqual(externs, [*kits, f"middle={crates}/middle/out/rlib/middle.rlib"])
        places = [words[at + 1] for at, it in enumerate(words) if it == "-L"]
        self.assertEqual(places, [f"dependency={it}" for it in (kit / "rlibs", *(crates / name / "out/rlib" for name in ("low", "middle")))])
        self.assertEqual((words[-2:], made.is_file()), (["-o", str(made)], True))
        self.assertNotIn("--allow-holes", words)

    def test_not_proved(self) -> None:
        """What is not proved is said, and no archive of an earlier run is left."""
        self.kit(1)
        made = self.repository / "crates" / "top_c" / "out" / "libtop_c.a"
        made.parent.mkdir()
        made.touch()
        ran = self.archive(self.repository, "top_c")
        self.assertEqual((ran.returncode, ran.stdout, made.exists()), (1, b"", False))
        self.assertTrue(ran.stderr.startswith(LOG) and ran.stderr.endswith(b"top_c is not built\n"), ran.stderr)

    def test_wrong_words(self) -> None:
        """A crate that is not there is status 2 with a usage line, and without a toolchain it is said."""
        for words in ([self.repository, "nothing"], [self.repository], []):
            ran = self.archive(*words)
            self.assertEqual((ran.returncode, ran.stdout), (2, b""), words)
            self.assertTrue(ran.stderr.startswith(b"usage: archive.py "), ran.stderr)
        ran = self.archive(self.repository, "top_c")
        self.assertEqual((ran.returncode, ran.stderr.count(b"\n")), (1, 1), ran.stderr)
        self.assertEqual(self.archive("--help").returncode, 0)


class Installing(Tools):
    """What the gate installs for its tests."""

    PACKAGES = {  # of Debian, by their programs
        "mypy": "mypy", "flake8": "flake8", "haproxy": "haproxy", "promtool": "prometheus", "dot": "graphviz", "strace": "strace",
        "logrotate": "logrotate", "chromium": "chromium", "node": "nodejs", "tsc": "node-typescript", "groff": "groff",
        "openssl": "openssl", "socat": "socat", "objdump": "binutils", "dpkg-deb": "dpkg-dev",
    }  # fmt: skip
    OTHERS = ("man", "chromium-browser", "google-chrome", "chrome")  # each may be there in place of one of these

    def setUp(self) -> None:
        super().setUp()
        self.calls = self.room / "calls"
        for name in self.OTHERS:
            (self.path / name).unlink(missing_ok=True)
        for name in self.PACKAGES:
            self.put(name, "#!/bin/sh\n")
        text = (ROOT / "tools" / "test_needs.sh").read_text()
        self.script = self.room / "test_needs.sh"  # which finds nothing but what is on the path of the test
        self.script.write_text(re.sub("^PATH=.*$", "", text, flags=re.MULTILINE))

    def said(self, user: int, status: int = 0) -> str:
        """What the script says to a user, where apt-get notes its words and ends with a status."""
        self.calls.unlink(missing_ok=True)
        self.put("id", f"#!/bin/sh\necho {user}\n")
        self.put("apt-get", f'#!/bin/sh\necho "$*" >> "{self.calls}"\nexit {status}\n')
        ran = self.ran("sh", self.script)
        self.assertEqual((ran.returncode, ran.stderr), (0, b""))
        return ran.stdout.decode()

    def test_gate(self) -> None:
        """`make test` makes all the targets that install what tests need."""
        targets = re.findall(r"^([a-z]+-needs):", (ROOT / "Makefile").read_text(), re.MULTILINE)
        ran = self.ran("make", "-n", "-C", ROOT, "test", "NEEDS=@true", "MAKE=echo making")
        made = [line.split() for line in ran.stdout.decode().splitlines() if line.startswith("echo making")]
        self.assertEqual(sorted(it for line in made for it in line if it.endswith("-needs")), sorted(targets), ran.stderr)
        self.assertIn("test-needs", targets)
        self.assertIn(b"tools/test_needs.sh", self.ran("make", "-n", "-C", ROOT, "test-needs").stdout)

    def test_there(self) -> None:
        """Nothing is installed or said where all is there."""
        self.assertEqual((self.said(0), self.calls.exists()), ("", False))

    def test_missing(self) -> None:
        """Root installs the package of each program that is missing, by one call."""
        for name, package in self.PACKAGES.items():
            (self.path / name).rename(self.room / name)
            with self.subTest(name):
                self.assertEqual(self.said(0), "")
                update, install = self.calls.read_text().splitlines()
                self.assertTrue(update.endswith("update -q"), update)
                self.assertTrue(install.endswith(f" install -y -q --no-install-recommends {package}"), install)
            (self.room / name).rename(self.path / name)

    def test_not_installed(self) -> None:
        """One line says what is missing, and which tests are skipped, where nothing may be installed or that fails."""
        for name in ("mypy", "tsc"):
            (self.path / name).unlink()
        what = "mypy (types of the Python client), tsc (types of the client in JavaScript)"
        advice = f"missing, so these tests are skipped: {what}: apt-get install mypy node-typescript\n"
        self.assertEqual((self.said(1_000), self.calls.exists()), (advice, False), "another user")
        self.assertEqual(self.said(0, status=100), f"cannot be installed, so these tests are skipped: {what}\n")
        self.assertTrue(self.calls.read_text().endswith(" install -y -q --no-install-recommends mypy node-typescript\n"))
        self.said(0)
        (self.path / "apt-get").unlink()
        self.assertEqual(self.ran("sh", self.script).stdout.decode(), advice, "another system")


class Needs(Tools):
    """What is said of a program that is missing."""

    def setUp(self) -> None:
        super().setUp()
        self.top = self.room / "top"
        for name in ("Makefile", "HANDLES"):
            self.top.mkdir(exist_ok=True)
            shutil.copy(ROOT / name, self.top)
        for name in ("tools", "bench", "tests/preload", "clients/python/metad"):
            shutil.copytree(ROOT / name, self.top / name)
        (self.top / "crates.txt").write_text("meta_main:\n")
        shutil.copytree(ROOT / "crates" / "meta_main", self.top / "crates" / "meta_main", ignore=shutil.ignore_patterns("out"))
        self.stand_in(status=1)

    def build(self, is_built: bool) -> None:
        """Has bin/metad there, newer than its sources, or not."""
        shutil.rmtree(self.top / "bin", ignore_errors=True)
        if is_built:
            (self.top / "bin").mkdir()
            (self.top / "bin" / "metad").write_text("")

    def check_missing(self, target: str, words: str) -> None:
        """A target fails with one sentence about what is missing, and with no traceback."""
        self.build(target not in BUILDING)
        ran = self.ran("make", target, f"DIST={self.room}/dist", folder=self.top)
        said = (ran.stdout + ran.stderr).decode()
        self.assertNotEqual(ran.returncode, 0, said)
        found = [it for it in said.splitlines() if it.startswith("missing: ")]
        self.assertEqual(len(found), 1, said)
        self.assertTrue(found[0].startswith(f"missing: {words}") and found[0].endswith("."), found)
        self.assertNotIn("Traceback", said)

    def test_missing(self) -> None:
        """Each target says which program it needs and where to get it."""
        self.put("flake8", "")  # which need not be installed
        for name, targets in LACKING.items():
            where = (self.path / name).rename(self.room / name)
            for target in targets:
                with self.subTest(program=name, target=target):
                    self.check_missing(target, "Python 3." if name == "python3" else f"{name}, ")
            where.rename(self.path / name)

    def test_old_python(self) -> None:
        """A Python that is too old is named with the version that is needed."""
        self.put("python3", OLD_PYTHON)
        for target, version in (("try", "3.8"), ("bench", "3.8"), ("dist", "3.8"), ("test", "3.11"), ("rows", "3.11")):
            with self.subTest(target=target):
                self.check_missing(target, f"Python {version} or later (python3 on the PATH is Python 3.7.16); ")

    def test_compiler(self) -> None:
        """Another compiler is looked for where CC names one."""
        ran = self.ran("make", "libraries", "CC=no-such-compiler -m64", folder=self.top)
        self.assertIn(b"missing: no-such-compiler -m64, a C compiler", ran.stderr)

    def test_not_built(self) -> None:
        """What takes bin/metad as it is says that it is not there."""
        self.build(False)
        for target in ("install", "dist", "deb"):
            ran = self.ran("make", target, f"DESTDIR={self.room}/stage", f"DIST={self.room}/dist", folder=self.top)
            said = (ran.stdout + ran.stderr).decode()
            self.assertNotEqual(ran.returncode, 0, said)
            self.assertIn("bin/metad is not there yet: make builds it", said)
            self.assertNotIn("Traceback", said)

    def test_how_long(self) -> None:
        """What proves says first how long that takes, and that `make try` answers sooner."""
        for target, time in (("all", "half an hour"), ("run", "half an hour"), ("test", "an hour or more")):
            self.build(False)
            first = self.ran("make", target, folder=self.top).stdout.decode().partition("\n")[0]
            self.assertIn(time, first, target)
            self.assertIn("make try answers a session", first, target)

    def test_nothing_missing(self) -> None:
        """Nothing is said where all is there."""
        ran = self.ran("sh", ROOT / "tools" / "needs.sh", "rt", "python3=3.8", "make")
        self.assertEqual((ran.returncode, ran.stdout, ran.stderr), (0, b"", b""))
