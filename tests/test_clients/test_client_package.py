"""The client in Python as a package that is installed."""

import base64
import csv
import email
import hashlib
import io
import os
import shutil
import subprocess
import sys
import zipfile
from pathlib import Path

import metad

from tests.support.documents import version
from tests.support.program import SECONDS

from . import CLIENTS, PYTHON
from .fronts import ClientCases
from .web_sockets import python_with_web_sockets

PIP = "import pip"


def python_with_pip():
    """A Python that has pip: this one, or that of the system; None without one."""
    for path in (sys.executable, shutil.which("python3", path=os.defpath)):
        if path and subprocess.run([path, "-c", PIP], capture_output=True).returncode == 0:
            return path
    return None


# What is ignored has to be a fault, or else mypy says that nothing is to be ignored there.
TYPED = """\
import metad
from metad import aio

def give(session: metad.Session) -> int:
    wrong: str = session.new("Probe")  # type: ignore[assignment]
    session.new(5)  # type: ignore[arg-type]
    session.status()["nothing"]  # type: ignore[typeddict-item]
    made: metad.Proxy = session.create("Probe")
    return session.new("Probe", made.number) + session.spin()["events"] + len(wrong)

async def give_too(session: aio.Session) -> int:
    wrong: str = await session.new("Probe")  # type: ignore[assignment]
    made: aio.Proxy = await session.create("Probe")
    return await session.new("Probe", made.number) + len(wrong)
"""


class Package(ClientCases):
    """The package `metad`."""

    seconds = 3 * SECONDS

    def test_version(self):
        """Its version is the program's."""
        self.assertEqual(metad.__version__, version()[0])

    def test_names(self):
        """Its public names are there, and no other name is exported."""
        self.assertEqual([it for it in metad.__all__ if not hasattr(metad, it)], [], "names that are not there")
        self.assertEqual(sorted(set(metad.__all__)), sorted(metad.__all__), "names that occur twice")

    def copied(self):
        """The package's sources in a folder of their own."""
        source = Path(self.room, "source")
        shutil.copytree(PYTHON, source, ignore=shutil.ignore_patterns("__pycache__"))
        return source

    def installed(self, target, *words):
        """Has pip install something into a folder, without a network, and with pip's default settings."""
        python = python_with_pip()
        if python is None:
            self.skipTest("no Python here has pip")
        own = {key: value for key, value in os.environ.items() if not key.startswith("PIP_")}
        own.update(PIP_CONFIG_FILE=os.devnull, HOME=self.room)
        words = [*"-m pip install --quiet --no-index --root-user-action=ignore --target".split(), target, *words]
        made = subprocess.run([python, *words], capture_output=True, text=True, timeout=self.seconds, env=own, cwd=self.room)
        self.assertEqual((made.returncode, made.stderr), (0, ""), made.stdout)

    def check_installed(self, target, source):
        """Looks at what was installed: the version, all files of the package and nothing else, and that it can be used."""
        about = f"metad-{version()[0]}.dist-info"
        self.assertEqual(sorted(it.name for it in target.iterdir()), ["metad", about], "what is installed")
        wanted = {it.name: it.read_bytes() for it in (source / "metad").iterdir() if it.is_file()}
        found = {it.name: it.read_bytes() for it in (target / "metad").iterdir() if it.is_file()}
        self.assertEqual(found, wanted, "the files of the package")
        self.assertIn("py.typed", found, "the mark of a package with types")
        said = email.message_from_string((target / about / "METADATA").read_text())
        keys = {key: said[key] for key in ("Name", "Version", "Requires-Python")}
        self.assertEqual(keys, {"Name": "metad", "Version": version()[0], "Requires-Python": ">=3.8"}, "what is said of it")
        self.assertEqual(said.get_payload(), (source / "README.md").read_text(), "its description")
        code = "import metad; print(metad.__file__, metad.__version__)"
        own = {**os.environ, "PYTHONPATH": str(target)}
        ran = subprocess.run([sys.executable, "-c", code], capture_output=True, text=True, env=own, cwd=self.room)
        self.assertEqual(ran.stdout, f"{target / 'metad' / '__init__.py'} {version()[0]}\n", ran.stderr)

    def test_install(self):
        """`pip` installs it from its folder without a network, with its version and all of its files."""
        source, target = self.copied(), Path(self.room, "target")
        self.installed(target, source)
        self.check_installed(target, source)

    def test_wheel(self):
        """The wheel has a record of its files, is the same each time, and one of the source archive installs the same."""
        source, places = self.copied(), [Path(self.room, name) for name in ("one", "other")]
        build = "import build_package, sys; print(build_package.build_wheel(sys.argv[1]), build_package.build_sdist(sys.argv[1]))"
        for place in places:
            place.mkdir()
            made = subprocess.run([sys.executable, "-c", build, place], cwd=source, capture_output=True, text=True)
            self.assertEqual(made.stdout, f"metad-{version()[0]}-py3-none-any.whl metad-{version()[0]}.tar.gz\n", made.stderr)
        one, other = ({it.name: it.read_bytes() for it in place.iterdir()} for place in places)
        self.assertEqual(one, other, "two builds")
        with zipfile.ZipFile(next(places[0].glob("*.whl"))) as wheel:
            names = wheel.namelist()
            rows = list(csv.reader(io.StringIO(wheel.read(next(it for it in names if it.endswith("/RECORD"))).decode())))
            self.assertEqual([row[0] for row in rows], names, "the files of the record")
            for name, checksum, size in rows[:-1]:
                data = wheel.read(name)
                digest = base64.urlsafe_b64encode(hashlib.sha256(data).digest()).decode().rstrip("=")
                self.assertEqual((checksum, size), (f"sha256={digest}", str(len(data))), name)
        target = Path(self.room, "target")
        self.installed(target, next(places[0].glob("*.tar.gz")))
        self.check_installed(target, source)

    def test_editable(self):
        """An editable wheel leads Python to the folder of the package."""
        source = self.copied()
        build = "import build_package, sys; print(build_package.build_editable(sys.argv[1]))"
        made = subprocess.run([sys.executable, "-c", build, self.room], cwd=source, capture_output=True, text=True)
        with zipfile.ZipFile(Path(self.room, made.stdout.strip())) as wheel:
            self.assertEqual(wheel.read("metad.pth").decode(), f"{source}\n", "what leads there")
            self.assertEqual(len(wheel.namelist()), 4, "its files; three are about the wheel")

    def test_types(self):
        """mypy finds no fault in its types and those of all tools, and knows those of replies where it is used. The relay is
        left out where no Python has websockets, whose types it needs."""
        if shutil.which("mypy") is None:
            self.skipTest("mypy is not on the path")
        Path(self.room, "program.py").write_text(TYPED)
        own = {**os.environ, "MYPYPATH": os.pathsep.join(map(str, (PYTHON, CLIENTS, self.room)))}
        python = python_with_web_sockets()
        tools = {it.parent.name for it in CLIENTS.glob("*/__init__.py")} - ({"relaying"} if python is None else set())
        words = ["mypy", "--strict", "--no-error-summary", "--cache-dir", Path(self.room, "cache")]
        words += ["-p", "metad", "-m", "build_package", "-m", "program", *(word for tool in sorted(tools) for word in ("-p", tool))]
        words += [] if python is None else ["--python-executable", python]
        ran = subprocess.run(words, cwd=self.room, env=own, capture_output=True, text=True, timeout=self.seconds)
        self.assertEqual((ran.returncode, ran.stdout, ran.stderr), (0, "", ""))
