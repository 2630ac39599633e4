"""The contents of examples/machines: its programs, and its files for haproxy."""

import os
import re
import subprocess
import sys
from pathlib import Path
from tempfile import TemporaryDirectory

from tests.test_clients import PYTHON
from tests.test_clients.fronts import NEW, Client, front_help


from .support.cases import ProgramCases
from .support.machines import FOLDER, addresses, example, lacking, network
from .support.program import SECONDS

PAGE = FOLDER / "README.md"
NAMES = ("ann", "eve", "tom")
HOWS = (network.Namespaces.how, network.Addresses.how)
SHOWN = re.compile(r"^```console\n\$ [^\n]*try\.py bin/metad\n((?:(?!```).*\n)*)```$", re.MULTILINE)
HAS_WORKERS = "--workers" in front_help()


def all_running():
    """The words of all processes, a line each."""
    return subprocess.run(["ps", "-eo", "args"], capture_output=True, text=True, check=True).stdout


class Files(ProgramCases):
    """The contents of the folder."""

    def setUp(self):
        self.room = self.enterContext(TemporaryDirectory(prefix="metad-machines-"))

    def ran(self, script, *words, at=()):
        own = {**os.environ, "PYTHONPATH": str(PYTHON), "TMPDIR": self.room}
        own.pop("PYTHONDONTWRITEBYTECODE", None)
        words = [*at, sys.executable, "-W", "error", FOLDER / script, *words]
        return subprocess.run(words, capture_output=True, text=True, timeout=SECONDS, env=own, stdin=subprocess.DEVNULL)

    def test_try(self):
        """What `try.py` shows is what the page says, in namespaces and on addresses, and it leaves nothing."""
        if lacking():
            self.skipTest(lacking())
        before = sorted(it.name for it in FOLDER.iterdir())
        (shown,) = SHOWN.findall(PAGE.read_text())
        how = network.best(["trial"])
        self.addCleanup(how.close)
        inside = addresses(["inside"])
        self.addCleanup(inside.close)
        for words, options, where in (([], [], how.how), (inside.words("inside"), ["--addresses"], network.Addresses.how)):
            ran = self.ran("try.py", *options, self.program, at=words)
            wanted = re.sub(r"(?<=an edge, ).*", where, shown)
            self.assertEqual((ran.returncode, ran.stdout, ran.stderr), (0, wanted, ""), options)
        self.assertEqual((os.listdir(self.room), sorted(it.name for it in FOLDER.iterdir())), ([], before), "what it leaves")

    def test_words(self):
        """Words that mean nothing, and a server that does not start."""
        for script, words in (("run.py", ()), ("run.py", (self.room,)), ("try.py", ()), ("try.py", ("--else",))):
            self.assertEqual(self.ran(script, *words).returncode, 2, (script, words))
        self.assertEqual(self.ran("try.py", "--help").returncode, 0)
        if not lacking():
            ran = self.ran("try.py", "false")
            self.assertEqual((ran.returncode, ran.stdout), (1, ""), ran.stderr)
            self.assertRegex(ran.stderr, r"^try\.py: what runs at (one|two|three) has ended: metad-front: the server has ended with status 1$")

    def test_run(self):
        """`run.py` says where clients connect, serves them, leaves logs and records in its folder, and ends what it has
        started. With `--workers` each front has as many servers, where fronts can have them."""
        if lacking():
            self.skipTest(lacking())
        for options in ([], ["--workers", "2"]) if HAS_WORKERS else ([],):
            folder = Path(self.room, f"all{len(options)}")
            said, servers = self.served(folder, options)
            self.assertEqual(said[1:], [f"clients of {name} connect at {folder}/{name}.sock" for name in NAMES])
            self.assertIn(said[0].removeprefix("one, two, three and the edge are "), HOWS)
            self.assertEqual(servers, 3 * (2 if options else 1), "servers of the three fronts")
            wanted = {f"{name}.{kind}" for name in ("one", "two", "three") for kind in ("log", "record")}
            self.assertLessEqual(wanted, set(os.listdir(folder)), "logs and records")
            self.assertNotIn(str(folder), all_running(), "what still runs")

    def served(self, folder, options):
        """What `run.py` says while it serves a client, and how many servers there are then."""
        own = {**os.environ, "PYTHONPATH": str(PYTHON)}
        program = Path(self.room, "metad")
        program.unlink(missing_ok=True)
        program.symlink_to(self.program)
        words = [sys.executable, "-W", "error", FOLDER / "run.py", *options, folder, program]
        with subprocess.Popen(words, stdout=subprocess.PIPE, text=True, env=own) as process:
            try:
                said = [process.stdout.readline().strip() for _ in range(1 + len(NAMES))]
                with Client(folder / "ann.sock") as client:
                    self.assertIn('{"reply":1,', client.ask(NEW), "an object")
                servers = all_running().splitlines().count(str(program))
            finally:
                process.terminate()
        self.assertEqual(process.returncode, 0)
        return said, servers

    def test_configurations(self):
        """haproxy takes each file as it is, where it finds the certificates, and reports nothing."""
        if lacking():
            self.skipTest(lacking())
        made = subprocess.run(["sh", FOLDER / "certificates.sh", self.room, "client"], capture_output=True, text=True)
        self.assertEqual(made.returncode, 0, made.stderr)
        own = {"METAD_CERTIFICATES": self.room, "METAD_CERTIFICATE": f"{self.room}/client.pem"}
        own["METAD_AUTHORITY"] = f"{self.room}/authority.crt"
        own["METAD_EDGE"] = "127.0.0.1:7070"
        for path in sorted(FOLDER.glob("*.cfg")):
            more = own if path.name not in ("machine.cfg", "health.cfg") else {}
            beside = ["-f", FOLDER / "machine.cfg"] if path.name == "health.cfg" else []
            words = [example.haproxy(), "-c", *beside, "-f", path]
            ran = subprocess.run(words, capture_output=True, text=True, env={**os.environ, **more})
            self.assertEqual((ran.returncode, ran.stderr), (0, ""), f"{path.name}: {ran.stdout}")

    def test_numbers(self):
        """The numbers that the page says are those of both files."""
        text = PAGE.read_text()
        for words in ("after three failed checks", "in 5 seconds (`METAD_ANSWER`)", "after two successful checks"):
            self.assertIn(words, text)
        for name in ("edge.cfg", "edge_by_address.cfg"):
            lines = (FOLDER / name).read_text()
            self.assertRegex(lines, r"(?m)^    presetenv METAD_ANSWER 5s ", name)
            self.assertIn(" fall 3 rise 2 ", lines, name)

    def test_edges(self):
        """The two files of an edge differ in how clients come and how it distinguishes them, and in nothing else."""
        by_name, by_address = ((FOLDER / name).read_text().splitlines() for name in ("edge.cfg", "edge_by_address.cfg"))
        differ = {line.split()[0] for line in set(by_name) ^ set(by_address) if not line.startswith("#")}
        self.assertEqual(differ, {"presetenv", "bind", "tcp-request", "log-format", "balance"})
