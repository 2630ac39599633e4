"""What `make dist` and `make deb` make of bin/metad as it is: that it is complete, runs, and is the same each time."""

import gzip
import hashlib
import os
import re
import shutil
import subprocess
import sys
import tarfile
from pathlib import Path
from tempfile import TemporaryDirectory

from .support.cases import Cases
from .support.documents import README, version
from .support.program import ROOT, SECONDS, make
from .test_install import CHECKED, KEPT, LINE, MADE, RECORD, SAID, as_installed, files_in, wanted_files

TOOL = ROOT / "tools" / "package.py"
TIME = 1_700_000_000  # that the files of a package are given
NEW, FIRST = b'{"session":"a","do":"new","class":"Probe"}\n', b'{"reply":1,"session":"a"}\n'
USAGE = "usage: metad-front [options] SOCKET PROGRAM [ARGS...]\n"
INSPECT_USAGE = "usage: metad-inspect [--port PORT] RECORD PROGRAM [ARGS...]\n"
GLIBC = re.compile(r"glibc (\d+(?:\.\d+)+)")
SITE = "usr/lib/python3/dist-packages"
DPKG = ["dpkg", "--force-depends", "--force-script-chrootless"]  # without the packages that it needs, nor their shell


def sum_of(path):
    return hashlib.sha256(path.read_bytes()).hexdigest()


def sums_in(path):
    """The checksums that a file has, by the names next to them."""
    lines = (line.split("  ", 1) for line in path.read_text().splitlines())
    return {name: checksum for checksum, name in lines}


class Packages(Cases):
    """Packages, each made in a folder of its own."""

    def setUp(self):
        self.room = Path(self.enterContext(TemporaryDirectory(prefix="metad-package-")))
        if shutil.which("objdump") is None:
            self.skipTest("objdump, which says what a program needs, is not on the path")

    def made(self, target, name, umask=0o022):
        """The first package that a target makes in a new folder."""
        return self.all_made(target, name, umask)[0]

    def all_made(self, target, name, umask=0o022):
        """The packages that a target makes in a new folder, which has their checksums, too."""
        folder, before = self.room / name, os.umask(umask)
        try:
            ran = make(target, f"DIST={folder}", f"SOURCE_DATE_EPOCH={TIME}")
        finally:
            os.umask(before)
        self.assertEqual((ran.returncode, ran.stderr), (0, ""), ran.stdout)
        paths = list(map(Path, ran.stdout.splitlines()))
        self.assertEqual(sums_in(folder / "SHA256SUMS"), {it.name: sum_of(it) for it in paths}, "the checksums")
        self.assertEqual({it.name for it in folder.iterdir()}, {*(it.name for it in paths), "SHA256SUMS"}, "what is made")
        return paths

    def check_same(self, target, path):
        """A package is made once more, by somebody whose files nobody else may read, and is the same."""
        self.assertEqual(sum_of(self.made(target, "again", umask=0o077)), sum_of(path), "the same package made again")

    def check_run(self, words, given, wanted, **more):
        own = {**os.environ, "PYTHONDONTWRITEBYTECODE": "1", **more}
        ran = subprocess.run(words, input=given, capture_output=True, env=own, timeout=SECONDS)
        self.assertEqual((ran.returncode, ran.stderr, ran.stdout), (0, b"", wanted), words)

    def check_use(self, top, site):
        """The program, the tools and the client run where they are."""
        self.check_run([top / "bin/metad"], NEW, FIRST)
        self.check_run([top / "bin/metad-explain"], LINE, LINE + SAID)
        self.check_run([top / "bin/metad-check", "-"], b'{"classes":[]}', CHECKED)
        self.check_run([top / "bin/metad-shell", top / "bin/metad"], b"new QObject as p\n", MADE)
        self.check_run([top / "bin/metad-slice", "--only", "/dev/stdin", "a"], RECORD, KEPT)
        code = f"import metad; print(metad.start_front({str(top / 'bin/metad')!r}).close(), metad.__version__)"
        self.check_run(["python3", "-c", code], b"", f"0 {version()[0]}\n".encode(), PYTHONPATH=str(site))
        said = subprocess.run([top / "bin/metad-front", "--help"], capture_output=True, text=True, timeout=SECONDS).stdout
        self.assertTrue(said.startswith(USAGE), said[: len(USAGE)])
        said = subprocess.run([top / "bin/metad-inspect", "--help"], capture_output=True, text=True, timeout=SECONDS).stdout
        self.assertTrue(said.startswith(INSPECT_USAGE), said[: len(INSPECT_USAGE)])

    def test_tarball(self):
        """It has all that is installed and the checksums of it, and is the same each time."""
        path = self.made("dist", "once")
        name = f"metad-{version()[0]}-x86_64-linux"
        self.assertEqual(path.name, f"{name}.tar.gz")
        self.assertIn(path.name, README.read_text(), "how README.md calls it")
        self.check_same("dist", path)
        with tarfile.open(path) as tar:
            members = tar.getmembers()
            tar.extractall(self.room)
        self.assertEqual([it.name for it in members], sorted((it.name for it in members), key=lambda it: it.split("/")), "the order")
        self.assertEqual({(it.uid, it.gid, it.uname, it.gname, it.mtime) for it in members}, {(0, 0, "root", "root", TIME)}, "whose they are")
        top, own = self.room / name, {"README", "SHA256SUMS"}
        found, wanted = files_in(top), wanted_files()
        self.assertEqual(found.keys() - own, wanted.keys(), "the files")
        different = [it for it in wanted if found[it].read_bytes() != as_installed(wanted[it])]
        self.assertEqual(different, [], "files that are others than those here")
        plain = {it for it, path in found.items() if not path.is_symlink() and it != "SHA256SUMS"}
        self.assertEqual(sums_in(top / "SHA256SUMS"), {it: sum_of(top / it) for it in plain}, "the checksums")
        self.check_use(top, top / "share/metad/python")

    def test_glibc(self):
        """The oldest glibc is that of the newest symbol that the programs ask for, and the README says it too."""
        path = self.made("dist", "once")
        with tarfile.open(path) as tar:
            about = tar.extractfile(f"metad-{version()[0]}-x86_64-linux/README").read().decode()
        words = ["objdump", "-T", *(ROOT / "bin" / it for it in ("metad", "metad-front"))]  # the library asks for less
        symbols = subprocess.run(words, capture_output=True, text=True, timeout=SECONDS).stdout
        asked = [tuple(map(int, it.split("."))) for it in re.findall(r"\bGLIBC_([0-9.]+)", symbols)]
        self.assertTrue(asked, "the program asks for nothing of glibc")
        wanted = ".".join(map(str, max(asked)))
        self.assertEqual(GLIBC.findall(about), [wanted], "what the package says")
        self.assertEqual(set(GLIBC.findall(README.read_text())), {wanted}, "what README.md says")

    def test_debian(self):
        """It can be unpacked and used, says what it needs, and is the same each time."""
        if shutil.which("dpkg-deb") is None:
            self.skipTest("dpkg-deb is not on the path")
        path = self.made("deb", "once")
        self.assertEqual(path.name, f"metad_{version()[0]}_amd64.deb")
        self.check_same("deb", path)
        shown = subprocess.run(["dpkg-deb", "--field", path], capture_output=True, text=True, timeout=SECONDS).stdout
        fields = dict(re.findall(r"^([A-Z][\w-]*): (.*)$", shown, re.MULTILINE))
        self.assertEqual((fields["Package"], fields["Version"], fields["Architecture"]), ("metad", version()[0], "amd64"))
        self.assertRegex(fields["Depends"], r"^libc6 \(>= 2\.\d+(\.\d+)?\)(, libgcc-s1)?, python3 \(>= 3\.8\)$")
        subprocess.run(["dpkg-deb", "--extract", path, self.room / "root"], check=True, timeout=SECONDS)
        top = self.room / "root" / "usr"
        page = gzip.decompress((top / "share/man/man1/metad.1.gz").read_bytes())
        self.assertEqual(page, (ROOT / "man" / "metad.1").read_bytes(), "the manual page")
        others = {"share/man/man1/metad.1.gz", "share/doc/metad/copyright"}
        found = {it for it in files_in(top) if not it.startswith("lib/")}
        wanted = {it for it in wanted_files() if not it.startswith(("lib/", "include/"))}
        self.assertEqual(found - others, wanted - {"share/man/man1/metad.1"}, "the files")
        self.check_use(top, self.room / "root" / SITE)

    def test_debian_library(self):
        """The library has two packages: one to run programs, and one to build them, by which the other is needed."""
        if shutil.which("dpkg-deb") is None:
            self.skipTest("dpkg-deb is not on the path")
        if not (ROOT / "bin" / "libmetad.so").exists():
            self.skipTest("bin/libmetad.so is not there: make library builds it")
        paths, again, number = self.all_made("deb", "once"), self.all_made("deb", "again", umask=0o077), version()[0]
        self.assertEqual([it.name for it in paths], [f"{it}_{number}_amd64.deb" for it in ("metad", "libmetad", "libmetad-dev")])
        self.assertEqual(list(map(sum_of, again)), list(map(sum_of, paths)), "the same packages made again")
        needs, found = {}, {}
        for name, path in zip(("libmetad", "libmetad-dev"), paths[1:]):
            fields = subprocess.run(["dpkg-deb", "--field", path, "Depends"], capture_output=True, text=True, timeout=SECONDS)
            subprocess.run(["dpkg-deb", "--extract", path, self.room / name], check=True, timeout=SECONDS)
            needs[name], top = fields.stdout.strip(), self.room / name / "usr"
            found[name] = {str(it.relative_to(top)) for it in top.rglob("*") if it.is_symlink() or it.is_file()}
        self.assertRegex(needs["libmetad"], r"\Alibc6 \(>= 2\.\d+(\.\d+)?\)\Z")
        self.assertEqual(needs["libmetad-dev"], f"libmetad (= {number}), libc6-dev")
        self.assertEqual(found["libmetad"], {"lib/libmetad.so.0", "share/doc/libmetad/copyright"})
        wanted = {"include/metad.h", "lib/libmetad.a", "lib/libmetad.so", "lib/pkgconfig/metad.pc", "share/doc/libmetad-dev/copyright"}
        self.assertEqual(found["libmetad-dev"], wanted)

    def test_debian_root(self):
        """dpkg installs it below a root of its own, and takes all of it away again, with what Python has left there."""
        if shutil.which("dpkg") is None or os.geteuid():
            self.skipTest("dpkg is not on the path, or this is not root")
        path, root = self.made("deb", "once"), self.room / "root"
        for folder in ("info", "updates"):
            (root / "var/lib/dpkg" / folder).mkdir(parents=True)
        (root / "var/lib/dpkg/status").write_text("")
        self.dpkg(root, "--install", path)
        self.check_run([root / "usr/bin/metad-explain"], LINE, LINE + SAID, PYTHONDONTWRITEBYTECODE="")
        self.check_run([sys.executable, "-c", "import metad"], b"", b"", PYTHONPATH=str(root / SITE), PYTHONDONTWRITEBYTECODE="")
        kept = {str(it.parent.relative_to(root)) for it in (root / "usr").rglob("__pycache__")}
        self.assertLessEqual({"usr/share/metad/explaining", "usr/share/metad/python/metad"}, kept, "where Python has left folders")
        self.dpkg(root, "--purge", "metad")
        left = [it for it in root.rglob("*") if (root / "var") not in (it, *it.parents)]
        self.assertEqual(left, [], "what is left")

    def dpkg(self, root, *words):
        """Runs dpkg below a root, where it has to do what it is asked for."""
        ran = subprocess.run([*DPKG, f"--root={root}", *words], capture_output=True, text=True, timeout=SECONDS)
        self.assertEqual(ran.returncode, 0, ran.stdout + ran.stderr)

    def test_wrong_words(self):
        """Wrong words are status 2, and where there is nothing to pack or no time, it is said."""
        empty = self.room / "empty"
        shutil.copytree(ROOT / "tools", empty / "tools")
        shutil.copytree(ROOT / "clients/python/metad", empty / "clients/python/metad")
        for words, status, said, more in (
            ([TOOL], 2, "usage: package.py ", {}),
            ([TOOL, "zip", self.room], 2, "usage: package.py ", {}),
            ([empty / "tools" / "package.py", "tarball", self.room], 1, "package.py: bin/metad is not there yet", {}),
            ([TOOL, "tarball", self.room], 1, "package.py: SOURCE_DATE_EPOCH is no number", {"SOURCE_DATE_EPOCH": "now"}),
            ([TOOL, "tarball", TOOL], 1, "package.py: ", {}),
        ):
            own = {**os.environ, **more}
            ran = subprocess.run([sys.executable, *words], capture_output=True, text=True, env=own, timeout=SECONDS)
            self.assertEqual((ran.returncode, ran.stdout), (status, ""), ran.stderr)
            self.assertTrue(ran.stderr.startswith(said) and "Traceback" not in ran.stderr, ran.stderr)
