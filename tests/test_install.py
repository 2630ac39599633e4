"""What `make install` puts below a prefix and `make uninstall` removes, and the manual page among it."""

import os
import re
import shutil
import subprocess
from pathlib import Path
from tempfile import TemporaryDirectory

from .support import protocol
from .support.cases import Cases, ProgramCases
from .support.differences import difference
from .support.documents import version
from .support.markdown import links_in
from .support.program import ROOT, SECONDS, lay_out, make, run_shell

SHARED = {"bin", "include", "lib", "lib/pkgconfig", "share", "share/man", "share/man/man1", "share/doc"}  # folders that are not the program's own
DOC = "share/doc/metad"
TOOLS = {
    "explain": "explaining", "check": "checking", "shell": "shelling", "slice": "slicing", "inspect": "inspecting",
    "compact": "compacting", "web": "relaying",
}  # fmt: skip
LINKS = {f"bin/metad-{tool}": f"share/metad/{tool}" for tool in TOOLS}
PROGRAMS = {"bin/metad", "bin/metad-front", *LINKS, *LINKS.values()}
DOCUMENTS = ("README.md", "docs/PROTOCOL.md", "clients/python/README.md", "clients/js/README.md", "examples/traffic_light/session")
CLIENT = "share/metad/python"
ALWAYS = PROGRAMS | {"share/man/man1/metad.1", f"{CLIENT}/metad/__init__.py", "share/metad/js/index.mjs", *(f"{DOC}/{it}" for it in DOCUMENTS)}
OF_DOCUMENTS = ("README.md", "CHANGELOG.md", "docs/*.md", "docs/*.json", "docs/*.png", "clients/*/*.md", "examples/*/*")
INTERNAL = re.compile(rb"\[([^][]*)\]\((?:[^()]*internals/[^()]*|CONTRIBUTING\.md)\)")  # a link to a page that is not installed
OF_PAGE = ("inspecting/page/*", "inspecting/*.json")
OF_CLIENT = ("metad/*.py", "metad/py.typed")
LIBRARY = ("libmetad.a", "libmetad.so", "libmetad.so.0")
OF_JS = ("js/*.mjs", "js/*.mts", "js/package.json")
OF_QT = ("*.cmake", "CMakeLists.txt", "metad/*")
LINE = b'{"error":"E12","session":"a"}\n'
SAID = b"    session a: E12: the parent would be the object itself or below it\n"
CHECKED = b"<standard input>: no fault, no warning; metad takes it\n"
MADE = b"object 1 is made, of class QObject, a root; it is p\n"
RECORD = b'{"session":"a","do":"spin"}\n{"session":"b","do":"spin"}\n'
KEPT = b'{"session":"a","do":"spin"}\n'
OF_PYTHON = ("PYTHONDONTWRITEBYTECODE", "PYTHONPYCACHEPREFIX")  # with either, Python leaves nothing next to the files


def files_in(top):
    """The files below a folder, by their paths from there."""
    return {str(path.relative_to(top)): path for path in top.rglob("*") if path.is_file()}


def as_installed(path):
    """What a file holds where it is installed: a page has no links to internal pages, and keeps their texts."""
    held = path.read_bytes()
    return INTERNAL.sub(rb"\1", held) if path.suffix == ".md" else held


def wanted_files():
    """What is to be installed, each with the file that it is made of."""
    made = {name: ROOT / name for name in ("bin/metad", "bin/metad-front")}
    made |= {"share/man/man1/metad.1": ROOT / "man" / "metad.1"}
    for tool, parts in TOOLS.items():
        made |= {name: ROOT / "clients" / tool for name in (f"bin/metad-{tool}", f"share/metad/{tool}")}
        made |= {f"share/metad/{parts}/{path.name}": path for path in (ROOT / "clients" / parts).glob("*.py")}
    clients = ROOT / "clients"
    made |= {f"share/metad/{path.relative_to(clients)}": path for pattern in (*OF_PAGE, *OF_JS, "common/*.py") for path in clients.glob(pattern)}
    client = clients / "python"
    made |= {f"{CLIENT}/{path.relative_to(client)}": path for pattern in OF_CLIENT for path in client.glob(pattern)}
    made |= {f"share/metad/{path.relative_to(clients)}": path for pattern in OF_QT for path in (clients / "qt").glob(pattern)}
    if (ROOT / "bin" / "libmetad.so").exists():  # `make library` builds it
        made |= {f"lib/{name}": ROOT / "bin" / name for name in LIBRARY}
        made |= {"lib/pkgconfig/metad.pc": ROOT / "bin" / "metad.pc", "include/metad.h": ROOT / "include" / "metad.h"}
    documents = [path for pattern in OF_DOCUMENTS for path in ROOT.glob(pattern) if path.is_file()]
    return made | {f"{DOC}/{path.relative_to(ROOT)}": path for path in documents}


class Install(Cases):
    """`make install` and `make uninstall`, below a folder each. They take bin/metad as it is."""

    def setUp(self):
        self.room = self.enterContext(TemporaryDirectory(prefix="metad-install-"))

    def make(self, target, stage, prefix):
        ran = make(target, f"DESTDIR={stage}", f"PREFIX={prefix}")
        self.assertEqual((ran.returncode, ran.stderr), (0, ""), f"make {target}: {ran.stdout}")

    def check_files(self, top):
        """The files below a prefix are those to be installed, with their modes."""
        found, wanted = files_in(top), wanted_files()
        self.assertEqual(found.keys(), wanted.keys())
        self.assertLessEqual(ALWAYS, found.keys())
        for name, path in found.items():
            self.assertEqual(path.read_bytes(), as_installed(wanted[name]), f"{name} is another file")
            self.assertEqual(oct(path.stat().st_mode & 0o777), oct(0o755 if name in PROGRAMS else 0o644), f"the mode of {name}")
        for link, to in LINKS.items():
            self.assertTrue(found[link].is_symlink(), link)
            self.assertEqual(os.readlink(found[link]), f"../{to}")

    def check_links(self, top):
        """The links of the installed documents lead to what is installed."""
        found = {path.resolve() for path in files_in(top).values()}
        there = found | {folder for path in found for folder in path.parents}
        links = [(it, target) for it in (top / DOC).rglob("*.md") for target, _ in links_in(it.read_text()) if target]
        self.assertTrue(links, "the installed documents have no links")
        for document, target in links:
            end = (document.parent / target).resolve()
            is_there = end in there and end.is_relative_to((top / DOC).resolve())
            self.assertTrue(is_there, f"the link to {target} in {document.relative_to(top)} leads to nothing that is installed")

    def check_run(self, words, top, given, wanted):
        """Something installed runs where it is, where Python may leave its folders."""
        own = {key: value for key, value in os.environ.items() if key not in OF_PYTHON}
        where = {**own, "PYTHONPATH": str(top / CLIENT)}
        ran = subprocess.run(words, input=given, capture_output=True, env=where, timeout=SECONDS)
        self.assertEqual((ran.returncode, ran.stderr, ran.stdout), (0, b"", wanted), words)

    def check_use(self, top):
        """The tools and the client are used where they are installed."""
        self.check_run([top / "bin/metad-explain"], top, LINE, LINE + SAID)
        self.check_run([top / "bin/metad-check", "-"], top, b'{"classes":[]}', CHECKED)
        self.check_run([top / "bin/metad-shell", top / "bin/metad"], top, b"new QObject as p\n", MADE)
        self.check_run([top / "bin/metad-slice", "--only", "/dev/stdin", "a"], top, RECORD, KEPT)
        client = str(top / CLIENT / "metad" / "__init__.py")
        self.check_run(["python3", "-c", "import metad; print(metad.__file__)"], top, b"", f"{client}\n".encode())
        if shutil.which("node"):
            words = f"import({str(top / 'share/metad/js/index.mjs')!r}).then((metad) => console.log(metad.CODES.E12))"
            self.check_run(["node", "-e", words], top, b"", b"a cycle of parents\n")
        left = {str(path.parent.relative_to(top)) for path in top.rglob("__pycache__")}
        used = ("common", "explaining", "checking", "shelling", "slicing", "python/metad")
        wanted = {f"share/metad/{it}" for it in used}
        self.assertLessEqual(wanted, left, "where Python has left its folders")

    def check_stage(self, stage, prefix, kept=None):
        """Installs below a folder and takes all away again, twice each; a file that was there before has to stay."""
        top = Path(f"{stage}{prefix}")
        if kept:
            (top / kept).parent.mkdir(parents=True)
            (top / kept).write_text("kept")
        for _ in range(2):
            self.make("install", stage, prefix)
            if not kept:
                self.check_files(top)
        self.check_links(top)
        self.check_use(top)
        allowed = SHARED | ({kept, *(str(it) for it in Path(kept).parents)} if kept else set())
        for _ in range(2):
            self.make("uninstall", stage, prefix)
            left = {str(path.relative_to(top)) for path in top.rglob("*")}
            self.assertLessEqual(left, allowed, "what make uninstall leaves")
            self.assertTrue(kept is None or kept in left, f"make uninstall removes {kept}")

    def test_below_usr_local(self):
        """All files are installed with their modes, can be used, and go again."""
        self.check_stage(f"{self.room}/stage", "/usr/local")

    def test_beside_other_files(self):
        """In a folder with a space in its name, where a file of somebody else has to stay."""
        self.check_stage(f"{self.room}/a stage", "/usr", "share/doc/metad/notes")

    def test_site(self):
        """A folder where Python looks is given a link to the client, and keeps all else at the end."""
        stage, site = Path(self.room, "stage"), "/usr/lib/python 3/site"
        (stage / site[1:]).mkdir(parents=True)
        (stage / site[1:] / "other.py").write_text("")
        link = stage / site[1:] / "metad"
        for _ in range(2):
            ran = make("install", f"DESTDIR={stage}", "PREFIX=/usr", f"SITE={site}")
            self.assertEqual((ran.returncode, ran.stderr), (0, ""), ran.stdout)
            self.assertEqual(os.readlink(link), "../../../share/metad/python/metad")
        own = {**os.environ, "PYTHONPATH": str(link.parent)}
        words = ["python3", "-c", "import metad, metad.fronts; print(metad.fronts.front_words()[-1])"]
        ran = subprocess.run(words, capture_output=True, text=True, env=own, timeout=SECONDS)
        self.assertEqual((ran.stdout, ran.stderr), (f"{stage}/usr/bin/metad-front\n", ""), "the front that it finds")
        for _ in range(2):
            ran = make("uninstall", f"DESTDIR={stage}", "PREFIX=/usr", f"SITE={site}")
            self.assertEqual((ran.returncode, ran.stderr), (0, ""), ran.stdout)
            self.assertEqual(os.listdir(link.parent), ["other.py"], "what is left there")
            self.assertFalse((stage / "usr/share/metad").exists(), "whether the client is left")

    def test_without_the_program(self):
        """Nothing is installed where bin/metad is not built."""
        empty = Path(self.room, "empty")
        empty.mkdir()
        ran = make("install", f"DESTDIR={self.room}/none", "PREFIX=/usr", folder=empty)
        self.assertNotEqual(ran.returncode, 0)
        self.assertIn("bin/metad is not there yet", ran.stdout)
        self.assertFalse(Path(self.room, "none").exists())


PAGE = ROOT / "man" / "metad.1"
READERS = {
    "man": ["man", "--warnings", "-E", "UTF-8", "-l", "-Tutf8", "-Z", str(PAGE)],
    "groff": ["groff", "-man", "-ww", "-z", "-Tutf8", str(PAGE)],
}
IN_PROSE = ("turns of a command, for calls and for events", "sessions")  # limits that the page says in sentences


def unescaped(line):
    return line.replace("\\-", "-").replace("\\e", "\\")


def sections():
    """The lines of each section of the page by its heading."""
    found, lines = {}, []
    for line in map(unescaped, PAGE.read_text().splitlines()):
        if line.startswith((".SH ", ".SS ")):
            lines = found.setdefault(line[4:], [])
        elif not line.startswith('.\\"'):
            lines.append(line)
    return found


def entries(lines):
    """The entries of a list: what is explained, and the text of it."""
    for block in "\n".join(lines).split(".TP\n")[1:]:
        tag, _, text = re.split(r"^\.(?:PP|EX)$", block, flags=re.MULTILINE)[0].partition("\n")
        yield tag.partition(" ")[2], " ".join(text.split())


def keys_of(text):
    """The keys that have to be there, and those in brackets."""
    keys = [it for it in text.split(", ") if it]
    return {it for it in keys if it[0] != "["}, {it.strip("[]") for it in keys if it[0] == "["}


def figures(text):
    return set(re.findall(r"\d\d+", text.replace(",", "")))


def examples(lines):
    """The commands of the examples, each with what it writes."""
    for block in re.findall(r"^\.EX\n(.*?)^\.EE$", "\n".join(lines) + "\n", re.MULTILINE | re.DOTALL):
        for part in re.split(r"^\$ ", block, flags=re.MULTILINE)[1:]:
            command, line, written = part.partition("\nEND\n") if "<<'END'" in part else part.partition("\n")
            yield command + line, written


class ManualPage(ProgramCases):
    """man/metad.1: whether it says what docs/PROTOCOL.md says, and its examples."""

    def setUp(self):
        self.page = sections()

    def check_list(self, section, wanted):
        """The entries of a section are these, in their order."""
        got = list(entries(self.page[section]))
        self.assertTrue(got, f"the section {section} has no entries")
        self.assertEqual(got, wanted)

    def test_codes(self):
        """Its codes are those of the protocol."""
        self.check_list("Codes", list(protocol.codes().items()))

    def test_limits(self):
        """Its limits are those of the protocol."""
        listed = [(what, most) for what, most in protocol.limits() if what not in IN_PROSE]
        self.check_list("Limits", [(most.partition(":")[0], what.replace(" above", "")) for what, most in listed])

    def test_statuses(self):
        """Its exit statuses are those of the protocol."""
        self.check_list("EXIT STATUS", list(protocol.statuses().items()))

    def test_commands(self):
        """Its commands are those of the protocol, with their keys."""
        given = [(word, *keys_of(text)) for word, text in entries(self.page["INPUT"])]
        self.assertTrue(given, "it has no commands")
        self.assertEqual(given, [(word, *keys) for word, *keys, _ in protocol.commands()])

    def test_figures(self):
        """It has no figures and no messages that the protocol has not, and it has all of the turns."""
        page, said = unescaped(PAGE.read_text()), protocol.text()
        self.assertEqual(sorted(figures(page) - figures(said)), [], "figures that are not in the protocol")
        messages = re.findall(r"metad: [^\"\n]+", page)
        self.assertEqual([it for it in messages if it not in said], [], "messages that are not in the protocol")
        turns = dict(protocol.limits())[IN_PROSE[0]]
        self.assertEqual(sorted(figures(turns) - figures(page)), [], "figures of the turns that it has not")

    def test_version(self):
        """Its heading says the version of the program, which the README says."""
        self.assertIn(f'"metad {version()[0]}"', PAGE.read_text().partition("\n")[0])

    def test_examples(self):
        """Its examples write what it says."""
        room = self.enterContext(TemporaryDirectory(prefix="metad-manual-"))
        lay_out(room, {"bin/metad": self.program})
        path = os.pathsep.join((f"{room}/bin", os.environ["PATH"]))

        def fault_of(case):
            command, wanted = case
            ran = run_shell(command, room, PATH=path)
            if ran.returncode or ran.stderr:
                return f"status {ran.returncode}, on standard error {ran.stderr!r}, of\n{command}"
            fault = difference(wanted.encode(), ran.stdout)
            return fault and f"{fault}\nof {command}"

        self.check_each([(case[0].partition("\n")[0], case) for case in examples(self.page["EXAMPLES"])], fault_of, at_once=1)

    def test_form(self):
        """The programs that read pages warn of nothing."""
        readers = [name for name in READERS if shutil.which(name)]
        if not readers:
            self.skipTest("neither man nor groff is on the path")
        for name in readers:
            with self.subTest(reader=name):
                ran = subprocess.run(READERS[name], stdin=subprocess.DEVNULL, capture_output=True, timeout=SECONDS)
                self.assertEqual((ran.returncode, ran.stderr), (0, b""))
        self.tell(f"read by {' and '.join(readers)}")
