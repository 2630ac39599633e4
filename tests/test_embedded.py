"""libmetad, the server inside programs in C: bin/libmetad.a and bin/libmetad.so, by programs of tests/embedded that are compiled
with it, and the examples in C and C++."""

import os
import re
import shutil
import subprocess
import sys
import unittest
from functools import partial
from pathlib import Path
from tempfile import TemporaryDirectory

from .generators import chance, mixed, nests, signals
from .support.by_chance import listeners_by_chance, session_by_chance
from .support.cases import Cases, ProgramCases
from .support.differences import difference
from .support.documents import BLOCK, version
from .support.limits import LINE_BYTES
from .support.lines import is_blank, lines_in
from .support.program import ROOT, ROWS, SECONDS, library, rows_in, run_shell
from .support.seeds import SEED

EMBEDDED, EXAMPLES = ROOT / "tests" / "embedded", ROOT / "examples" / "embedded"
PAGE = ROOT / "docs" / "LIBRARY.md"
FORM = ROOT / "examples" / "form" / "classes.json"
INCLUDE = ROOT / "include"
ARCHIVE, SHARED = ROOT / "bin" / "libmetad.a", ROOT / "bin" / "libmetad.so"
MISSING = "is not there: make library builds it"
CC = os.environ.get("CC", "cc")
C99 = ["-std=c99", "-D_DEFAULT_SOURCE", "-pedantic", "-Wall", "-Wextra", "-Werror", "-O1", "-g"]
WRAPPED = [f"-Wl,--wrap={it}" for it in ("malloc", "calloc", "realloc", "free")]
UNDER_VALGRIND = ("valgrind", "-q", "--error-exitcode=7", "--leak-check=full", "--show-leak-kinds=all")
UNDER_CALLGRIND = ("valgrind", "--tool=callgrind", "--callgrind-out-file=/dev/null")
COLLECTED = re.compile(r"Collected : (\d+)")
OF_DRIVE = {"--turns"}
OWN = {"metad_" + it for it in ("open", "line", "line_for", "lines", "output_len", "output", "close", "version")}
IN_C_PLUS_PLUS = '#include <metad.h>\nint main() { return metad_version()[0] == 0; }\n'
REFUSED = ("sessions_have_their_own_bindings_and_groups", "join_writes_a_bound_property", "lines_out_of_form", "a_chain_of_64_levels")  # rows
PROGRAM_AND_PRINT = re.compile(rf"^```c\n{BLOCK}```\n+```text\n{BLOCK}```$", re.MULTILINE)
NAMED = re.compile(rb'"session":"(\w+)"')
FIRST, OTHERS = re.compile(rb'\{"session":"\w+",'), re.compile(rb',"session":"\w+"')
OF_NOBODY = b'"session":"-"'

RANDOM_LINES, SESSIONS, RUNS = 20_000, 20, 4
LONG_RUNS = 5  # of 200,000 lines each, with LONG=1
LONG_SECONDS = 3_600
STACK_KIB, NEST_BYTES = 2_048, 16 * 2**20
COUNTED = 2_000  # lines whose instructions are counted
MOST_INSTRUCTIONS = 1.1  # of those of the program


def needs(tool):
    """Skips a test where this program is not installed."""
    if not shutil.which(tool):
        raise unittest.SkipTest(f"{tool} is not installed")


class LibraryCases(Cases):
    """Tests of bin/libmetad.a, with a folder for what is compiled."""

    @classmethod
    def setUpClass(cls):
        super().setUpClass()
        if not ARCHIVE.exists():
            raise unittest.SkipTest(f"bin/libmetad.a {MISSING}")
        needs(CC)
        room = TemporaryDirectory(prefix="metad-embedded-")
        cls.addClassCleanup(room.cleanup)
        cls.room = Path(room.name)

    @classmethod
    def compiled(cls, name, *words):
        """The program that a file of tests/embedded is."""
        made = cls.room / Path(name).stem
        subprocess.run([CC, *C99, f"-I{INCLUDE}", "-o", made, EMBEDDED / name, ARCHIVE, "-lpthread", *words], check=True, timeout=SECONDS)
        return str(made)

    def quiet(self, *words):
        """Runs a program that has to print nothing."""
        ran = subprocess.run(words, capture_output=True, text=True, timeout=10 * SECONDS)
        self.assertEqual((ran.returncode, ran.stdout, ran.stderr), (0, "", ""))


def without_session(row):
    """The only session that the lines of a row name, once each, and the lines without it; or None."""
    lines = [line for line in lines_in(row.given) if not is_blank(line)]
    names = [NAMED.findall(line) for line in lines]
    if not names or len(names[0]) != 1 or names.count(names[0]) != len(names) or OF_NOBODY in row.stdout:
        return None
    given = b"".join(OTHERS.sub(b"", FIRST.sub(b"{", line)) for line in lines)
    return None if NAMED.search(given) else (names[0][0].decode(), given)


class Answers(LibraryCases, ProgramCases):
    """What the library answers is what the program answers, byte for byte."""

    @classmethod
    def setUpClass(cls):
        super().setUpClass()
        cls.drive = cls.compiled("drive.c")

    def rows(self):
        """The worked rows that run with classes and turns alone, and end well."""
        return [row for row in rows_in(ROWS) if row.status == 0 and {it for it in row.words if it.startswith("--")} <= OF_DRIVE]

    def check_driven(self, rows, *more):
        """The library answers rows as these say."""

        def fault_of(row):
            words = [self.drive, *more, *row.words]
            return row.fault(subprocess.run(words, input=row.given, capture_output=True, timeout=row.seconds, cwd=row.folder))

        self.check_each([(row.name, row) for row in rows], fault_of)

    def test_rows(self):
        """The worked rows, many lines at once."""
        self.check_driven(self.rows())

    def test_rows_line_by_line(self):
        """The worked rows, one line at a time."""
        self.check_driven(self.rows(), "--line")

    def test_rows_for_a_session(self):
        """Worked rows of one session, whose lines do not name it, or name another one."""

        def fault_of(case):
            row, (name, given) = case
            for lines in (given, NAMED.sub(b'"session":"%s"' % (b"q" * len(name)), row.given)):
                words = [self.drive, "--for", name, *row.words]
                ran = subprocess.run(words, input=lines, capture_output=True, timeout=SECONDS, cwd=row.folder)
                if row.fault(ran):
                    return row.fault(ran)
            return None

        cases = [(row.name, (row, without_session(row))) for row in self.rows() if without_session(row)]
        self.assertGreater(len(cases), 10)
        self.check_each(cases, fault_of)

    def fault_in_lines(self, seed, number):
        """How the library and the program differ on so many random lines, or None."""
        given, words = b"\n".join(chance.lines_of(chance.Chance(seed), number)), ("--turns", str(chance.TURNS))
        wanted, came = (subprocess.run([it, *words], input=given, capture_output=True, timeout=LONG_SECONDS) for it in (self.program, self.drive))
        if (came.returncode, came.stderr) != (0, b""):
            return f"status {came.returncode}: {came.stderr[-300:]!r}"
        return difference(wanted.stdout, came.stdout)

    def test_stack(self):
        """The deepest calls and deletions are done on a stack of 2 MiB."""
        nests.put_classes(self.room)

        def fault_of(row):
            words = ["sh", "-c", f'ulimit -s {STACK_KIB} && exec "$0" "$@"', self.drive, *row.words]
            return row.fault(subprocess.run(words, input=row.given, capture_output=True, timeout=row.seconds, cwd=row.folder))

        self.check_each([(row.name, row) for row in nests.rows_of(NEST_BYTES, self.room)], fault_of)

    def test_random_lines(self):
        """Lines in form and out of it, at random."""
        self.check_each([(f"seed {SEED}", str(SEED))], partial(self.fault_in_lines, number=RANDOM_LINES))

    @unittest.skipUnless(os.environ.get("LONG"), "LONG=1 runs it, for some minutes")
    def test_a_million_random_lines(self):
        """A million lines in form and out of it, at random."""
        seeds = [(f"seed {it}", str(it)) for it in range(1, LONG_RUNS + 1)]
        self.check_each(seeds, partial(self.fault_in_lines, number=chance.LINES))

    def test_random_sessions(self):
        """Random classes and commands are answered as by the plain program, and sessions that listen to each other, too."""
        for seed in range(SESSIONS):
            with self.subTest(seed=seed), session_by_chance(signals.Chance(seed), seed) as made:
                self.assertIsNone(made.row.fault(made.row.run(self.drive)))
        for seed in range(RUNS):
            with self.subTest(listeners=seed), listeners_by_chance(mixed.Chance(seed), seed) as row:
                self.assertIsNone(row.fault(row.run(self.drive)))

    def instructions(self, program, given):
        """How many instructions a program takes to answer some lines, where each run has the same random bytes."""
        words, own = [*UNDER_CALLGRIND, program], {**os.environ, "LD_PRELOAD": library("fixed_random")}
        ran = subprocess.run(words, input=given, capture_output=True, timeout=10 * SECONDS, env=own)
        found = COLLECTED.search(ran.stderr.decode(errors="replace"))
        self.assertTrue(ran.returncode == 0 and found, ran.stderr[-500:])
        return int(found[1])

    def test_instructions(self):
        """A line takes at most 1.1 times the instructions that it takes in the program."""
        needs("valgrind")
        turn = b'{"session":"a","do":"set","object":1,"property":"objectName","value":"n"}\n{"session":"a","do":"get","object":1,"property":"objectName"}\n'
        first, counts = b'{"session":"a","do":"new","class":"Probe"}\n', {}
        for program in (self.program, self.drive):
            once, twice = (self.instructions(program, first + turn * (COUNTED // 2 * times)) for times in (1, 2))
            counts[program] = (twice - once) / COUNTED
        ratio = counts[self.drive] / counts[self.program]
        self.tell(f"instructions per line: {counts[self.program]:,.0f} in the program, {counts[self.drive]:,.0f} in the library, {ratio:.2f} times")
        self.assertLess(ratio, MOST_INSTRUCTIONS)


class Embedded(LibraryCases):
    """Programs in C that hold a server."""

    def test_rubbish(self):
        """Null pointers, servers that are closed or in use, lines and names out of form, small buffers, faulty classes, threads."""
        self.quiet(self.compiled("rubbish.c"))

    def refuse(self, *words, first=(), row):
        """Runs a row while one allocation after another is refused; what came of it."""
        ran = subprocess.run([*words, self.compiled("refuse.c", *WRAPPED), ROWS / row / "stdin", *first], capture_output=True, text=True, timeout=10 * SECONDS)
        self.assertEqual((ran.returncode, ran.stderr), (0, ""))
        self.assertRegex(ran.stdout, r"\Arefused \d+: \d+ done, \d+ not done, \d+ lost\n\Z")
        return tuple(map(int, re.findall(r"\d+", ran.stdout)))

    def test_refused(self):
        """Each allocation is refused in turn: the status says so, the other answers are right, and nothing leaks."""
        counts = [self.refuse(row=row) for row in REFUSED]
        refused, _, undone, lost = map(sum, zip(*counts))
        self.tell(f"refused: {refused:,}, not done: {undone:,}, lost: {lost:,}")
        self.assertTrue(undone and lost and refused > 1_000)

    def test_leaks(self):
        """Nothing leaks, and no memory is read that was not written."""
        needs("valgrind")
        self.quiet(*UNDER_VALGRIND, self.compiled("rubbish.c"))

    def test_leaks_refused(self):
        """Nothing leaks where allocations are refused."""
        needs("valgrind")
        self.refuse(*UNDER_VALGRIND, row=REFUSED[0], first=("200",))

    def test_symbols(self):
        """The libraries export what include/metad.h declares, and nothing else; the shared one has its name in it."""
        needs("nm")
        for words in (["nm", "-g", "--defined-only", ARCHIVE], ["nm", "-D", "--defined-only", SHARED]):
            ran = subprocess.run(words, capture_output=True, text=True, timeout=SECONDS, check=True)
            found = {line.split()[-1] for line in ran.stdout.splitlines() if len(line.split()) == 3}
            self.assertEqual(found, OWN, words)
        said = subprocess.run(["objdump", "-p", SHARED], capture_output=True, text=True, timeout=SECONDS, check=True).stdout
        self.assertRegex(said, r"SONAME +libmetad\.so\.0\n")
        self.assertEqual(re.findall(r"NEEDED +(\S+)", said), ["libc.so.6"])

    def test_pkg_config(self):
        """Where it is installed, in any folder, pkg-config says how to compile with it, and the shared library is used."""
        needs("pkg-config")
        place = self.room / "place"
        for path, end in {"include/metad.h": INCLUDE / "metad.h", "lib/pkgconfig/metad.pc": ROOT / "bin" / "metad.pc"}.items():
            (place / path).parent.mkdir(parents=True)
            shutil.copy(end, place / path)
        for name in ("libmetad.so", "libmetad.so.0"):
            shutil.copy(SHARED, place / "lib" / name)
        compiles = '"$CC" -o rubbish "$SOURCE" $(pkg-config --cflags --libs metad) -lpthread'
        script = f'{compiles} && LD_LIBRARY_PATH="$PLACE/lib" ./rubbish && pkg-config --modversion metad'
        own = {"CC": CC, "SOURCE": str(EMBEDDED / "rubbish.c"), "PLACE": str(place), "PKG_CONFIG_PATH": str(place / "lib" / "pkgconfig")}
        ran = run_shell(script, self.room, **own)
        self.assertEqual((ran.stdout, ran.stderr, ran.returncode), (f"{version()[0]}\n".encode(), b"", 0))

    def test_c_plus_plus(self):
        """A program in C++ takes the header."""
        needs("c++")
        source = self.room / "version.cc"
        source.write_text(IN_C_PLUS_PLUS)
        words = ["c++", "-std=c++17", "-pedantic", "-Wall", "-Wextra", "-Werror", f"-I{INCLUDE}", "-o", self.room / "version", source, ARCHIVE]
        subprocess.run(words, check=True, timeout=SECONDS)
        self.quiet(self.room / "version")


class Examples(LibraryCases):
    """The programs of examples/embedded."""

    def built(self, name, *words):
        """An example in C or C++, which is compiled as its page says."""
        made = self.room / Path(name).stem
        subprocess.run([*words, "-pedantic", "-Wall", "-Wextra", "-Werror", f"-I{INCLUDE}", "-o", made, EXAMPLES / name, ARCHIVE], check=True, timeout=SECONDS)
        return str(made)

    def check(self, words, classes, wanted):
        """An example prints this, and says in a sentence what is wrong with its words."""
        own = {**os.environ, "PYTHONPATH": str(ROOT / "clients" / "python"), "PYTHONDONTWRITEBYTECODE": "1"}
        how = {"capture_output": True, "text": True, "timeout": SECONDS, "env": own}
        ran = subprocess.run([*words, classes], **how)
        self.assertEqual((ran.stdout, ran.stderr, ran.returncode), (wanted, "", 0))
        for given in ([], [self.room / "nothing"], [EMBEDDED / "drive.c"]):
            ran = subprocess.run([*words, *given], **how)
            self.assertTrue(ran.returncode in (1, 2) and ran.stderr.count("\n") == 1 and not ran.stdout, (given, ran))

    def test_c(self):
        """A host and a plug-in."""
        wanted = (EXAMPLES / "plug_in_host.expected").read_text()
        self.check([self.built("plug_in_host.c", CC, "-std=c99")], ROOT / "examples" / "plug_in_host" / "classes.json", wanted)

    def test_c_plus_plus(self):
        """A form, by a class for C++17."""
        needs("c++")
        self.check([self.built("form.cpp", "c++", "-std=c++17")], FORM, (EXAMPLES / "form.expected").read_text())

    def test_python(self):
        """The same form in Python."""
        self.check([sys.executable, EXAMPLES / "form.py"], FORM, "name: 'ann'\nenabled: True\nname: ''\nenabled: False\n")


class LibraryPage(LibraryCases):
    """docs/LIBRARY.md, and the header."""

    def test_session(self):
        """The program of the page prints what the page says."""
        programs = PROGRAM_AND_PRINT.findall(PAGE.read_text())
        self.assertEqual(len(programs), 1)
        source, made = self.room / "page.c", self.room / "page"
        source.write_text(programs[0][0])
        subprocess.run([CC, *C99, f"-I{INCLUDE}", "-o", made, source, ARCHIVE], check=True, timeout=SECONDS)
        ran = subprocess.run([made], capture_output=True, text=True, timeout=SECONDS)
        self.assertEqual((ran.stdout, ran.stderr, ran.returncode), (programs[0][1], "", 0))

    def test_statuses(self):
        """The page has each status of the header, and the header what the protocol and the symbols say."""
        header = (INCLUDE / "metad.h").read_text()
        statuses = re.findall(r"^    (METAD_\w+) = \d+, */\*|^    (METAD_\w+) = \d+ +/\*", header, re.MULTILINE)
        self.assertEqual(sorted(re.findall(r"^\| `(METAD_\w+)` \|", PAGE.read_text(), re.MULTILINE)), sorted("".join(it) for it in statuses))
        self.assertEqual(re.findall(r"METAD_LINE_BYTES (\d+)", header), [str(LINE_BYTES)])
        self.assertEqual(set(re.findall(r"\b(metad_\w+)\(", re.sub(r"/\*.*?\*/", "", header, flags=re.DOTALL))), OWN)
        self.assertEqual(set((ROOT / "library" / "symbols").read_text().split()), OWN)
