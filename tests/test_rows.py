"""Worked sessions: the rows of tests/rows, the examples of the documents, and the worked examples of `examples/`."""

import re
import shutil
import unittest
from dataclasses import dataclass
from pathlib import Path
from subprocess import CompletedProcess
from tempfile import TemporaryDirectory

from .generators.spelling import rows_respelled
from .plain.lines import answer, server_of
from .support.cases import Cases, ProgramCases
from .support.differences import LAST, difference
from .support.documents import BLOCK, COOKBOOK, GIVEN, QT, README, TUTORIAL, examples_of, line_number
from .support.markdown import FENCED, section, titles_in
from .support.pages import check_page
from .support.program import ROOT, ROWS, Row, lay_out, rows_in, run_shell
from .support.protocol import PROTOCOL
from .support.shell_sessions import lay_out_files, shell_runs_in, shown_by
from .test_clients.fronts import FRONT

EXAMPLES = ROOT / "examples"
CLIENTS = ROOT / "clients"
PART_OR_RECIPE = re.compile(rf"^```(part \w+|console)\n{BLOCK}```$", re.MULTILINE)
COMMAND = "$ "
STARTED = re.compile(r"^(?:until |while |if |! )?(bin/[\w-]+)", re.MULTILINE)  # by a command of a recipe
MAY_LACK = ("curl", "jq", "socat")
SHOWN = (TUTORIAL, COOKBOOK, QT)  # the pages with recipes, programs and runs of the shell
WORDS_OF_RECIPE = 200
WORDS_MOST = {
    "README.md": 1_200,
    "docs/TUTORIAL.md": 2_850,
    "docs/PROTOCOL.md": 6_500,
    "docs/QT.md": 2_500,
    "docs/COOKBOOK.md": 2_350,
    "docs/OPERATING.md": 1_350,
    "docs/LIBRARY.md": 800,
    "clients/python/README.md": 1_500,
    **dict.fromkeys(("docs/FRONT.md", "docs/LIMITS.md"), 1_100),
    **dict.fromkeys(("docs/SCALING.md", "docs/WEB.md", "docs/WORKERS.md"), 950),
    "clients/inspecting/README.md": 1_250,
}
RUN_BY_TESTS = re.compile(r"^```(?:session|part|console|shell|python)\b", re.MULTILINE)


class Rows(ProgramCases):
    """The rows, whose answers are worked out by hand, on the built program."""

    def test_rows(self):
        """The program answers each row, byte for byte, with its status."""
        self.check_rows(rows_in(ROWS))

    def test_respelled_rows(self):
        """It answers each row alike with its keys turned round, with white space, and with escapes."""
        self.check_rows(rows_respelled(rows_in(ROWS)))


def plain_fault(row):
    """What is wrong with what the plain program writes for a row's lines, or None."""
    server = server_of(row)
    told = b"".join(answer(server, line) for line in row.given.split(b"\n"))
    return row.fault(CompletedProcess("the plain program", 0, told, b""))


class PlainRows(Cases):
    """The rows on the plain program, which the built one is compared with."""

    def test_plain_rows(self):
        """The plain program answers each row that has answers."""
        answered = [(row.name, row) for row in rows_in(ROWS) if row.status == 0 and row.stdout]
        self.check_each(answered, plain_fault)


class Examples(ProgramCases):
    """The examples of the documents."""

    def check_document(self, document):
        with TemporaryDirectory(prefix="metad-examples-") as room:
            self.check_rows(examples_of(document, room))

    def test_readme(self):
        """The program writes what the examples of README.md say."""
        self.check_document(README)

    def test_tutorial(self):
        """The program writes what the examples of docs/TUTORIAL.md say."""
        self.check_document(TUTORIAL)

    def test_cookbook(self):
        """The program writes what the examples of docs/COOKBOOK.md say."""
        self.check_document(COOKBOOK)

    def test_qt(self):
        """The program writes what the examples of docs/QT.md say."""
        self.check_document(QT)

    def test_protocol(self):
        """The program writes what the examples of docs/PROTOCOL.md say."""
        self.check_document(PROTOCOL)


def worked_rows():
    """The worked examples by name: the folders with an input `session`, each with a class file `classes.json` and, in
    `expected`, what the program has to write."""

    def row_of(folder):
        given, wanted = (folder / "session").read_bytes(), (folder / "expected").read_bytes()
        return Row(folder.name, given, wanted, words=("classes.json",), folder=folder)

    return {path.parent.name: row_of(path.parent) for path in sorted(EXAMPLES.glob("*/session"))}


@dataclass
class Block:
    """A block of a page: the page, where it is there, the words that it begins with, and its lines."""

    page: Path
    name: str
    word: str
    lines: list


def all_blocks():
    """The parts of worked examples and the recipes of all pages that show such."""
    for page in SHOWN:
        text = page.read_text()
        for it in PART_OR_RECIPE.finditer(text):
            yield Block(page, f"{page.name}:{line_number(text, it)}", it[1], it[2].splitlines())


def talk_of(row):
    """The lines of a worked example as a page shows them, each input line followed by its answer."""
    said = iter(row.stdout.decode().splitlines())
    for line in filter(str.strip, row.given.decode().splitlines()):
        yield GIVEN + line
        for told in said:
            yield told
            if told.encode().startswith(LAST):
                break


def part_fault(block):
    """What is wrong with a part of a worked example, or None."""
    name, rows = block.word.split()[1], worked_rows()
    if name not in rows:
        return f"there is no worked example {name}"
    part = block.lines
    is_talk = part and part[0].startswith(GIVEN) and part[-1].encode().startswith(LAST)
    whole = list(talk_of(rows[name])) if is_talk else (EXAMPLES / name / "classes.json").read_text().splitlines()
    is_there = any(whole[at : at + len(part)] == part for at in range(len(whole)))
    return None if part and is_there else "\n".join([f"this is no part of {name}:", *part])


def lacking(block):
    """The first program that a recipe needs and the path has not, or None."""
    words = set(re.findall(r"\w+", "\n".join(block.lines)))
    return next((it for it in MAY_LACK if it in words and shutil.which(it) is None), None)


def lay_out_root(room, program, page):
    """Puts into a folder what recipes find at the root of the repository, and the named files of their page."""
    lay_out(room, {"bin/metad": program, "bin/metad-front": FRONT, "clients": CLIENTS, "examples": EXAMPLES})
    lay_out_files(page, room)


def not_laid_out(room, commands):
    """A program of `bin` that a recipe starts and that is not there, or None. The recipe might wait for it without end."""
    started = sorted(set(STARTED.findall("\n".join(commands))))
    return next((f"it starts {it}, which is not there" for it in started if not Path(room, it).exists()), None)


def recipe_fault(block, program):
    """What is wrong with what a recipe writes, or None. It is passed over where a program that it needs is not there."""
    if lacking(block):
        raise unittest.SkipTest(f"{lacking(block)} is not on the path")
    commands = [it[len(COMMAND) :] for it in block.lines if it.startswith(COMMAND)]
    wanted = "".join(f"{it}\n" for it in block.lines if not it.startswith(COMMAND))
    if not commands:
        return "it has no command"
    with TemporaryDirectory(prefix="metad-recipe-") as room:
        lay_out_root(room, program, block.page)
        if not_laid_out(room, commands):
            return not_laid_out(room, commands)
        ran = run_shell("\n".join(["exec 2>&1", *commands]), room, LC_ALL="C", PYTHONDONTWRITEBYTECODE="1")
    fault = difference(wanted.encode(), ran.stdout + ran.stderr)
    return "\n".join([fault, "its commands:", *(f"    {COMMAND}{it}" for it in commands)]) if fault else None


class WorkedExamples(ProgramCases):
    """The worked examples, and what pages show of them and of recipes.

    A block that begins with three backticks and `part NAME` is a part of that example: lines of its class file, or input
    lines with `> ` in front, each with its answer. A block `console` is a recipe: one shell does its lines with `$ ` in
    front, in an empty folder where `bin/metad` is the program, `clients` has the tools, and `examples` are the worked
    examples; its other lines are all the output, errors too. `support/shell_sessions.py` says what a block `shell` is.
    """

    def test_worked_examples(self):
        """The program answers each worked example, byte for byte."""
        self.check_rows(worked_rows().values())

    def test_parts(self):
        """What pages show of the worked examples is in these."""
        self.check_each([(it.name, it) for it in all_blocks() if it.word != "console"], part_fault)

    def test_recipes(self):
        """The recipes write what their pages say."""
        recipes = [(it.name, it) for it in all_blocks() if it.word == "console"]
        self.check_each(recipes, lambda block: recipe_fault(block, self.program))

    def test_programs(self):
        """The programs of the pages print what these say."""
        for page in SHOWN:
            with TemporaryDirectory(prefix="metad-page-") as room:
                lay_out_root(room, self.program, page)
                self.tell(f"programs of {page.name}: {check_page(self, page, room)}")

    def test_shell_sessions(self):
        """The shell answers each line that is typed as the pages show it."""

        def fault(case):
            page, run = case
            with TemporaryDirectory(prefix="metad-shell-") as room:
                lay_out_root(room, self.program, page)
                shown = shown_by(run, str(Path(room, "bin", "metad")), room)
            return difference("\n".join(run.lines).encode(), "\n".join(shown).encode())

        self.check_each([(run.name, (page, run)) for page in SHOWN for run in shell_runs_in(page)], fault)


class Lengths(Cases):
    """How long pages are, as `wc -w` counts their words."""

    def test_pages_are_short(self):
        """Each page has at most so many words, examples and all."""
        for name, most in WORDS_MOST.items():
            with self.subTest(page=name):
                self.assertLessEqual(len((ROOT / name).read_text().split()), most)

    def test_recipes_are_short(self):
        """Each recipe has at most so many words of prose, and something that tests run."""
        text = COOKBOOK.read_text()
        self.assertGreater(len(titles_in(text)), 10)
        for title in titles_in(text):
            with self.subTest(recipe=title):
                said = section(text, title)
                self.assertLessEqual(len(FENCED.sub("", said).split()), WORDS_OF_RECIPE)
                self.assertRegex(said, RUN_BY_TESTS, "it shows nothing that is run")
