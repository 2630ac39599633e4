"""`make bench` without its counting: the marks of its figures, what decides how it ends, and the tables that show them."""

from __future__ import annotations

import contextlib
import inspect
import io
import json
import os
import re
import shutil
import subprocess
import sys
from argparse import Namespace
from pathlib import Path
from tempfile import NamedTemporaryFile
from typing import Dict, List, Optional, Tuple
from unittest import mock

from .plain.classes import Classes
from .plain.lines import answer
from .plain.world import Server
from .support import protocol
from .support.cases import Cases, ProgramCases
from .support.differences import difference
from .support.program import ROOT, SECONDS, library
from .support.small_inputs import HELPERS, Line, small_inputs

sys.path.insert(0, str(ROOT / "bench"))

import bench  # isort: skip  # noqa: E402
import binding_inputs  # isort: skip  # noqa: E402
import counting  # isort: skip  # noqa: E402
import held_inputs  # isort: skip  # noqa: E402
import inputs  # isort: skip  # noqa: E402
import marks  # isort: skip  # noqa: E402
import times  # isort: skip  # noqa: E402
import worst  # isort: skip  # noqa: E402
import worst_lines  # isort: skip  # noqa: E402
import worst_marks  # isort: skip  # noqa: E402
from figures import FIGURES, Figure, Ratio  # isort: skip  # noqa: E402
from lines import demonstration_classes, usual_classes  # isort: skip  # noqa: E402

PAGE, SCALING = (ROOT / "docs" / name for name in ("internals/MEASURES.md", "SCALING.md"))
COUNTED = "set and get, in 1 session"
FEW = {"objects": 120, "levels": 9, "connections": 410, "events": 400, "bindings": 12, "publications": 6, "joins": 5, "sessions": 6, "classes": 20}
SMALL = worst_lines.Sizes(**FEW, calls=10, turns=1_000)
AT_LIMITS = ["a session at all its limits", "a signal that brings about 961 calls"]  # the last states
BYTES = {"another session": 400.0}
MODULES = (inputs, binding_inputs, held_inputs)
USUAL = re.compile(rb'"(?:Bell|Ear|Link|Pair|Panel)"')  # classes that the demonstration does not have


class Marks(Cases):
    """bench/marks.json, and the page that shows it."""

    def setUp(self) -> None:
        self.known = marks.read()

    def test_figures(self) -> None:
        """Each figure has marks, and each mark has a figure with its unit; a count has a guard, and a ratio has none."""
        self.assertEqual({name: it.unit for name, it in self.known.items()}, {it.name: it.counts for it in FIGURES})
        without = {it.name for it in FIGURES if self.known[it.name].guard is None}
        self.assertEqual(without, {it.name for it in FIGURES if isinstance(it, Ratio)})

    def test_guards(self) -> None:
        """A guard is at least 1.03 times the count next to it, and no more than one step of the last digit above that."""
        for it in self.known.values():
            if it.guard is not None:
                step = 1 if it.guard >= 100 else 0.02
                least = 1.03 * it.count
                self.assertTrue(least - 1e-9 <= it.guard <= least + step, it)

    def test_tables(self) -> None:
        """The page shows counts and goals as they are; the bytes of sessions and of what they hold, which have no marks, follow."""
        (shown,) = re.findall(r"<!-- tables: counts -->\n\n(.*?)\n<!-- end of tables -->", PAGE.read_text(), re.DOTALL)
        made = marks.tables_of(self.known, [])
        self.assertEqual(shown[: len(made)], made)
        memory = [row.strip("| ").split(" | ") for row in shown[len(made) :].splitlines()]
        self.assertEqual([(name, unit) for name, unit, *_ in memory], [(name, "bytes") for name in times.SESSIONS])
        for name, unit, count, goal in memory:
            mark = marks.Mark(name, unit, int(count.strip("*").replace(",", "")), None, marks.GOALS_OF_MEMORY.get(name))
            self.assertEqual([name, unit, count, goal], marks.row_of(mark, unit))

    def test_each_once(self) -> None:
        """Each figure is in one table: with its ratio if it has one. So all counts are on the page."""
        tables = marks.tables_of(self.known, []).split("\n\n")
        growth, lines, memory = ([row.strip("| ").split(" | ") for row in it.splitlines()[2:]] for it in tables)
        ratios = {it.name: it for it in FIGURES if isinstance(it, Ratio)}
        self.assertEqual([row[0] for row in growth], list(ratios))
        found = {name for it in ratios.values() for name in (it.name, it.small.name, it.large.name)}
        self.assertEqual([row[0] for row in lines + memory], [it.name for it in FIGURES if it.name not in found])

    def test_texts(self) -> None:
        """Numbers and words of the tables: a count that misses its goal is in bold, and what has no goal has a hyphen."""
        for mark, count, goal in (
            (marks.Mark("a", "times", 1.5, None, 1.0), "**1.50**", "1.00"),
            (marks.Mark("b", "bytes", 1_000, 1_030, None), "1,000", "-"),
            (marks.Mark("c", "lines", 5.0, 5.15, 5.0), "5.00", "5.00"),
        ):
            self.assertEqual(marks.row_of(mark, "line"), [mark.name, "line", count, goal])
        self.assertEqual(marks.table_of(("a", "b"), [("1", "2")]), "| a | b |\n|---|---|\n| 1 | 2 |\n")
        made = [marks.Mark("it", "times", 2, None, goal) for goal in (1_500, None, 1.5)]
        self.assertEqual([marks.goals_of(made), marks.goals_of(made[1:2])], ["1,500; -; 1.50", "-"])

    def test_page_is_written(self) -> None:
        """Tables are written in place of those before, and all else on the page stays."""
        with NamedTemporaryFile("w+", prefix="metad-page-") as file:
            file.write("before\n<!-- tables: counts -->\nold\n<!-- end of tables -->\nafter\n")
            file.flush()
            with mock.patch.object(marks, "PAGE", Path(file.name)):
                marks.write_page(self.known, [marks.Mark("another session", "bytes", 400, None, None)])
            text = Path(file.name).read_text()
        tables = marks.tables_of(self.known, []) + "| another session | bytes | 400 | - |\n"
        self.assertEqual(text, f"before\n<!-- tables: counts -->\n\n{tables}\n<!-- end of tables -->\nafter\n")

    def test_guards_of_counts(self) -> None:
        """Guards are rounded up."""
        self.assertEqual([marks.guard_of(it) for it in (0.0, 0.38, 2.5, 99.0, 100, 4_000)], [0.01, 0.4, 2.58, 102, 103, 4_120])


class Inputs(ProgramCases):
    """The expected output of the inputs that are counted, in small sizes."""

    def test_each(self) -> None:
        """Each function that gives an input gives one here."""
        functions = [it for module in MODULES for it in inspect.getmembers(module, inspect.isfunction)]
        own = {name for name, it in functions if it.__module__ in {module.__name__ for module in MODULES}}
        self.assertEqual({name for name, _ in small_inputs()} | HELPERS, own)

    def test_told(self) -> None:
        """The plain program and the built one write what is expected, byte for byte."""
        cases = [(name, list(lines)) for name, lines in small_inputs()]
        self.assertEqual([name for name, lines in cases if len(lines) < 3], [])
        self.check_each(cases, self.fault_of)

    def fault_of(self, lines: List[Line]) -> Optional[str]:
        """What differs in what the plain program or the built one writes for these lines."""
        given, wanted = ("".join(texts).encode() for texts in zip(*lines))
        classes = usual_classes() if USUAL.search(given) else demonstration_classes()
        server = Server(Classes(json.loads(classes)["classes"]), int(counting.TURNS))
        by_plain = b"".join(answer(server, line) for line in given.splitlines())
        with NamedTemporaryFile("w", prefix="metad-input-") as file:
            file.write(classes)
            file.flush()
            words = [self.program, file.name, "--turns", counting.TURNS]
            ran = subprocess.run(words, input=given, capture_output=True, timeout=SECONDS)
        return difference(wanted, by_plain) or difference(wanted, ran.stdout)


class Dearest(ProgramCases):
    """bench/worst.txt, which describes the lines that bench/worst.py counts."""

    def setUp(self) -> None:
        self.states = list(worst_lines.states(SMALL))

    def test_commands(self) -> None:
        """Each command of the protocol has a line, and each line has an answer."""
        lines = [line for state in self.states for line in state.worst]
        counted = {json.loads(it)["do"] for line in lines for it in line.line.splitlines()}
        self.assertEqual(counted, {do for do, *_ in protocol.commands()})
        self.assertEqual([line.name for line in lines if not line.told.endswith("\n")], [])
        names = [state.name for state in self.states]
        self.assertEqual(len(set(names)), len(names), "names of states")

    def test_told(self) -> None:
        """With a few things of each kind the program tells what the description says, where no limit is met."""
        cases = []
        for state in self.states[: -len(AT_LIMITS)]:
            before = "".join(line for line, _ in state.before())
            told = "".join(it for _, it in state.before())
            lines = (line for line in state.worst if '"E14"' not in line.told)
            cases += [(f"{state.name}: {it.name}", (state.classes(), before + it.line, told + it.told)) for it in lines]
        self.assertGreater(len(cases), 100)
        self.assertEqual([it.name for it in self.states[-len(AT_LIMITS) :]], AT_LIMITS)
        self.check_each(cases, self.fault_of)

    def fault_of(self, case: Tuple[str, str, str]) -> Optional[str]:
        """What differs in a run of a state and a line, or lines."""
        classes, given, wanted = case
        with NamedTemporaryFile("w", prefix="metad-worst-") as file:
            file.write(classes)
            file.flush()
            words = [self.program, file.name, "--turns", str(SMALL.turns)]
            ran = subprocess.run(words, input=given, capture_output=True, text=True, timeout=SECONDS)
        return difference(wanted.encode(), ran.stdout.encode())


class Costs(Cases):
    """bench/worst.json, which has what these lines took, and the table of the page that is made from it."""

    def setUp(self) -> None:
        self.known = worst_marks.read()

    def cost(self, state: str, line: str, taken: Optional[int], **more: int) -> worst_marks.Cost:
        """A line that may take 3,600 instructions, next to the 400 that it takes in an empty session."""
        return worst_marks.Cost(state, line, rows=2, does=1, taken=taken, alone=400, **more)

    def test_lines(self) -> None:
        """Each line has a mark, in the same order, with the numbers that the description gives it."""
        described = [(state.name, line.name, line.rows, line.does) for state in worst_lines.states(worst_lines.Sizes()) for line in state.worst]
        marked = [(*it.name, it.rows, it.does) for it in self.known.values()]
        self.assertEqual(marked, described)

    def test_guards(self) -> None:
        """A guard is at least 1.03 times the count next to it, and no more than one step above that; of memory 512 KiB more."""
        for it in self.known.values():
            for count, guard, more in ((it.taken, it.guard, 0), (it.memory, it.memory_guard, 512)):
                self.assertEqual(count is None, guard is None, it)
                if count is not None and guard is not None:
                    self.assertTrue(1.03 * count - 1e-6 <= guard - more <= 1.03 * count + 1, it)

    def test_faults(self) -> None:
        """What is over its guard is a fault, and so is a line that takes too long or has no guard; a goal decides nothing."""
        mark = self.cost("many", "`get`", 1_000, memory=100, guard=1_030, memory_guard=615, goal=10)
        over = ["it is over its guard of 1,030 instructions", "it is over its guard of 615 KiB"]
        for taken, memory, faults in ((1_030, 615, []), (1_031, 615, over[:1]), (1_030, 616, over[1:]), (None, 1, over[:1])):
            self.assertEqual(list(worst_marks.faults_of(self.cost("many", "`get`", taken, memory=memory), mark)), faults)
        self.assertEqual(list(worst_marks.faults_of(mark, None)), ["it has no guard"])

    def test_goals(self) -> None:
        """A goal is reached by what is at most that; a line without one is not counted."""
        known = {it.name: it for it in (self.cost("a", "`get`", 9, goal=10), self.cost("b", "`get`", 9, goal=10), self.cost("c", "`get`", 9))}
        made = [self.cost(state, "`get`", taken) for state, taken in (("a", 10), ("b", 11), ("c", 1), ("new", 1))]
        self.assertEqual(worst_marks.reached(made, known), [True, False])

    def test_merged(self) -> None:
        """A run of some lines leaves the marks of the others as they are; goals stay, and what is no line any more goes."""
        first, other, old = (self.cost(name, "`get`", 1_000, guard=1_030, goal=10) for name in ("first", "other", "old"))
        known = {it.name: it for it in (old, other, first)}
        made = worst_marks.merged([self.cost("first", "`get`", 2_000, memory=100)], known, [first.name, other.name, ("new", "`get`")])
        self.assertEqual(made, [self.cost("first", "`get`", 2_000, memory=100, guard=2_060, memory_guard=615, goal=10), other])

    def test_wanted(self) -> None:
        """With words only states are counted that have them in their names, and with --new only lines without a guard."""
        known = {("a chain", "`get`"): self.cost("a chain", "`get`", 1_000)}
        lines = [(state, line) for state in ("a chain", "a star") for line in ("`get`", "`set`")]
        for words, wanted in (([], lines), (["--new"], lines[1:]), (["--only", "chain"], lines[:2]), (["--only", "chain", "--new"], lines[1:2])):
            given = worst.options([__file__, *words])
            self.assertEqual([it for it in lines if worst.is_wanted(given, it, known)], wanted, words)

    def test_chosen(self) -> None:
        """Of each state and command the worst line is written, if it takes at least three times what it may."""
        costs = [
            self.cost("many", "`set` of one", 400 + 4 * 3_600),
            self.cost("many", "`set` of another", 400 + 5 * 3_600),
            self.cost("many", "`get`", 400 + 3 * 3_600 - 1),
            self.cost("many", "a slot", 400 + 3 * 3_600),
            self.cost("more", "`set` of one", None),
            self.cost("few", "`set` of one", 400),
        ]
        rows = ["| many | `set` of another: 5; a slot: 3 |\n", "| more | `set` of one: takes too long |\n"]
        self.assertEqual(list(worst_marks.page_rows(costs)), rows)

    def test_page(self) -> None:
        """The page has the table that the marks give, and what lines may take."""
        text = PAGE.read_text()
        self.assertEqual(text.count(worst_marks.PAGE_HEAD), 1)
        self.assertIn(worst_marks.PAGE_HEAD + "".join(worst_marks.page_rows(list(self.known.values()))) + "\n", text)
        self.assertIn(f"plus {worst_marks.ITSELF:,} for itself", text)
        self.assertIn(f"plus {worst_marks.ROW:,} for each row", text)

    def test_words(self) -> None:
        """Wrong words are answered by a usage line and status 2."""
        program = str(ROOT / "bench" / "worst.py")
        for words in ([], ["no program"], [program, "--lanes", "0"], [program, "--calls", "7", "--write"], [program, "--all"]):
            ran = subprocess.run([sys.executable, program, *words], capture_output=True, text=True, timeout=SECONDS)
            self.assertEqual((ran.returncode, ran.stdout, ran.stderr.partition(" ")[0]), (2, "", "usage:"), words)


class Fixed(ProgramCases):
    """The library that gives a counted program the same random bytes in each run."""

    def test_bytes(self) -> None:
        """With it two processes are given the same bytes, and without it others."""
        code = "import ctypes; it = ctypes.create_string_buffer(16); ctypes.CDLL(None).getentropy(it, 16); print(it.raw.hex())"
        given = {}
        for name, more in (("fixed", {"LD_PRELOAD": library("fixed_random")}), ("random", {})):
            runs = [subprocess.run([sys.executable, "-c", code], capture_output=True, env={**os.environ, **more}) for _ in range(2)]
            given[name] = {ran.stdout for ran in runs}
        self.assertEqual((len(given["fixed"]), len(given["random"])), (1, 2), given)

    def test_program(self) -> None:
        """The program has its random bytes from what the library replaces."""
        if shutil.which("objdump") is None:
            self.skipTest("objdump is not on the path")
        symbols = subprocess.run(["objdump", "-T", self.program], capture_output=True, text=True, timeout=SECONDS).stdout
        self.assertRegex(symbols, r"\*UND\*.*\bgetentropy\b")


class Sessions(Cases):
    """The bytes of a session, which docs/internals/MEASURES.md has and docs/SCALING.md uses."""

    def test_sum(self) -> None:
        """The memory of a million sessions is summed up from the bytes that `make bench` has written down."""
        (measured,) = re.findall(r"^\| another session, with a named object \| bytes \| ([0-9,]+) \|", PAGE.read_text(), re.MULTILINE)
        (summed,) = re.findall(r"^\| memory of all servers \| `1,000,000 \* ([0-9,]+) / ", SCALING.read_text(), re.MULTILINE)
        number, used = (int(it.replace(",", "")) for it in (measured, summed))
        self.assertLessEqual(abs(number - used), 0.01 * number)

    def test_once(self) -> None:
        """The bytes of a session in the server are no row of the other page."""
        found = re.findall(r"^\| a session in the server, with(?:out objects| a named object) .*", SCALING.read_text(), re.MULTILINE)
        self.assertEqual(found, [])


class Ends(Cases):
    """How a run ends, where its counts are made up."""

    def ran(self, last: str = "", write: bool = False, **others: float) -> Tuple[List[str], str]:
        """The faults of a run whose counts are those that are written down, times what is said, and what it prints.

        `others` has the factors of the program's counts, as `it`, and of those of the last program, as `before`.
        """
        counts: Dict[str, float] = {name: it.count for name, it in marks.read().items()}

        def counted(program: str, figure: Figure, *_: object) -> float:
            factor = others.get(program, 1) if figure.name == COUNTED else 1
            return factor * counts[figure.name]

        given = Namespace(program="it", last=last, counter="counter", fixed="fixed", write=write)
        with contextlib.ExitStack() as stack:
            for name, stand_in in (("counted", counted), ("has_valgrind", lambda: True), ("show_times", lambda *_: BYTES)):
                stack.enter_context(mock.patch.object(bench, name, stand_in))
            said = stack.enter_context(contextlib.redirect_stdout(io.StringIO()))
            return bench.measure(given, None), said.getvalue()

    def test_as_committed(self) -> None:
        """The counts that are written down are no regression, though some goals are not reached, which is printed."""
        faults, said = self.ran()
        self.assertEqual(faults, [])
        goals = [it for it in marks.read().values() if it.goal is not None]
        self.assertIn(f"{sum(it.count <= it.goal for it in goals)} of {len(goals)} goals are reached", said)
        self.assertIn("goal not reached", said)

    def test_regression(self) -> None:
        """A count that is more than its guard fails the run, and one just below it does not."""
        faults, said = self.ran(it=1.04)
        self.assertEqual(len(faults), 1, faults)
        self.assertTrue(faults[0].startswith(f"{COUNTED}: it is over its guard"), faults)
        self.assertIn("REGRESSION", said)
        self.assertEqual(self.ran(it=1.02)[0], [])

    def test_last(self) -> None:
        """A count fails the run too where it is more than 1.03 times that of the last program."""
        self.assertEqual(self.ran(last="before", before=0.98)[0], [])
        (fault,) = self.ran(last="before", before=0.96)[0]
        self.assertEqual(fault, f"{COUNTED}: it is more than 1.03 times that of the last program")

    def test_ratios(self) -> None:
        """A ratio that grows because the smaller figure became cheaper is no regression."""
        (ratio,) = [it for it in FIGURES if isinstance(it, Ratio) and it.small.name == COUNTED]
        self.assertEqual(list(marks.faults_of(ratio, 5.0, marks.read()[ratio.name], 1.0)), [])
        self.assertEqual(self.ran(it=0.5)[0], [])

    def test_without_mark(self) -> None:
        """A figure that nothing is written down for fails the run."""
        self.assertEqual(list(marks.faults_of(FIGURES[0], 1, None, None)), ["it has no guard"])

    def test_write(self) -> None:
        """What is written down are the counts of the run, guards made from them, and the goals as they were."""
        with mock.patch.object(marks, "write") as write:
            faults, _ = self.ran(write=True, it=2)
        self.assertEqual(faults, [])
        (made, sessions), before = write.call_args.args, marks.read()
        self.assertEqual(sessions, BYTES)
        self.assertEqual([it.goal for it in made], [before[it.name].goal for it in made])
        count = 2 * before[COUNTED].count
        self.assertEqual((made[0].name, made[0].count, made[0].guard), (COUNTED, count, marks.guard_of(count)))
