"""Expressions of the client in Python, and its examples that use them (examples/python)."""

from __future__ import annotations

import os
import subprocess
import sys
import unittest
from pathlib import Path
from typing import Any, Callable, Dict, Iterator, Tuple

import metad
from metad import choose, concat, constant, prop

from tests.support.program import ROOT, SECONDS

from . import PYTHON
from .fronts import ClientCases
from .test_js import SAID

EXAMPLES = ROOT / "examples" / "python"
LEVELS = (-1, 3, 4, 5, 6)


def meanings(x: metad.Expression, same: metad.Property) -> Iterator[Tuple[metad.Expression, Callable[[int], bool]]]:
    """Expressions over a property, each with what it is for a value."""
    yield x < 4, lambda it: it < 4
    yield x > 4, lambda it: it > 4
    yield x <= 4, lambda it: it <= 4
    yield x >= 4, lambda it: it >= 4
    yield x == 4, lambda it: it == 4
    yield x != 4, lambda it: it != 4
    yield ~(x - 1 == 3), lambda it: it - 1 != 3
    yield (x > 3) & (x < 6), lambda it: 3 < it < 6
    yield (x < 3) | (x > 5), lambda it: it < 3 or it > 5
    yield constant(5) == same, lambda it: it == 5
    yield choose(x < 5, concat("a", "b"), "c") == "ab", lambda it: it < 5


class Forms(unittest.TestCase):
    """What expressions are in JSON, by the table of expressions in docs/PROTOCOL.md."""

    def test_forms(self) -> None:
        x, y = prop("x"), {"prop": "y", "of": 2}
        one, true, false = {"const": 1}, {"const": True}, {"const": False}
        wanted: Tuple[Tuple[metad.Expression, Dict[str, Any]], ...] = (
            (x, {"prop": "x"}),
            (prop("y", 2), y),
            (constant("a"), {"const": "a"}),
            (x + 1, {"+": [{"prop": "x"}, one]}),
            (1 + x, {"+": [one, {"prop": "x"}]}),
            (x - 1, {"-": [{"prop": "x"}, one]}),
            (1 - x, {"-": [one, {"prop": "x"}]}),
            (x < 1, {"<": [{"prop": "x"}, one]}),
            (x > 1, {"<": [one, {"prop": "x"}]}),
            (1 < x, {"<": [one, {"prop": "x"}]}),
            (x == prop("y", 2), {"=": [{"prop": "x"}, y]}),
            (choose(x, 1, False), {"if": [{"prop": "x"}, one, false]}),
            (~x, {"if": [{"prop": "x"}, false, true]}),
            (x & prop("y", 2), {"if": [{"prop": "x"}, y, false]}),
            (True & x, {"if": [true, {"prop": "x"}, false]}),
            (x | prop("y", 2), {"if": [{"prop": "x"}, true, y]}),
            (False | x, {"if": [false, true, {"prop": "x"}]}),
            (concat("a", x, "b"), {"cat": [{"cat": [{"const": "a"}, {"prop": "x"}]}, {"const": "b"}]}),
            (x + {"arg": 0}, {"+": [{"prop": "x"}, {"arg": 0}]}),
        )
        for at, (expression, form) in enumerate(wanted):
            with self.subTest(at=at, form=form):
                self.assertEqual(expression.form, form)

    def test_no_value_here(self) -> None:
        """Conditions are not joined by `and`, which would drop the first, and an expression is in no set."""
        for wrong in (lambda: prop("x") and prop("y"), lambda: not prop("x"), lambda: 1 < prop("x") < 3, lambda: {prop("x")}):
            self.assertRaises(TypeError, wrong)

    def test_no_operand(self) -> None:
        for wrong in (1.5, None, b"x", object()):
            with self.assertRaisesRegex(metad.NoValue, "is no expression, no property and no constant"):
                prop("x") + wrong


class Expressions(ClientCases):
    """Expressions in a server, and the examples."""

    def test_meaning(self) -> None:
        """Each operator has in the server the meaning that it has in Python."""
        with metad.start(self.program) as server:
            session = server.session("a")
            cell, shown = session.create("Cell"), session.create("Cell")
            x = prop("x", cell)
            for at, (expression, meaning) in enumerate(meanings(x, cell.property("x"))):
                shown.property("flag").bind(expression)
                for level in LEVELS:
                    cell.x = level
                    self.assertEqual(shown.flag, meaning(level), f"expression {at} at {level}")

    def test_examples(self) -> None:
        """Each example prints what the one in JavaScript prints, by the rules of docs/PROTOCOL.md."""
        self.assertEqual({path.stem for path in EXAMPLES.glob("*.py")} | {"plug_in_host"}, set(SAID))
        for path in sorted(EXAMPLES.glob("*.py")):
            with self.subTest(path.stem):
                ran = self.ran(path, self.program)
                self.assertEqual((ran.returncode, ran.stdout, ran.stderr), (0, SAID[path.stem], ""))
                self.assertEqual(os.listdir(self.room), [], "what it leaves")

    def test_examples_without_a_server(self) -> None:
        for path in sorted(EXAMPLES.glob("*.py")):
            for program, said in ((Path(self.room, "nothing"), "No such file or directory"), ("false", "has ended with status 1")):
                ran = self.ran(path, program)
                self.assertEqual((ran.returncode, ran.stdout), (1, ""), ran.stderr)
                self.assertRegex(ran.stderr, rf"^{path.stem}: .*{said}[^\n]*\n$")

    def ran(self, *words: object) -> subprocess.CompletedProcess[str]:
        """Runs an example to its end."""
        own = {**os.environ, "PYTHONPATH": str(PYTHON), "PYTHONDONTWRITEBYTECODE": "1", "TMPDIR": self.room}
        given = [sys.executable, "-W", "error", *map(str, words)]
        return subprocess.run(given, capture_output=True, text=True, timeout=SECONDS, env=own, stdin=subprocess.DEVNULL)


if __name__ == "__main__":
    unittest.main()
