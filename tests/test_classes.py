"""Class files: which the program takes, what it says of the others and how quick it is, whether docs/classes.schema.json
says the same, and whether `classes` and `describe` reply what a class file declares."""

import json
import re
import subprocess
import sys
from collections import Counter
from pathlib import Path
from tempfile import TemporaryDirectory

from .generators import signals
from .generators.class_faults import all_files
from .generators.class_files import Changes, right_files, wrong_files
from .support.cases import CASE, ProgramCases, processor_seconds
from .support.differences import cut
from .support.documents import all_examples
from .support.json_schema import Schema
from .support.lines import lines_of
from .support.program import ROOT, ROWS, SECONDS, Row, rows_in
from .support.seeds import SEED

QUICK = 1  # second of the processor's time
SCHEMA = ROOT / "docs" / "classes.schema.json"
CHANGED = 150  # class files that are changed at random
NESTED = 10_000  # calls in one another, which the deepest class file takes of the schema's reader
SHOWN = 1_000
WORD = re.compile(r"\w+", re.ASCII)  # of a signature
ROOT_CLASS = "QObject"
ROOT_SIGNALS, ROOT_SLOTS = ("destroyed()", "objectNameChanged(QString)"), ("deleteLater()",)
ROOT_PROPERTIES = ({"name": "objectName", "type": "QString", "notify": "objectNameChanged(QString)", "bindable": True},)


class ClassFiles(ProgramCases):
    """Class files with a fault each, bodies of slots, and files of about as many bytes as there may be."""

    def test_class_files(self):
        """The program takes a class file, or names its first fault and its class, in a second of the processor at most."""
        with TemporaryDirectory(prefix="metad-classes-") as folder:
            path = Path(folder, "classes.json")

            def fault_of(case):
                text, kind, number = case
                path.write_text(text)
                row = Row(text, b"", b"", words=("classes.json",), folder=path.parent)
                if kind:
                    row.status, row.stderr = 1, f"metad: class file refused: {kind} at class {number}\n".encode()
                start = processor_seconds()
                fault = row.fault(row.run(self.program))
                took = processor_seconds() - start
                if took > QUICK:
                    fault = f"takes {took:.1f} seconds of the processor, and not {QUICK}"
                return fault and f"{fault}\nthe class file: {cut(text)}"

            self.check_each([(name, case) for name, *case in all_files()], fault_of, at_once=1)


def files_of_tests():
    """The class files of the rows and of the documents' examples that their runs accept."""
    with TemporaryDirectory(prefix="metad-examples-") as room:
        for run in (*rows_in(ROWS), *all_examples(room)):
            paths = [Path(run.folder or room, word) for word in run.words]
            files = [path for path in paths if path.is_file() and run.status == 0]
            yield from ((run.name, json.loads(path.read_text())) for path in files)


class SchemaOfClassFiles(ProgramCases):
    """The schema of class files, compared with the program that reads them."""

    def setUp(self):
        self.schema = Schema(json.loads(SCHEMA.read_text()))
        self.path = Path(self.enterContext(TemporaryDirectory(prefix="metad-schema-")), "classes.json")
        self.addCleanup(sys.setrecursionlimit, sys.getrecursionlimit())
        sys.setrecursionlimit(NESTED)

    def is_accepted(self, classes):
        """Whether the program takes a class file."""
        self.path.write_text(json.dumps(classes))
        words = [self.program, str(self.path)]
        ran = subprocess.run(words, stdin=subprocess.DEVNULL, capture_output=True, timeout=SECONDS)
        self.assertIn(ran.returncode, (0, 1), "the status at a class file")
        return ran.returncode == 0

    def fault_of(self, classes, wanted):
        """Who is wrong about a class file that is to be accepted or refused, or None."""
        said = {"the schema": self.schema.accepts(classes), "the program": self.is_accepted(classes)}
        does = {True: "accepts", False: "refuses"}
        wrong = [f"{who} {does[is_accepted]} it" for who, is_accepted in said.items() if is_accepted != wanted]
        return "\n".join([*wrong, json.dumps(classes)[:SHOWN]]) if wrong else None

    def test_descriptions(self):
        """Each key, action and expression of the schema is described."""
        for path, part in self.schema.parts():
            meant = self.schema.meant(part["$ref"]) if "$ref" in part else part
            is_bare = "description" not in meant and set(part) - {"const", "$ref"} and set(part) != {"$ref"}
            self.assertFalse(is_bare, f"{path or 'the file'} has no description")

    def test_right_files(self):
        """Schema and program take class files that keep to the rules."""
        self.check_each(right_files(), lambda classes: self.fault_of(classes, True), at_once=1)

    def test_files_of_tests(self):
        """Both take the class files of the rows and of the documents."""
        self.check_each(files_of_tests(), lambda classes: self.fault_of(classes, True), at_once=1)

    def test_wrong_files(self):
        """Both refuse class files with a fault that a schema can say."""
        self.check_each(wrong_files(), lambda classes: self.fault_of(classes, False), at_once=1)

    def test_changed_files(self):
        """The program refuses each randomly changed class file that the schema refuses."""
        chance = Changes(SEED)
        changed = [chance.changed({"classes": list(signals.Chance(at).classes())[:2]}) for at in range(CHANGED)]

        def try_file(classes):
            accepted = self.schema.accepts(classes), self.is_accepted(classes)
            fault = f"the program alone accepts {json.dumps(classes)[:SHOWN]}" if accepted == (False, True) else None
            return accepted, fault

        tried = self.check_each([(f"change {at}", it) for at, it in enumerate(changed)], try_file, lambda it: it[1], at_once=1)
        seen = Counter(accepted for accepted, _ in tried)
        shows = seen[False, False] and seen[True, True]
        self.assertTrue(CASE or shows, f"the random class files show nothing: {seen}")


def types_of(signature):
    """The types of a signature's parameters, as it is written in a class file."""
    parts = [WORD.findall(part) for part in signature.partition("(")[2].split(",")]
    return [word for words in parts for word in words if word not in ("const", "void")]


def normal_text(signature):
    """The normal text of a signature, as it is written in a class file."""
    return f"{WORD.findall(signature)[0]}({','.join(types_of(signature))})"


def methods_of(name, signatures):
    return [{"class": name, "signature": normal_text(it), "types": types_of(it)} for it in signatures]


def properties_of(name, declared):
    """The properties that a class declares. One that says nothing of it has no signal and may not be bound."""
    return [
        {
            "bindable": it.get("bindable", False),
            "class": name,
            "name": it["name"],
            "notify": normal_text(it["notify"]) if "notify" in it else None,
            "type": it["type"],
        }
        for it in declared
    ]


def descriptions_of(declared):
    """The description of each class of a file, by its name in the order of the file."""
    root = {
        "class": ROOT_CLASS,
        "properties": properties_of(ROOT_CLASS, ROOT_PROPERTIES),
        "signals": methods_of(ROOT_CLASS, ROOT_SIGNALS),
        "slots": methods_of(ROOT_CLASS, ROOT_SLOTS),
        "super": None,
    }
    described = {ROOT_CLASS: root}
    for it in declared:
        above, name = described[it["super"]], it["name"]
        described[name] = {
            "class": name,
            "properties": above["properties"] + properties_of(name, it.get("properties", ())),
            "signals": above["signals"] + methods_of(name, it.get("signals", ())),
            "slots": above["slots"] + methods_of(name, [slot["sig"] for slot in it.get("slots", ())]),
            "super": it["super"],
        }
    return described


class Descriptions(ProgramCases):
    """The classes of class files."""

    def fault_of(self, classes):
        """In what the program describes the classes of a file in another way than the file declares them, or None."""
        described = descriptions_of(classes["classes"])
        given = [{"do": "classes"}, *({"do": "describe", "class": name} for name in described)]
        told = [{"reply": list(described)}, *({"reply": it} for it in described.values())]
        with TemporaryDirectory(prefix="metad-descriptions-") as room:
            Path(room, "classes.json").write_text(json.dumps(classes))
            lines = [lines_of(it, session="a") for it in (given, told)]
            row = Row("describe", *lines, words=("classes.json",), folder=Path(room))
            return row.fault(row.run(self.program))

    def test_files_of_tests(self):
        """Each class of each class file of the rows and of the documents is described as the file declares it."""
        self.check_each(files_of_tests(), self.fault_of)

    def test_right_files(self):
        """So is each class of the class files that show what a class file may have."""
        self.check_each(right_files(), self.fault_of)
