"""`check` (clients/check) on signatures that are written as declarations of C++: what to write in their place."""

import json
import subprocess
import sys
from pathlib import Path
from tempfile import TemporaryDirectory

from checking.signatures import NoSignature, signature_of

from tests.support.cases import ProgramCases
from tests.support.lines import text_of
from tests.support.program import SECONDS

from . import CLIENTS

CHECK = CLIENTS / "check"
NAMES, RESULT, BEHIND = "parameter names", "return type", "words after the brackets"
DECLARED = (  # a declaration, what a signature does not have of it, and the signature
    ("go(int x)", NAMES, "go(int)"),
    ("go( int  x , QString y )", NAMES, "go(int,QString)"),
    ("go(const QString &name)", NAMES, "go(QString)"),
    ("go(const QString& name = \"a\")", NAMES, "go(QString)"),
    ("go(QString const & name, bool)", NAMES, "go(QString,bool)"),
    ("int go()", RESULT, "go()"),
    ("void go(void)", RESULT, "go()"),
    ("  virtual void go(int)", RESULT, "go(int)"),
    ("QObject* go()", RESULT, "go()"),
    ("int go(int x)", f"{RESULT} or {NAMES}", "go(int)"),
    ("go() const", BEHIND, "go()"),
    ("void go(int x) override;", f"{RESULT}, {NAMES} or {BEHIND}", "go(int)"),
)
NO_DECLARATION = (  # what is no signature for another reason, which stays to be said
    *("go", "go(", "go(int", "go(float)", "go(float x)", "go(int,)", "1go(int x)", "go(int x y)", "go(int 1x)", "go(int*)", "go(int &)"),
    *("int 1go()", "go(void x)", "go(x int)", "QString name", "", "()", "go()(", "go(int)x", "go(" + ",".join(11 * ["int x"]) + ")"),
)


def why(text):
    """Why a text is no signature."""
    try:
        return f"it is one, {signature_of(text).text()}"
    except NoSignature as reason:
        return str(reason)


class Declarations(ProgramCases):
    """Signatures that are written as declarations."""

    def test_declared(self):
        """It is said what a signature does not have, and which signature to write, which metad takes."""
        for text, has, signature in DECLARED:
            self.assertEqual(why(text), f'a signature has no {has}: write "{signature}"', text)
            self.assertEqual(signature_of(signature).text(), signature, "what is to be written")
        for text in NO_DECLARATION:
            self.assertNotIn("write ", why(text), text)
        self.tell(f"cases: {len(DECLARED) + len(NO_DECLARATION)}")

    def test_tool(self):
        """The tool says so where the signature is, and what is written in its place is a class file that metad takes."""
        room = self.enterContext(TemporaryDirectory(prefix="metad-check-"))
        path = Path(room, "classes.json")
        for signal, slot, is_taken in (("went(int x)", "int go()", False), ("went(int)", "go()", True)):
            made = {"name": "Lamp", "super": "QObject", "signals": [signal], "slots": [{"sig": slot, "body": []}]}
            path.write_text(text_of({"classes": [made]}))
            words = [sys.executable, CHECK, "--format", "json", path]
            found = [json.loads(it) for it in subprocess.run(words, capture_output=True, timeout=SECONDS).stdout.splitlines()]
            said = [(it["path"], it["code"], it["message"].partition(": ")[2]) for it in found]
            wanted = [
                ("classes[0].signals[0]", "C05", 'a signature has no parameter names: write "went(int)"'),
                ("classes[0].slots[0].sig", "C05", 'a signature has no return type: write "go()"'),
            ]
            self.assertEqual(said, [] if is_taken else wanted, "what is found")
            ran = subprocess.run([self.program, path], stdin=subprocess.DEVNULL, capture_output=True, timeout=SECONDS)
            self.assertEqual(ran.returncode == 0, is_taken, "whether metad takes it")
