"""What `explain` says of refusals by the commands that were refused: the same as the shell, line by line."""

import json
import re
import subprocess
import sys
from pathlib import Path

from tests.support.program import SECONDS

from . import CLIENTS
from .test_shell import ShellCases

EXPLAIN = CLIENTS / "explain"
MADE = [
    '{"class":"Cell","do":"new","session":"a"}',
    '{"class":"Cell","do":"new","session":"a"}',
    '{"do":"delete","object":2,"session":"a"}',
]
REFUSED = {  # commands after those, with what is wrong with them by docs/PROTOCOL.md
    '{"do":"get","object":1,"proprety":"x","session":"a"}': ("get has to have the key property", "get has no key proprety"),
    '{"do":"conect","session":"a"}': ("the key do holds no command; is connect meant?",),
    '{"do":"get","object":0,"property":"x","session":"a"}': ("the key object has to hold a whole number from 1 to 4294967295",),
    '[1]': ("a command is a JSON object",),
    '{"do":"status","session":"a b"}': ("the key session has to hold a name: a letter or _, then letters, digits and _, at most 64",),
    '{"do":"get","object":2,"property":"x","session":"a"}': ("object 2 is gone, it was deleted",),
    '{"do":"get","object":9,"property":"x","session":"a"}': ("there is no object 9",),
    '{"class":"Cell","do":"new","parent":2,"session":"a"}': ("object 2 is gone, it was deleted",),
    '{"do":"setParent","object":9,"parent":2,"session":"a"}': ("object 2 is gone, it was deleted and there is no object 9",),
    '{"do":"setParent","object":1,"parent":2,"session":"a"}': ("object 2 is gone, it was deleted",),
    '{"do":"bind","object":1,"property":"x","session":"a","to":{"prop":"x","of":9}}': ("there is no object 9",),
}
MEANING = re.compile(r"E\d\d: .*")
TO_DO = {
    "E02": "to do: compare it with the row of its command in PROTOCOL.md",
    "E04": "to do: forget the number; it never means another object",
}


class Refusals(ShellCases):
    """Refusals of commands that are no commands, and of those whose objects are missing."""

    def explained(self, lines):
        """What is said of each refused command, each with the lines below it."""
        commands = Path(self.room, "commands")
        commands.write_text("".join(f"{line}\n" for line in lines))
        words = [sys.executable, EXPLAIN, "--commands", commands]
        ran = subprocess.run(words, input=self.answers(commands.read_bytes()), capture_output=True, timeout=SECONDS, check=True)
        parts = ran.stdout.decode().split("\n> ")
        return [[line.strip() for line in part.splitlines()[2:]] for part in parts[len(MADE) :]]

    def test_explained(self):
        """Which key is wrong is said, which object is missing, whether it was deleted, and what to do."""
        for (line, faults), said in zip(REFUSED.items(), self.explained([*MADE, *REFUSED])):
            with self.subTest(line=line):
                code = "E04" if "object" in faults[0] and "gone" in faults[0] or "there is no" in faults[0] else "E02"
                if code == "E04":
                    self.assertEqual(len(said), 2, said)
                    self.assertTrue(said[0].endswith(f" is refused, E04: {faults[0]}"), said)
                else:
                    self.assertEqual(sorted(said[1:-1]), sorted(faults), said)
                self.assertEqual(said[-1], TO_DO[code], "what to do")

    def test_same(self):
        """The shell says the same below its refusals."""
        lines = [it for it in REFUSED if it.startswith("{")]
        said = self.said("".join(f"{line}\nhelp quit\n" for line in [*MADE, *lines])).split("quit\n    ends the shell\n")
        for line, by_shell, by_explain in zip(lines, said[len(MADE) :], self.explained([*MADE, *lines])):
            with self.subTest(line=line):
                first, *below = (it.strip() for it in by_shell.splitlines())
                self.assertEqual(below, by_explain[1:], "what is below")
                self.assertEqual(MEANING.findall(first), MEANING.findall(by_explain[0]), "the code and what it means")

    def test_before_the_transcript(self):
        """Objects that may have been there before are not said to be missing for certain, where several are named."""
        lines = ['{"do":"get","object":7,"property":"x","session":"a"}', '{"do":"setParent","object":3,"parent":7,"session":"a"}']
        commands = Path(self.room, "commands")
        commands.write_text("".join(f"{line}\n" for line in lines))
        answers = '{"reply":5,"session":"a"}\n{"error":"E04","session":"a"}\n'
        words = [sys.executable, EXPLAIN, "--commands", commands]
        ran = subprocess.run(words, input=answers.encode(), capture_output=True, timeout=SECONDS, check=True)
        self.assertIn("setParent is refused, E04: there is no object 3", ran.stdout.decode())
        self.assertNotIn("object 7 is gone", ran.stdout.decode())
        self.assertEqual(json.loads(ran.stdout.splitlines()[1])["reply"], 5, "the lines as they are")
