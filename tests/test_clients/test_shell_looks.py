"""`shell` (clients/shell): how it lists, draws, shows and completes objects.

What has to come is worked out by hand from docs/PROTOCOL.md.
"""

import io
import json
import sys

from shelling.completing import candidates
from shelling.infix import expression_of, infix_of
from shelling.link import started
from shelling.saying import Speaker
from shelling.shell import Shell

from .short_forms import INFIX
from .test_shell import ShellCases

TREES = """new QObject as top
new Cell in top as c
new Probe in c
new Cell
3.objectName = "a \\"b\\""
c.x = 5
c.tag = true
bind c.y = if x < 3 then 4.x + 1 else z
bind 4.flag = y
connect c.xChanged -> c.seen queued
connect c.xChanged -> count for 4
connect 3.ping -> 3.note single
block 3
begin
end
"""
LOOKS = {
    "ls": "1 QObject as top, 1 below it\n4 Cell\n",
    "ls top": "2 Cell as c, 1 below it\n",
    "ls 3": "object 3 has no children\n",
    "tree": '1 QObject as top\n`-- 2 Cell as c\n    `-- 3 Probe "a \\"b\\""\n4 Cell\n',
    "tree c": '2 Cell as c\n`-- 3 Probe "a \\"b\\""\n',
    "show c": "object c is of class Cell, a child of object top, on level 2; it has 1 child, 2 connections from it and 1 connection "
    'to it; no event waits for it\n    objectName = ""\n    x = 5\n    y = 0, bound to if (x < 3) then (4.x + 1) else z\n    z = 0\n'
    "    flag = false\n    big = 0\n    tag = true, dynamic\n    1: c.xChanged(int) -> c.seen(int) queued\n"
    "    2: c.xChanged(int) -> count for 4, state 0\n",
    "show 3": "object 3 is of class Probe, a child of object c, on level 3; it has no children, 1 connection from it and 1 connection "
    'to it; no event waits for it; its signals are blocked\n    objectName = "a \\"b\\""\n    3: 3.ping() -> 3.note() single\n',
    "show 9": "refused, E04: there is no object 9\n    to do: forget the number; it never means another object\n",
    "tree 9": "refused, E04: there is no object 9\n    to do: forget the number; it never means another object\n",
    "show 0": "refused, E02: ",
    "show": "not sent: ",
    "ls 1 2": "not sent: ",
    "tree nobody": "not sent: ",
}
OLDER = """
import json, sys
for line in sys.stdin:
    known = json.loads(line).get("do") in ("children", "status", "new")
    print('{"reply":[1],"session":"a"}' if known else '{"error":"E02","session":"a"}', flush=True)
"""  # a server without the commands of introspection


class Looks(ShellCases):
    """How the shell lists, draws, shows and completes objects."""

    def test_looks(self):
        """Each word says what there is, and is not kept by `save`."""
        before = len(self.said(TREES))
        for typed, wanted in LOOKS.items():
            with self.subTest(typed=typed):
                said = self.said(f"{TREES}{typed}\n")[before:]
                self.assertEqual(said if wanted.endswith("\n") else said[: len(wanted)], wanted)
        self.assertEqual(self.sent(TREES + "\n".join(LOOKS)), self.sent(TREES), "what is kept")
        self.assertEqual(self.said("ls\ntree\n"), "there is no object\n" * 2, "of an empty session")

    def test_others(self):
        """Objects that others have made are known by their numbers, with the methods of their classes."""
        given = '{"do":"new","class":"Cell","session":"a"}\n{"do":"new","class":"Probe","session":"a"}\n'
        server = ("sh", "-c", f"(echo '{given.strip()}'; cat) | {self.program} | sed -u 1,2d")
        said = self.said("2.ping()\nconnect 1.xChanged -> 1.seen\n1.jump\nconnect 1.jump -> 1.seen\n", server=server).splitlines()
        self.assertEqual(said[0], "ping() of object 2 was called or sent, no arguments")
        self.assertEqual(said[1], "connection 1 is made: xChanged(int) of object 1 calls seen(int) of object 1")
        self.assertIn("1 has no method jump", said[3], "a method that it has not")

    def test_much(self):
        """Of many objects a part is drawn, and all connections of an object are shown."""
        made = "".join(f"new QObject{' in 1' * (at > 0)}\n" for at in range(1_002)) + "connect 1.destroyed -> 1.deleteLater\n" * 1_001
        said = self.said(f"{made}tree\nshow 1\n").splitlines()[2_003:]
        self.assertEqual((said[999], said[1_000]), ("|-- 1000 QObject", "and more: at most 1,000 objects are drawn, and `tree OBJECT` draws a part"))
        self.assertEqual(said[-1], "    1001: 1.destroyed() -> 1.deleteLater()")

    def test_older_server(self):
        """The shell says that a server does not have the commands, and goes on."""
        said = self.said("ls\nshow 1\ntree\n", server=(sys.executable, "-c", OLDER))
        self.assertEqual(said, "this server is older than this shell, and does not have this command\n" * 3)

    def test_infix(self):
        """An expression is shown so that it can be written again."""
        names = {7: "c"}
        label, number_of = (lambda number: names.get(number, str(number))), (lambda word: 7 if word == "c" else int(word))
        for _, form in INFIX:
            self.assertEqual(expression_of(infix_of(form, label), number_of), form)
        self.tell(f"cases: {len(INFIX)}")

    def test_completed(self):
        """The shell asks the server what may follow a word."""
        link = started([self.program])
        try:
            shell = Shell(link, Speaker(io.BytesIO(), False), "a")
            shell.do(b"new Probe as p")
            for line in ('{"do":"new","class":"Cell","session":"a"}', '{"do":"set","object":2,"property":"tag","value":1,"session":"a"}'):
                link.ask_aside(shell.session("a"), json.loads(line)["do"], {key: it for key, it in json.loads(line).items() if key not in ("do", "session")})
            for before, word, wanted in (
                ("show ", "", ["1", "2", "p"]),
                ("show ", "2", ["2"]),
                ("tree ", "p", ["p"]),
                ("describe ", "P", ["Probe"]),
                ("new ", "", ["Cell", "Probe", "QObject"]),
                ("", "2.se", ["2.seen(", "2.setX("]),
                ("", "2.ta", ["2.tag"]),
                ("connect ", "2.xC", ["2.xChanged(int)"]),
                ("show ", "9", []),
                ("", "9.", []),
            ):
                self.assertEqual(candidates(shell, before, word), wanted, f"{before}{word}")
        finally:
            link.end()
