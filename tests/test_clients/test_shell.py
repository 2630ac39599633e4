"""`shell` (clients/shell): the short forms and the lines that they stand for, lines as they are, what is said of answers,
the ends of a run, and on a pseudo-terminal what is typed.

The commands, keys and codes that have to come are those of docs/PROTOCOL.md.
"""

import io
import json
import os
import random
import re
import subprocess
import sys
from pathlib import Path

import metad
from explaining.faults import faults_of
from shelling.infix import expression_of
from shelling.reading import Mistake
from shelling.saying import Speaker, advice

from tests.plain.lines import is_command
from tests.plain.values import is_name as is_known_name
from tests.support import protocol
from tests.support.program import SECONDS
from tests.support.seeds import SEED

from . import CLIENTS
from .fronts import ClientCases, FrontCases
from .short_forms import INFIX, NO_INFIX, NOT_SENT, OBJECTS, OF_OBJECTS, SHORT

SHELL = CLIENTS / "shell"
LINE_MOST = 65_536
COLOUR = "\x1b[3"
OF_HOME = ("HOME", "XDG_STATE_HOME", "NO_COLOR", "TERM")
BY_CHANCE = 20_000
COMMANDS = list(protocol.commands())
ALL_KEYS = sorted(set().union(*(required | optional for _, required, optional, _ in COMMANDS), {"x"}))
REFUSED = r"^refused, E\d\d: .*\n(    .*\n)*    to do: .*\n$"
A_NAME = "a name: a letter or _, then letters, digits and _, at most 64"


class ShellCases(ClientCases):
    """Tests of runs of the shell. Each run has to end."""

    def environment(self, **more):
        """The environment of a run, whose home is a folder of the test."""
        own = {key: value for key, value in os.environ.items() if key not in OF_HOME}
        return {**own, "HOME": self.room, "TERM": "xterm", **more}

    def ran(self, given, *words, server=None, cwd=None, **more):
        """A run without a terminal."""
        given = given if isinstance(given, bytes) else given.encode()
        words = [sys.executable, SHELL, *words, *((self.program,) if server is None else server)]
        how = {"cwd": cwd or self.room, "env": self.environment(**more), "timeout": SECONDS}
        return subprocess.run(words, input=given, capture_output=True, **how)

    def said(self, given, *words, **how):
        """What a run says that ends well."""
        ran = self.ran(given, *words, **how)
        self.assertEqual((ran.returncode, ran.stderr), (0, b""), f"the end of a run: {ran}")
        return ran.stdout.decode()

    def sent(self, given, *words):
        """The lines that a run has sent."""
        self.said(f"{given}\nsave sent\n", *words)
        return Path(self.room, "sent").read_bytes()

    def answers(self, lines):
        """What the server alone answers to some lines."""
        return subprocess.run([self.program], input=lines, capture_output=True, timeout=SECONDS, check=True).stdout


class Forms(ShellCases):
    """The short forms."""

    def test_short_forms(self):
        """Each stands for a command, and each command of the protocol has one."""
        script = OBJECTS + "".join(f"{typed}\n" for typed, _ in SHORT)
        wanted = [*OF_OBJECTS, *(command for _, command in SHORT)]
        came = [json.loads(line) for line in self.sent(script).splitlines()]
        for typed, asked, command in zip([*OBJECTS.splitlines(), *(typed for typed, _ in SHORT)], came, wanted):
            with self.subTest(typed=typed):
                self.assertEqual(asked, {**command, "session": "a"})
        self.assertEqual(len(came), len(wanted), "lines that were sent")
        self.assertEqual({it["do"] for it in wanted}, {do for do, *_ in protocol.commands()}, "commands without a short form")
        self.tell(f"cases: {len(wanted)}")

    def test_not_sent(self):
        """A line that is no command is reported and not sent. Blank lines and remarks print nothing."""
        script = "".join(f"{typed}\n" for typed in (*NOT_SENT, "", " \t", "# new Probe"))
        said = self.said(f"{OBJECTS}{script}save sent\n").splitlines()
        self.assertEqual(len(Path(self.room, "sent").read_bytes().splitlines()), len(OF_OBJECTS), "lines that were sent")
        refused = [line for line in said if line.startswith("not sent: ")]
        self.assertEqual(len(refused), len(NOT_SENT), said)
        self.tell(f"cases: {len(NOT_SENT)}")

    def test_overloads(self):
        """Of methods with one name that which takes the values is called; where more do, it has to be written."""
        slots = [{"sig": f"show({types})", "body": []} for types in ("int", "QString", "int,int", "uint,uint", "bool")]
        classes = Path(self.room, "classes.json")
        classes.write_text(json.dumps({"classes": [{"name": "Lamp", "super": "QObject", "slots": slots}]}))
        typed = ["new Lamp as p", 'p.show("5")', "p.show(5)", "p.show(true)", "p.show(5, 5)", "p.show(3000000000, 5)"]
        said = self.said("\n".join([*typed, "connect p.destroyed -> p.show", "save sent"]), server=(self.program, str(classes)))
        sent = [json.loads(it) for it in Path(self.room, "sent").read_bytes().splitlines()]
        wanted = ["show(QString)", "show(int)", "show(bool)", "show(int,int)", "show(uint,uint)"]
        self.assertEqual([it["method"] for it in sent[1:]], wanted, "the methods")
        self.assertIn("not sent: p has several methods show: show(int), show(QString)", said)

    def test_infix(self):
        """Expressions as people write them, as JSON, and texts that are no expressions."""

        def number_of(word):
            if not word.isdigit() and word != "c":
                raise Mistake(word)
            return 7 if word == "c" else int(word)

        for text, form in INFIX:
            self.assertEqual(expression_of(text, number_of), form, text)
        for text in NO_INFIX:
            self.raised(text, Mistake, expression_of, text, number_of)
        self.tell(f"cases: {len(INFIX) + len(NO_INFIX)}")

    def test_bound(self):
        """A property that is bound so has the value of its expression."""
        script = "new Cell as c\nc.x = 3\nc.y = 10\nbind c.z = if x + 1 < y then y - x - 2 else 0\nc.z\nc.x = 9\nc.z\n"
        self.assertEqual(self.said(script).splitlines()[-3::2], ["z of object c is 5", "z of object c is 0"])


OF_PROPERTY = b'{"session":"a","do":"set","object":1,"property":"objectName","value":%s}'
AS_THEY_ARE = (  # each with the code by which it is refused, or None
    (b'{"session":"a","do":"new","class":"Probe"}', None),
    (b'  { "do" : "new", "class":"Cell", "session":"b" }\t', None),
    (b'{"session":"a",', "E01"),
    (b"{", "E01"),
    (b'{"session":"a","do":"get","object":-0,"property":"x"}', "E02"),
    (b'{"session":"a","do":"get","object":1.0,"property":"x"}', "E02"),
    (b'{"session":"a","do":"get","do":"children"}', None),
    (b'{"do":"status"}', "E02"),
    (b'{"session":"a b","do":"status"}', "E02"),
    (b'{"session":"a","do":"find","object":1,"name":"\xff"}', "E01"),
    (OF_PROPERTY % b'"\\ud800"', "E01"),
    (OF_PROPERTY % (b"[" * 2_000), "E01"),
    (OF_PROPERTY % (b'"%s"' % (b"x" * LINE_MOST)), "E01"),
    (b'{"session":"a","do":"status"}\r', None),
)


class Lines(ShellCases):
    """Lines as they are."""

    def test_sent_as_they_are(self):
        """Each goes to the server byte by byte, and one answer is said of each."""
        script = b"".join(line + b"\n" for line, _ in AS_THEY_ARE)
        said = self.said(script + b"save sent\n")
        sent = Path(self.room, "sent").read_bytes()
        self.assertEqual(sent, script, "the lines that were sent")
        said = [line for line in said.splitlines() if line[0] != " "][:-1]
        codes = [re.findall(r"^refused, (E\d\d): ", line) for line in said]
        self.assertEqual(codes, [[] if code is None else [code] for _, code in AS_THEY_ARE], "what is said of them")
        self.assertEqual(said[1], "b: object 1 is made, of class Cell, a root")

    def test_saved_and_run(self):
        """A saved session is input for metad. Another shell prints the same for it, except for names."""
        script = (
            "new Probe\nnew Cell in 1\nconnect 2.xChanged -> 2.seen\n2.x = 5\nsession b\nnew QObject\n7.x\n"
            "1.objectName\nsession a\ndelete 2\n2.x\n"
        )
        said = self.said(f"{script}save sent\n").splitlines()
        sent = Path(self.room, "sent")
        answers = [json.loads(line) for line in self.answers(sent.read_bytes()).splitlines()]
        wanted = [1, 2, 1, "seen(int)", True, 1, "E04", "", True, "E04"]
        came = [next(it[key] for key in ("reply", "error", "call") if key in it) for it in answers]
        self.assertEqual(came, wanted, "the server alone")
        again = self.said("run sent\n\nsave again\n").splitlines()
        plain = [line[3:] if line.startswith("b: ") else line for line in again]
        self.assertEqual(plain[:-1], said[:-1], "what is said of the lines that are run")
        self.assertEqual(Path(self.room, "again").read_bytes(), sent.read_bytes(), "what is saved of them")

    def test_blank_lines_of_a_file(self):
        """They are no commands, which nothing would answer."""
        Path(self.room, "lines").write_bytes(b'\n \t\r\n{"session":"a","do":"status"}\n\nnonsense\n')
        self.assertEqual([line[:8] for line in self.said("run lines").splitlines() if line[0] != " "], ["the sess", "refused,"])


class Words(ShellCases):
    """What is said of answers."""

    def test_codes(self):
        """Each code of the protocol says what to do."""
        for code in protocol.codes():
            self.assertEqual(advice(code, []), [f"to do: {metad.ADVICE[code]}"], code)

    def test_faults(self):
        """Of a line that is no command it is said which key is missing, unknown, or holds what it may not."""
        many = 0
        for do, required, optional, _ in protocol.commands():
            whole = {"do": do, "session": "a", **{key: value_for(do, key) for key in required | optional}}
            self.assertEqual(faults_of(whole), [], f"{whole} is a command")
            for key in required - {"connection", "sender"} if do == "disconnect" else required:
                less = {name: value for name, value in whole.items() if name != key}
                self.assertEqual(faults_of(less), [f"{do} has to have the key {key}"], less)
                many += 1
            more = {**whole, "x": 1}
            self.assertEqual(faults_of(more), [f"{do} has no key x"], more)
            for key in (required | optional) - {"value", "to"}:
                wrong = {**whole, key: {}}
                self.assertEqual([it.split(" has to hold ")[0] for it in faults_of(wrong)], [f"the key {key}"], wrong)
                many += 1
        self.tell(f"cases: {many}")

    def test_bounds(self):
        """Names and numbers have the protocol's bounds."""
        for key, held, may in (
            *(("session", name, True) for name in ("a", "_", "A1_", 64 * "a")),
            *(("session", name, False) for name in ("", "1a", "a-b", "a\n", "\u00e4", 65 * "a", 1, None)),
            *(("object", number, True) for number in (1, 4_294_967_295)),
            *(("object", number, False) for number in (0, -1, 4_294_967_296, 1.0, True, "1", None)),
        ):
            faults = faults_of({"session": "a", "do": "delete", "object": 1, key: held})
            self.assertEqual(faults == [], may, f"{key}: {held!r}: {faults}")

    def test_faults_by_chance(self):
        """Something is said to be wrong with an object of JSON exactly where it is no command, which the plain program judges."""
        chance, commands = random.Random(str(SEED)), 0
        for _ in range(BY_CHANCE):
            given = keys_by_chance(chance)
            may = is_command(given) and is_known_name(given.get("session"))
            self.assertEqual(faults_of(given) == [], may, f"SEED={SEED}: {given}")
            commands += may
        self.assertTrue(BY_CHANCE // 10 < commands < BY_CHANCE * 9 // 10, f"{commands} commands of {BY_CHANCE}")
        self.tell(f"cases: {BY_CHANCE:,}, {commands:,} of them commands")

    def test_refusals(self):
        """A refusal is said with its code and its meaning, by the names, and with what to do."""
        cases = (
            ("delete 7", "refused, E04: there is no object 7"),
            ("new Nope", "refused, E03: there is no class Nope"),
            ("setParent p to c", "refused, E12: object c is object p or below it, and cannot be its parent"),
            ("end", "refused, E17: no group is open"),
            ("bind c.big = 1", "refused, E18: the property big of object c, or one that the expression reads, is not bindable"),
            ("bind c.x = 9.x", "refused, E04: there is no object 9"),
            ('{"session":"a","do":"get","object":1,"proprety":"x"}', "    get has to have the key property"),
            ('{"session":"a","do":"get","object":1,"proprety":"x"}', "    get has no key proprety"),
            ('{"session":"a","do":"conect"}', "    the key do holds no command; is connect meant?"),
            ('{"session":"a b","do":"status"}', f"    the key session has to hold {A_NAME}"),
            ('{"do":"status"}', "    the key session is missing"),
            (
                '{"session":"a","do":"disconnect","sender":1,"method":"note()"}',
                "    disconnect has the key method only together with the key receiver",
            ),
            ("newt", "not sent: there is no command `newt`; is `new` meant?"),
            ("connect p.ping", "    write: connect OBJECT.SIGNAL -> OBJECT.METHOD"),
        )
        said = self.said(OBJECTS + "".join(f"{typed}\nhelp quit\n" for typed, _ in cases)).split("quit\n    ends the shell\n")
        for (typed, wanted), came in zip(cases, ["".join(said[0].splitlines(True)[3:]), *said[1:]]):
            with self.subTest(typed=typed):
                self.assertIn(wanted, came)
                self.assertRegex(came, REFUSED if "refused" in came else "^not sent: ")
        self.tell(f"cases: {len(cases)}")

    def test_calls_and_warnings(self):
        """They come before what is said of their command, with the names of the objects."""
        script = "new Probe as p\nnew Probe as q\nconnect p.ping -> q.kill\nconnect p.destroyed -> 2.note\np.ping()\nq.note()\n"
        said = self.said(script).splitlines()[4:]
        self.assertEqual(said[:2], ["q.kill() called with [] by p", "q.note() called with [] by p"])
        self.assertEqual(said[2].split(";")[0], "warning of q, E04: there is no such object")
        self.assertEqual(said[4], "q.note() called with [] by a command or a post")

        script = (
            "new Cell as c\nnew Cell\nconnect c.xChanged -> 2.seen\nconnect c.xChanged -> clamp for 2\n"
            "c.x = 250\nbind c.y = y\n"
        )
        said = self.said(script).splitlines()[4:]
        self.assertEqual(said[:2], ["2.seen(int) called with [250] by c", "clamp called for 2 with [250] by c"])
        self.assertTrue(said[3].startswith("warning: c.y is in error, BindingLoop: "), said[3])

    def test_gone(self):
        """A name is gone with its object: deleted, below another one that is, or by a slot; a reset takes the names away."""
        script = "new Probe as p\nnew Cell in p as c\nnew Probe as q\ndelete p\np.ping()\nc.x\nc.x\nnew Cell as p\np.x\n"
        said = [line for line in self.said(f"{script}names\n").splitlines()[3:] if line[0] != " "]
        self.assertEqual(said[1:4], [
            "not sent: p is gone: object 1 was deleted",
            "refused, E04: c is gone: object 2 was deleted",
            "not sent: c is gone: object 2 was deleted",
        ])
        self.assertEqual(said[5], "x of object p is 0")
        self.assertEqual(said[6:], ["c: object 2, gone", "q: object 3, of class Probe", "p: object 4, of class Cell"])

        script = "new Probe as p\nnew Probe as q\nconnect p.ping -> q.kill\np.ping()\nnames\nreset\nnames\nnew Cell as c\np.x\n"
        said = self.said(script).splitlines()[6:]
        self.assertEqual(said[:2], ["p: object 1, gone", "q: object 2, of class Probe"])
        self.assertEqual(said[3], "no names were given")
        self.assertEqual(said[5], "not sent: nothing is named p here; `names` lists the names")

    def test_failed(self):
        """Where the session has failed, its objects are gone."""
        made, failed = '{"reply":1,"session":"a"}', '{"error":"E20","session":"a"}'
        server = ("sh", "-c", f"read line; echo '{made}'; read line; echo '{failed}'; cat > /dev/null")
        said = self.said("new Probe as p\nstatus\np.ping()\n", server=server).splitlines()
        self.assertTrue(said[1].startswith("refused, E20: the session has failed"), said)
        self.assertEqual(said[2:], ["    to do: `reset` the session, and make its objects again", "not sent: p is gone: object 1 was deleted"])

    def test_sessions(self):
        """Names belong to their session. Lines of another session say whose they are."""
        script = (
            'new Probe as p\nsession b\nnew Cell\nnew Cell as p\n{"session":"a","do":"delete","object":1}\n'
            'p.x = 4\nsession a\np.ping()\n'
        )
        said = self.said(script, "--session", "a").splitlines()
        self.assertEqual(said[3:], [
            "a: object p is deleted, with all that was still below it",
            "x of object p was set to 4",
            "not sent: p is gone: object 1 was deleted",
        ])
        self.assertEqual(json.loads(self.sent("status", "--session", "other")), {"do": "status", "session": "other"})

    def test_listening(self):
        """What a session publishes is heard by another one."""
        script = (
            "new Probe as p\npublish p.ping as bell\nsession b\nnew Probe as q\njoin a.bell -> q.late\n"
            "session a\np.ping()\nsession b\nspin\n"
        )
        self.assertEqual(self.said(script).splitlines()[-2], "q.late() called with [] by a command or a post")

    def test_what_cannot_be_seen(self):
        """No text moves the cursor, or is taken for a colour."""
        said = io.BytesIO()
        Speaker(said, False).say("reply", "a\x1b[31m\x9b\n\ud800\u00e4")
        self.assertEqual(said.getvalue(), "a\\x1b[31m\\x9b\\n\\ud800\u00e4\n".encode())
        script = 'new Cell as c\nc.tag = "\\u001b[31m\\u009b"\nc.tag\n'
        self.assertEqual([line for line in self.said(script) if not line.isprintable() and line != "\n"], [])

    def test_help(self):
        """It describes all commands, or a single one."""
        said = self.said("help")
        lacking = [do for do, *_ in protocol.commands() if not re.search(rf"^{do}\b", said, re.MULTILINE)]
        self.assertEqual(lacking, ["set", "get", "connectFunctor"], "commands that have other forms")
        self.assertEqual(self.said("help\tpublish").splitlines()[0], "publish OBJECT.SIGNAL as NAME")


NAMES = {"class": "Cell", "property": "x", "name": "n", "functor": "clamp", "from": "b", "signal": "f()", "method": "g()"}
VALUES = {"args": [], "types": ["int"], "type": "queued", "unique": True, "single": False, "on": True, "value": None, "to": 1}


HELD = (
    *("a", "Probe", "_x", "5", "", "a b", "a" * 65, "queued", "auto", "ping()", "\u00e4", None, True, False),
    *(1, 2, 0, -1, 2**32 - 1, 2**32, 2**63, 1.5, [], ["int"], [1], {}, {"prop": "x"}),
)


def keys_by_chance(chance):
    """The keys of a command. Some are removed, some are added, and some hold something else."""
    do, required, optional, _ = chance.choice(COMMANDS)
    keys = [*sorted(required), *(key for key in sorted(optional) if chance.random() < 0.5)]
    given = {"session": "a", "do": do, **{key: value_for(do, key) for key in keys}}
    for _ in range(chance.choice((0, 1, 1, 2))):
        key = chance.choice([*given, *ALL_KEYS])
        if key in given and chance.random() < 0.3:
            del given[key]
        elif key in given or chance.random() < 0.2:
            given[key] = chance.choice(HELD)
    return given


def value_for(do, key):
    """A value that a key may have."""
    of_one = {("setParent", "parent"): None, ("bindings", "after"): {"object": 1, "property": "x"}}
    return of_one[do, key] if (do, key) in of_one else {**NAMES, **VALUES}.get(key, 1)


class Ends(ShellCases):
    """How runs end."""

    def test_strict(self):
        """It ends at the first refusal, the shell's own too, and within a file; without it all lines are done."""
        Path(self.room, "lines").write_text('{"session":"a","do":"end"}\n{"session":"a","do":"begin"}\n')
        for line in ("end", "nonsense", "delete nobody", "run lines"):
            ran = self.ran(f"status\n{line}\nbegin\n", "--strict")
            self.assertEqual((ran.returncode, ran.stderr), (1, b""), line)
            self.assertNotIn(b"1 group is open now", ran.stdout, line)
        self.assertEqual(self.said("end\nrun lines\nbegin\n").count(" open now"), 2, "without the option")
        self.assertEqual(self.ran("begin\nend\nquit\nend\n", "--strict").returncode, 0, "nothing was refused")

    def test_server_ends(self):
        """The shell reports the server's end with its status, whenever that happens."""
        classes = Path(self.room, "classes.json")
        classes.write_text("[]")
        for what, words, given, said in (
            ("a class file", (self.program, str(classes)), "status", "the server has ended with status 1"),
            ("no command yet", (self.program, str(classes)), "", "the server has ended with status 1"),
            ("in the midst", ("sh", "-c", "read line; exit 3"), "status", "the server has ended with status 3"),
            ("a signal", ("sh", "-c", "kill -9 $$"), "status\nstatus", "the server was ended by signal 9"),
            ("a strange line", ("sh", "-c", "echo nonsense; cat > /dev/null"), "status", "no line of the protocol: b'nonsense\\n'; is sh metad?"),
            ("no program", (f"{self.room}/nothing",), "", f"{self.room}/nothing cannot be started: No such file or directory"),
        ):
            ran = self.ran(given, server=words)
            self.assertEqual((ran.returncode, ran.stdout), (1, b""), what)
            self.assertEqual(ran.stderr.decode().splitlines()[-1], f"shell: {said}", what)

    def test_words(self):
        """Wrong words are status 2, with how they are written; help is status 0."""
        wrong = ("--session", "a b", self.program), ("--socket", "x", self.program)
        for words in ((), ("--",), ("--jump",), ("--session",), *wrong):
            ran = self.ran("", *words, server=())
            self.assertEqual((ran.returncode, ran.stdout, ran.stderr[:12]), (2, b"", b"usage: shell"), f"{words}: {ran}")
        ran = self.ran("", "--help", server=())
        self.assertEqual((ran.returncode, ran.stderr, ran.stdout[:12]), (0, b"", b"usage: shell"), "help")
        ran = self.ran("", "--socket", "nothing", server=())
        said = b"shell: nothing cannot be reached: No such file or directory (is a front running with this socket?"
        self.assertEqual((ran.returncode, ran.stderr[: len(said)]), (1, said), "no socket")
        self.assertIn("no object", self.said("status", "--", server=(self.program, "--turns", "5")), "words of the program")

    def test_closed_output(self):
        """Where nobody reads any more, it ends without a word."""
        script = f"yes help | head -n 1000 | '{sys.executable}' '{SHELL}' '{self.program}' 2> said; echo $? > status"
        with subprocess.Popen(["sh", "-c", script], cwd=self.room, stdout=subprocess.PIPE, stdin=subprocess.DEVNULL) as process:
            process.stdout.close()
            process.wait(SECONDS)
        self.assertEqual((Path(self.room, "said").read_text(), Path(self.room, "status").read_text()), ("", "0\n"))

    def test_full_output(self):
        """Where nothing can be written, it says so."""
        with open("/dev/full", "wb") as full:
            words = [sys.executable, SHELL, self.program]
            ran = subprocess.run(words, input=b"status\n", stdout=full, stderr=subprocess.PIPE, timeout=SECONDS)
        self.assertEqual((ran.returncode, ran.stderr), (1, b"shell: standard output cannot be written: No space left on device\n"))

    def test_colours(self):
        """Without a terminal nothing is coloured."""
        self.assertNotIn("\x1b", self.said("status\nend\n"))


class Fronted(FrontCases, ShellCases):
    """Behind a front."""

    def test_front(self):
        """Two shells speak for a session each, and the front's names are those that they join."""
        with self.front() as (path, _):
            words = ("--socket", str(path))
            said = self.said("new Probe as p\nsession b\npublish p.ping as bell\np.ping()\n", *words, server=()).splitlines()
            self.assertRegex(said[1], r"^not sent: behind a front there is one session, c\d+$")
            self.assertEqual(said[2], "ping() of object p is published as bell", "the name that was given before")
            said = self.said("new Probe as p\nconnect p.ping -> p.note\np.ping()\n", *words, server=()).splitlines()
            self.assertEqual(said[2], "p.note() called with [] by p")
