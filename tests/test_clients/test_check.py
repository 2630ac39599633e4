"""`check` (clients/check): compared with the program on random class files, and tried on worked class files, on files that load
but contain mistakes, and on bad words and inputs."""

import json
from collections import Counter
from concurrent.futures import ProcessPoolExecutor
from contextlib import suppress
from pathlib import Path
from tempfile import TemporaryDirectory

from checking.files import checked
from checking.nodes import Members
from checking.reading import NoJson, read

from tests.generators.chance import PIECES, Chance
from tests.generators.class_faults import all_files
from tests.generators.class_files import file_of, right_files, slot_of, wrong_files
from tests.generators.class_texts import text_by_chance
from tests.plain.lines import json_of
from tests.support.cases import CASE, Cases, ProgramCases
from tests.support.documents import all_examples
from tests.support.lines import lines_of, text_of
from tests.support.program import ROOT, Row, program_under_test
from tests.support.seeds import SEED

from . import CLIENTS

CHECK = CLIENTS / "check"
FILES, TEXTS = 2_000, 10_000  # random ones
BODY = "classes[0].slots[0].body"
KINDS = ("C01", "C02", "C03", "C04", "C05", "C06", "C07", "C08", "C09")


def found_in(text, is_declared_only=False):
    """What is found in a class file, a text or what is written as one."""
    raw = text if isinstance(text, bytes) else (text if isinstance(text, str) else text_of(text)).encode()
    return checked(raw, is_declared_only).findings


def refusal(findings):
    """The kind and the class of the fault that metad names, as far as that is known here."""
    first = findings.first()
    return (first.code, first.place.number) if first else (None, 0)


# Compared with the program, and with the lists.


def tried(seed):
    """The kind of fault found in a random class file, and how the program's answer differs, or None."""
    text = text_by_chance(seed)
    kind, number = refusal(found_in(text))
    said = f"metad: class file refused: {kind} at class {number}\n".encode() if kind else b""
    with TemporaryDirectory(prefix="metad-check-") as room:
        Path(room, "classes.json").write_bytes(text)
        row = Row(str(seed), b"", b"", said, 1 if kind else 0, ("classes.json",), Path(room))
        fault = row.fault(row.run(program_under_test()))
    return kind, f"{fault}\nthe class file: {text!r}" if fault else None


class BesideTheProgram(ProgramCases):
    """The verdict and the fault that metad names."""

    def test_files_by_chance(self):
        """They are those of the program, on random class files. Each kind of fault occurs in some of them."""
        cases = [(f"random, {seed}", seed) for seed in range(FILES)]
        seen = Counter(kind for kind, _ in self.check_each(cases, tried, lambda it: it[1], ProcessPoolExecutor))
        self.assertTrue(CASE or not {*KINDS, None} - seen.keys(), f"the random class files show too little: {seen}")
        self.tell(" ".join(f"{kind or 'none'}: {number:,}" for kind, number in sorted(seen.items(), key=str)))


class Lists(Cases):
    """The class files whose refusal, or acceptance, is written down with its reason."""

    def test_faults(self):
        """Each is taken, or its fault and its class are those that are written."""
        cases = [(name[:80], (text, kind, number)) for name, text, kind, number in all_files()]

        def fault_of(case):
            text, kind, number = case
            said = refusal(found_in(text))
            return None if said == (kind, number) else f"{said}, and not {kind, number}: {text[:300]}"

        self.check_each(cases, fault_of)

    def test_right_and_wrong_files(self):
        """Those that keep to the rules have no fault, and the others have one."""
        cases = [(name, (classes, True)) for name, classes in right_files()]
        cases += [(name, (classes, False)) for name, classes in wrong_files()]
        self.check_each(cases, lambda it: None if (found_in(it[0]).first() is None) == it[1] else text_of(it[0])[:300])


# The reader of JSON.


def plain_value(node):
    """What a node holds, as the plain program has it."""
    if isinstance(node.held, list):
        return [plain_value(it) for it in node.held]
    if isinstance(node.held, Members):
        return {key: plain_value(member.value) for key, member in node.held.counted.items()}
    return node.held


def texts_of_json():
    """Texts that are JSON or nearly so. Their values are random, and some texts have a byte changed."""
    chance = Chance(SEED)
    for at in range(TEXTS):
        text = bytearray(chance.value().encode())
        if chance.is_so(0.3):
            text[chance.randrange(len(text))] = chance.choice(PIECES)
        yield f"random, {at}", bytes(text).decode(errors="ignore")


class Reading(Cases):
    """The reader of JSON, compared with that of the plain program."""

    def test_reading(self):
        """Both take the same texts, and read the same of them."""

        def fault_of(text):
            came, wanted = "refused", "refused"
            with suppress(NoJson):
                came = repr(plain_value(read(text)))
            with suppress(ValueError):
                wanted = repr(json_of(text.encode()))
            return None if came == wanted else f"{text[:300]!r} is read as {came[:300]}, and not as {wanted[:300]}"

        self.check_each(texts_of_json(), fault_of, at_once=1)


# Where faults are.

TWO = """{"classes":[
{"name":"Lamp","super":"Base"},
{"name":"Torch","super":"Lamp",
 "signals":["lit(","on(Int)"],
 "slots":[{"sig":"f(int)","body":[
  {"emit":"lit()","args":[]},
  {"set":"x","to":{"+":[{"arg":1},{"konst":2}]}},
  {"when":{"const":true},"then":[{"block":1}],"else":[{"emit":"g","args":[]}]}]}],
 "properties":[{"name":"p","type":"int","notify":"f(int)"},{"name":"p","type":"int"}]}]}
"""
ORDER = """{"classes":[{"slots":[{"sig":"f()","body":[{"set":"x"}]}],
"signals":["s()","s(void)"],"super":"QObject","name":"A","x":1}]}
"""
FAR = '{"classes":[\n\n{"name":"ä😀","super":"QObject"}]}'

# texts, with each fault: its line, its column, its path, its kind, and some of what is said of it; named by metad where the
# line is below 0
PLACES = {
    "faults of two classes": (TWO, [
        (-2, 24, "classes[0].super", "C04", "Base"),
        (4, 13, "classes[1].signals[0]", "C05", "not closed"),
        (4, 20, "classes[1].signals[1]", "C05", 'did you mean "int"?'),
        (7, 32, "classes[1].slots[0].body[1].to.+[0].arg", "C08", "no argument 1: the slot has 1 parameter"),
        (7, 36, "classes[1].slots[0].body[1].to.+[1].konst", "C08", 'did you mean "const"?'),
        (8, 43, "classes[1].slots[0].body[2].then[0].block", "C08", "true or false"),
        (8, 63, "classes[1].slots[0].body[2].else[0].emit", "C08", "no signature"),
        (9, 50, "classes[1].properties[0].notify", "C07", "is a slot"),
        (9, 68, "classes[1].properties[1].name", "C06", "declared already"),
    ]),
    "the order of reading is not that of the lines": (ORDER, [
        (1, 44, "classes[0].slots[0].body[0]", "C08", 'needs the key "to"'),
        (2, 18, "classes[0].signals[1]", "C06", "declared already"),
        (-2, 58, "classes[0].x", "C02", 'no key "x"'),
    ]),
    "characters of several bytes": (FAR, [(-3, 9, "classes[0].name", "C02", "no name")]),
    "a column after them": ('{"classes":[{"name":"ä😀","super":1}]}', [
        (-1, 21, "classes[0].name", "C02", "no name"), (1, 34, "classes[0].super", "C02", "a whole number"),
    ]),
    "an array": ("[]", [(-1, 1, "", "C02", "an array")]),
    "a comma before a bracket": ('{"classes":[\n1,]}', [(-2, 2, "", "C01", "comma before ]")]),
    "a comma that is missing": ('{"classes":[1\r\n 2]}', [(-2, 2, "", "C01", "comma or ] is missing")]),
    "a comment": ('// x\n{}', [(-1, 1, "", "C01", "no value of JSON")]),
    "single quotes": ("{'classes':[]}", [(-1, 2, "", "C01", "a key is missing")]),
    "a text without its end": ('{"classes', [(-1, 2, "", "C01", "no quote at its end")]),
    "a tab in a text": ('{"a\tb":1}', [(-1, 4, "", "C01", "U+0009")]),
    "half of a pair": ('["\\ud83d"]', [(-1, 3, "", "C01", "surrogate")]),
    "an invalid escape": ('["\\x"]', [(-1, 3, "", "C01", "no escape")]),
    "a number beyond all others": ("[1e400]", [(-1, 2, "", "C01", "beyond")]),
    "a number with a zero before it": ("[01]", [(-1, 2, "", "C01", "no value")]),
    "more than the value": ("{} {}", [(-1, 4, "", "C01", "goes on")]),
    "nothing": ("", [(-1, 1, "", "C01", "missing")]),
    "a byte order mark": (b'\xef\xbb\xbf{"classes":[]}', [(-1, 1, "", "C01", "byte order mark")]),
    "no UTF-8": (b'{"\xc3\xa4\n\xff"', [(-2, 1, "", "C01", "0xFF")]),
    "127 levels": (127 * "[" + 127 * "]", [(-1, 1, "", "C02", "an array")]),
    "128 levels": (128 * "[" + 128 * "]", [(-1, 128, "", "C01", "127 levels")]),
    "two actions in one": (
        '{"classes":[{"name":"A","super":"QObject","slots":[{"sig":"f()","body":[{"delete":1,"block":true}]}]}]}',
        [(-1, 73, "classes[0].slots[0].body[0]", "C08", 'does one thing, and this has the keys "delete" and "block"')],
    ),
    "a superclass that is declared later": (
        '{"classes":[{"name":"A","super":"B"},{"name":"B","super":"QObject"}]}',
        [(-1, 33, "classes[0].super", "C04", "declared after")],
    ),
    "a class above itself": ('{"classes":[{"name":"A","super":"A"}]}', [(-1, 33, "classes[0].super", "C04", "itself")]),
    "a class twice": (
        '{"classes":[{"name":"A","super":"QObject"},{"name":"A","super":"A"}]}',
        [(-1, 52, "classes[1].name", "C03", '"A"')],
    ),
    "a key that is no word": ('{"classes":[],"a b":[0]}', [(-1, 15, '["a b"]', "C02", "no key")]),
}


def places_of(findings):
    """What is found, as the table above has it, without what is said of it."""
    text = findings.text
    for it in findings.findings.in_order():
        line = text.count("\n", 0, it.node.at) + 1
        column = it.node.at - (text.rfind("\n", 0, it.node.at) + 1) + 1
        yield -line if it is findings.findings.first() else line, column, it.node.path(), it.code


class Places(Cases):
    """Where faults are, and which one metad names."""

    def test_places(self):
        """Each fault is found, with its line, column, path and kind, and something is said of it."""

        def fault_of(case):
            text, wanted = case
            found = checked(text if isinstance(text, bytes) else text.encode())
            came = list(places_of(found))
            if came != [it[:4] for it in wanted]:
                return f"{came}"
            said = [it.words for it in found.findings.in_order()]
            return next((f"{words!r} is not said of {it}" for it, words in zip(wanted, said) if it[4] not in words), None)

        self.check_each(PLACES.items(), fault_of)

    def test_whole_numbers(self):
        """A number is whole where it has no point, no exponent, is not -0 and has 64 bits."""
        setter = '{"set":"x","to":{%s:%%s}}'
        holders = {setter % '"const"': "to.const", setter % '"arg"': "to.arg", '{"delete":%s}': "delete"}
        numbers = ("1.0", "1e0", "-0", "0.0", "18446744073709551616", "-9223372036854775809", "1e-400")
        cases = [(holder % number, (holder % number, path)) for holder, path in holders.items() for number in numbers]

        def fault_of(case):
            action, path = case
            text = '{"classes":[{"name":"A","super":"QObject","slots":[{"sig":"f(int,int)","body":[%s]}]}]}' % action
            came = [(it.code, it.node.path()) for it in found_in(text).in_order()]
            return None if came == [("C08", f"{BODY}[0].{path}")] else f"{came}"

        self.check_each(cases, fault_of)

    def test_limits(self):
        """What exceeds a limit by one is reported at its place."""
        block, forms = {"block": True}, {"arg": 0}
        for _ in range(32):
            forms = {"+": [forms, {"arg": 0}]}
        cases = {
            "the 33rd action": (slot_of(*32 * [block], {"when": {"const": True}, "then": [block]}), f"{BODY}[32]"),
            "an expression of 65 forms": (slot_of({"set": "x", "to": forms}), f"{BODY}[0].to"),
            "a text of 4,097 bytes": (slot_of({"set": "x", "to": {"const": 4095 * "x" + "ä"}}), f"{BODY}[0].to.const"),
            "254 signals": (file_of(signals=[f"n{at}()" for at in range(254)]), "classes[0]"),
            "1,025 classes": ({"classes": [{"name": f"n{at}", "super": "QObject"} for at in range(1025)]}, "classes"),
        }

        def fault_of(case):
            classes, path = case
            came = [(it.code, it.node.path()) for it in found_in(classes).in_order()]
            return None if came == [("C09", path)] else f"{came}"

        self.check_each(cases.items(), fault_of)


# What loads and is not meant.

SLOT = "go(int,QString)"


def player(*actions):
    """Classes, the first of them with these actions in its first slot. Below, its object is 1 and its sender 3."""
    slots = [{"sig": SLOT, "body": list(actions)}, {"sig": "hear()", "body": []}]
    properties = [{"name": "playing", "type": "bool"}, {"name": "level", "type": "int"}]
    signals = ["finished()", "levelChanged(int)"]
    station, zone = {"name": "station", "type": "QString"}, {"name": "zone", "type": "int"}
    return {"classes": [
        {"name": "Player", "super": "QObject", "signals": signals, "slots": slots, "properties": properties},
        {"name": "Radio", "super": "Player", "signals": ["tuned()"], "properties": [station]},
        {"name": "Clock", "super": "QObject", "signals": ["told(int,QString)"], "properties": [zone]},
    ]}


CALLED = [
    {"do": "new", "class": "Player"}, {"do": "new", "class": "Clock", "parent": 1}, {"do": "new", "class": "Clock"},
    {"do": "set", "object": 2, "property": "objectName", "value": "c"},
    {"do": "connect", "sender": 3, "signal": "told(int,QString)", "receiver": 1, "method": SLOT},
    {"do": "invoke", "object": 3, "method": "told(int,QString)", "args": [7, "x"]},
]


def setting(expression):
    return {"set": "tag", "to": expression}


ONE, TEXT, FORM = {"const": 1}, {"arg": 1}, {"arg": 0}
CONNECT = {"connect": "finished()", "to": "self", "method": "hear()"}
# actions, each with what is said of it: the code and the path in the action, and the code of what it is refused for
MISTAKES = [
    ({"emit": "finshed()", "args": []}, "W02", "emit", "E05"),
    ({"emit": "hear()", "args": []}, "W02", "emit", "E05"),
    ({"emit": "finished( int )", "args": [FORM]}, "W02", "emit", "E05"),
    ({"emit": "tick()", "args": [], "of": "sender"}, "W02", "emit", "E05"),
    ({**CONNECT, "connect": "finishd()"}, "W02", "connect", "E05"),
    ({**CONNECT, "to": "sender", "method": "heer()"}, "W02", "method", "E05"),
    ({"disconnect": "nope()"}, "W02", "disconnect", "E05"),
    ({"disconnect": None, "to": {"child": "c"}, "method": "heer()"}, "W02", "method", "E05"),
    ({"when": {"const": True}, "then": [{"emit": "finshed()", "args": []}]}, "W02", "then[0].emit", "E05"),
    ({"when": {"const": False}, "then": [], "else": [{"emit": "finshed()", "args": []}]}, "W02", "else[0].emit", "E05"),
    ({**CONNECT, "method": "levelChanged(int)"}, "W05", "method", "E07"),
    ({"emit": "levelChanged(int)", "args": []}, "W04", "args", "E22"),
    ({"emit": "levelChanged(int)", "args": [FORM, FORM]}, "W04", "args", "E22"),
    ({"emit": "levelChanged(int)", "args": [TEXT]}, "W04", "args[0]", "E22"),
    ({"emit": "levelChanged(int)", "args": [{"const": 2147483648}]}, "W04", "args[0]", "E22"),
    ({"set": "playing", "to": ONE}, "W04", "to", "E22"),
    ({"set": "level", "to": {"prop": "playing"}}, "W04", "to", "E22"),
    ({"set": "level", "to": {"prop": "objectName"}, "of": "self"}, "W04", "to", "E22"),
    (setting({"+": [FORM, TEXT]}), "W04", "to.+[1]", "E22"),
    (setting({"<": [{"const": True}, FORM]}), "W04", "to.<[0]", "E22"),
    (setting({"=": [FORM, TEXT]}), "W04", "to.=", "E22"),
    (setting({"cat": [TEXT, {"+": [ONE, ONE]}]}), "W04", "to.cat[1]", "E22"),
    (setting({"if": [FORM, ONE, ONE]}), "W04", "to.if[0]", "E22"),
    ({"when": {"cat": [TEXT, TEXT]}, "then": []}, "W04", "when", "E22"),
    ({"setParent": "self"}, "W06", "setParent", "E12"),
    ({"setParent": {"child": "c"}, "of": "self"}, "W06", "setParent", "E12"),
    ({"setParent": "sender", "of": "sender"}, "W06", "setParent", "E12"),
    ({"set": "playng", "to": {"const": True}}, "W03", "set", None),
    ({"set": "Level", "to": ONE}, "W03", "set", None),
    ({"set": "zonne", "to": ONE, "of": "sender"}, "W03", "set", None),
    (setting({"prop": "levle"}), "W03", "to.prop", "E11"),
]
# actions without a finding
FINE = [
    ({"emit": "tuned()", "args": []},),
    ({"emit": "told(int,QString)", "args": [FORM, TEXT], "of": "sender"},),
    ({"emit": "told(int,QString)", "args": [{"prop": "zone", "of": "sender"}, {"prop": "station"}], "of": {"child": "c"}},),
    ({"emit": "destroyed()", "args": []}, {**CONNECT, "connect": "destroyed()", "method": "deleteLater()"}),
    ({"connect": "levelChanged(int)", "to": "sender", "method": "finished()"}, {"disconnect": None}),
    ({"disconnect": "told( const int & , QString )", "of": "sender", "to": "self", "method": SLOT},),
    ({"set": "station", "to": TEXT}, {"set": "zone", "to": TEXT, "of": 7}, {"set": "level", "to": TEXT, "of": "sender"}),
    (setting(ONE), setting({"prop": "tag"}), {"set": "level2", "to": TEXT}, {"set": "lev", "to": ONE}),
    ({"set": "playng", "to": ONE}, {"set": "level", "to": {"prop": "playng"}}),
    ({"set": "level", "to": {"if": [{"prop": "tag"}, ONE, TEXT]}}, {"when": {"prop": "tag"}, "then": []}),
    ({"setParent": None}, {"setParent": "sender"}, {"setParent": {"child": "c"}, "of": "sender"}, {"setParent": 7}),
    ({"setParent": "self", "of": {"child": "c"}}, {"setParent": "sender", "of": 7}),
    (setting({"=": [{"prop": "playing"}, {"<": [FORM, {"-": [ONE, FORM]}]}]}), setting({"const": 2**64 - 1})),
    ({"set": "level", "to": {"if": [{"const": True}, TEXT, ONE]}}, {"set": "level", "to": {"prop": "playing", "of": "sender"}}),
]


class Mistakes(ProgramCases):
    """What loads and is not meant."""

    def warned(self, action):
        """The codes of what is refused in a slot that does this action."""
        with TemporaryDirectory(prefix="metad-check-") as room:
            Path(room, "classes.json").write_text(text_of(player(action)))
            row = Row("", lines_of(CALLED, session="a"), None, words=("classes.json",), folder=Path(room))
            lines = [json.loads(line) for line in row.run(self.program).stdout.splitlines()]
        self.assertEqual(sum("call" in line for line in lines), 1, lines)
        return [line["warning"] for line in lines if "warning" in line]

    def test_mistakes(self):
        """Each is reported at its place. Where the program refuses the action, it refuses it for the same reason."""

        def fault_of(case):
            action, code, path, refused = case
            came = [(it.code, it.node.path()) for it in found_in(player(action)).in_order()]
            if came != [(code, f"{BODY}[0].{path}")]:
                return f"{came} of {action}"
            warned = self.warned(action)
            return None if warned == ([refused] if refused else []) else f"the program warns of {warned} at {action}"

        self.check_each([(text_of(it[0]), it) for it in MISTAKES], fault_of)

    def test_what_is_fine(self):
        """Nothing is said of actions that may be meant as they are."""
        cases = [(text_of(actions), actions) for actions in FINE]
        self.check_each(cases, lambda it: "\n".join(found.words for found in found_in(player(*it)).in_order()) or None)

    def test_documents(self):
        """Nothing is said of the class files of the documents and of the examples."""
        with TemporaryDirectory(prefix="metad-check-") as room:
            paths = {Path(word) for row in all_examples(room) for word in row.words if Path(word).is_file()}
            paths |= {path for path in (ROOT / "examples").glob("*/*.json") if path.parent.name != "monitoring"}
            cases = [(path.name, path.read_bytes()) for path in sorted(paths)]
        self.check_each(cases, lambda it: "\n".join(found.words for found in found_in(it).in_order()) or None)

    def test_names_and_keys(self):
        """Properties whose names differ only in case, keys that occur twice, and all dynamic properties if asked for."""
        properties = [{"name": name, "type": "int"} for name in ("level", "Level", "objectname")]
        alike = [(it.code, it.node.path()) for it in found_in(file_of(properties=properties)).in_order()]
        self.assertEqual(alike, [("W07", f"classes[0].properties[{at}].name") for at in (1, 2)])
        again = '{"classes":[1],"classes":[{"name":"A","name":"B","super":"QObject","name":"C"}]}'
        self.assertEqual([(it.code, it.node.at) for it in found_in(again).in_order()], [("W01", 15), ("W01", 38), ("W01", 67)])
        faulty = found_in(again.replace("super", "supper")).in_order()
        self.assertEqual([it.code for it in faulty], ["W01", "C02", "W01", "C02", "W01"])
        dynamic = player(setting({"prop": "tag"}), {"set": "station", "to": TEXT}, {"set": "zone", "to": ONE, "of": "sender"})
        self.assertEqual([it.code for it in found_in(dynamic, True).in_order()], ["W03", "W03"])


# Words, inputs and outputs.

GOOD, BAD, STRANGE = '{"classes":[]}', "[]", text_of(player({"set": "playng", "to": {"const": True}}))
