"""Random lines.

The lines are commands of a few sessions with their keys in any order, some twice, some missing, some of
others; with white space, escapes, numbers and texts in and out of form, lists and objects in one another, also
about as deep as JSON is read; some with bytes changed, left out, put in or repeated; and some as long as a line
may be, or one byte longer, and of these some that are blank. Other sessions follow, so that many commands find the
objects that they name.
"""

import random
import re

from tests.support.lines import LINE_BYTES
from tools import protocol

LINES = 200_000
LONG = 100
DEPTH = 127
LINES_OF_SESSIONS = 1_700
OBJECTS = 16

SESSIONS = ("a", "b", "\\u0063")
CLASSES = (*('"Probe"',) * 12, *('"Cell"',) * 6, '"QObj\\u0065ct"', '"QObject"', '"Nope"', '"a b"', '""')
KNOWN = {it.word: it.forms[0].keys for it in protocol.all_commands()}
WEIGHTS = {
    **{"new": 6, "setParent": 3, "children": 2, "find": 2, "set": 6, "get": 4, "connect": 8, "invoke": 20, "disconnect": 3},
    **{"connectFunctor": 5, "dynamicNames": 2, "spin": 3, "bind": 7, "end": 3, "join": 7, "properties": 3, "connections": 3},
    "reset": 0,
}
ESCAPED = 0.15  # of the words; a letter of these is written by its number
KEYS = (
    *("do", "session", "object", "property", "value", "class", "parent", "name", "x", "d\\u006f", "obj\\u0065ct", "Do", ""),
    *("sender", "signal", "receiver", "method", "type", "unique", "single", "connection", "args", "on"),
    *("context", "functor", "s\\u0065nder", "typ\\u0065", "\\u006fn", "f\\u0075nctor"),
    *("after", "aft\\u0065r", "from", "types", "fr\\u006fm", "typ\\u0065s", "to", "t\\u006f", "of"),
)
SIGNALS = (*("ping()",) * 16, *("xChanged(int)",) * 4, "p\\u0069ng()", "ping\\u0028void\\u0029", " ping(\\t)", "destroyed()", "objectNameChanged(QString)", "note()", "ping")
PROPERTIES = (
    *("objectName",) * 4, *("x", "tag") * 3, *("y", "flag", "big", "obj\\u0065ctName", "t\\u0061g", "\\u0078", "X", "_"),
    *("n" * 64, "n" * 65, "", "a b", "1a", "x ", "ä", "\\u0000"),
)
FORMS = (
    *('{"prop":"NAME"}', '{"prop":"NAME","of":OBJECT}', '{"of":OBJECT,"pr\\u006fp":"NAME"}', '{"+":[{"prop":"NAME","of":OBJECT},{"const":NUMBER}]}') * 3,
    *('{"if":[{"prop":"flag"},{"prop":"NAME"},{"prop":"z","of":OBJECT}]}', '{"\\u0069f":[{"<":[{"prop":"y"},{"const":NUMBER}]},{"const":1},{"prop":"NAME"}]}') * 2,
    *('{"cat":[{"prop":"objectName","of":OBJECT},{"const":"!"}]}', '{"c\\u0061t":[{"const":"n"},{"prop":"objectName"}]}', '{"const":"n"}') * 2,
    *('{"const":NUMBER}', '{"c\\u006fnst":NUMBER}', '{"-":[{"const":NUMBER},{"prop":"NAME"}]}', '{"=":[{"prop":"NAME"},{"const":NUMBER}]}'),
    *('{"prop":"NAME","of":"s\\u0065lf"}', '{"prop":"NAME","of":"sender"}', '{"prop":"NAME","of":{"child":"lamp"}}', '{"prop":"NAME","prop":"y"}'),
    *('{"arg":0}', '{"prop":"y","to":1}', '{"+":[{"const":NUMBER}]}'),
)
HOLE = re.compile("NAME|NUMBER|OBJECT")
BOUND = (*("x", "y", "z") * 4, *("objectName",) * 8, "flag", "obj\\u0065ctName", "\\u0078", "big", "tag", "nothing", "a b")
SLOTS = (
    *(*("note()", "late()", "swap()", "again()") * 4, "kill()", "rescue()", "drop()", "deleteLater()", "ping()"),
    *("setX(int)", "setX(int)", "seen(int)"),
    *("not\\u0065()", "note ( void ) ", "nothing()", "note(int)", ""),
)
FUNCTORS = (*('"clamp"',) * 10, *('"count"',) * 10, '"c\\u006funt"', '"cl\\u0061mp"', '"\\u0063lamp"', '"clam"', '"Clamp"', '"clamp(int)"', '""', "0")
PRIORITIES = (*("-1", "0", "1") * 4, "-0", "1.0", "1e0", "2", "-2", '"1"', "true", "null", "18446744073709551615")
TYPES = (*('"auto"', '"direct"', '"queued"') * 4, '"dir\\u0065ct"', '"Queued"', '"blocking"', "0")
TRUTHS = ("true", "false")
JOINED = (*('"note()"',) * 9, *('"setX(int)"',) * 2, '"ping()"', '"late()"', '"seen(int)"')
NAMES = (*('"ping"',) * 40, *('"x"',) * 10, '"p\\u0069ng"', '"\\u0078"', '"end"', '"other"', '"n n"', '"-"', '""', "0", '"' + "n" * 65 + '"')
KINDS = (*('"int"',) * 8, '"i\\u006et"', '"uint"', '"bool"', '"QString"', '"qlonglong"', '"qulonglong"', '"Int"', '"int "', '""', "0", "null")
CONNECTIONS = 40
TURNS = 20
NUMBERS = (
    *("1", "2", "3", "0", "-1", "01", "1.0", "1e0", "1E2", "-0", "1.5", "+1", "0x1", "1.", ".5", "-", "--1"),
    *("0.0", "00", "-0.0e-0", "10e-1", "2.50E+01", "0e5", "1e", "1e+", "1.e1", "1e1.5", "1e-400", "-12.75e+2"),
    *("4294967295", "4294967296", "9007199254740993", "18446744073709551615", "18446744073709551616"),
    *("18446744073709551617", "99999999999999999999999999", "1e400", "-9223372036854775809"),
)
TEXTS = (
    *("lamp", "", "ä", "é€", "😀", "\\n", '\\"', "\\\\", "\\/", "/", "\\u0041", "\\ud83d\\ude00", "a\\u0000b"),
    *("\\ud83d", "\\udc00", "\\ud83d\\u0041", "\\u00", "\\x", "\t", "\x01", "\x1f", "\x7f", "objectN\\u0061me"),
)
LITERALS = ("null", "true", "false", "nul", "True", "truee", "NaN", "Infinity")
SPACES = ("", " ", "\t", "  ", "\r")
BLANK = b" \t\r"
PIECES = b'{}[]:,"\\0123456789.-+eEntf '
BYTES = (0x00, 0x1F, 0x80, 0xC3, 0xED, 0xF0, 0xFF)


class Chance(random.Random):
    """A source of random lines and their parts."""

    made = 0  # lines so far

    def session(self):
        return f'"{self.choice(SESSIONS)}{self.made // LINES_OF_SESSIONS}"'

    def word(self):
        """The word of a command, now and then an unknown one."""
        if self.is_so(0.01):
            return self.choice(("jump", "reset") if self.is_so(0.1) else ("jump",))
        return self.choices(list(KNOWN), [WEIGHTS.get(it, 1) for it in KNOWN])[0]

    def spelled(self, word):
        """A word as it is written, by some chance with a letter by its number."""
        at = self.randrange(len(word))
        return f"{word[:at]}\\u{ord(word[at]):04x}{word[at + 1 :]}" if self.is_so(ESCAPED) else word

    def is_so(self, share):
        return self.random() < share

    def text(self):
        return f'"{self.choice(TEXTS)}"' if self.is_so(0.8) else '"' + "x" * self.randrange(60) + '"'

    def value(self, depth=0):
        kind = self.random()
        if kind < 0.005:
            nested = DEPTH + self.randint(-2, 2) - depth
            return "[" * nested + "]" * nested
        if kind < 0.35:
            return self.text()
        if kind < 0.6:
            return self.choice(NUMBERS)
        if kind < 0.72 or depth > 2:
            return self.choice(LITERALS)
        if kind < 0.86:
            return "[" + ",".join(self.value(depth + 1) for _ in range(self.randrange(4))) + self.choice(("", "", ",")) + "]"
        return "{" + ",".join(f"{self.text()}:{self.value(depth + 1)}" for _ in range(self.randrange(4))) + "}"

    def number(self):
        """A number, by half a plain one."""
        return self.choice(NUMBERS[:5] if self.is_so(0.5) else NUMBERS)

    def object(self):
        """The number of an object, of the first ones most times."""
        return str(min(self.randint(1, OBJECTS) for _ in "abc"))

    def old_object(self):
        """The number of an object, of the very first ones most times."""
        return str(min(self.randint(1, OBJECTS) for _ in range(8)))

    def method(self, share):
        """A signal, by this share, or a slot."""
        return f'"{self.choice(SIGNALS if self.is_so(share) else SLOTS)}"'

    def property_name(self):
        return f'"{self.choice(PROPERTIES)}"'

    def connection(self):
        ends = [("sender", self.object()), ("signal", self.method(1)), ("receiver", self.object()), ("method", self.method(0.2))]
        return ends + self.ways()

    def functor_connection(self):
        signal = '"xChanged(int)"' if self.is_so(0.8) else self.method(1)
        return [("sender", self.object()), ("signal", signal), ("context", self.object()), ("functor", self.choice(FUNCTORS)), *self.ways()]

    def ways(self):
        """How a connection is to be made."""
        further = (("type", TYPES), ("unique", TRUTHS), ("single", TRUTHS))
        return [(key, self.choice(of)) for key, of in further if self.is_so(0.25)]

    def disconnection(self):
        if self.is_so(0.4):
            return [("connection", str(self.randint(1, CONNECTIONS)))]
        further = [("signal", self.method(1)), ("receiver", self.object()), ("method", self.method(0.2))]
        return [("sender", self.object()), *(it for it in further if self.is_so(0.5))]

    def values_for(self, method):
        """The arguments of a call of this method: most times as many as it takes."""
        if self.is_so(0.2):
            return [self.value() for _ in range(self.randrange(3))]
        return [] if "(int)" not in method else [self.number() if self.is_so(0.8) else self.value()]

    def invocation(self):
        method = self.method(0.7)
        values = self.values_for(method)
        if self.is_so(0.2):
            method, values = '"objectNameChanged ( const QString & )"', [self.text()]
        further = [("type", self.choice(TYPES))] if self.is_so(0.25) else []
        further += [("priority", self.choice(PRIORITIES))] if self.is_so(0.2 if further else 0.01) else []
        number = self.old_object() if self.is_so(0.4) else self.object()
        return [("object", number), ("method", method), ("args", f"[{','.join(values)}]"), *further]

    def types(self, method):
        """The types of a join of this method, most times those that some signal has."""
        if self.is_so(0.1):
            return [self.choice(KINDS) for _ in range(self.randrange(13))]
        return ['"int"'] if "(int)" in method or self.is_so(0.2) else []

    def publication(self):
        name, signal = self.choice(NAMES), self.method(1)
        if self.is_so(0.8):
            name, signal = self.choice((('"ping"', '"ping()"'), ('"ping"', '"ping()"'), ('"x"', '"xChanged(int)"')))
        return [("object", self.old_object()), ("signal", signal), ("name", name)]

    def join_ends(self):
        """What a join is called by."""
        method = self.choice(JOINED) if self.is_so(0.8) else self.method(0.2)
        return [("from", self.session()), ("name", self.choice(NAMES)), ("object", self.old_object()), ("method", method)]

    def join(self):
        ends = self.join_ends()
        return [*ends, ("types", f"[{','.join(self.types(ends[-1][1]))}]")]

    def binding(self):
        """An expression, most times one that a binding may have."""
        if self.is_so(0.1):
            return self.value()
        makes = {"NAME": lambda: self.choice(BOUND), "NUMBER": self.number, "OBJECT": self.old_object}
        return HOLE.sub(lambda hole: makes[hole[0]](), self.choice(FORMS))

    def bound_property(self):
        return [("object", self.old_object()), ("property", f'"{self.choice(BOUND)}"')]

    def place(self):
        """What is said of a bound property, most times in form."""
        members = [*self.bound_property()]
        if self.is_so(0.1):
            members.append((self.choice(KEYS), self.value()))
        return "{" + ",".join(f'"{key}":{value}' for key, value in members) + "}"

    def members_of(self, word):
        """The members of a command in form, except its word and its session."""
        own = {
            "bind": lambda: [*self.bound_property(), ("to", self.binding())],
            "block": lambda: [("object", self.object()), ("on", "true" if self.is_so(0.2) else "false")],
            "connect": self.connection,
            "connectFunctor": self.functor_connection,
            "delete": lambda: [("object", str(self.randint(1, OBJECTS)))],
            "deleteLater": lambda: [("object", str(self.randint(1, OBJECTS)))],
            "disconnect": self.disconnection,
            "get": lambda: [("object", self.object()), ("property", self.property_name())],
            "invoke": self.invocation,
            "join": self.join,
            "leave": self.join_ends,
            "publish": self.publication,
            "set": self.written_property,
            "setParent": lambda: [("object", self.object()), ("parent", self.choice((self.object(), "null")))],
            "unpublish": lambda: [("name", self.choice(NAMES))],
        }
        return own[word]() if word in own else self.usual_members(KNOWN.get(word, ()))

    def written_property(self):
        """A property and its value."""
        name = self.property_name()
        value = self.number() if name == '"x"' and self.is_so(0.7) else self.value()
        return [("object", self.object()), ("property", name), ("value", value)]

    def usual_members(self, keys):
        """The members of a command that has nothing special about it: those that it needs, and by half the others."""
        found = [it for it in keys if not it.is_optional or self.is_so(0.5)]
        if "property" in [it.name for it in found]:
            return self.bound_property()
        return [(it.name, self.value_for(it)) for it in found]

    def value_for(self, key):
        """What a key of such a command holds."""
        if key.kind == "place":
            return self.place()
        if key.kind == "number":
            return self.object() if key.name != "after" else str(self.randint(0, CONNECTIONS))
        return self.choice(CLASSES) if key.name == "class" else self.text()

    def members(self):
        """The members of a command, which may be out of form."""
        word = self.word()
        members = [("do", f'"{self.spelled(word)}"'), ("session", self.session()), *self.members_of(word)]
        if self.is_so(0.15):
            at = self.randrange(len(members))
            members[at] = (members[at][0], self.value())
        if self.is_so(0.2):
            members.append((self.choice(KEYS), self.value()))
        if self.is_so(0.1):
            members.append(self.choice(members))
        if self.is_so(0.1):
            members.pop(self.randrange(len(members)))
        if self.is_so(0.7):
            self.shuffle(members)
        return members

    def changed(self, line):
        """The line with some bytes changed, left out, put in or repeated."""
        line = bytearray(line)
        for _ in range(self.randint(1, 3)):
            at = self.randrange(len(line) + 1)
            new = bytes([self.choice(PIECES) if self.is_so(0.8) else self.choice(BYTES)])
            line[at : at + self.randrange(2)] = self.choice((b"", new, new, line[max(0, at - 5) : at]))
        return bytes(line).replace(b"\n", b" ")

    def line(self):
        self.made += 1
        has_space = self.is_so(0.3)
        space = (lambda: self.choice(SPACES)) if has_space else (lambda: "")
        members = ",".join(f'{space()}"{key}"{space()}:{space()}{value}{space()}' for key, value in self.members())
        line = f"{space()}{{{members}}}{space()}".encode()
        return self.changed(line) if self.is_so(0.25) else line

    def long_line(self, size):
        """A line of so many bytes, filled up with spaces or with a text, or blank."""
        if self.is_so(0.2):
            return bytes(self.choices(BLANK, k=size))
        line = self.line()
        if self.is_so(0.5):
            return line.ljust(size)
        front = f'{{"do":"set","object":{self.object()},"property":"objectName","session":{self.session()},"value":"'.encode()
        return front.ljust(size - 2, b"x") + b'"}'


def lines_of(chance, number=LINES):
    """So many lines, with long ones at regular places: in turn of the longest allowed length, and of one byte over that."""
    each = LINES // LONG
    return [
        chance.line() if at % each else chance.long_line(LINE_BYTES + at // each % 2)
        for at in range(1, number + 1)
    ]
