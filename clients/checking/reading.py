"""Reading JSON as metad reads it, with the place of each value.

That is the JSON of RFC 8259 in UTF-8 without a byte order mark, at most 127 levels deep, with no surrogate that is
alone and no number beyond all floats of 64 bits. A number is whole where it is written without a point and an exponent, is
not -0, and has 64 bits.
"""

from __future__ import annotations

import math
import re

from .nodes import Member, Members, Node
from .words import quoted

LEVELS = 127
DIGITS = 20  # of a whole number of 64 bits, with its sign
LEAST, MOST = -(2**63), 2**64 - 1
WHITE = re.compile(r"[ \t\n\r]*")
PLAIN = re.compile(r'[^"\\\x00-\x1f]*')
WORD = re.compile(r"[^ \t\n\r{}\[\]:,\"]+")
NUMBER = re.compile(r"-?(?:0|[1-9][0-9]*)(?:\.[0-9]+)?(?:[eE][-+]?[0-9]+)?")
UNIT = re.compile(r"\\u([0-9a-fA-F]{4})")
SHORT = {'"': '"', "\\": "\\", "/": "/", "b": "\b", "f": "\f", "n": "\n", "r": "\r", "t": "\t"}
LITERALS = {"true": True, "false": False, "null": None}
MARK = "\ufeff"


class NoJson(Exception):
    """Why a text is no JSON, and at which of its characters."""

    def __init__(self, at: int, words: str) -> None:
        super().__init__(words)
        self.at = at
        self.words = words


def read(text: str) -> Node:
    """The JSON that a text is; raises `NoJson` at its first fault."""
    return Reader(text).whole()


class Reader:
    """A text that is read, up to the character that is next."""

    def __init__(self, text: str) -> None:
        self.text = text
        self.at = 0

    def whole(self) -> Node:
        if self.text.startswith(MARK):
            raise NoJson(0, "the text begins with a byte order mark, which is no JSON")
        root = Node(0)
        self.value(root, 1)
        if self.next() != "":
            raise NoJson(self.at, f"the text goes on after its value, with {self.seen()}")
        return root

    def next(self) -> str:
        """The next character that is no white space, which is not passed; empty at the end."""
        found = WHITE.match(self.text, self.at)
        self.at = found.end() if found else self.at
        return self.text[self.at : self.at + 1]

    def seen(self) -> str:
        """What comes next, in words."""
        found = WORD.match(self.text, self.at)
        return quoted(found[0] if found else self.text[self.at : self.at + 1]) if self.at < len(self.text) else "the end"

    def value(self, node: Node, level: int) -> None:
        """Reads the value that comes next into a node; `level` is the depth of an array or object here."""
        mark = self.next()
        node.at = self.at
        if mark in ("[", "{"):
            if level > LEVELS:
                raise NoJson(self.at, f"arrays and objects are nested more than {LEVELS} levels deep")
            self.array(node, level) if mark == "[" else self.object(node, level)
        elif mark == '"':
            node.held = self.string()
        else:
            node.held = self.word()

    def array(self, node: Node, level: int) -> None:
        items: list[Node] = []
        node.held = items
        self.at += 1
        while self.has_more("]", not items):
            items.append(Node(self.at, node, len(items)))
            self.value(items[-1], level + 1)

    def object(self, node: Node, level: int) -> None:
        members = Members()
        node.held = members
        self.at += 1
        while self.has_more("}", not members.counted):
            key = self.key(node)
            value = Node(self.at, node, key.step)
            self.value(value, level + 1)
            members.put(Member(key, value))

    def has_more(self, end: str, is_first: bool) -> bool:
        """Whether an element or a member comes next, before the bracket that ends them; the comma before it is passed."""
        mark = self.next()
        if mark == end:
            self.at += 1
            return False
        if is_first:
            return True
        if mark != ",":
            raise NoJson(self.at, f"a comma or {end} is missing before {self.seen()}")
        comma = self.at
        self.at += 1
        if self.next() == end:
            raise NoJson(comma, f"there is a comma before {end}")
        return True

    def key(self, holder: Node) -> Node:
        """A key, with the colon after it."""
        if self.next() != '"':
            raise NoJson(self.at, f"a key is missing, a text in quotes, before {self.seen()}")
        at, name = self.at, self.string()
        key = Node(at, holder, name)
        key.held = name
        if self.next() != ":":
            raise NoJson(self.at, f"a colon is missing after the key {quoted(name)}, before {self.seen()}")
        self.at += 1
        return key

    def string(self) -> str:
        """A text in quotes."""
        start = self.at
        parts: list[str] = []
        self.at += 1
        while True:
            plain = PLAIN.match(self.text, self.at)
            parts.append(plain[0] if plain else "")
            self.at += len(parts[-1])
            mark = self.text[self.at : self.at + 1]
            if mark == "":
                raise NoJson(start, "this text has no quote at its end")
            if mark == '"':
                self.at += 1
                return "".join(parts)
            if mark != "\\":
                raise NoJson(self.at, f"the control character U+{ord(mark):04X} is in a text; it has to be escaped")
            parts.append(self.escape())

    def escape(self) -> str:
        """The character that an escape stands for."""
        start, mark = self.at, self.text[self.at + 1 : self.at + 2]
        if mark in SHORT:
            self.at += 2
            return SHORT[mark]
        high = self.unit()
        if not 0xD800 <= high < 0xE000:
            return chr(high)
        is_pair = high < 0xDC00 and self.text.startswith("\\u", self.at)
        low = self.unit() if is_pair else 0
        if not 0xDC00 <= low < 0xE000:
            raise NoJson(start, "half of a surrogate pair is alone, which is no character")
        return chr(0x10000 + (high - 0xD800) * 1024 + low - 0xDC00)

    def unit(self) -> int:
        found = UNIT.match(self.text, self.at)
        if found is None:
            raise NoJson(self.at, f"{quoted(self.text[self.at : self.at + 2])} begins no escape of JSON")
        self.at = found.end()
        return int(found[1], 16)

    def word(self) -> None | bool | int | float:
        """A number, or one of the three words of JSON."""
        found = WORD.match(self.text, self.at)
        if found is None:
            raise NoJson(self.at, f"a value is missing before {self.seen()}")
        word = found[0]
        if word not in LITERALS and not NUMBER.fullmatch(word):
            raise NoJson(self.at, f"{quoted(word)} is no value of JSON")
        start, self.at = self.at, found.end()
        return LITERALS[word] if word in LITERALS else number(word, start)


def number(word: str, at: int) -> int | float:
    """The number that a word spells: a whole one of 64 bits, or else a float."""
    is_whole = not set(word) & set(".eE") and word != "-0" and len(word) <= DIGITS
    if is_whole and LEAST <= int(word) <= MOST:
        return int(word)
    made = float(word)
    if not math.isfinite(made):
        raise NoJson(at, f"{quoted(word)} is beyond all numbers that are read")
    return made
