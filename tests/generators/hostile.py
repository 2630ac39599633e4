"""Lines of somebody who means no good: those of `chance`, most of them spoiled.

They have bits turned, bytes cut out of them, the end of another line, a number at a border in place of one of theirs, keys
that no command has, and lists and objects in one another, about as deep as JSON is read or much deeper; some came before,
and some are bytes alone. What remains in form keeps sessions going, so that they have something to lose.
"""

from __future__ import annotations

import re

from . import chance

LINES = 20_000  # of a piece
KEPT = 50  # lines that came before and may come again
DEEP = (1, 2, 64, 126, 127, 128, 129, 200, 5_000)
KEYS = ("x", "do", "session", "object", "\\u0064o", "sessions", "", "__proto__", "n" * 65, "\\ud800", "\\u0000")
BORDERS = (
    *("0", "-0", "-1", "63", "64", "65", "4095", "4096", "4097", "16383", "16384", "16385", "2147483647", "2147483648"),
    *("-2147483648", "-2147483649", "4294967294", "4294967295", "4294967296", "9007199254740993", "9223372036854775807"),
    *("9223372036854775808", "-9223372036854775808", "-9223372036854775809", "18446744073709551615", "18446744073709551616"),
    *("1e308", "1e309", "-1e309", "5e-324", "1e-400", "0." + "0" * 400 + "1", "9" * 400, "1" + "0" * 5_000, "0.1e1", "1E+2"),
)
NUMBER = re.compile(rb"(?<=[:,\[])-?[0-9]+(?=[,}\]])")
LONG_SHARE = 0.0005
FIRST = 30  # lines at the start of sessions, each making an object
SPOILED = (0, 0, 0, 1, 1, 2)  # times that a line is


class Chance(chance.Chance):
    """Random lines that are spoiled in some way."""

    def __init__(self, seed: str) -> None:
        super().__init__(seed)
        self.came: list[bytes] = []

    def flipped(self, line: bytes) -> bytes:
        """Some bits are turned."""
        spoiled = bytearray(line or b" ")
        for _ in range(self.choice((1, 1, 2, 8))):
            spoiled[self.randrange(len(spoiled))] ^= 1 << self.randrange(8)
        return bytes(spoiled)

    def cut(self, line: bytes) -> bytes:
        """Its end, its beginning or its middle is missing."""
        first, last = sorted(self.randrange(len(line) + 1) for _ in "ab")
        return self.choice((line[:first], line[last:], line[:first] + line[last:]))

    def spliced(self, line: bytes) -> bytes:
        """It ends as another line that came."""
        other = self.again(line)
        return line[: self.randrange(len(line) + 1)] + other[self.randrange(len(other) + 1) :]

    def again(self, line: bytes) -> bytes:
        return self.choice(self.came) if self.came else line

    def at_border(self, line: bytes) -> bytes:
        """One of its numbers is another one."""
        found = list(NUMBER.finditer(line))
        if not found:
            return line
        at = self.choice(found)
        return line[: at.start()] + self.choice(BORDERS).encode() + line[at.end() :]

    def with_keys(self, line: bytes) -> bytes:
        """Puts keys before its own."""
        keys = "".join(f'"{self.choice(KEYS)}":{self.value()},' for _ in range(self.randint(1, 3)))
        return line.replace(b"{", b"{" + keys.encode(), 1)

    def nested(self, line: bytes) -> bytes:
        """What a key has is nested, and may not be closed."""
        depth = self.choice(DEEP)
        opening, closing = self.choice((("[", "]"), ('{"k":', "}"), ('[{"k":', "}]"), ('{"+":[', "]}"), ('{"if":[', "]}")))
        value = opening * depth + self.choice(("1", "", '"x"')) + closing * self.choice((depth, depth, depth, depth - 1, depth + 1))
        return line.replace(b":", b":" + value.encode() + self.choice((b"", b",")), 1) if self.is_so(0.5) else self.with_value(line, value)

    def with_value(self, line: bytes, value: str) -> bytes:
        """The last of its members has another value."""
        front, colon, _ = line.rpartition(b":")
        return front + colon + value.encode() + b"}"

    def bytes_alone(self, _line: bytes) -> bytes:
        return self.randbytes(self.randrange(200)) if self.is_so(0.5) else bytes(self.choices(chance.PIECES, k=self.randrange(200)))

    def spoiled(self, line: bytes) -> bytes:
        """The line, most times spoiled in one way or in two."""
        ways = (self.flipped, self.cut, self.spliced, self.again, self.at_border, self.at_border, self.with_keys, self.nested, self.bytes_alone)
        for _ in range(self.choice(SPOILED)):
            line = self.choice(ways)(line)
        return line.replace(b"\n", b" ")

    def first_line(self) -> bytes:
        self.made += 1
        return f'{{"class":{self.choice(chance.CLASSES[:18])},"do":"new","session":{self.session()}}}'.encode()

    def hostile_line(self) -> bytes:
        if self.made % chance.LINES_OF_SESSIONS < FIRST:
            return self.first_line()
        line = self.long_line(chance.LINE_BYTES + self.randint(-1, 1)) if self.is_so(LONG_SHARE) else self.line()
        line = self.spoiled(line)
        self.came = [*self.came[-KEPT:], line[: chance.LINE_BYTES]]
        return line


def piece_of(seed: str, number: int, lines: int = LINES) -> list[bytes]:
    """The lines of the piece of this number, which are the same each time."""
    made = Chance(f"{seed} {number}")
    return [made.hostile_line() for _ in range(lines)]
