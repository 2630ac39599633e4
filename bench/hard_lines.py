"""Lines that no honest client writes, mixed with some honest ones, and what a program alone is given instead."""

from __future__ import annotations

import json
import random
import subprocess
from typing import Any, List

OBJECTS, LINE_MOST = 12, 65_536
PIECES = (
    "{", "}", "[", "]", ",", ":", '"', "\\", " ", "\t", "\r", "-", "1", "1e9", "NaN", "null", "true", '"do"', '"reset"', '"set"',
    '"session"', '"c1"', '"front"', '"share"', '"hello"', '"live"', '"from"', '"\\u0073ession"', "\ufeff", "\u202e", "\x00", "é",
)  # fmt: skip
FORMS = (
    '{%(get)s,"session":"%(own)s"}', '{"session":"%(own)s",%(get)s}', '{%(get)s,"session":"%(own)s","session":"%(own)s"}',
    '{%(get)s,"\\u0073ession":"%(own)s"}', '{%(get)s,"session":"\\u0063\\u0031"}', '{%(get)s}{%(get)s,"session":"%(own)s"}',
    '{%(get)s,"x":{"session":"%(own)s"}}', '{%(get)s,"session":"%(own)s"', '%(get)s,"session":"%(own)s"}',
    '[{%(get)s,"session":"%(own)s"}]', '{%(get)s,"session":"%(own)s"} ', ' {%(get)s,"session":"%(own)s"}\t',
    '{%(get)s,"session":["%(own)s"]}', '{%(get)s,"session":null,"session":"%(own)s"}', '"{%(get)s,\\"session\\":\\"%(own)s\\"}"',
    '{"do":"reset","session":"%(own)s"}\r{"do":"reset","session":"%(own)s"}', '{%(get)s,"session":"%(own)s"}//',
    '{%(get)s,"session":"%(own)s",}', '{,%(get)s,"session":"%(own)s"}', '{"a":"}",%(get)s,"session":"%(own)s"}',
    '{"a":"\\"",%(get)s,"session":"%(own)s"}', '{"a":"\\\\",%(get)s,"session":"%(own)s"}', '{"front":"share","session":"%(own)s"}',
    '{"front":"hello","group":"%(own)s"}', '{"front":"monitor","session":"%(own)s"}', '{"front":"spin","session":"%(own)s"}',
    '{%(get)s,"front":"hello","session":"%(own)s"}', '{%(get)s,"session":"%(own)s\x00"}', '{%(get)s,"session\x00":"%(own)s"}',
    '{%(get)s,"session":"front__health"}', '{"\\u0066ront":"hello","live":true}', '{%(get)s,"Session":"%(own)s"}',
    '{%(get)s}\u2028{"do":"reset","session":"%(own)s"}',
)  # fmt: skip


class Strange(ValueError):
    """A word that is not JSON."""


def strange(word: str) -> None:
    raise Strange(word)


class Lines(random.Random):
    """Makes the lines of one client, which names the others in them."""

    others: List[str] = []

    def line(self) -> bytes:
        """A line, without its end."""
        kind = self.random()
        if kind < 0.2:
            forged = self.choice(FORMS) % {"own": self.choice(self.others), "get": '"do":"reset"'}
            return forged.encode()
        if kind < 0.3:
            return self.getrandbits(480).to_bytes(60, "big")[: self.randrange(60)].replace(b"\n", b"")
        if kind < 0.3005:
            return self.long()
        if kind < 0.6:
            text = "".join(self.choices(PIECES, k=self.randrange(12)))
            return (f"{{{text}}}" if self.random() < 0.5 else text).encode()
        return json.dumps({**self.command(), "session": self.choice(self.others)}).encode()

    def long(self) -> bytes:
        """A line of about the greatest length that is allowed."""
        return b'{"do":"status"' + b" " * (LINE_MOST - 60 + self.randrange(90)) + b"}"

    def command(self) -> dict[str, Any]:
        """A command that a client may really give."""
        number, other = self.randrange(1, OBJECTS), self.randrange(1, OBJECTS)
        return self.choice((
            {"do": "new", "class": "Cell"}, {"do": "new", "class": "Probe", "parent": number}, {"do": "children", "object": number},
            {"do": "set", "object": number, "property": "x", "value": other}, {"do": "get", "object": number, "property": "x"},
            {"do": "connect", "sender": number, "signal": "xChanged(int)", "receiver": other, "method": "seen(int)"},
            {"do": "invoke", "object": number, "method": "setX(int)", "args": [other], "type": "queued"}, {"do": "spin"},
            {"do": "delete", "object": number} if self.random() < 0.2 else {"do": "status"},
        ))  # fmt: skip


def object_in(line: bytes) -> Any:
    """The object in a line, as any reader of JSON reads it; None if the line is no object."""
    try:
        found = json.loads(line.strip(b" \t\r").decode(), parse_constant=strange)
    except (ValueError, RecursionError):
        return None
    return found if isinstance(found, dict) else None


def with_session(line: bytes, name: str) -> bytes:
    """A line as the server gets it for the client's own session: an object names that session, and all else is unchanged."""
    found = object_in(line)
    if found is None:
        return line
    inside = line.strip(b" \t\r")[:-1]
    made = inside + (b"," if found else b"") + b'"session":"%s"}' % name.encode()
    assert object_in(made) == {**found, "session": name}, line
    return made


def told_alone(program: str, lines: List[bytes], name: str) -> List[bytes]:
    """The lines that the program writes when it is given one client's lines alone."""
    given = b"".join(with_session(line, name) + b"\n" for line in lines)
    ran = subprocess.run([program], input=given, stdout=subprocess.PIPE, check=True)
    return ran.stdout.splitlines(keepends=True)
