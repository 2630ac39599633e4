"""Random requests of a page, and random lines of its process, made to reach what they may not."""

import json
import random

from tools import protocol

WORDS = tuple(protocol.forms())
LOOKING = {it.word: [key.name for key in it.forms[0].keys] for it in protocol.all_commands() if it.effect == "reads"}
READING = tuple(LOOKING)
MEMBERS = {
    "object": 1, "property": "x", "value": 77, "method": "setX(int)", "args": [77], "class": "Cell", "parent": None, "type": "queued",
    "sender": 1, "receiver": 1, "signal": "xChanged(int)", "name": "n", "from": "c2", "types": ["int"], "on": True, "session": "c1",
    "to": {"const": 77}, "connection": 1, "after": {"object": 1, "property": "x"},
}  # fmt: skip
METHODS = ("PUT", "DELETE", "OPTIONS", "HEAD", "PATCH", "TRACE", "CONNECT", "get", "P\x00ST", "")
SET = '{"do":"set","object":1,"property":"x","value":77}'
JSON_TYPE = "Content-Type: application/json\r\n"


class Hostile(random.Random):
    """Makes what nobody who is honest would send."""

    def command(self):
        """A command of any word, with some of its members, some wrong ones and values of wrong types."""
        if self.random() < 0.15:
            return {"do": "get", "object": self.randint(1, 3), "property": "x"}
        if self.random() < 0.2:
            word = self.choice(sorted(LOOKING))
            return {"do": word, **{key: MEMBERS[key] for key in LOOKING[word]}}
        found = {"do": self.choice(WORDS)}
        for key in self.sample(sorted(MEMBERS), self.randint(0, 6)):
            found[key] = MEMBERS[key] if self.random() < 0.7 else self.wrong()
        if found["do"] in ("set", "invoke", "get") and self.random() < 0.7:
            found.update({key: MEMBERS[key] for key in ("object", "property", "value", "method", "args")})
        if self.random() < 0.1:
            found["do"] = self.wrong()
        return found

    def wrong(self):
        """A value that belongs nowhere."""
        return self.choice((
            None, True, -1, 0, 2**70, 1.5, 1e300, "", "\ud800", "\u202e", "a\nb", [], {}, [[1]], {"json": "77"}, {"json": '"set"'},
            {"json": "[" * 300}, {"json": 5}, {"do": "set"}, "x" * 5_000, self.nested(self.randint(1, 400)),
        ))  # fmt: skip

    def nested(self, levels):
        """Arrays within one another."""
        found = []
        for _ in range(levels):
            found = [found]
        return found

    def session(self):
        """A name of a session, mostly none."""
        return self.choice((
            "c1", "c1", "c2", "team", "c1 ", " c1", "c1\n", "c1\r", "", "-", "c1\0", "ä", "x" * 65, "x" * 5_000, f"c1 {SET}\n7 c1",
            f"c1 {SET}\n7 c1 {SET}\n8 c1", "x\nboom", "\n\n\n", "c1\u2028", "\ud800", None, 1, True, [], ["c1"], {}, {"c1": 1}, f"c1 {SET}",
        ))  # fmt: skip

    def body(self):
        """A body of a request."""
        kind = self.randint(0, 9)
        if kind < 6:
            return json.dumps({"session": self.session(), "command": self.command()}).encode()
        if kind == 6:
            return json.dumps(self.choice((self.wrong(), [self.command()], {"session": "c1"}, {"to": self.wrong()}, {"command": 5}))).encode()
        if kind == 7:
            return self.choice((b"[", b'{"a":', b"[{")) * self.choice((1, 200, 10_000))
        whole = json.dumps({"session": "c1", "command": json.loads(SET)}).encode()
        return self.mutated(whole) if kind == 8 else self.randbytes_of(self.choice((0, 10, 1_000, 65_536, 200_000)))

    def randbytes_of(self, count):
        return self.getrandbits(8 * count).to_bytes(count, "big") if count else b""

    def mutated(self, line):
        """A line with some bytes changed, taken out or put in."""
        made = bytearray(line)
        for _ in range(self.randint(1, 4)):
            at, what = self.randrange(len(made) + 1), self.choice((b"\n", b" ", b"\0", b"\xff", b"0", b"{", b'"', b""))
            made[at : at + self.randint(0, 2)] = what
        return bytes(made)

    def request(self, path):
        """A request as bytes, and whether it has the form of HTTP and the right token, so that it is to be answered."""
        body, kind = self.body(), self.randint(0, 9)
        where = path + self.choice(("ask", "ask", "ask", "ask", "ask_tree", "step", "ask?session=c1", "sessions", "../ask", ""))
        head = f"Host: 127.0.0.1\r\n{JSON_TYPE}Connection: close\r\nContent-Length: {len(body)}\r\n"
        method, is_right = "POST", True
        if kind == 0:
            method, is_right = self.choice(METHODS), False
        elif kind == 1:
            where, is_right = self.choice(("/", "//", "//[", "/x/ask", path[:-2] + "/ask", f"/ask{path}", "/" + "x" * 70_000)), False
        elif kind == 2:
            count = self.choice(("", "-1", "+5", "1_0", "x", "9" * 30, str(len(body) + 1_000), "0", "²"))
            head, is_right = f"{JSON_TYPE}Connection: close\r\nContent-Length: {count}\r\n", False
        elif kind == 3:
            head, is_right = self.choice(("", JSON_TYPE, "Transfer-Encoding: chunked\r\n" + head, "x" * 300_000, "a: b\r\n" * 200)), False
        return f"{method} {where} HTTP/1.1\r\n{head}\r\n".encode() + body, is_right

    def line(self):
        """What the page's process might write to the front, from garbage to what it may."""
        number = self.choice(("1", "7", str(self.randrange(1, 10**6)), "0", "-1", "+1", "1_0", "9" * 40, "", "boom", "¹", "1.0"))
        session = str(self.session()).encode("utf-8", "surrogatepass")
        text = json.dumps(self.command() if self.random() < 0.8 else self.wrong()).encode()
        whole = b"%s %s %s" % (number.encode(), session, text)
        kind = self.randint(0, 9)
        if kind == 0:
            return self.randbytes_of(self.choice((1, 10, 1_000, 70_000)))
        if kind == 1:
            return b"%s %s %s" % (b"1", b"c1", self.choice((b'{"do":', b"[", b'{"value":NaN,"do":"set"}', b'{"do":"get","do":"set"}', b"\xff", b"{}")))
        if kind == 2:
            return b"1 c1 " + self.choice((b"[", b'{"do":"set","value":[', b" ")) * self.choice((300, 40_000, 70_000))
        if kind == 3:
            return self.mutated(b"1 c1 " + SET.encode())
        if kind == 4:
            return b"%d c1 %s" % (self.randrange(1, 100), json.dumps({"do": self.choice(READING), "object": 1}).encode())
        return whole
