"""Records of live sessions, which have the front's own spins as commands of the sessions, and the tools that read them."""

import json
import subprocess
import sys
from pathlib import Path

import metad

from . import CLIENTS
from .fronts import PATIENCE, FrontCases
from .test_client_live import listening, seen

MARKED = """{"args":[1],"call":"seen(int)","object":1,"sender":0,"session":"c2"}
{"front":"spin","reply":{"events":1,"left":0,"lost":0,"mismatched":0},"session":"c2"}
{"reply":1,"session":"c2"}
{"error":"E21","front":"spin","session":"c2"}
"""
EXPLAINED = """{"args":[1],"call":"seen(int)","object":1,"sender":0,"session":"c2"}
    session c2: object 1: slot seen(int) called by a command or a post, argument 1
{"front":"spin","reply":{"events":1,"left":0,"lost":0,"mismatched":0},"session":"c2"}
    session c2: by the front's own spin: 1 event taken, none left; since the session began no call lost, no post mismatched
{"reply":1,"session":"c2"}
    session c2: done, and the reply is 1
{"error":"E21","front":"spin","session":"c2"}
    session c2: the front's own spin is refused, E21: """


class Records(FrontCases):
    """The front's records of live sessions."""

    def tool(self, name, *words, given=""):
        """The output of a tool, which has to succeed."""
        words = [sys.executable, CLIENTS / name, *words]
        ran = subprocess.run(words, input=given, capture_output=True, text=True, timeout=PATIENCE)
        self.assertEqual((ran.returncode, ran.stderr), (0, ""), f"the end of {name}: {ran.stdout}")
        return ran.stdout

    def recorded(self):
        """A record of a guest that hears a host three times, and the lines that the guest received."""
        record, heard = Path(self.room, "record"), []
        with self.front(options=("--quiet", "--record", record)) as (path, _):
            with metad.connect(path, live=True) as one, metad.connect(path, live=True) as other:
                host, guest = one.session("host"), other.session("guest", heard.append)
                listening(host, guest)
                for value in (1, 2, 3):
                    host.set(1, "x", value)
                    guest.wait_for(lambda: len(heard) == value, PATIENCE)
        return record, heard

    def test_tools(self):
        """A record gives the same again, `slice` finds what decides a session, and `explain` finds each command's answer."""
        record, heard = self.recorded()
        given = record.read_text()
        told = subprocess.run([self.program], input=given, capture_output=True, text=True, timeout=PATIENCE, check=True).stdout
        calls = [it for it in map(json.loads, told.splitlines()) if "call" in it]
        self.assertEqual([metad.Call(it["object"], it["call"], it["args"], it["sender"]) for it in calls], heard, "the calls")
        self.assertEqual(heard, [seen(value) for value in (1, 2, 3)], "what was heard")
        sliced = self.tool("slice", "--metad", self.program, str(record), "c2")
        self.assertIn("the slice tells c2 the same", sliced, "the comparison of the slice")
        self.assertIn('+ {"do":"spin","session":"c2"}', sliced, "the front's own spins are in it")
        explained = self.tool("explain", "--commands", str(record), "--tree", given=told)
        self.assertEqual(explained.count('> {"do":"spin","session":"c2"}'), given.count('{"do":"spin","session":"c2"}'), "its spins")
        self.assertNotIn("not a line of metad", explained, "what is not known")

    def test_marked(self):
        """`explain` reads the lines that a front marks, which a live client has received."""
        self.assertTrue(self.tool("explain", given=MARKED).startswith(EXPLAINED), "what is said of them")
