"""A front with one worker that is shown as a page, also where that worker is brought back."""

import os
import signal
from pathlib import Path

from .fronts import NEW, Client, reply
from .grouped import hello, servers_of
from .inspectors import InspectCases

OBJECTS = 40


class Shown(InspectCases):
    """What the page shows of sessions with one worker."""

    def wait_until_shown(self, asker, objects):
        """Waits until this is shown of the objects of all sessions."""
        asker.until(self, lambda it: {row["name"]: row["objects"] for row in it["rows"]} == objects, "sessions")

    def test_brought_back(self):
        """What a worker is given and tells as it is brought back is not shown once more."""
        options = ("--workers", "1", "--record", str(Path(self.room, "records")), "--inspect-ask")
        with self.shown(options=options) as (path, process, asker), Client(path) as one, Client(path) as other:
            self.assertEqual(one.ask(hello("desk")), reply(True, "desk__c1"), "a hello")
            for number in range(1, OBJECTS + 1):
                self.assertEqual(one.ask(NEW), reply(number, "desk__c1"), "an object")
            self.assertEqual(other.ask(NEW), reply(1, "c2"), "one of another group")
            self.wait_until_shown(asker, {"desk__c1": [OBJECTS, True], "c2": [1, True]})
            one.say(*[NEW] * 200)
            os.kill(servers_of(process)[0], signal.SIGKILL)
            told = [one.hear() for _ in range(200)]
            self.assertEqual(told, [reply(number, "desk__c1") for number in range(OBJECTS + 1, OBJECTS + 201)], "what the client receives")
            self.assertEqual(other.ask(NEW), reply(2, "c2"), "the other group")
            self.wait_until_shown(asker, {"desk__c1": [OBJECTS + 200, True], "c2": [2, True]})
            said = asker.ask("c2", do="children")
            self.assertEqual(said["answer"], reply([1, 2], "c2"), "what the page asks")
