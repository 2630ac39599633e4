"""Random lines and forgeries of several clients at once: each line is answered once, and acts in no other session."""

import json
import random
import socket
import sys
import threading

from tests.support.program import ROOT
from tests.support.seeds import seed_of

from .fronts import NEW, STATUS, Client, FrontCases

sys.path.append(str(ROOT / "bench"))
import hard_lines  # noqa: E402

LINES = 4_000  # of each of the clients that write rubbish
CLIENTS = 4
FORMS = 26  # the first ones of forged lines, which are about sessions of clients
FORGERIES = tuple(form % {"own": "c1", "get": '"do":"reset"'} for form in hard_lines.FORMS[:FORMS])


class Rubbish(FrontCases):
    """Clients that write rubbish, cut at any byte."""

    def test_random(self):
        """No line acts in the session of another client, each line is answered once, and the front continues."""
        seed = seed_of(self)
        with self.front() as (path, _), Client(path) as victim:
            self.assertEqual(json.loads(victim.ask(NEW)), {"reply": 1, "session": "c1"}, "an object")
            faults = []
            threads = [threading.Thread(target=self.live, args=(path, f"{seed} {at}", faults)) for at in range(CLIENTS)]
            for thread in threads:
                thread.start()
            number = 1
            while any(thread.is_alive() for thread in threads):
                number += 1
                self.assertEqual(json.loads(victim.ask(NEW)), {"reply": number, "session": "c1"}, f"the other one, {seed}")
            for thread in threads:
                thread.join()
            self.assertEqual(faults, [], f"SEED={seed}")
            self.assertEqual(json.loads(victim.ask(STATUS))["reply"]["objects"], number, f"its objects, SEED={seed}")

    def live(self, path, seed, faults):
        """The lines that one client writes and receives."""
        chance = random.Random(seed)
        lines = [self.line(chance) for _ in range(LINES)]
        given = NEW.encode() + b"\n" + b"".join(line + b"\n" for line in lines)
        asked = 1 + sum(bool(line.strip(b" \t\r")) for line in lines)
        with Client(path) as client:
            writer = threading.Thread(target=self.write, args=(client.link, given, chance))
            writer.start()
            told = client.reader.read().decode().splitlines()
            writer.join()
        first = json.loads(told[0])["session"]
        whose = {json.loads(line)["session"] for line in told}
        if len(told) != asked or not whose <= {first, "-"}:
            faults.append(f"{len(told)} answers to {asked} lines, for {whose}")

    def line(self, chance):
        if chance.random() < 0.2:
            return chance.choice(FORGERIES).encode()
        if chance.random() < 0.1:
            return chance.randbytes(chance.randrange(60)).replace(b"\n", b"")
        text = "".join(chance.choices(hard_lines.PIECES, k=chance.randrange(12)))
        return (f"{{{text}}}" if chance.random() < 0.5 else text).encode()

    def write(self, link, given, chance):
        """Writes all, in pieces that are cut anywhere."""
        at = 0
        while at < len(given):
            size = chance.choice((1, 7, 100, 5_000))
            link.sendall(given[at : at + size])
            at += size
        link.shutdown(socket.SHUT_WR)
