"""Servers that hold back their answers: whose command is given next, and to which worker, whoever waits where."""

import json
import os
import select
import signal
from pathlib import Path

from tests.support.lines import text_of

from .fronts import STATUS, Client, reply
from .grouped import servers_of, wait_until
from .held import HeldCases, groups_on

SPIN = '{"do":"spin"}'

FULL = 4  # clients whose commands fill what may be under way with a worker
OF_EACH = 8
EARLIER = 20  # commands that the first worker has done more than the second
MOVED = 40


class Places(HeldCases):
    """Clients that wait with one worker when their group moves to another one, where they wait again."""

    def test_moved(self):
        """A command that waits when its group moves is given to the new worker alone.

        Both workers are full, so all of the moved clients wait: first with the one and then with the other. With the
        second one a place goes to somebody else before each move. So whatever numbers the front gives to places, one of
        these clients has the same number with both workers, and its old place must not stand for its new one.
        """
        with self.held_workers(2) as (path, _, (first, second)):
            ones, others = groups_on(1, 2, MOVED, "a"), groups_on(2, 2, MOVED, "b")
            fillers = [[self.greeted(path, group) for group in groups_on(at, 2, FULL, "f")] for at in (1, 2)]
            for _ in range(EARLIER):
                fillers[0][0].ask(STATUS)
            moved = [self.greeted(path, group) for group in ones]
            late = [self.greeted(path, group) for group in others]
            self.hold(first, second)
            for filler in [*fillers[0], *fillers[1]]:
                filler.say(*[STATUS] * OF_EACH)
            self.places()
            for client in moved:
                client.say(STATUS)
                self.places()
            for client, group in zip(late, ones):
                client.say(STATUS)
                self.places()
                answer = self.ask_front(front="move", group=group, worker=2)
                self.assertEqual(answer, {"reply": True, "group": group, "worker": 2}, "a move")
            self.let(first)
            for filler in fillers[0]:
                self.assertEqual(self.told_by(filler, OF_EACH), [first] * OF_EACH, "those that have stayed")
            self.places()
            self.let(second)
            for group, client in zip(ones, moved):
                self.assertEqual(self.told_by(client, 1), [second], f"who answers {group}")
                self.assertEqual(client.rest(), [], "nothing else")


class Newcomers(HeldCases):
    """New clients next to one that waits."""

    def test_order(self):
        """However many new clients come, each for one command, one that has waited before them goes first."""
        record = Path(self.room, "record")
        with self.held_front("--record", record) as (path, number):
            fillers = [self.enterContext(Client(path)) for _ in range(FULL)]
            waits = self.enterContext(Client(path))
            for _ in range(EARLIER):
                for client in (*fillers, waits):
                    client.ask(STATUS)
            self.hold(number)
            before = len(record.read_text().splitlines())
            for filler in fillers:
                filler.say(*[STATUS] * OF_EACH)
            wait_until(self, lambda: len(record.read_text().splitlines()) == before + FULL * OF_EACH, "all that may be is under way")
            waits.say(SPIN)
            come = [self.enterContext(Client(path)) for _ in range(MOVED)]
            for client in come:
                client.say(SPIN)
            self.assertEqual(select.select([it.link for it in (waits, *come)], [], [], 0.5)[0], [], "who is answered meanwhile")
            self.let(number)
            for client in (waits, *come):
                self.assertIn('"reply":true', client.hear(), "its answer")
        given = [json.loads(line)["session"] for line in record.read_text().splitlines() if '"spin"' in line]
        self.assertEqual((given[0], len(given)), (f"c{FULL + 1}", 1 + MOVED), "who was first")


class Ends(HeldCases):
    """A worker that ends again and again while groups move to it."""

    def test_moves_to_it(self):
        """The worker's own groups are not lost by that: they are brought back each time."""
        with self.held_workers(2) as (path, process, (first, _)), Client(self.control_path) as operator:
            comers = groups_on(1, 2, 2, "a")
            for group in comers:
                self.assertIn('"reply":true', self.greeted(path, group).ask(SPIN), "one that is to move")
            (own,) = groups_on(2, 2, 1, "b")
            client = self.greeted(path, own)
            name = f"{own}__c5"
            for at in range(8):
                self.assertEqual(client.ask(SPIN), reply(True, name), "one that stays")
                (second,) = set(servers_of(process)) - {first}
                self.hold(second)
                asked = {"front": "move", "group": comers[at % 2], "worker": 2}
                operator.say(text_of(asked), '{"front":"groups"}')
                self.assertIn("workers", json.loads(operator.hear()), "the move is under way")
                os.kill(second, signal.SIGKILL)
                self.assertEqual(json.loads(operator.hear())["error"], "F09", "the move")
                self.let(second)
