"""How the inspector compares its clock with the front's (clients/inspecting/world.py)."""

import time
from unittest import mock

from inspecting import feed, world
from inspecting.classes import Classes
from inspecting.feed import Asking, Feed
from inspecting.views import summary
from inspecting.world import World

from tests.support.cases import Cases

from .fronts import Client
from .inspectors import InspectCases

SECOND = 1_000_000
STARTED = 5_000 * SECOND  # what the clock of the machine shows when the front starts


def late_in(said):
    """How far what is shown is late, as the page is given it: the only number that is named so."""
    return next(value for key, value in said.items() if key.startswith("beh"))


class Clock(Cases):
    """A front whose clock begins at its own start, long after the machine's."""

    def setUp(self):
        self.world = World(Classes(None))
        self.world.is_live = True
        self.feed = Feed(self.world, Asking(None))

    def take(self, told, here):
        """Takes a line that the front has sent at a time of its clock, at a time of the machine's."""
        with mock.patch.object(feed, "monotonic_ns", lambda: (STARTED + here) * 1_000):
            self.feed.take(b'@%d\n>{"session":"a","do":"status"}\n{"reply":{},"session":"a"}\n' % told)

    def clock(self, here):
        with mock.patch.object(world, "monotonic_ns", lambda: (STARTED + here) * 1_000):
            return self.world.clock()

    def test_late(self):
        """Lines that come as soon as others are not late; those that come later are."""
        self.take(1 * SECOND, 1 * SECOND + 300)
        self.assertEqual(late_in(summary(self.world)), 0)
        self.take(2 * SECOND, 5 * SECOND + 300)
        self.assertEqual(late_in(summary(self.world)), 3 * SECOND)
        self.take(6 * SECOND, 6 * SECOND + 200)
        self.assertEqual(late_in(summary(self.world)), 0)

    def test_rate(self):
        """The time goes on where no line comes, so that the lines per second of a silent session become 0."""
        self.take(1 * SECOND, 1 * SECOND)
        session = self.world.sessions["a"]
        self.assertEqual(session.rate(self.clock(2 * SECOND) // SECOND), 2)
        self.assertEqual(session.rate(self.clock(9 * SECOND) // SECOND), 0)


class Shown(InspectCases):
    """A front on this machine."""

    def test_not_late(self):
        """The page of a front that has just started is not late, and shows no lines per second once they have ended."""
        with self.shown() as (path, _, asker), Client(path) as client:
            client.ask('{"do":"new","class":"Cell"}')
            asker.until(self, lambda it: it["commands"] == 1 and late_in(it) == 0, "about")
            time.sleep(2.1)  # after which its lines are not of the last second any more
            asker.until(self, lambda it: it["rate"] == 0, "about")
            asker.until(self, lambda it: it["rows"][0]["rate"] == 0, "sessions")
