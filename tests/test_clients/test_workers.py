"""A front with several workers: on random runs, its sessions receive the same as from one server."""

from tests.support.seeds import seed_of

from .grouped import Greeted, Named, Runs, WorkerCases

ROUNDS = 4  # of each kind and count of workers
GROUPS = 9
COMMANDS = 15  # of each session
COUNTS = (1, 2, 4)


class Chance(WorkerCases):
    """Random groups over one, two and four workers. In all there are more than two hundred."""

    def run_each(self, kind, options):
        seed = seed_of(self)
        for at in range(ROUNDS):
            for count in COUNTS:
                with self.subTest(seed=seed, round=at, workers=count):
                    runs = Runs(f"{seed} {at}", GROUPS, COMMANDS, self.room)
                    with self.workers(count, *runs.words, options=options) as (path, _):
                        clients = kind(path, runs)
                        clients.drive()
                        clients.leave()
                    self.check_told(runs, clients)

    def test_hello(self):
        """Clients that say hello, each with a session of its own."""
        self.run_each(Greeted, ())

    def test_names(self):
        """Clients that name sessions, over several workers at once."""
        self.run_each(lambda path, runs: Named(path, runs, 3), ("--group-from", "name"))
