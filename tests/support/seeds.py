"""The seed of all random tests. It is 1 unless `SEED=NUMBER` gives another one, so that each run tries the same cases."""

import os

SEED = int(os.environ.get("SEED") or "1")


def seed_of(test):
    """The seed, which is said of the test that is under way."""
    test.tell(f"SEED={SEED}")
    return SEED
