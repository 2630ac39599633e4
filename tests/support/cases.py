"""Tests of many cases that are each reported by name."""

import os
import resource
import signal
import unittest
from concurrent.futures import ThreadPoolExecutor
from contextlib import contextmanager

from .program import program_under_test

AT_ONCE = os.cpu_count() or 1
CASE = os.environ.get("CASE", "")  # only the cases that have it in their name are tried


def processor_seconds():
    """What all runs so far have taken of the processor."""
    used = resource.getrusage(resource.RUSAGE_CHILDREN)
    return used.ru_utime + used.ru_stime


class Cases(unittest.TestCase):
    """Tests that say how many cases they had, where all is said of them."""

    def run(self, result=None):
        self.result = result
        return super().run(result)

    def tell(self, words, end=" ... "):
        """Prints something about the test that is under way, if the runner reports each test."""
        if words and getattr(self.result, "showAll", False):
            self.result.stream.write(words + end)
            self.result.stream.flush()

    def check_each(self, cases, try_case, fault_of=lambda tried: tried, workers=ThreadPoolExecutor, at_once=AT_ONCE):
        """Tries cases side by side, which are given with their names, and reports each as a sub-test, in order.

        `fault_of` says what is wrong with what came of a case, or None; without it that is the fault. Answers what
        came of all cases.
        """
        cases = list(cases)
        self.assertTrue(cases, "there is no case")
        chosen = [(name, case) for name, case in cases if CASE in name]
        if not chosen:
            self.skipTest(f"no case has {CASE!r} in its name")
        passed, skipped, came, pool = 0, 0, [], workers(at_once)
        try:
            under_way = [(name, pool.submit(try_case, case)) for name, case in chosen]
            for name, trial in under_way:
                with self.subTest(case=name):
                    try:
                        came.append(trial.result())
                    except unittest.SkipTest:
                        skipped += 1
                        raise
                    fault = fault_of(came[-1])
                    if fault:
                        self.fail(fault)
                    passed += 1
        finally:
            pool.shutdown(cancel_futures=True)
        failed = len(chosen) - passed - skipped
        words = f"cases: {len(chosen)}" + (f", skipped: {skipped}" if skipped else "") + (f", not passed: {failed}" if failed else "")
        self.tell(words, end=" ... " if passed == len(chosen) else "\n")
        return came

    @contextmanager
    def within(self, seconds):
        """Fails in the main thread after so many seconds."""

        def stop(_number, _frame):
            self.fail(f"no end in {seconds} seconds")

        before = signal.signal(signal.SIGALRM, stop)
        signal.alarm(seconds)
        try:
            yield
        finally:
            signal.alarm(0)
            signal.signal(signal.SIGALRM, before)


class ProgramCases(Cases):
    """Tests of the program, whose path is `program`."""

    @classmethod
    def setUpClass(cls):
        cls.program = program_under_test()

    def check_rows(self, rows, **how):
        """Runs the program on rows, and compares its status and what it writes."""
        self.check_each(((row.name, row) for row in rows), lambda row: row.fault(row.run(self.program)), **how)
