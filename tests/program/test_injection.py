"""Tests of tests/program/allocation_failures.py and of the threads in tests/program/fault_injection.py: they catch
mistakes in tests/program/stand_in.c.

    python3 -m pytest tests/program/test_injection.py

The stand-in writes one picture as the program does if an allocation fails or a thread does not start, or with a
mistake in that. Needs gcc.
"""

from __future__ import annotations

import os
import unittest
from typing import ClassVar
from unittest import mock

# The test classes are named by their modules, so that they are no tests of this one.
from tests.program import allocation_failures, fault_injection, injection
from tools.places import TOP

SOURCE = os.path.join(TOP, "tests", "program", "stand_in.c")

ONE_WORKER = (allocation_failures.TileRows, "test_one_worker")
ONE_REFUSAL = (allocation_failures.TileRows, "test_one_refusal_of_two_workers")
EACH_LATER = (allocation_failures.TileRows, "test_each_later_allocation_of_two_workers")
DRAWING_AGAIN = (allocation_failures.TileRows, "test_drawing_again_for_two_workers")
TWO_REFUSALS = (allocation_failures.TileRows, "test_two_refusals_of_two_workers")
EACH_THREAD = (fault_injection.RefusedThreads, "test_each_thread_of_two_workers")
ALL_THREADS = (fault_injection.RefusedThreads, "test_all_threads_from_each_one_on")

CAUGHT_BY: dict[str, tuple[tuple[type[injection.InjectionTest], str], ...]] = {
    "begin with the second row": (ONE_REFUSAL, DRAWING_AGAIN, EACH_THREAD, ALL_THREADS),
    "draw all rows again before one is written": (DRAWING_AGAIN, TWO_REFUSALS),
    "ask for the next row before this one is written": (ONE_WORKER, DRAWING_AGAIN, TWO_REFUSALS),
    "write a row twice": (ONE_WORKER, ONE_REFUSAL, DRAWING_AGAIN, EACH_THREAD),
    "lose the batch above": (ONE_REFUSAL, EACH_LATER, DRAWING_AGAIN, EACH_THREAD),
    "write the batch above twice": (ONE_REFUSAL, EACH_LATER, EACH_THREAD),
    "fail before the batch above is written": (EACH_LATER,),
    "give up": (ONE_REFUSAL, EACH_THREAD, ALL_THREADS),
}


class Mistakes(injection.CompilingTest):
    program: ClassVar[str]

    @classmethod
    def setUpClass(cls) -> None:
        # Without -fno-builtin gcc leaves out an allocation that nothing uses.
        cls.program = cls.compiled("-O1", "-fno-builtin", "-pthread", SOURCE)

    def result(self, test_class: type[injection.InjectionTest], name: str, mistake: str = "") -> unittest.TestResult:
        """What a test finds in the stand-in with this mistake."""
        test = type(test_class.__name__, (test_class,), {"program": self.program, "tearDownClass": lambda: None})(name)
        result = unittest.TestResult()
        with mock.patch.dict(os.environ, MISTAKE=mistake):
            unittest.TestSuite([test]).run(result)
        self.assertEqual((result.testsRun, result.errors), (1, []), f"{name} with {mistake or 'no mistake'}")
        return result

    def test_no_mistake(self) -> None:
        tests = {test for tests in CAUGHT_BY.values() for test in tests}
        for test_class, name in tests:
            self.assertEqual(self.result(test_class, name).failures, [], name)

    def test_each_mistake(self) -> None:
        for mistake, tests in CAUGHT_BY.items():
            for test_class, name in tests:
                with self.subTest(mistake=mistake, test=name):
                    self.assertTrue(self.result(test_class, name, mistake).failures)
