"""Runs a program with allocations that fail and threads that do not start, by the shim of
tests/program/injection.c. Needs gcc."""

from __future__ import annotations

import os
import shutil
import subprocess
import tempfile
import unittest
from concurrent.futures import ThreadPoolExecutor
from dataclasses import dataclass
from typing import Any, Callable, ClassVar, Sequence

from tools.places import PROGRAM, TOP

SOURCE = os.path.join(TOP, "tests", "program", "injection.c")
MAX_SECONDS = 60
# As `later`: after the first refusal each later allocation fails too, or no later thread is started.
EACH = -1
# With several workers two runs can allocate in another order, so one run that meets no refusal is not the end.
RUNS_IN_A_ROW = 10
RUNS_AT_ONCE = 32


@dataclass(frozen=True)
class Refusal:
    """A refused call, and what the shim counted before it."""

    number: int
    in_first_thread: int
    written: int
    tiles: int
    started: int
    joined: int
    since_join: int
    at_write: int


@dataclass(frozen=True)
class Run:
    """The refusals that a run met, in their order, and how the run ended."""

    refusals: tuple[Refusal, ...]
    output: bytes
    line: bytes
    status: int


def read_refusals(report: bytes) -> tuple[Refusal, ...]:
    lines = (Refusal(*map(int, line.split())) for line in report.decode().splitlines())
    return tuple(sorted(lines, key=lambda refusal: refusal.number))


@unittest.skipUnless(shutil.which("gcc"), "gcc is not there")
class CompilingTest(unittest.TestCase):
    """Tests that run what gcc makes of a source."""

    @classmethod
    def compiled(cls, *arguments: str) -> str:
        """The file that gcc makes with these arguments."""
        folder = tempfile.TemporaryDirectory()
        cls.addClassCleanup(folder.cleanup)
        target = os.path.join(folder.name, "compiled")
        subprocess.run(["gcc", "-Wall", "-o", target, *arguments], check=True)
        return target


class InjectionTest(CompilingTest):
    """Tests that run a program with the shim."""

    program: ClassVar[str] = PROGRAM
    tile_bytes: ClassVar[int] = 0
    shim: ClassVar[str]

    @classmethod
    def setUpClass(cls) -> None:
        cls.shim = cls.compiled("-O2", "-shared", "-fPIC", SOURCE, "-ldl")

    def run_once(
        self, arguments: Sequence[str], text: bytes, allocation: int = 0, thread: int = 0, later: int = 0, **more: Any
    ) -> Run:
        """A run of the program. Further arguments are given to `subprocess.run`."""
        asked = {
            "REFUSE_ALLOCATION": allocation, "REFUSE_THREAD": thread, "REFUSE_LATER": later,
            "TILE_BYTES": self.tile_bytes,
        }
        read_end, write_end = os.pipe()
        with open(read_end, "rb") as report:
            variables = {name: str(value) for name, value in {**asked, "REPORT": write_end}.items()}
            environment = {**os.environ, **variables, "LD_PRELOAD": self.shim}
            how: dict[str, Any] = {"capture_output": True, "timeout": MAX_SECONDS, "pass_fds": [write_end], **more}
            try:
                done = subprocess.run([self.program, *arguments], input=text, env=environment, **how)
            finally:
                os.close(write_end)
            return Run(read_refusals(report.read()), done.stdout, done.stderr, done.returncode)

    def each_run(self, run: Callable[[int], Run], least: int = 1) -> list[Run]:
        """The runs of the numbers from 1 on that meet this many refusals, up to ten in a row that meet fewer."""
        found: list[Run] = []
        first, met_fewer = 1, 0
        with ThreadPoolExecutor(os.cpu_count()) as pool:
            while met_fewer < RUNS_IN_A_ROW:
                for each in pool.map(run, range(first, first + RUNS_AT_ONCE)):
                    met = len(each.refusals) >= least
                    found += [each] if met else []
                    met_fewer = 0 if met else met_fewer + 1
                    if met_fewer == RUNS_IN_A_ROW:
                        break
                first += RUNS_AT_ONCE
        self.assertTrue(found, "nothing was refused")
        return found
