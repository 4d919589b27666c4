"""Proves the crates that a program needs, several at once, prints a line for each, and builds the program.

    python3 -m tools.prove [--jobs N] [--cpu NAME] CRATE [WORD ..] < INPUT

`rt check` proves the crate that all others wait for, with all processors. `rt all check` then proves those that can
stand side by side; in it a crate that waits for another keeps its place, so there are WAITING places more than
processors. As soon as only crates are left beside which nothing can be proved, it is ended, and `rt run` in the
program's folder proves these, each with all processors, builds the program, and runs it on the input, with the words as
its arguments. What it writes is discarded.

What rt prints goes to out/CRATE.log. Each line here is the time so far, a crate and the number of its functions. The
command is `rt`, or the environment's RT. The exit status is that of the command that failed. If it is not 0, the
last line names the log.
"""

from __future__ import annotations

import argparse
import os
import re
import subprocess
import sys
import time
from typing import Collection, Sequence, TextIO

from tools.sources.crates import Uses, below, uses_in
from tools.places import OUT, TOP

WAITING = 2


class Clock:
    """The time since the start, in minutes and seconds."""

    def __init__(self) -> None:
        self.start = time.monotonic()

    def __str__(self) -> str:
        seconds = int(time.monotonic() - self.start)
        return f"{seconds // 60}:{seconds % 60:02}".rjust(6)


def alone(crate: str, uses: Uses) -> list[str]:
    """The crates beside which no other can be proved, lowest first: of a program's crates, those that each other
    uses or is used by."""
    names = below(crate, uses) | {crate}
    under = {name: below(name, uses) for name in names}
    found = [name for name in names if all(name in under[other] or other in under[name] for other in names - {name})]
    return sorted(found, key=lambda name: len(under[name]))


class Prover:
    """Runs of rt, in which the first proof of each crate is printed."""

    def __init__(self, log: TextIO, jobs: int) -> None:
        self.log = log
        self.jobs = jobs
        self.clock = Clock()
        self.proved: set[str] = set()

    def rt(self, words: Sequence[str], crate: str, until: Collection[str] = ()) -> int:
        """Runs rt in a crate's folder, and returns the status. If crates are named, it is ended when
        these are proved."""
        command = [os.environ.get("RT", "rt"), *words]
        # Under `rt run` the program has the input and standard output, and rt prints on standard error.
        is_run = words[0] == "run"
        with subprocess.Popen(
            command,
            cwd=os.path.join(TOP, "crates", crate),
            encoding="utf-8",
            stdin=None if is_run else subprocess.DEVNULL,
            stdout=subprocess.DEVNULL if is_run else subprocess.PIPE,
            stderr=subprocess.PIPE if is_run else subprocess.STDOUT,
        ) as child:
            lines = child.stderr if is_run else child.stdout
            assert lines
            for line in lines:
                self.read(line)
                if until and self.proved.issuperset(until):
                    child.terminate()
                    child.wait()
                    return 0
            return child.wait()

    def read(self, line: str) -> None:
        """Logs a line of rt, and prints one for a crate that is proved."""
        self.log.write(line)
        self.log.flush()
        if found := re.match(r"crate (\w+): modules ", line):
            self.crate = found[1]
        elif (found := re.match(r"logic=proved functions=(\d+)", line)) and self.crate not in self.proved:
            self.proved.add(self.crate)
            print(f"{self.clock}  {self.crate}: {found[1]} functions proved", flush=True)

    def build(self, program: str, flags: Sequence[str], arguments: Sequence[str]) -> int:
        """Proves a program's crates and runs it. Returns the status of the first command that failed."""
        uses = uses_in(TOP)
        lone = alone(program, uses)
        others = below(program, uses).difference(lone)
        jobs = ["--jobs", str(self.jobs)]
        first = [name for name in lone if not others & below(name, uses)]
        if first and (status := self.rt(["check", *jobs], first[-1])):
            return status
        last = next(name for name in lone if name not in first)
        if others and (status := self.rt(["all", "check", "--jobs", str(self.jobs + WAITING)], last, until=others)):
            return status
        return self.rt(["run", *jobs, *flags, "--", *arguments], program)


def main() -> int:
    parser = argparse.ArgumentParser(description="Proves the crates that a program needs, and builds the program.")
    parser.add_argument("program", metavar="CRATE", help="its name in crates/")
    parser.add_argument("arguments", nargs="*", metavar="WORD", help="an argument that it is run with")
    parser.add_argument(
        "--jobs", type=int, default=os.cpu_count() or 1, metavar="N", help="crates at once (one a processor)"
    )
    parser.add_argument("--cpu", metavar="NAME", help="the processor that it is built for")
    options = parser.parse_args()
    os.makedirs(OUT, exist_ok=True)
    path = os.path.join(OUT, f"{options.program}.log")
    with open(path, "w", encoding="utf-8") as log:
        prover = Prover(log, options.jobs)
        status = prover.build(options.program, ["--cpu", options.cpu] if options.cpu else [], options.arguments)
    if status:
        print(f"{prover.clock}  failed: see {os.path.relpath(path, TOP)}")
    return status


if __name__ == "__main__":
    sys.exit(main())
