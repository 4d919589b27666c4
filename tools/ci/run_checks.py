"""Runs the checks of what was built, side by side.

    python3 -m tools.ci.run_checks [--long] [NAME ..]

What a check runs is built first, if it is missing or old, by make. A line for each check has the time, the seconds of a
processor and its counts as it ends; what it prints goes to out/test/NAME.log, and the end of that is shown if it
failed. What was skipped is named at the end, each with the reason. The last line is `N passed, M failed, K skipped`,
and the exit status 1 if something failed. With --long each check takes its longer form. `checks.py` has the list.
"""

from __future__ import annotations

import argparse
import os
import re
import shutil
import signal
import sys
import time
from concurrent.futures import FIRST_COMPLETED, Future, ThreadPoolExecutor, wait
from dataclasses import dataclass
from functools import partial
from typing import Callable, Sequence

from tools.ci.checks import BUILDS, CHECKS, Check, by_name
from tools.ci.commands import Ran, run, stop_all
from tools.counts import MISSING, Counts
from tools.places import PYTHON_SOURCES, TOP

LOGS = os.path.join("out", "test")
MINUTE = 60
# Against a check that does not end, on a machine that may be slow and busy. What make builds may have to be proved.
CHECK_SECONDS, LONG_SECONDS, BUILD_SECONDS = 40 * MINUTE, 120 * MINUTE, 120 * MINUTE
SKIPPED = re.compile(r"^skipped\b.*", re.MULTILINE)


def counted(ran: Ran) -> Counts:
    """What a check's last line counts, or one. A status against the counts is a failure more."""
    last = (ran.last_lines(1) or [""])[0]
    counts = Counts.in_line(last)
    if ran.status == MISSING:
        return Counts(skipped=1)
    if ran.status != 0:
        return (
            counts if counts and counts.failed and ran.status is not None else (counts or Counts()) + Counts(failed=1)
        )
    return counts or Counts(passed=1)


@dataclass(frozen=True)
class Outcome:
    """How a check or a build ended."""

    counts: Counts
    # What is printed of it.
    remark: str
    # Of a processor.
    seconds: float = 0.0
    # The last lines of what it printed, if it failed.
    details: tuple[str, ...] = ()


@dataclass(frozen=True)
class Task:
    name: str
    run: Callable[[], Outcome]
    # The names of tasks that have to end before.
    needs: tuple[str, ...] = ()


def run_tasks(tasks: Sequence[Task], processors: int, tell: Callable[[str, Outcome], None]) -> None:
    """Runs tasks, the first ones first, each as soon as those that it needs have ended and a processor is free. An
    error of this program is a failure of the task alone."""
    waiting, ended = list(tasks), set[str]()
    running: dict[Future[Outcome], str] = {}
    with ThreadPoolExecutor(processors) as pool:
        while waiting or running:
            ready = [task for task in waiting if ended.issuperset(task.needs)]
            for task in ready[: processors - len(running)]:
                waiting.remove(task)
                running[pool.submit(task.run)] = task.name
            for future in wait(running, return_when=FIRST_COMPLETED).done:
                name, error = running.pop(future), future.exception()
                ended.add(name)
                tell(name, Outcome(Counts(failed=1), f"{type(error).__name__}: {error}") if error else future.result())


class Tests:
    """A run of checks at the top of a repository."""

    def __init__(self, top: str, is_long: bool = False) -> None:
        self.top = top
        self.is_long = is_long
        self.begun = time.monotonic()
        self.counts = Counts()
        self.seconds = 0.0
        self.built: set[str] = set()
        self.skipped: list[str] = []
        self.failures: dict[str, Outcome] = {}

    def log(self, name: str, ran: Ran) -> None:
        path = os.path.join(self.top, LOGS, f"{name}.log")
        with open(path, "w", encoding="utf-8") as file:
            file.write(ran.text)

    def build(self, name: str) -> Outcome:
        ran = run(["make", *BUILDS[name]], self.top, BUILD_SECONDS)
        self.log(f"build-{name}", ran)
        if ran.status != 0:
            remark = f"make failed with status {ran.status}"
            return Outcome(Counts(failed=1), remark, ran.seconds, tuple(ran.last_lines(12)))
        self.built.add(name)
        return Outcome(Counts(), "there", ran.seconds)

    def check(self, check: Check) -> Outcome:
        if lacking := [name for name in check.runs if name not in self.built]:
            return Outcome(Counts(failed=1), f"not run, since this failed: build of {lacking[0]}")
        # Some checks start programs that import the package.
        environment = {**os.environ, "PYTHONUNBUFFERED": "1", "PYTHONPATH": PYTHON_SOURCES}
        ran = run(check.words(self.is_long), self.top, LONG_SECONDS if self.is_long else CHECK_SECONDS, environment)
        self.log(check.name, ran)
        counts = counted(ran)
        if ran.status == MISSING:
            self.skipped.append(f"{check.name}: {(ran.last_lines(1) or [''])[0]}")
        self.skipped += [f"{check.name}: {found[0]}" for found in SKIPPED.finditer(ran.text)]
        late = " (its time was over)" if ran.status is None else ""
        details = tuple(ran.last_lines(40)) if counts.failed else ()
        return Outcome(counts, f"{counts}{late}", ran.seconds, details)

    def tell(self, name: str, outcome: Outcome) -> None:
        self.counts += outcome.counts
        self.seconds += outcome.seconds
        if outcome.counts != Counts():
            minutes, seconds = divmod(int(time.monotonic() - self.begun), MINUTE)
            print(f"{minutes:4}:{seconds:02} {outcome.seconds:7.1f}  {name}: {outcome.remark}", flush=True)
        if outcome.counts.failed:
            self.failures[name] = outcome

    def tasks(self, checks: Sequence[Check]) -> list[Task]:
        """The builds that are needed, one after the other, and then the checks, of which the longest are first."""
        made: list[Task] = []
        for name in BUILDS:
            if any(name in check.runs for check in checks):
                # rt works in a crate for one command at a time.
                before = tuple(task.name for task in made[-1:])
                made.append(Task(f"build of {name}", partial(self.build, name), before))
        for check in sorted(checks, key=lambda check: -(self.is_long and check.long_seconds or check.seconds)):
            needs = tuple(f"build of {name}" for name in check.runs)
            made.append(Task(check.name, partial(self.check, check), needs))
        return made

    def run(self, checks: Sequence[Check], processors: int) -> Counts:
        shutil.rmtree(os.path.join(self.top, LOGS), ignore_errors=True)
        os.makedirs(os.path.join(self.top, LOGS))
        able: list[Check] = []
        for check in checks:
            if lacking := check.missing():
                self.skipped.append(f"{check.name}: there is no {' and no '.join(lacking)}")
                self.counts += Counts(skipped=1)
            else:
                able.append(check)
        run_tasks(self.tasks(able), processors, self.tell)
        self.summarize()
        return self.counts

    def summarize(self) -> None:
        for line in self.skipped:
            print(f"skipped: {line}")
        for name, outcome in self.failures.items():
            print(f"\nFAILED {name}: {outcome.remark}; out/test/{name}.log")
            for line in outcome.details:
                print(f"    {line}")
        minutes = (time.monotonic() - self.begun) / MINUTE
        print(f"{minutes:.1f} minutes, {self.seconds / 60:.1f} of a processor", flush=True)


def main() -> int:
    parser = argparse.ArgumentParser(description="Runs the checks of what was built.")
    parser.add_argument("names", nargs="*", metavar="NAME", help="of checks (default: all)")
    parser.add_argument("--long", action="store_true", help="each check in its longer form")
    parser.add_argument(
        "--processors", type=int, default=len(os.sched_getaffinity(0)), metavar="N", help="checks at once"
    )
    options = parser.parse_args()
    known = {check.name for check in CHECKS}
    if lacking := [name for name in options.names if name not in known]:
        parser.error(f"there is no check {lacking[0]}")

    def end(*_: object) -> None:
        stop_all()
        sys.exit(143)

    for number in (signal.SIGTERM, signal.SIGINT):
        signal.signal(number, end)
    checks = [by_name(name) for name in options.names] if options.names else list(CHECKS)
    counts = Tests(TOP, options.long).run(checks, options.processors)
    print(counts, flush=True)
    return 1 if counts.failed else 0


if __name__ == "__main__":
    sys.exit(main())
