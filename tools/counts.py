"""How many checks passed, failed and were skipped: the line in which CI and its checks end."""

from __future__ import annotations

import re
from dataclasses import dataclass

# The exit status of a check that tried nothing, since something of the system that it needs is missing.
MISSING = 77

LINE = re.compile(r"(\d+) passed, (\d+) failed(?:, (\d+) skipped)?")
# The last line of pytest, in which a number may be left out.
PYTEST = re.compile(r"=* ?((?:\d+ [a-z]+(?:, )?)+) in [\d.]+s(?: \([\d:]+\))? ?=*")
FAILURES = ("failed", "error", "errors", "xpassed")


@dataclass(frozen=True)
class Counts:
    passed: int = 0
    failed: int = 0
    skipped: int = 0

    def __add__(self, other: Counts) -> Counts:
        return Counts(self.passed + other.passed, self.failed + other.failed, self.skipped + other.skipped)

    def __str__(self) -> str:
        return f"{self.passed} passed, {self.failed} failed, {self.skipped} skipped"

    @staticmethod
    def in_line(line: str) -> Counts | None:
        """The counts of a line of a check or of pytest, or `None` if it has another form."""
        if found := LINE.fullmatch(line.strip()):
            return Counts(*(int(number or 0) for number in found.groups()))
        if found := PYTEST.fullmatch(line.strip()):
            numbers = {word: int(number) for number, word in re.findall(r"(\d+) ([a-z]+)", found[1])}
            failed = sum(numbers.get(word, 0) for word in FAILURES)
            return Counts(numbers.get("passed", 0), failed, numbers.get("skipped", 0) + numbers.get("xfailed", 0))
        return None
