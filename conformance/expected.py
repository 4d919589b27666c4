"""Differences that are expected of a driver, in a file, so that only new ones turn its CI red.

A line names lists: a subject with its samples a pixel, a slash, and the list's number or a pattern, as `scissor-4/12`
or `scissor-*/*`. A number behind it is how many samples, or channels past what is allowed, may differ in each of these
lists; without it any number may. What follows `#` is a comment.
"""

from __future__ import annotations

import re
from dataclasses import dataclass, field
from fnmatch import fnmatchcase
from typing import Mapping, Sequence

LINE = re.compile(r"(\S+/\S+)(?:\s+(\d+))?")


class BadLine(Exception):
    """A line of the file that names no lists."""


@dataclass(frozen=True)
class Expected:
    """Lists by a pattern, and how many samples of each may differ."""

    pattern: str
    at_most: int | None = None

    def allows(self, case: str, differ: int) -> bool:
        return fnmatchcase(case, self.pattern) and (self.at_most is None or differ <= self.at_most)


@dataclass(frozen=True)
class Verdict:
    """What differs and was not expected, and the lines of the file by which nothing differs any more."""

    expected: int
    new: dict[str, int] = field(default_factory=dict)
    unused: list[str] = field(default_factory=list)

    def lines(self) -> list[str]:
        """The verdict in words."""
        found = [f"Lists that differ: {self.expected} expected, {len(self.new)} new."]
        found += [f"  new: {case} ({differ:,} differ)" for case, differ in self.new.items()]
        return found + [f"  differs no more: {pattern}" for pattern in self.unused]


def parse(text: str) -> list[Expected]:
    """The lines of a file. Raises `BadLine`."""
    made = []
    for number, line in enumerate(text.splitlines(), 1):
        line = line.partition("#")[0].strip()
        if not line:
            continue
        found = LINE.fullmatch(line)
        if not found:
            raise BadLine(f"line {number} of the expected differences names no lists: {line}")
        made.append(Expected(found[1], int(found[2]) if found[2] else None))
    return made


def judge(cases: Mapping[str, int], expected: Sequence[Expected]) -> Verdict:
    """Compares the lists that differ with those that may."""
    new = {case: differ for case, differ in cases.items() if not any(one.allows(case, differ) for one in expected)}
    unused = [one.pattern for one in expected if not any(fnmatchcase(case, one.pattern) for case in cases)]
    return Verdict(len(cases) - len(new), new, unused)


def written(cases: Mapping[str, int]) -> str:
    """A file that expects just these differences."""
    return "".join(f"{case} {differ}\n" for case, differ in cases.items())
