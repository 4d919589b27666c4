"""Names the Debian packages that `make demo` and `make test` lack, in one line, before they start.

    python3 -m tools.packages [GOAL | --lacking]

Without a goal, prints all packages. With one, exit status 1 if it cannot start without those that are missing. If it
only does less without them, the status is 0. With --lacking prints the names of all that are missing, for
`make packages`. packages.txt lists them by check.
"""

from __future__ import annotations

import argparse
import glob
import os
import re
import shutil
import subprocess
import sys
from dataclasses import dataclass
from typing import Callable, Iterable

from tools.places import text_of

# The Python to which Debian's packages belong, for checks that need a library which the Python of make lacks.
DEBIAN_PYTHON = "/usr/bin/python3"
LIST = "tools/packages.txt"


@dataclass(frozen=True)
class Package:
    name: str
    # A command, or `python:MODULE`, or a file.
    gives: str


@dataclass(frozen=True)
class Goal:
    """What a goal of make needs of Debian 12, besides make and Python."""

    needed: tuple[Package, ...]
    optional: tuple[Package, ...]
    # What it does without the optional ones.
    without: str


def packages_in(text: str) -> dict[str, list[Package]]:
    """The packages of each name of the list, in its order."""
    found: dict[str, list[Package]] = {}
    for line in re.sub(r"#.*", "", text).splitlines():
        name, _colon, words = line.partition(":")
        for word in words.split():
            package, _is, gives = word.partition("=")
            found.setdefault(name.strip(), []).append(Package(package, gives or package))
    return found


def goals() -> dict[str, Goal]:
    listed = packages_in(text_of(LIST))
    needed, demo = listed.pop("start"), listed.pop("demo")
    optional = {package.name: package for packages in listed.values() for package in packages}
    return {
        "demo": Goal((), tuple(demo), "writes no PNG files"),
        "test": Goal(tuple(needed), tuple(optional[name] for name in sorted(optional)), "skips some checks"),
    }


GOALS = goals()


def is_there(gives: str, pythons: Iterable[str] = (sys.executable, DEBIAN_PYTHON)) -> bool:
    """Whether the machine has this command or file, or one of these Pythons this module."""
    kind, _colon, module = gives.partition(":")
    if module:
        test = f"import importlib.util as found; raise SystemExit(not found.find_spec({module!r}))"
        return any(shutil.which(each) and subprocess.run([each, "-c", test]).returncode == 0 for each in pythons)
    return bool(glob.glob(kind)) if os.path.isabs(kind) else shutil.which(kind) is not None


def line(goal: str, has: Callable[[str], bool] = is_there) -> tuple[str, bool]:
    """The line on what is missing for a goal, empty if nothing is, and whether the goal can start."""

    def install(packages: Iterable[Package]) -> str:
        names = [package.name for package in packages if not has(package.gives)]
        return f"apt-get install {' '.join(names)}" if names else ""

    needs = GOALS[goal]
    if command := install(needs.needed):
        return f"make {goal} cannot start without these packages: {command}", False
    if command := install(needs.optional):
        return f"make {goal} {needs.without} without these packages: {command}", True
    return "", True


def main() -> int:
    parser = argparse.ArgumentParser(description="Names the Debian packages that a goal of make lacks.")
    parser.add_argument("goal", nargs="?", choices=GOALS, metavar="GOAL", help=" or ".join(GOALS))
    parser.add_argument("--lacking", action="store_true", help="print the names of all packages that are missing")
    options = parser.parse_args()
    if options.lacking:
        every = {each.name: each for goal in GOALS.values() for each in (*goal.needed, *goal.optional)}
        # What another Python has does not count: the one that runs this may not be the one that runs the checks.
        print(*(name for name, each in every.items() if not is_there(each.gives, [DEBIAN_PYTHON])))
        return 0
    if not options.goal:
        for name, goal in GOALS.items():
            print(f"make {name} needs: {' '.join(each.name for each in goal.needed) or 'nothing'}")
            print(f"make {name} {goal.without} without: {' '.join(each.name for each in goal.optional)}")
        return 0
    text, can_start = line(options.goal)
    if text:
        print(text, file=sys.stderr, flush=True)
    return 0 if can_start else 1


if __name__ == "__main__":
    sys.exit(main())
