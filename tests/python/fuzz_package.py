"""Makes up calls of the Python package by hypothesis, and compares the picture after each with one drawn
in the plainest way.

    python3 -m tests.python.fuzz_package [--calls 10000]

It needs the library (make library), and numpy, hypothesis and pytest: in Debian python3-numpy, python3-hypothesis and
python3-pytest. Each run makes up other calls: layouts, types, shapes, threads, interrupts, copies, and arrays that
change as they are drawn. python/tests/test_fuzz.py has them, and makes some hundred that are always the same as a part
of the package's tests. Exit status 1 if the package crashed or drew another picture.
"""

from __future__ import annotations

import argparse
import os
import subprocess
import sys

from tests.cases import MissingError
from tools.counts import MISSING, Counts
from tests.library.commands import PACKAGE_ENVIRONMENT, python_with
from tools.places import TOP

# The stack of each thread is printed if the package crashes.
COMMAND = ("-X", "faulthandler", "-W", "error", "-m", "unittest", "tests.test_fuzz")


def main() -> int:
    parser = argparse.ArgumentParser(description="Makes up calls of the Python package.")
    parser.add_argument("--calls", type=int, default=10_000, help="how many at least (default: %(default)s)")
    calls = parser.parse_args().calls
    try:
        python = python_with("numpy", "hypothesis")
    except MissingError as missing:
        print(f"skipped: there is no {missing}")
        return MISSING
    environment = {**PACKAGE_ENVIRONMENT, "TRIRAST_FUZZ_CALLS": str(calls)}
    status = subprocess.run([python, *COMMAND], cwd=os.path.join(TOP, "python"), env=environment).returncode
    if status < 0:
        print(f"the package crashed: signal {-status}", file=sys.stderr)
    print(Counts(passed=int(not status), failed=int(bool(status))), flush=True)
    return 1 if status else 0


if __name__ == "__main__":
    sys.exit(main())
