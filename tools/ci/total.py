"""Runs commands one after the other, and ends in the sum of what they count.

    python3 -m tools.ci.total COMMAND ..

Each command is one argument, as 'rt ci'. One that ends without counts, or with a status that its counts do not explain,
adds a failure. The last line is `N passed, M failed, K skipped`, and the exit status 1 if something failed.
"""

from __future__ import annotations

import shlex
import subprocess
import sys

from tools.counts import Counts
from tools.places import TOP


def run(command: str, top: str = TOP) -> Counts:
    """Runs a command, passes on what it prints, and returns the counts of its last line."""
    last = ""
    with subprocess.Popen(
        shlex.split(command), cwd=top, stdin=subprocess.DEVNULL, stdout=subprocess.PIPE, stderr=subprocess.STDOUT,
        text=True, errors="replace",
    ) as child:
        assert child.stdout
        for line in child.stdout:
            sys.stdout.write(line)
            sys.stdout.flush()
            # If a goal fails, make prints lines of its own after the counts.
            if line.strip() and not line.startswith("make"):
                last = line
    counts = Counts.in_line(last)
    if counts is None or (child.returncode and not counts.failed):
        lacking = "" if counts else " and printed no counts"
        print(f"{command} ended with status {child.returncode}{lacking}", flush=True)
        counts = (counts or Counts()) + Counts(failed=1)
    return counts


def main() -> int:
    total = Counts()
    for command in sys.argv[1:]:
        total += run(command)
    print(f"\n{', then '.join(sys.argv[1:])}:\n{total}", flush=True)
    return 1 if total.failed else 0


if __name__ == "__main__":
    sys.exit(main())
