"""Calls include/trirast.hpp with random arguments under AddressSanitizer and UndefinedBehaviorSanitizer, and
compares its pictures.

    python3 -m tests.library.fuzz_header [--seconds 60] [--seed N]

Each picture is compared with the one that trirast_list_draw draws, where a draw list can have the scene. It needs the
library of `make library`, and clang++ or g++ with their sanitizers. Prints how many scenes there were. Exit status 1 if
one was wrong; the line that says so has its seed.
"""

from __future__ import annotations

import argparse
import sys
import time

from tests.cases import CheckError, MissingError
from tests.library.sanitized import check_fuzz


def main() -> int:
    parser = argparse.ArgumentParser(description="Calls trirast.hpp with random arguments under sanitizers.")
    parser.add_argument("--seconds", type=int, default=60, help="how long (default 60)")
    parser.add_argument(
        "--seed", type=int, default=time.time_ns() // 1000, help="of the first scene (default: by the clock)"
    )
    options = parser.parse_args()
    print(f"trirast.hpp for {options.seconds} seconds from seed {options.seed}", flush=True)
    try:
        print(check_fuzz(options.seconds, options.seed), flush=True)
    except (CheckError, MissingError) as error:
        print(error, file=sys.stderr)
        return 1
    return 0


if __name__ == "__main__":
    sys.exit(main())
