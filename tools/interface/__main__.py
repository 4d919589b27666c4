"""Writes the numbers of interface/numbers.toml and the declarations of include/trirast.h to every language.

    python3 -m tools.interface [--check]

With --check nothing is written: names the files that are stale, with exit status 1 if there are any.
"""

from __future__ import annotations

import argparse
import sys

from tools.interface.outputs import outputs, stale
from tools.places import write_text


def main(words: list[str] | None = None) -> int:
    parser = argparse.ArgumentParser(prog="python3 -m tools.interface", description=(__doc__ or "").split("\n")[0])
    parser.add_argument("--check", action="store_true", help="write nothing, and name what is stale")
    if parser.parse_args(words).check:
        found = stale()
        for path in found:
            print(f"{path} is stale: run python3 -m tools.interface", file=sys.stderr)
        return 1 if found else 0
    for path, text in outputs().items():
        write_text(path, text)
    return 0


if __name__ == "__main__":
    raise SystemExit(main())
