"""Prints each name of a definition that stands in the specs/ of more than one crate, with these crates,
and how many there are.

    python3 -m tools.sources.shared_names

A definition that means the same in two crates stands in the lower one. If two mean different things, each has its
subject in its name.
"""

from __future__ import annotations

import os
import sys
from typing import Iterable

from tools import places
from tools.places import text_of
from tools.sources.rattle import definitions_in


def shared(texts: Iterable[tuple[str, str]]) -> dict[str, list[str]]:
    """The crates of each name that is defined in more than one, of the crates with the texts of their files."""
    crates: dict[str, set[str]] = {}
    for crate, text in texts:
        for one in definitions_in(text):
            crates.setdefault(one.name, set()).add(crate)
    return {name: sorted(found) for name, found in sorted(crates.items()) if len(found) > 1}


def names() -> dict[str, list[str]]:
    """The shared names of this tree."""
    paths = places.files("crates", "*", "specs", "*.antt")
    return shared((path.split(os.sep)[1], text_of(path)) for path in paths)


def main() -> int:
    found = names()
    for name, crates in found.items():
        print(f"{name}: {', '.join(crates)}")
    print(f"{len(found)} names stand in more than one crate")
    return 0


if __name__ == "__main__":
    sys.exit(main())
