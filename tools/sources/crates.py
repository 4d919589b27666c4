"""The crates of a working tree, as crates.txt gives them."""

from __future__ import annotations

import os
import re
from typing import Mapping, Sequence

from tools.places import text_of

# Of each crate, the crates that it uses; those of the toolchain are among them.
Uses = Mapping[str, Sequence[str]]
LINE = re.compile(r"^(\w+)[^:#\n]*:(.*)$", re.MULTILINE)


def uses_in(top: str) -> Uses:
    """What each crate of a tree uses, lowest first as crates.txt has them."""
    lines = LINE.finditer(text_of(os.path.join(top, "crates.txt")))
    return {found[1]: tuple(found[2].split("#")[0].split()) for found in lines}


def below(crate: str, uses: Uses) -> set[str]:
    """The repository's crates that a crate uses, by itself or through others."""
    found: set[str] = set()
    for name in uses[crate]:
        if name in uses:
            found |= {name} | below(name, uses)
    return found
