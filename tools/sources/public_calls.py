"""The public calls of the product's crates, as their sources give them, and those that a table's cell names.

A call is written `Owner::name`: the owner is a type or a trait that the crate's root gives out, or the
crate of a free function.
"""

from __future__ import annotations

import os
import re
from typing import Iterator

from tools import places
from tools.sources.layers import product
from tools.sources.rattle import functions_in

# The libraries that the programs and the library for C are made of.
CRATES = tuple(
    crate for crate in product() if os.path.isfile(os.path.join(places.TOP, "crates", crate, "src", "lib.rt"))
)


def given_out(root: str) -> set[str]:
    """The names that the text of a crate's root makes public."""
    names = set(re.findall(r'^pub (?:extern "C" )?(?:fn|struct|enum|trait) (\w+)', root, re.MULTILINE))
    for path in re.findall(r"^pub use ([^;]*);", root, re.MULTILINE):
        names.update(re.findall(r"(\w+)\s*(?:[,}]|$)", path))
    return names


def calls_in(text: str, crate: str, public: set[str]) -> Iterator[str]:
    """The public calls in the text of a file."""
    for call in functions_in(text):
        if call.is_public and (call.owner or call.name) in public:
            yield f"{call.owner or crate}::{call.name}"


def calls_of(crate: str) -> dict[str, str]:
    """The public calls of a crate, each with the file in which it stands, named from the crate's folder."""
    folder = os.path.join("crates", crate)
    public = given_out(places.text_of(folder, "src", "lib.rt"))
    paths = places.files(folder, "src", "**", "*.rt")
    return {
        call: os.path.relpath(path, folder) for path in paths for call in calls_in(places.text_of(path), crate, public)
    }


def public_calls() -> set[str]:
    """All public calls of the crates."""
    return {call for crate in CRATES for call in calls_of(crate)}


def named_calls(cell: str, public: set[str]) -> set[str]:
    """Of the public calls those that a cell names: before the colon of each part, behind which its clauses stand. The
    owner may be left out if it is that of the call before, or if no other crate has a free function of the name."""
    found: set[str] = set()
    owner = ""
    for part in re.sub(r"\(.*?\)", "", cell).split(";"):
        calls, colon, clauses = part.rpartition(": ")
        for word in re.findall(r"`([\w:]+)`", calls if colon else clauses):
            *path, name = word.split("::")
            owner = path[-1] if path else owner
            free = [call for call in public if call.endswith(f"::{name}") and call.split("::")[0] in CRATES]
            if name[0].isupper():
                owner = name
            elif f"{owner}::{name}" in public:
                found.add(f"{owner}::{name}")
            elif not path and len(free) == 1:
                owner = free[0].split("::")[0]
                found.add(free[0])
    return found
