"""Writes docs/generated/crates.md: the contract of each crate, its definitions, and the calls that it relies on.

    python3 -m tools.sources.contracts

The words are those of crates/contracts.txt. The files of definitions are found in the crates.
"""

from __future__ import annotations

import os
from typing import Iterable

from tools import definitions
from tools.places import text_of, write_text

SOURCE, PAGE = os.path.join("crates", "contracts.txt"), os.path.join("docs", "generated", "crates.md")
CONTRACT, RELIES_ON = "contract", "relies on"
HEAD = """\
# Crates: contracts, definitions and calls

[crates/README.md](../../crates/README.md) has a line for each crate, and [architecture.md](../architecture.md) the
flow of data. The tables have the crates in the order of `crates.txt`, lowest first.
`python3 -m tools.sources.contracts` writes this page from `crates/contracts.txt`.

## The contract of each crate

The one contract that each crate is made for. The tools and the crates of tests have none.
"""
DEFINITIONS = """
## Where each rule lives

A definition is in the lowest crate that can state it, in a file named for what it defines. Each crate's
`specs/Lib.antt` begins with a line for each definition. These are the files, each after those that it uses. Those in
bold define the image, and so what the guarantee means: [statement.md](../statement.md) has them on one page. `Seam`
and `Quad` of `grid`, `Pair` and `Quad` of `cover` and all of `canvas_picture` are laws, carried by calls of their own.
The others state what the parts in between and the other calls promise. The definition of the image names none of
them. The contract of `reference` is that definition.
"""
CALLS = """
## What each crate relies on

The calls of lower crates with which a crate's own contract is proved, each after its crate. A call without a type is
that of the type before it, or a free function. [promises.md](promises.md) says what the calls promise. Most calls that
only hand out what a struct holds are left out.
"""


def lines(name: str) -> dict[str, str]:
    """What contracts.txt says under a name of each crate that has it."""
    found: dict[str, str] = {}
    for paragraph in text_of(SOURCE).split("\n\n")[1:]:
        crate, *named = paragraph.strip().split("\n")
        found.update({crate: line.removeprefix(f"{name}: ") for line in named if line.startswith(f"{name}: ")})
    return found


def table(head: str, cells: dict[str, str]) -> Iterable[str]:
    return ["", f"| Crate | {head} |", "|---|---|", *(f"| `{crate}` | {cell} |" for crate, cell in cells.items())]


def page() -> str:
    return "\n".join([
        HEAD.rstrip("\n"), *table("Contract", lines(CONTRACT)), DEFINITIONS, definitions.table(), CALLS.rstrip("\n"),
        *table("Calls of lower crates", lines(RELIES_ON)),
    ]) + "\n"


if __name__ == "__main__":
    write_text(PAGE, page())
