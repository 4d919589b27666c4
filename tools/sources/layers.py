"""Writes crates/README.md and the diagram at the head of docs/architecture.md, both from crates.txt.

    python3 -m tools.sources.layers

In crates.txt a line `## NAME: ..` begins a layer, and the comment above a crate's line says what the crate does.
"""

from __future__ import annotations

import os
import re
import sys
from typing import NamedTuple

from tools.places import text_of, write_text

LIST, DIAGRAM = os.path.join("crates", "README.md"), os.path.join("docs", "architecture.md")
HEAD = """\
# The crates

Crates by layers, lowest first. A crate uses only crates of earlier lines, and the toolchain's. A library has \
`src/lib.rt`, a program
`src/main.rt`. `python3 -m tools.sources.layers` writes this page from `crates.txt`.
"""


class Crate(NamedTuple):
    name: str
    does: str
    uses: tuple[str, ...]


class Layer(NamedTuple):
    name: str
    about: str
    crates: list[Crate]

    @property
    def is_product(self) -> bool:
        return self.name not in ("tests", "tools")


def layers() -> list[Layer]:
    """The layers of crates.txt in its order."""
    found: list[Layer] = []
    comment: list[str] = []
    for line in text_of("crates.txt").splitlines():
        if line.startswith("## "):
            name, about = line[3:].split(": ", 1)
            found.append(Layer(name, about, []))
        elif line.startswith("# "):
            comment.append(line[2:])
        else:
            if line:
                name, uses = line.split(":")
                found[-1].crates.append(Crate(name.split()[0], " ".join(comment), tuple(uses.split())))
            comment = []
    return found


def product() -> list[str]:
    """The crates of the programs and of the library for C, without those of tests and tools."""
    return [one.name for layer in layers() if layer.is_product for one in layer.crates]


def reached(name: str) -> set[str]:
    """All crates, the toolchain's too, that a crate uses, directly or through others."""
    uses = {one.name: one.uses for layer in layers() for one in layer.crates}
    found: set[str] = set()
    waiting = [name]
    while waiting:
        more = set(uses.get(waiting.pop(), ())) - found
        found |= more
        waiting += more
    return found


def listing() -> str:
    """The text of crates/README.md."""
    parts = [HEAD]
    for layer in layers():
        rows = [
            f"| `{one.name}` | {one.does} | {', '.join(f'`{use}`' for use in one.uses)} |\n" for one in layer.crates
        ]
        table = "| Crate | What it does | Uses |\n|---|---|---|\n" + "".join(rows)
        parts.append(f"## {layer.name}\n\n{layer.about[0].upper()}{layer.about[1:]}\n\n{table}")
    return "\n".join(parts)


def diagram() -> str:
    """The layers, highest first: of each its crates, and the layers on which these stand."""
    found = layers()
    width = max(len(layer.name) for layer in found)
    lines = [f"{'layer':{width}} crates, lowest first"]
    for layer in reversed(found):
        uses = {use for one in layer.crates for use in one.uses}
        below = [other.name for other in found if other is not layer and any(one.name in uses for one in other.crates)]
        lines.append(f"{layer.name:{width}} {' '.join(one.name for one in layer.crates)}")
        lines += [f"{'':{width}} over {', '.join(below)}"] if below else []
    return "\n".join(lines)


def with_diagram(page: str) -> str:
    """The page with this diagram as its first block of code."""
    return re.sub(r"(?ms)^```\n.*?^```$", lambda _found: f"```\n{diagram()}\n```", page, count=1)


def main() -> int:
    for path, text in ((LIST, listing()), (DIAGRAM, with_diagram(text_of(DIAGRAM)))):
        write_text(path, text)
    return 0


if __name__ == "__main__":
    sys.exit(main())
