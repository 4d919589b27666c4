"""Writes the lines at the head of each crate's specs/Lib.antt: each public definition, and the first sentence of its
comment.

    python3 -m tools.definitions [--check] [CRATE ...]

With --check it writes nothing, names what is wrong, and exits with status 1 if something is: a definition without a
comment of its own, a comment that is no sentence, a line longer than 140 columns, or a Lib.antt whose lines are not
those of the definitions.
"""

from __future__ import annotations

import argparse
import os
import re
import sys
from typing import Iterator

from tools import places
from tools.counts import Counts
from tools.places import text_of, write_text
from tools.sources.layers import product
from tools.sources.rattle import Defined, definitions_in
from tools.sources.statement_text import GROUPS

LONGEST = 140
MODULE = re.compile(r"^pub mod (\w+)$", re.MULTILINE)
OPENING = (
    "-- The definitions of this crate, each file behind those that it uses; `python3 -m "
    "tools.definitions` writes these lines."
)


def faults_of(defined: Defined) -> Iterator[str]:
    """What is wrong with the comment of a definition."""
    if not defined.comment:
        yield f"{defined.name} has no comment of its own"
        return
    first_word = re.split(r"[ ,.:]", defined.comment)[0]
    if first_word[0].islower() and not re.search(rf"(?<!\w){re.escape(first_word)}(?!\w)", defined.code):
        yield f"the comment of {defined.name} does not begin as a sentence"
    if not defined.comment.endswith("."):
        yield f"the comment of {defined.name} does not end in a full stop"
    if len(defined.line) > LONGEST:
        yield f"the first sentence of {defined.name} is {len(defined.line) - LONGEST} columns too long for a line"


def file_of(crate: str, module: str) -> str:
    return os.path.join("crates", crate, "specs", f"{module}.antt")


def reading_order(crate: str, modules: list[str]) -> list[str]:
    """The modules of a crate in the order in which Lib.antt has them, but each behind those that it uses."""
    texts = {module: text_of(file_of(crate, module)) for module in modules}
    uses = {
        module: set(re.findall(rf"^use Rattle\.{crate}\.specs\.(\w+)\b", texts[module], re.MULTILINE))
        for module in modules
    }
    placed: list[str] = []
    while len(placed) < len(modules):
        placed.append(
            next(one for one in modules if one not in placed and uses[one].intersection(modules) <= {*placed, one})
        )
    return placed


def head_of(crate: str) -> str:
    """The lines for a crate's Lib.antt, above its modules."""
    lines = [OPENING]
    for module in reading_order(crate, MODULE.findall(text_of(file_of(crate, "Lib")))):
        found = list(definitions_in(text_of(file_of(crate, module))))
        if found:
            lines += ["--", f"-- {module}.antt", *(one.line for one in found)]
    return "\n".join(lines) + "\n"


def crates() -> list[str]:
    """The crates that have definitions."""
    return [path.split(os.sep)[1] for path in places.files("crates", "*", "specs", "Lib.antt")]


def table() -> str:
    """The files of each crate in reading order, in bold those that docs/statement.md has definitions of."""
    stated = {place.split("#")[0] for group in GROUPS for place in group.places}
    lines = ["| Crate | Files of `specs/` |", "|---|---|"]
    for crate in (one for one in product() if one in crates()):
        modules = reading_order(crate, MODULE.findall(text_of(file_of(crate, "Lib"))))
        names = (f"**{one}**" if file_of(crate, one) in stated else one for one in modules)
        lines.append(f"| `{crate}` | {', '.join(names)} |")
    return "\n".join(lines)


def without_head(text: str) -> str:
    """The text of a Lib.antt from its first module on."""
    return text[text.index("pub mod ") :] if "pub mod " in text else text


def faults(crate: str) -> Iterator[str]:
    """What is wrong with the comments of a crate's definitions, and with the lines of its Lib.antt."""
    modules = MODULE.findall(text_of(file_of(crate, "Lib")))
    for module in modules:
        path = file_of(crate, module)
        for one in definitions_in(text_of(path)):
            yield from (f"{path}: {fault}" for fault in faults_of(one))
    present = {
        os.path.basename(path).removesuffix(".antt") for path in places.files("crates", crate, "specs", "*.antt")
    }
    for module in sorted(present - {"Lib", *modules}):
        yield f"{file_of(crate, 'Lib')}: {module} is no module of it"
    stands = text_of(file_of(crate, "Lib"))
    had, expected = (
        stands.removesuffix(without_head(stands)).rstrip("\n").split("\n"), head_of(crate).rstrip("\n").split("\n")
    )
    yield from (f"{file_of(crate, 'Lib')}: this line is missing: {line}" for line in expected if line not in had)
    yield from (
        f"{file_of(crate, 'Lib')}: this line is of no definition: {line}" for line in had if line not in expected
    )
    if set(had) == set(expected) and had != expected:
        yield f"{file_of(crate, 'Lib')}: its lines are not in reading order"


def write(crate: str) -> None:
    """Writes the lines into a crate's Lib.antt, in place of those that stand there."""
    path = file_of(crate, "Lib")
    write_text(path, head_of(crate) + "\n" + without_head(text_of(path)))


def main() -> int:
    parser = argparse.ArgumentParser(description=__doc__, formatter_class=argparse.RawDescriptionHelpFormatter)
    parser.add_argument("--check", action="store_true", help="write nothing, and name what is wrong")
    parser.add_argument("crates", nargs="*", metavar="CRATE", help="these crates alone")
    arguments = parser.parse_args()
    named = arguments.crates or crates()
    if not arguments.check:
        for crate in named:
            write(crate)
        return 0
    wrong = {crate: list(faults(crate)) for crate in named}
    for fault in sum(wrong.values(), []):
        print(fault)
    failed = sum(1 for found in wrong.values() if found)
    print(Counts(len(named) - failed, failed), flush=True)
    return 1 if failed else 0


if __name__ == "__main__":
    sys.exit(main())
