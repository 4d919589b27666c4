"""Writes docs/generated/wrong_bodies.md: each must-fail edit, the function that it changes and the clause it breaks.

    python3 -m tools.sources.wrong_bodies

An edit is a file crates/NAME/must-fail/FUNCTION.WHAT_IS_WRONG.edit. If the function has several clauses, a line
`clause: NAME` of the edit says which one rejects it; `rt` does not read that line.
"""

from __future__ import annotations

import os
import re
from dataclasses import dataclass
from typing import Iterator

from tools import places
from tools.edits import clause_in, pairs_in
from tools.places import text_of, write_text
from tools.sources.public_calls import CRATES, calls_of
from tools.sources.rattle import Function, functions_in

PAGE = os.path.join("docs", "generated", "wrong_bodies.md")
HEAD = """\
# Must-fail edits

Each row is a must-fail edit, a mutant of proved code: it makes one function wrong, and `rt ci` fails unless the
prover rejects it. The edit of `FUNCTION` is the file `crates/CRATE/must-fail/FUNCTION.WHAT_IS_WRONG.edit`. The clause
is the promise that the mutant breaks; a dash stands for a contract whose only clause has no name.
`python3 -m tools.sources.wrong_bodies` writes this page.
"""
REST = """\
## Public calls without an edit

Most of these read a field, build a value from its parts, pass on to a function that has an edit, or state a
law, which is all that their contract says.
"""


@dataclass(frozen=True)
class Edit:
    crate: str
    # The name of the file without its suffix.
    name: str

    @property
    def path(self) -> str:
        return os.path.join("crates", self.crate, "must-fail", f"{self.name}.edit")

    @property
    def text(self) -> str:
        return text_of(self.path)

    @property
    def pairs(self) -> list[tuple[str, str, str]]:
        return pairs_in(self.text)

    @property
    def mistake(self) -> str:
        return self.name.partition(".")[2].replace("_", " ")

    def function(self) -> Function | None:
        """The function that it is named for: of several in a file the last one that begins before the text it changes,
        or the first if the change stands before all of them."""
        word = self.name.split(".")[0]
        for path, old, _new in self.pairs:
            text = text_of("crates", self.crate, path)
            if found := [one for one in functions_in(text) if one.name == word]:
                begun = len(re.findall(rf"\bfn {word}\b", text.split(old)[0]))
                return found[max(begun, 1) - 1]
        return None

    def clause(self) -> str:
        """The name of the clause that refuses it, or nothing."""
        one = self.function()
        names = promises(one) if one else []
        return clause_in(self.text) or (names[0] if len(names) == 1 else "")


def promises(one: Function) -> list[str]:
    """The names of what a function ensures, each empty if it has none."""
    return re.findall(r"^ensures(?: (\w+))? ?(?:\{|$)", one.text, re.MULTILINE)


def edits() -> list[Edit]:
    paths = places.files("crates", "*", "must-fail", "*.edit")
    return [Edit(path.split(os.sep)[1], os.path.basename(path).removesuffix(".edit")) for path in paths]


def crates() -> list[str]:
    """The crates with an edit, lowest first."""
    named = {edit.crate for edit in edits()}
    return [crate for crate in CRATES if crate in named]


def call_of(edit: Edit) -> str:
    one = edit.function()
    assert one, edit.path
    return f"{one.owner}::{one.name}" if one.owner else one.name


def tables() -> Iterator[str]:
    every = edits()
    for crate in crates():
        yield f"## `{crate}`\n"
        yield "| Function | Clause | Mutant |\n|---|---|---|"
        for edit in every:
            if edit.crate == crate:
                clause = edit.clause()
                yield f"| `{call_of(edit)}` | {f'`{clause}`' if clause else '-'} | {edit.mistake} |"
        yield ""


def without() -> Iterator[str]:
    """The public calls of each crate that have no edit."""
    tried = {(edit.crate, call_of(edit)) for edit in edits()}
    yield "| Crate | Calls |\n|---|---|"
    for crate in CRATES:
        calls = [call for call in sorted(calls_of(crate)) if (crate, call.removeprefix(f"{crate}::")) not in tried]
        if calls:
            yield f"| `{crate}` | {', '.join(f'`{call}`' for call in calls)} |"


def page() -> str:
    return "\n".join([HEAD, *tables(), REST, *without()]) + "\n"


if __name__ == "__main__":
    write_text(PAGE, page())
