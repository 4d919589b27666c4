"""Mutants: a copy of a source with one mistake in it, which the check of that source must find.

A file of mutants has a line `name:` with what is wrong, and then lines `file:`, `old:` and `new:` as must-fail edits
have them. Without a line `file:` the file is that of the mutant before.
"""

from __future__ import annotations

import os
import shutil
from dataclasses import dataclass
from functools import partial
from typing import Callable, Iterable

from tests.cases import Case, case, must
from tools.edits import pairs_in
from tools.places import text_of, write_text


@dataclass(frozen=True)
class Mutant:
    # What is wrong.
    name: str
    # Each has a file, a text that stands there once, and what stands in its place.
    changes: tuple[tuple[str, str, str], ...]

    def texts(self, read: Callable[[str], str]) -> dict[str, str]:
        """The wrong texts of the files that it changes. `read` gives the right ones by their names."""
        must(bool(self.changes), "it changes nothing")
        found: dict[str, str] = {}
        for file, old, new in self.changes:
            text = found[file] if file in found else read(file)
            must(old != "" and text.count(old) == 1, f"{text.count(old)} times in {file}, and not once: {old}")
            must(old != new, f"nothing is changed: {old}")
            found[file] = text.replace(old, new)
        return found

    def copied(self, folders: Iterable[str], to: str) -> str:
        """Copies folders into one, makes the copies wrong, and returns where they are."""
        for folder in folders:
            shutil.copytree(folder, to, dirs_exist_ok=True)
        for file, text in self.texts(partial(text_of, to)).items():
            write_text(os.path.join(to, file), text)
        return to


def listed(*path: str) -> list[Mutant]:
    """The mutants of a file, sorted by name."""
    file, found = "", []
    for block in f"\n{text_of(*path)}".split("\nname: ")[1:]:
        name, _end, text = block.partition("\n")
        changes = tuple(pairs_in(f"file: {file}\n{text}"))
        found.append(Mutant(name, changes))
        file = changes[-1][0]
    return sorted(found, key=lambda mutant: mutant.name)


def check(mutant: Mutant, found_by: Callable[[Mutant], str | None]) -> None:
    """A check finds a mutant: `found_by` says what shows it, or `None`."""
    must(found_by(mutant) is not None, "nothing shows that it is wrong")


def cases(mutants: Iterable[Mutant], found_by: Callable[[Mutant], str | None], short: int = 1) -> list[Case]:
    """A case for each mutant, of which the shorter form takes one of so many."""
    return [
        case(f"mutant: {each.name}", check, each, found_by, is_long=k % short > 0) for k, each in enumerate(mutants)
    ]
