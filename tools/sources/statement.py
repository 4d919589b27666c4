"""Writes docs/statement.md: the theorem about `trirast::run`, and every definition of this repository that it rests on.

    python3 -m tools.sources.statement [--check]

With --check it writes nothing, compares the page with the sources, and exits with status 1 if they differ.
statement_sources.py reads the sources; statement_text.py has the words by hand. It fails if a definition
stands in no group or before one that it uses, if a name is explained nowhere, or if a group or a line of the
glossary has lost its use.
"""

from __future__ import annotations

import argparse
import difflib
import os
import re
import sys
import textwrap
from typing import Iterable, Iterator

from tools.counts import Counts
from tools.markdown import anchor
from tools.places import TOP, text_of, write_text
from tools.sources import statement_text
from tools.sources.statement_sources import Definition, Name, Unclear, contract_of, definition_of, rests_on
from tools.sources.statement_text import GLOSSARY, GROUPS, Group

PAGE = os.path.join("docs", "statement.md")


def placed_in(group: Group, name: Name) -> bool:
    """Whether a group names a definition, or its file."""
    return name.place in group.places or f"{name.place}#{name.word}" in group.places


def group_of(name: Name) -> Group:
    found = [group for group in GROUPS if placed_in(group, name)]
    if len(found) != 1:
        raise Unclear(f"{name.word} of {name.place} stands in {len(found)} groups")
    return found[0]


def used_by(one: Definition) -> set[Name]:
    """The definitions of this repository that this one uses: a case of a `data` is its `data`."""
    return {definition_of(name).name for name in one.uses if name.is_ours}


def in_reading_order(group: Group, members: Iterable[Definition]) -> list[Definition]:
    """As the group names the files, and as these go on, but each behind those that it uses."""
    files = [place.split("#")[0] for place in group.places]
    waiting = sorted(members, key=lambda one: (files.index(one.name.place), one.line))
    names = {one.name for one in waiting}
    placed: list[Definition] = []
    while waiting:
        done = {one.name for one in placed}
        ready = [one for one in waiting if not (used_by(one) & names) - done - {one.name}]
        if not ready:
            raise Unclear(f"of {waiting[0].name.word} and others each uses another")
        placed.append(ready[0])
        waiting.remove(ready[0])
    return placed


def contracts() -> tuple[Definition, list[Definition]]:
    """That of the theorem, and those of the calls that count failures."""
    return contract_of(*statement_text.THEOREM), [contract_of(*call) for call in statement_text.COUNTING]


def pages_definitions() -> tuple[list[tuple[Group, list[Definition]]], set[Name]]:
    """The groups with their definitions in reading order, and the names of the toolchain that all of them use."""
    theorem, counting = contracts()
    ours, others = rests_on([theorem, *counting])
    others.update(name for one in (theorem, *counting) for name in one.uses if not name.is_ours)
    members: dict[str, list[Definition]] = {group.title: [] for group in GROUPS}
    for one in ours.values():
        members[group_of(one.name).title].append(one)
    groups = [(group, in_reading_order(group, members[group.title])) for group in GROUPS]
    return (
        [(group, found + [one for one in counting if one.name.place in group.places]) for group, found in groups],
        others,
    )


def check_order(groups: list[tuple[Group, list[Definition]]]) -> None:
    """Each definition uses only what stands before it, and each place of a group has something to show."""
    before: set[Name] = set()
    for group, members in groups:
        for one in members:
            missing = used_by(one) - before - {one.name}
            if missing:
                words = sorted(name.word for name in missing)
                raise Unclear(f"{one.name.word} uses {words}, which the page does not have before it")
            before.add(one.name)
        for place in group.places:
            if not any(place in (one.name.place, f"{one.name.place}#{one.name.word}") for one in members):
                raise Unclear(f"the theorem rests on nothing in {place}")


def check_glossary(others: set[Name]) -> None:
    """The glossary has each name of the toolchain that the page uses, and no other."""
    known = {Name(crate, word) for crate, lines in GLOSSARY.items() for word, _form, _meaning in lines}
    if known != others:
        lacking, stale = sorted(others - known), sorted(known - others)
        raise Unclear(f"the glossary lacks {lacking}, and what nothing uses is {stale}")


def link(title: str, text: str = "") -> str:
    return f"[{text or title}](#{anchor(title)})"


def wrapped(text: str) -> str:
    return textwrap.fill(text, 128, break_long_words=False, break_on_hyphens=False) + "\n"


def fenced(text: str, language: str = "") -> str:
    return f"```{language}\n{text}\n```\n"


def shown(members: list[Definition]) -> Iterator[str]:
    """Definitions as blocks of code, those of one file that follow one another in one block below the file's name."""
    at = 0
    while at < len(members):
        place = members[at].name.place
        end = next((more for more in range(at, len(members)) if members[more].name.place != place), len(members))
        language = "rust" if place.endswith(".rt") else ""
        renamed = dict(pair for one in members[at:end] for pair in one.renamed)
        meanings = ", ".join(f"`{word}` stands for {meaning}" for word, meaning in sorted(renamed.items()))
        yield wrapped(f"`{place}`, in which {meanings}:" if renamed else f"`{place}`:")
        yield fenced("\n\n".join(one.text for one in members[at:end]), language)
        at = end


def glossary() -> Iterator[str]:
    for crate, lines in GLOSSARY.items():
        rows = [f"| `{form}` | {meaning} |".replace("||", "\\|\\|") for _word, form, meaning in lines]
        yield f"Of `{crate}`:\n"
        yield "\n".join(["| Name | Meaning |", "|---|---|", *rows]) + "\n"


def index(groups: list[tuple[Group, list[Definition]]]) -> str:
    """Each name with the group that defines it."""
    unsorted = {(one.name.word, group.title) for group, members in groups for one in members}
    names = sorted(unsorted, key=lambda one: (one[0].lower(), one))
    return ",\n".join(link(title, f"`{word}`") for word, title in names) + "\n"


def page() -> str:
    """The whole page."""
    groups, others = pages_definitions()
    check_order(groups)
    check_glossary(others)
    theorem, _counting = contracts()
    titles = ["How to read it", "The theorem", *(group.title for group in GROUPS), "Glossary", "Index"]
    parts = [statement_text.BEGINNING, "\n".join(f"- {link(title)}" for title in titles) + "\n"]
    parts += ["## How to read it\n", statement_text.HOW_TO_READ]
    parts += ["## The theorem\n", *shown([theorem]), statement_text.THEOREM_TEXT]
    for group, members in groups:
        parts += [f"## {group.title}\n", wrapped(group.text), wrapped(f"*Source:* {group.source}"), *shown(members)]
    parts += ["## Glossary\n", statement_text.GLOSSARY_TEXT, *glossary()]
    parts += ["## Index\n", index(groups)]
    return "\n".join(parts)


def difference(old: str, new: str) -> list[str]:
    return list(difflib.unified_diff(old.splitlines(), new.splitlines(), PAGE, "the sources", lineterm=""))


def written() -> str:
    """The page as it stands in docs/."""
    return text_of(PAGE) if os.path.exists(os.path.join(TOP, PAGE)) else ""


def main(arguments: list[str] | None = None) -> int:
    parser = argparse.ArgumentParser(description="docs/statement.md of the sources.")
    parser.add_argument("--check", action="store_true", help="compare the page with the sources, and write nothing")
    options = parser.parse_args(arguments)
    try:
        made = page()
    except Unclear as error:
        print(f"{PAGE} cannot be made: {error}")
        print(Counts(failed=1))
        return 1
    if not options.check:
        write_text(PAGE, made)
        return 0
    lines = difference(written(), made)
    if lines:
        print("\n".join(lines))
        print(f"{PAGE} differs from the sources: run python3 -m tools.sources.statement")
    print(Counts(failed=1) if lines else Counts(passed=1))
    return 1 if lines else 0


if __name__ == "__main__":
    sys.exit(main())
