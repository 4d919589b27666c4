"""Counts what is hard to read in the hand-written pages: wide lines, long cells of tables, long sentences.

    python3 -m tools.writing [PAGE ..]

STYLE.md has the limits. Prints each line, cell and sentence that is too long: of the named pages, or of all.
"""

from __future__ import annotations

import argparse
import os
import re
import sys
from dataclasses import dataclass, field
from typing import Iterator

from tools.markdown import rows
from tools.places import TOP, text_of

MOST_COLUMNS, MOST_CELL_WORDS, MOST_SENTENCE_WORDS = 110, 25, 40
# Pages that a tool writes, as a whole.
GENERATED = ("crates/README.md", "docs/statement.md", "docs/generated/", "packaging/FILES.md")
# Made by others, or by tools.
MADE = re.compile(r"(^|/)(bench/out|dist|node_modules|out|site|target)/")

FENCE = re.compile(r"^ *```.*?^ *```$", re.MULTILINE | re.DOTALL)
CODE = re.compile(r"``.+?``|`[^`]+`", re.DOTALL)
LINK = re.compile(r"!?\[((?:[^\[\]]|\[[^\]]*\])*)\]\([^)\s]*\)")
# A paragraph ends at an empty line, a heading, an item of a list, a quotation's mark or a row of a table.
PARAGRAPH = re.compile(r"\n\s*\n|\n(?=\s*(?:[-*+] |\d+\. |#|>|\|))|(?<=\n)#.*\n")
END = re.compile(r"(?<=[.!?])[*_)\"']*\s+(?=[*_(\"'\[]*[A-Z0-9`])")
MARK = re.compile(r"^\s*(?:[-*+] (?:\[[ x]\] )?|\d+\. |#+ |> ?)")


@dataclass(frozen=True)
class Found:
    """What is too long in a page."""

    lines: list[str] = field(default_factory=list)
    cells: list[str] = field(default_factory=list)
    sentences: list[str] = field(default_factory=list)

    def counts(self) -> Counts:
        return Counts(len(self.lines), len(self.cells), len(self.sentences))


@dataclass(frozen=True)
class Counts:
    """How many lines, cells and sentences of a page are too long."""

    lines: int = 0
    cells: int = 0
    sentences: int = 0


def words(text: str) -> int:
    """The words of a text. A piece of code counts as one, and a link as its text."""
    return sum(bool(re.search(r"\w", word)) for word in CODE.sub(" code ", LINK.sub(r"\1", text)).split())


def prose_of(page: str) -> str:
    """A page without its blocks of code."""
    return FENCE.sub("", page)


def is_row(line: str) -> bool:
    return line.lstrip().startswith("|")


def sentences(page: str) -> Iterator[str]:
    """The sentences of a page outside of tables and blocks of code, each on one line."""
    text = "\n".join("" if is_row(line) else line for line in prose_of(page).split("\n"))
    for paragraph in PARAGRAPH.split(text):
        # Code and links are hidden while sentences are told apart, since they may have full stops.
        hidden: list[str] = []

        def hide(found: re.Match[str]) -> str:
            hidden.append(found[0])
            return f"`{len(hidden) - 1}`"

        plain = CODE.sub(hide, MARK.sub("", paragraph))
        for sentence in END.split(" ".join(plain.split())):
            yield re.sub(r"`(\d+)`", lambda found: hidden[int(found[1])], sentence)


def found_in(page: str) -> Found:
    """What is too long in a page. A row of a table cannot be wrapped, so its sentences belong in a list."""
    prose = prose_of(page)
    return Found(
        [line for line in prose.split("\n") if len(line) > MOST_COLUMNS and " " in line.strip()],
        [cell for row in rows(prose) for cell in row if words(cell) > MOST_CELL_WORDS],
        [sentence for sentence in sentences(page) if words(sentence) > MOST_SENTENCE_WORDS],
    )


def pages() -> list[str]:
    """The pages in Markdown that are written by hand."""
    found: list[str] = []
    # Links are not followed: what Wine leaves in out/ has one to the root of the file system.
    for at, folders, names in os.walk(TOP):
        inside = os.path.relpath(at, TOP)
        folders[:] = [name for name in folders if name[0] != "." and not MADE.search(os.path.join(inside, name, ""))]
        found += [os.path.normpath(os.path.join(inside, name)) for name in names if name.endswith(".md")]
    return sorted(path for path in found if not path.startswith(GENERATED))


def counted() -> dict[str, Counts]:
    """The counts of each page that has any."""
    every = {page: found_in(text_of(page)).counts() for page in pages()}
    return {page: counts for page, counts in every.items() if counts != Counts()}


def show(page: str) -> None:
    found = found_in(text_of(page))
    for kind, texts in vars(found).items():
        for text in texts:
            print(f"{page}: {kind}: {len(text)} columns, {words(text)} words: {text}")


def main() -> int:
    parser = argparse.ArgumentParser(description="Prints what is hard to read in the pages.")
    parser.add_argument("pages", nargs="*", metavar="PAGE", help="these pages alone")
    for page in parser.parse_args().pages or pages():
        show(page)
    return 0


if __name__ == "__main__":
    sys.exit(main())
