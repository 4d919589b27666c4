"""Writes docs/generated/promises.md of crates/promises.txt: each promise, with the calls and clauses that carry it.

    python3 -m tools.sources.promises

The lines of promises.txt are those of the page, but for its promises. Each of them is a paragraph there, and its last
line begins with `= `: calls, and after a colon the names of their clauses, or of a record's parts. "The same" are the
calls of the promise before.
"""

from __future__ import annotations

import os
import re
from typing import Iterator, NamedTuple

from tools.places import text_of, write_text

SOURCE, PAGE = os.path.join("crates", "promises.txt"), os.path.join("docs", "generated", "promises.md")
HEAD = """\
# Every promise

Each promise supposes that the call's `requires` hold. If a call can fail, its results are promised after `Ok` only.
"Its clause" marks a call whose only clause has no name. [proofs.md](../proofs.md) says what is trusted, and what no
clause promises. `python3 -m tools.sources.promises` writes this page from `crates/promises.txt`.
"""


class Promise(NamedTuple):
    words: str
    carried_by: str


def paragraphs() -> Iterator[str | Promise]:
    """The headings, paragraphs and promises of promises.txt, each on one line."""
    for paragraph in text_of(SOURCE).strip().split("\n\n"):
        words, is_promise, carried_by = paragraph.partition("\n= ")
        flat = " ".join(words.split())
        yield Promise(flat, " ".join(carried_by.split())) if is_promise else flat


def promises() -> list[Promise]:
    return [one for one in paragraphs() if isinstance(one, Promise)]


def page() -> str:
    lines = [HEAD]
    is_open = False
    for one in paragraphs():
        if isinstance(one, Promise):
            lines += [] if is_open else ["| Promise | Carried by |", "|---|---|"]
            lines.append(f"| {one.words} | {one.carried_by} |")
        else:
            lines += ([""] if is_open else []) + [one, ""]
        is_open = isinstance(one, Promise)
    return re.sub(r"\n\n+", "\n\n", "\n".join(lines)).rstrip("\n") + "\n"


if __name__ == "__main__":
    write_text(PAGE, page())
