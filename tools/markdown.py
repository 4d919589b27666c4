"""Pages in Markdown: headings and tables."""

from __future__ import annotations

import re
from typing import Iterator


def anchor(title: str) -> str:
    """The name by which links find a heading, as GitHub makes it."""
    return re.sub(r"[^\w\- ]", "", title.lower()).replace(" ", "-")


def rows(text: str) -> Iterator[list[str]]:
    """The cells of the rows of a text's tables, their heads too."""
    for line in text.split("\n"):
        if line.startswith("| "):
            yield [cell.strip() for cell in line.strip("|").split(" | ")]
