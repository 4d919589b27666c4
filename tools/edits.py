"""Must-fail edits as files: their pairs of texts, and the clauses that they name."""

from __future__ import annotations


def pairs_in(text: str) -> list[tuple[str, str, str]]:
    """The pairs of an edit in order: the file, the old text and the new one."""
    path = old = ""
    pairs: list[tuple[str, str, str]] = []
    for line in text.split("\n"):
        kind, _colon, rest = line.partition(":")
        rest = rest[1:] if rest.startswith(" ") else rest
        if kind == "file":
            path = rest.strip()
        elif kind == "old":
            old = rest
        elif kind == "new":
            pairs.append((path, old, rest))
            old = ""
    return pairs


def clause_in(text: str) -> str:
    """The clause that an edit names, or nothing."""
    return next((line.partition(":")[2].strip() for line in text.split("\n") if line.startswith("clause:")), "")
