"""The history of a sample by the rules: what each triangle does to it, and why, as the program
`trirast_why` reports it."""

from __future__ import annotations

import json
import os
import subprocess
from dataclasses import dataclass
from typing import Any

from conformance.comparison import Example, samples_of
from conformance.program import as_bytes
from conformance.sample_counts import OF_LISTS
from tools.draw_list import triangles_of

MAX_SECONDS = 60
HEAD = ("draw", "triangle", "result", "reasons", "fragment", "before", "after")
NO_PROGRAM = "There is no program {}, so that no history of a sample is shown."


@dataclass
class History:
    """Where a sample lies in 1/256 pixel, and a row of HEAD for each triangle that is shown."""

    position: str
    begin: str
    rows: list[tuple[str, ...]]
    end: str


def words(value: Any) -> str:
    """A value of JSON as words: names and their values, or the elements of an array."""
    if isinstance(value, dict):
        return ", ".join(f"{key} {words(part)}" for key, part in value.items() if part is not None)
    if isinstance(value, list):
        return " ".join(map(words, value))
    return "-" if value is None else str(value)


def triangles_of_colour(example: Example, colour: bytes) -> set[tuple[int, int]]:
    """The draws and the indices of the triangles that have this colour at all of their vertices."""
    share = samples_of(example.scene)
    wanted = [share * channel for channel in colour]
    return {
        (number, index)
        for number, draw in enumerate(example.scene["draws"])
        for index, triangle in enumerate(triangles_of(draw))
        if all(draw["vertices"][corner][3:6] == wanted for corner in triangle)
    }


def is_shown(event: dict[str, Any], named: set[tuple[int, int]]) -> bool:
    """Whether a triangle reaches the sample's depth test, or is one that the rules or the driver show there."""
    return event.get("result") in ("drawn", "depth_failed") or (event.get("draw"), event.get("triangle")) in named


def read(example: Example, answer: bytes) -> History:
    """The history that a program wrote as JSON. Raises `ValueError` or `LookupError` if it is none."""
    (sample,) = json.loads(answer)["samples"]
    named = set().union(*(triangles_of_colour(example, colour) for colour in example.colours() if any(colour)))
    rows = [tuple(words(event.get(key)) for key in HEAD) for event in sample["events"] if is_shown(event, named)]
    return History(words(sample["position"]), words(sample["begin"]), rows, words(sample["end"]))


def history(program: str, example: Example) -> History | None:
    """The history of an example's sample in the whole list, or `None` if the program gives none."""
    if samples_of(example.scene) not in OF_LISTS:
        return None
    column, row = example.place
    command = [program, f"{column},{row}", "--sample", str(example.sample), "--all", "--json"]
    try:
        run = subprocess.run(command, input=as_bytes(example.scene), capture_output=True, timeout=MAX_SECONDS)
        return read(example, run.stdout) if run.returncode == 0 else None
    except (OSError, subprocess.TimeoutExpired, ValueError, LookupError, TypeError, AttributeError):
        return None


def histories(program: str, examples: list[tuple[str, Example]]) -> dict[str, History]:
    """The histories of examples, by their names."""
    if not os.access(program, os.X_OK):
        return {}
    found = ((name, history(program, example)) for name, example in examples)
    return {name: made for name, made in found if made is not None}
