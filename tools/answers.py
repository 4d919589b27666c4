"""The program's answer to a draw list, and the answer that the rules name."""

from __future__ import annotations

import os
import subprocess
from typing import Any, NamedTuple, Sequence

from tools.places import OUT, TOP
from tests.reference import renderer

MAX_SECONDS = 60


class Answer(NamedTuple):
    """How a run ended: its exit status, what it wrote to standard output, and what to standard error.

    The status is `None` if the run did not end in time.
    """

    status: int | None
    output: bytes
    line: bytes

    def __str__(self) -> str:
        return f"status {self.status} {self.line.decode(errors='replace').strip()!r}"


def keep(name: str, text: bytes) -> str:
    """Leaves a list whose answer differs in out/compare/. Returns the name of the file, from the top of
    the repository."""
    folder = os.path.join(OUT, "compare")
    os.makedirs(folder, exist_ok=True)
    path = os.path.join(folder, f"{name}.json")
    with open(path, "wb") as file:
        file.write(text)
    return os.path.relpath(path, TOP)


def drawn(program: str, text: bytes, arguments: Sequence[str] = (), seconds: int = MAX_SECONDS) -> Answer:
    """Runs a program on a list."""
    try:
        done = subprocess.run([program, *arguments], input=text, capture_output=True, timeout=seconds)
    except subprocess.TimeoutExpired:
        return Answer(None, b"", b"no answer in time")
    return Answer(done.returncode, done.stdout, done.stderr)


def expected(text: bytes) -> Answer:
    """The answer of the reference renderer."""
    try:
        return Answer(0, renderer.render(renderer.read(text)), b"")
    except renderer.ListFault as error:
        return Answer(1, b"", str(error).encode() + b"\n")


def line_of(error: Any) -> str:
    """The line with which the program refuses a list, of the DrawListError that the package in Python raises for it."""
    place = "" if error.draw is None else f" in draw {error.draw}"
    return f"trirast: list fault {error.number} {error.name}{place}\n"
