"""Calls of bin/trirast, and the files that it is expected to write."""

from __future__ import annotations

import itertools
from typing import Iterable, Sequence

import pytest

from tools.answers import Answer, drawn
from tools.places import PROGRAM, WHY_PROGRAM, is_built

TILE_SIZES = (8, 16, 32, 64)
WORKERS = (1, 2, 3, 7, 16)


def call(text: bytes | str, *arguments: str, program: str = PROGRAM) -> Answer:
    """How the program ends when it is called with these arguments and this input."""
    if not is_built(program):
        pytest.fail(f"{program} has to be built first, by make")
    return drawn(program, text if isinstance(text, bytes) else text.encode(), arguments)


def call_why(text: bytes | str, *arguments: str) -> Answer:
    """The same of bin/trirast_why."""
    return call(text, *arguments, program=WHY_PROGRAM)


def colour_file(width: int, height: int, pixels: str) -> bytes:
    """A file of colours, with pixels in hexadecimal digits."""
    return f"P6\n{width} {height}\n255\n".encode() + bytes.fromhex(pixels)


def depth_file(width: int, height: int, pixels: str) -> bytes:
    """A file of depths, with pixels in hexadecimal digits."""
    return f"P5\n{width} {height}\n65535\n".encode() + bytes.fromhex(pixels)


def check_written(text: bytes | str, file: bytes, *arguments: str) -> None:
    """Checks that the program writes this file of the list, and no line of an error."""
    answer = call(text, *arguments)
    assert (answer.status, answer.line) == (0, b""), arguments
    # Not in one tuple with the others: pytest would take long to say where long files differ.
    assert answer.output.hex() == file.hex() if len(file) < 1000 else answer.output == file, arguments


def options(tile_sizes: Iterable[int] = TILE_SIZES, workers: Iterable[int] = WORKERS) -> list[Sequence[str]]:
    """The arguments for each of these tile sizes with each of these numbers of workers."""
    return [("--tile", str(tile), "--workers", str(number)) for tile, number in itertools.product(tile_sizes, workers)]


def check_always_written(text: bytes | str, file: bytes, workers: Iterable[int] = WORKERS) -> None:
    """The same with each tile size and several numbers of workers."""
    for arguments in options(workers=workers):
        check_written(text, file, *arguments)


def check_refused(text: bytes | str, line: str) -> None:
    """Checks that the program refuses the list with this line, and writes nothing."""
    assert call(text) == (1, b"", f"trirast: {line}\n".encode())
