"""The arguments of the command line, and what the program writes for them."""

from __future__ import annotations

from typing import Sequence

import pytest

from tests.program.lists import TRIANGLE
from tests.program.program import call, options

USAGE = b"usage: trirast [--tile 8|16|32|64] [--workers 1..16] < list.json > picture.ppm\n"


@pytest.mark.parametrize("word", ["--help", "-h"])
def test_prints_the_usage_line(word: str) -> None:
    assert call("", word) == (0, USAGE, b"")


@pytest.mark.parametrize(
    "words",
    [
        ("--tile", "12"),
        ("--tile", "08"),
        ("--tile", ""),
        ("--workers", "0"),
        ("--workers", "17"),
        ("--workers", "two"),
        ("--workers", "-1"),
        ("--width", "3"),
        ("scene.json", "picture.ppm"),
    ],
)
def test_refuses_other_words(words: tuple[str, str]) -> None:
    assert call(TRIANGLE, *words) == (2, b"", b"trirast: command line refused\n")


@pytest.mark.parametrize("words", options(workers=(1, 2, 16)))
def test_takes_tile_sizes_and_workers(words: Sequence[str]) -> None:
    plain = call(TRIANGLE)
    assert len(plain.output) == 38
    assert call(TRIANGLE, *words) == (0, plain.output, b"")
