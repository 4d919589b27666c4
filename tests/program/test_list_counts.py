"""How many draws, vertices and triangles a list may have."""

from __future__ import annotations

from typing import Tuple

import pytest

from tests.program.faults import VERTEX, Fault, check, check_draw

# A list of primitives by its key, an element of it, and how often it has that.
Elements = Tuple[str, str, int]

# The corners of a square.
SQUARE = "[0,0,0,0,0,0,0],[9,0,0,0,0,0,0],[9,9,0,0,0,0,0],[0,9,0,0,0,0,0]"


def repeated(part: str, count: int) -> str:
    """Copies of a part, between commas."""
    return ",".join([part] * count)


def check_two_draws(vertices: str, first: Elements, second: Elements, fault: Fault) -> None:
    """Checks the fault of a list of two draws. Each has a number of elements in one of the lists of primitives."""
    draws = ",".join(
        f'{{"vertices":[{vertices}],"{key}":[{repeated(part, count)}]}}' for key, part, count in (first, second)
    )
    check(f'{{"width":1,"height":1,"draws":[{draws}]}}', fault)


@pytest.mark.parametrize(
    ("part", "count", "fault"),
    [
        ('{"vertices":[],"triangles":[]}', 1024, None),
        ('{"vertices":[],"triangles":[]}', 1025, "TooMany"),
        ("7", 1025, "TooMany"),
        ("7", 1024, "WrongKind in draw 0"),
    ],
)
def test_counts_draws(part: str, count: int, fault: Fault) -> None:
    check(f'{{"width":1,"height":1,"draws":[{repeated(part, count)}]}}', fault)


@pytest.mark.parametrize(
    ("part", "count", "fault"),
    [
        ("[0,0,0,0,0,0,0]", 65_536, None),
        ("[0,0,0,0,0,0,0]", 65_537, "TooMany in draw 0"),
        ("7", 65_537, "TooMany in draw 0"),
    ],
)
def test_counts_vertices(part: str, count: int, fault: Fault) -> None:
    check_draw(f'"vertices":[{repeated(part, count)}],"triangles":[]', fault)


@pytest.mark.parametrize(
    ("first", "part", "second", "fault"),
    [
        (65_535, "[0,0,0]", 1, None),
        (0, "[0,0,0]", 65_536, None),
        (65_536, "[0,0,0]", 1, "TooMany in draw 1"),
        (65_536, "7", 1, "TooMany in draw 1"),
        (1, "[0,0,0]", 65_537, "TooMany in draw 1"),
        (65_537, "[0,0,0]", 0, "TooMany in draw 0"),
    ],
)
def test_counts_triangles(first: int, part: str, second: int, fault: Fault) -> None:
    check_two_draws(VERTEX, ("triangles", "[0,0,0]", first), ("triangles", part, second), fault)


@pytest.mark.parametrize(
    ("first", "second", "fault"),
    [
        (("strip", "0", 65_538), ("strip", "0", 2), None),
        (("strip", "7", 65_539), ("strip", "0", 0), "TooMany in draw 0"),
        (("strip", "0", 65_538), ("strip", "7", 3), "TooMany in draw 1"),
        (("strip", "0", 65_538), ("strip", "7", 2), "BadIndex in draw 1"),
        (("strip", "0", 65_537), ("triangles", "[0,0,0]", 1), None),
        (("strip", "0", 65_537), ("triangles", "7", 2), "TooMany in draw 1"),
        (("triangles", "[0,0,0]", 1), ("strip", "0", 65_537), None),
        (("triangles", "[0,0,0]", 1), ("strip", "7", 65_538), "TooMany in draw 1"),
    ],
)
def test_counts_the_triangles_of_strips(first: Elements, second: Elements, fault: Fault) -> None:
    check_two_draws(SQUARE, first, second, fault)


@pytest.mark.parametrize(
    ("first", "second", "fault"),
    [
        (("quads", "[0,1,2,3]", 32_768), ("strip", "0", 2), None),
        (("quads", "7", 32_769), ("quads", "7", 0), "TooMany in draw 0"),
        (("quads", "[0,1,2,3]", 32_768), ("quads", "7", 1), "TooMany in draw 1"),
        (("strip", "0", 65_536), ("quads", "[0,1,2,3]", 1), None),
        (("strip", "0", 65_537), ("quads", "7", 1), "TooMany in draw 1"),
    ],
)
def test_counts_two_triangles_for_each_quad(first: Elements, second: Elements, fault: Fault) -> None:
    check_two_draws(SQUARE, first, second, fault)
