"""Polygons of three or four corners as triangles, which a canvas draws faster than polygons, and with
the same bytes."""

from __future__ import annotations

from typing import Any, Optional, Tuple

import numpy as np

from .._polygons import Polygons
from .._vertices import VERTEX
from ._polygons import are_rings, as_numbers

# The corners of the triangles on both sides of a quad's first diagonal, and of its second one.
FIRST, SECOND = np.array(((0, 1, 2, 0, 2, 3), (1, 2, 3, 1, 3, 0)), np.uint32)
# Quads that are looked at together: few enough to stay in the cache of a processor.
CHUNK = 4096
# What a vertex has behind its position.
TAIL = np.dtype([("depth", "u2"), ("color", "u4"), ("unused", "u2")])


def triangles_of(polygons: Polygons) -> Optional[Any]:
    """Rows of the three corners of triangles, which cover each sample that the polygons cover, and once; None if a
    polygon is not one ring of as many corners as the others, three or four, or is a ring of four that crosses itself.

    Two triangles on both sides of a diagonal have no sample in common, and in the rule of polygons the
    diagonal cancels.
    """
    count = polygons.count
    length = int(polygons.ring_ends[0]) if are_rings(polygons) else 0
    if (
        length not in (3, 4) or polygons.ring_ends[-1] != length * count
        or (np.diff(polygons.ring_ends) != length).any()
    ):
        return None
    if length == 3:
        return np.arange(3 * count, dtype=np.uint32).reshape(-1, 3)
    quads = polygons.corners.reshape(-1, 4, 2)
    by_first, by_second = (
        np.concatenate(each) for each in zip(*(diagonals_of(quads[n : n + CHUNK]) for n in range(0, count, CHUNK)))
    )
    if not (by_first | by_second).all():
        return None
    corners = FIRST if by_first.all() else np.where(by_first[:, None], FIRST, SECOND)
    return (4 * np.arange(count, dtype=np.uint32)[:, None] + corners).reshape(-1, 3)


def diagonals_of(quads: Any) -> Tuple[Any, Any]:
    """Which quads have a triangle on each side of their first diagonal, and which of their second one."""
    turns = turns_of(quads)
    return same_turn(turns[0], turns[2]), same_turn(turns[1], turns[3])


def turns_of(quads: Any) -> Any:
    """Of quads abcd the doubled areas of abc, bcd, cda and dab, positive if they run clockwise on the screen, of the
    shape (4, n). Corners lie within 2 ** 23, so doubles are exact."""
    (x, y), count = (np.ascontiguousarray(quads[..., axis].T, np.float64) for axis in (0, 1)), len(quads)
    across, down = np.empty((5, count)), np.empty((5, count))
    for sides, places in ((across, x), (down, y)):
        np.subtract(places[1:], places[:-1], out=sides[:3])
        np.subtract(places[0], places[3], out=sides[3])
        sides[4] = sides[0]
    found = across[:4] * down[1:]
    found -= down[:4] * across[1:]
    return found


def same_turn(first: Any, second: Any) -> Any:
    """Whether no triangle of a pair runs against the other."""
    return (np.minimum(first, second) >= 0) | (np.maximum(first, second) <= 0)


def vertices_of_corners(corners: Any, colors: Any, depth: int) -> Any:
    """Vertices of corners, as many for each of the colours, at one depth."""
    tails = np.zeros(len(colors), TAIL)
    tails["depth"], tails["color"] = depth, np.ascontiguousarray(colors).view(np.uint32)[:, 0]
    # Pairs of 32 bits are moved as one number each, which takes numpy much less time.
    found = np.empty((len(colors), len(corners) // len(colors), 2), np.int64)
    found[..., 0] = as_numbers(np.ascontiguousarray(corners)).reshape(found.shape[:2])
    for corner in range(found.shape[1]):
        found[:, corner, 1] = tails.view(np.int64)
    return found.reshape(-1).view(VERTEX)
