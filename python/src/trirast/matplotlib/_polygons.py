"""Polygons made of paths without curves, cut to the guard band, and what is known of their rings."""

from __future__ import annotations

from typing import Any, Sequence, Tuple

import numpy as np
from matplotlib.path import Path

from .._polygons import Polygons, checked
from .._records import UNIT
from .._ring_cuts import within

# Positions are at most this far from the picture's corner, in pixels: the guard band ends at 32,768.
REACH = 32767.0
# matplotlib has them as numbers of numpy, which take many times as long to compare with an integer.
MOVETO, LINETO, CLOSEPOLY = int(Path.MOVETO), int(Path.LINETO), int(Path.CLOSEPOLY)
# A single ring of at most this number of corners winds around no point twice, so both rules are the same for it.
MOST_SIMPLE = 4

Rings = Tuple[Any, Any]


def are_rings(polygons: Polygons) -> bool:
    """Returns whether each polygon is one ring. There may be as many rings as polygons though one has two, and another
    none."""
    ends = polygons.polygon_ends
    if len(polygons.ring_ends) != len(ends) or not len(ends):
        return False
    return bool((ends[1:] > ends[:-1]).all()) and int(ends[0]) == 1


def are_simple(polygons: Polygons) -> bool:
    """Returns whether each polygon is one ring that is known to wind around no point twice, so that the even-odd rule
    is the nonzero rule."""
    if not are_rings(polygons):
        return False
    few = np.diff(polygons.ring_ends, prepend=0) <= MOST_SIMPLE
    return bool(few.all() or (few | turn_once(polygons.corners, polygons.ring_ends)).all())


def turn_once(corners: Any, ring_ends: Any) -> Any:
    """Returns which rings run down once and up once, or right once and left once. A line across that direction crosses
    such a ring at most twice, there and back, so the ring winds around no point twice."""
    found = np.ones(len(ring_ends), bool)
    some = (np.diff(ring_ends, prepend=0) > 0).nonzero()[0]
    ends = ring_ends[some].astype(np.int64)
    steps = np.empty_like(corners)
    steps[:-1] = corners[1:] - corners[:-1]
    steps[ends - 1] = corners[np.concatenate(([0], ends[:-1]))] - corners[ends - 1]
    # What fills between two curves runs to the right and back.
    across = turns_of(steps[:, 0], ends) <= 2
    found[some] = across if across.all() else across | (turns_of(steps[:, 1], ends) <= 2)
    return found


def turns_of(steps: Any, ends: Any) -> Any:
    """Returns how often each ring turns back, from its steps in one direction. The turn from its last step to its first
    is not counted, and is one more if the number is odd."""
    moving = steps.nonzero()[0]
    forth = steps[moving] > 0
    before = (forth[1:] != forth[:-1]).nonzero()[0]
    ring, next_ring = (ends.searchsorted(moving[each], "right") for each in (before, before + 1))
    return np.bincount(ring[ring == next_ring], minlength=len(ends))


def is_near(points: Any, x: int = 0, y: int = 0) -> bool:
    """Returns whether there are positions, all of them numbers in the guard band: of the picture, and of a canvas whose
    corner lies at x and y."""
    with np.errstate(invalid="ignore"):
        return bool(points.size) and bool(max(x, y) - REACH <= points.min() and points.max() <= REACH)


def in_units(positions: Any) -> Any:
    """Returns positions in pixels as whole numbers of 1/256 pixel, still as floats."""
    found = np.multiply(positions, UNIT)
    return np.rint(found, out=found)


def of_arrays(corners: Any, ring_ends: Any, polygon_ends: Any) -> Polygons:
    """Returns polygons without colours, of corners that nobody else has and of ends that fit."""
    return checked(Polygons(corners, np.asarray(ring_ends, np.uint32), np.asarray(polygon_ends, np.uint32)))


def polygons(positions: Any, ring_ends: Any, polygon_ends: Any) -> Polygons:
    """Returns polygons of positions in pixels."""
    return of_arrays(in_units(positions).reshape(-1, 2).astype(np.int32), ring_ends, polygon_ends)


NOTHING = polygons(np.zeros((0, 2)), [], [])


def equal_rings(points: Any) -> Polygons:
    """Returns polygons of one ring each, from positions in pixels of the shape (n, corners, 2)."""
    return rings_of_one_length(in_units(points).astype(np.int32))


def rings_of_one_length(corners: Any) -> Polygons:
    """Returns polygons of one ring each, from corners of the shape (n, corners, 2)."""
    each = np.arange(1, len(corners) + 1)
    return of_arrays(corners.reshape(-1, 2), corners.shape[1] * each, each)


def rectangles(boxes: Any) -> Polygons:
    """Returns the rectangles of some boxes of pixels, rows of left, top, right and bottom."""
    return rings_of_one_length((UNIT * np.asarray(boxes, np.int32)[:, [0, 1, 2, 1, 2, 3, 0, 3]]).reshape(-1, 4, 2))


def joined(paths: Sequence[Rings]) -> Polygons:
    """Returns paths without curves, their vertices and codes, each as one polygon, cut to the guard band."""
    if not any(len(vertices) for vertices, _codes in paths):
        return of_arrays(NOTHING.corners, (), np.zeros(len(paths), np.uint32))
    paths = [opened(*path) for path in paths]
    vertices, codes = (np.concatenate(each) for each in zip(*paths))
    kept, ring_ends, polygon_ends = ends_of(codes, np.array([len(codes) for _vertices, codes in paths], np.int64))
    return polygons(*within(vertices[kept], ring_ends, (-REACH, -REACH), (REACH, REACH)), polygon_ends)


def rings(vertices: Any, codes: Any, counts: Any) -> Polygons:
    """Returns consecutive paths of MOVETO, LINETO and CLOSEPOLY, each as one polygon. `counts` has the number of
    vertices of each, all of which lie in the guard band."""
    kept, ring_ends, polygon_ends = ends_of(codes, counts)
    corners = in_units(vertices).astype(np.int32)
    return of_arrays(corners if kept.all() else as_corners(as_numbers(corners)[kept]), ring_ends, polygon_ends)


def ends_of(codes: Any, counts: Any) -> Tuple[Any, Any, Any]:
    """Returns which vertices of such paths are corners, and the end indices of rings and of polygons."""
    ends = counts.cumsum()
    kept = codes != CLOSEPOLY
    begins = codes == MOVETO
    begins[(ends - counts)[counts > 0]] = True
    begins &= kept
    begun, dropped = begins.nonzero()[0], (~kept).nonzero()[0]
    starts = begun - dropped.searchsorted(begun)
    return kept, np.append(starts, len(codes) - len(dropped))[1:], begun.searchsorted(ends)


def as_numbers(corners: Any) -> Any:
    """Returns each corner as a single number, which numpy moves much faster than a row of two."""
    return corners.view(np.int64)[:, 0]


def as_corners(numbers: Any) -> Any:
    """Returns the corners of such numbers."""
    return numbers.view(np.int32).reshape(-1, 2)


def opened(vertices: Any, codes: Any) -> Rings:
    """Returns a path in which each line after a CLOSEPOLY begins where the closed ring began, as in Agg."""
    again = np.flatnonzero((codes[1:] == LINETO) & (codes[:-1] == CLOSEPOLY)) + 1
    if not len(again):
        return vertices, codes
    moves = np.flatnonzero(codes == MOVETO)
    begun = moves[np.maximum(np.searchsorted(moves, again) - 1, 0)] if len(moves) else np.zeros(len(again), int)
    return np.insert(vertices, again, vertices[begun], 0), np.insert(codes, again, MOVETO)
