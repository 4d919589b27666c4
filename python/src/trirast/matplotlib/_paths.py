"""One path as a polygon, and which paths Agg snaps to whole pixels."""

from __future__ import annotations

from typing import Any, Optional

import numpy as np
from matplotlib.path import Path

from .._polygons import Polygons
from ._inside import MAX_SNAPPED, STRAIGHT, cleaned
from ._polygons import LINETO, MOVETO, REACH, joined, polygons
from ._transforms import affine, applied

LINE, CLOSED = bytes((LINETO,)), bytes((Path.CLOSEPOLY,))
CURVES = (int(Path.CURVE3), int(Path.CURVE4))
FLIPPED = np.array(((1.0, 1.0, 1.0), (-1.0, -1.0, -1.0), (1.0, 1.0, 1.0)))
# The vertices of a rectangle with its first one again.
RECTANGLE = 5


def path_polygon(
    path: Any, matrix: Any, height: int, snap: Optional[bool], stroke: float, sketch: Any = None
) -> Polygons:
    """A path as one polygon. `stroke` is the width of its edge in pixels."""
    placed = matrix * FLIPPED
    placed[1, 2] += height
    vertices, codes = cleaned(path, placed, snap, stroke, sketch)
    # Most paths are one ring.
    ring = codes.tobytes()
    count = len(ring) - ring.endswith(CLOSED)
    if count and ring.count(LINE) == count - 1 and ring[0] == MOVETO:
        corners = vertices[:count]
        if -REACH <= corners.min() and corners.max() <= REACH:
            return polygons(corners, (count,), (1,))
    return joined([(vertices, codes)])


def is_odd(stroke: float) -> bool:
    """Whether what has an edge of this width is snapped to the centres of pixels."""
    return int(stroke + 0.5) % 2 == 1


def is_snapped_rectangle(path: Any, matrix: Any, snap: Optional[bool], sketch: Any) -> bool:
    """Whether a path is an upright rectangle that Agg snaps. It is asked of each path, so of numbers without arrays."""
    if snap is False or sketch is not None or len(path.vertices) != RECTANGLE:
        return False
    (xx, xy, _x), (yx, yy, _y), _row = matrix.tolist()
    if (xy or yx) and (xx or yy) or not is_one_ring(path):
        return False
    (a, b), (c, d), (e, f), (g, h), (i, j) = path.vertices.tolist()
    scale = max(abs(xx), abs(xy), abs(yx), abs(yy))
    first, second = ((a - c, d - f, e - g, h - b), (b - d, c - e, f - h, g - a))
    # Lines that are level or upright by less than STRAIGHT are not looked for here: such a path is drawn as any other.
    closes = a == i and b == j and scale > 0
    return closes and (not any(first) or not any(second))


def is_one_ring(path: Any) -> bool:
    """Whether a path of as many vertices as a rectangle has lines alone, of one ring."""
    if path.codes is None:
        return True
    kinds = path.codes.tobytes()
    return kinds[1:4] == 3 * LINE and kinds[0] not in CURVES and kinds[-1] not in CURVES


def has_curve(path: Any) -> bool:
    codes = path.codes
    return codes is not None and bool(((codes == Path.CURVE3) | (codes == Path.CURVE4)).any())


def is_snapped(path: Any, matrix: Any, snap: Optional[bool]) -> bool:
    """Whether Agg snaps a path."""
    if snap is not None:
        return bool(snap)
    if len(path.vertices) > MAX_SNAPPED or has_curve(path):
        return False
    counts = np.array([len(path.vertices)])
    codes = np.full(counts[0], LINETO, np.uint8) if path.codes is None else path.codes
    return bool(rectilinear(applied(affine(matrix), path.vertices), codes, counts)[0])


def rectilinear(points: Any, codes: Any, counts: Any) -> Any:
    """Which paths have level and upright lines alone, as Agg sees it: the line that closes a ring is not looked at."""
    if not len(points):
        return np.ones(len(counts), bool)
    slanted = np.zeros(len(points), bool)
    step = points[1:] - points[:-1]
    # The two flags of a line, as one number.
    is_small = (np.abs(step, out=step) < STRAIGHT).view(np.uint16)[:, 0]
    slanted[1:] = (is_small == 0) & (codes[1:] == LINETO)
    # With all vertices as lines, as of paths without codes, the first of each is no line.
    slanted[(np.cumsum(counts) - counts)[counts > 0]] = False
    return ~range_any(slanted, counts)


def range_any(flags: Any, counts: Any) -> Any:
    """Of each range of flags whether one is set."""
    if not flags.any():
        return np.zeros(len(counts), bool)
    sums = np.concatenate(([0], np.cumsum(flags)))
    ends = np.cumsum(counts)
    return sums[ends] > sums[ends - counts]
