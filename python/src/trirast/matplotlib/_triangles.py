"""Triangles with a colour at each corner, as matplotlib gives them: where they lie, cut to the guard band, and as
vertices of a canvas."""

from __future__ import annotations

import math
from typing import Any, Iterator, NamedTuple, Optional

import numpy as np
from numpy.typing import NDArray

from .._box import Box
from .._polygons import ranges, with_zero
from .._records import UNIT
from .._ring_cuts import cut
from .._vertices import VERTEX
from ._colors import OPAQUE, bytes_of
from ._polygons import REACH, is_near

# The triangles of a batch, and the vertices that are made at once, which stay in a processor's caches.
# They change no pixel.
BATCH, CHUNK = 65536, 6144
# A vertex as it is written: both coordinates as one number, and the colour as another.
WRITTEN = np.dtype({"names": ["place", "color"], "formats": ["i8", "u4"], "offsets": [0, 10], "itemsize": 16})

Points = NDArray[np.float64]
Colors = NDArray[np.float64]
Vertices = NDArray[Any]


class Batch(NamedTuple):
    """Vertices at depth 0, and the indices of triangles in 32 bits; without any each three vertices are a triangle."""

    vertices: Vertices
    indices: Optional[bytes] = None

    @property
    def is_opaque(self) -> bool:
        return bool(self.vertices["alpha"].min() == OPAQUE)


class Triangles(NamedTuple):
    """Triangles in their order. `points` are of the shape (n, 3, 2): x to the right and y downwards, in pixels.
    `colors` are of the shape (n, 3, 4): red, green, blue and alpha, 0 to 1, not multiplied by alpha."""

    points: Points
    colors: Colors

    def of(self, chosen: Any) -> Triangles:
        """Some of the triangles, by a mask, a slice or indices."""
        return Triangles(self.points[chosen], self.colors[chosen])

    def moved(self, x: float, y: float) -> Triangles:
        return Triangles(self.points + (x, y), self.colors)

    def batches(self, x: int, y: int) -> Iterator[Batch]:
        """Some triangles at a time, cut to the guard band of the figure and of a canvas whose upper left corner lies at
        x and y. One with a position or a colour that is no number is left out."""
        for first in range(0, len(self.points), BATCH):
            some = numbered(self.of(slice(first, first + BATCH)))
            if len(some.points) and not is_near(some.points, x, y):
                some = within_reach(within_reach(some).moved(-x, -y)).moved(x, y)
            if len(some.points):
                yield Batch(vertices_of(some.points.reshape(-1, 2), some.colors.reshape(-1, 4)))


def numbered(triangles: Triangles) -> Triangles:
    """The triangles whose positions and colours are all finite numbers."""
    # The sum is finite if all are, and hardly ever else. So the ordinary case needs no array.
    with np.errstate(invalid="ignore", over="ignore"):
        if np.isfinite(triangles.points.sum()) and np.isfinite(triangles.colors.sum()):
            return triangles
    return triangles.of(np.isfinite(triangles.points).all((1, 2)) & np.isfinite(triangles.colors).all((1, 2)))


def bounds_of(points: Points, box: Box) -> Box:
    """The pixels of a box between the least and the greatest of positions, of which some may be no numbers."""
    (left, right), (top, bottom) = ((np.fmin.reduce(each), np.fmax.reduce(each)) for each in points.reshape(-1, 2).T)
    return Box(
        math.floor(inside(left, box.left, box.right)), math.floor(inside(top, box.top, box.bottom)),
        math.ceil(inside(right, box.left, box.right)), math.ceil(inside(bottom, box.top, box.bottom)),
    )


def inside(position: float, least: int, end: int) -> float:
    """The nearest position from `least` to `end`; `least` for what is no number."""
    return min(max(least, position), end)


# ---- The guard band


def within_reach(triangles: Triangles) -> Triangles:
    """The parts of triangles that are at most REACH from the origin in each direction. Their order is kept.

    Triangles on the two sides of a shared edge are cut at the same points, so what is drawn of them has no seam.
    """
    if not len(triangles.points) or np.abs(triangles.points).max() <= REACH:
        return triangles
    corners = np.concatenate((triangles.points, triangles.colors), 2)
    for axis in (0, 1):
        for limit, sign in ((REACH, -1), (-REACH, 1)):
            is_kept = sign * (corners[:, :, axis] - limit) >= 0
            rings, ends = alone_first(corners, is_kept).reshape(-1, 6), 3 * np.arange(1, len(corners) + 1)
            corners = fans(*cut(rings, ends, axis, limit, sign))
    return numbered(Triangles(corners[:, :, :2], corners[:, :, 2:]))


def alone_first(corners: Any, is_kept: Any) -> Any:
    """Returns triangles, each from the corner on that is kept alone, or is alone not kept, so that its parts do not
    depend on where it began."""
    alone = np.where((is_kept.sum(1) == 1)[:, None], is_kept, ~is_kept).argmax(1)
    return np.take_along_axis(corners, ((alone[:, None] + np.arange(3)) % 3)[:, :, None], 1)


def fans(corners: Any, ends: Any) -> Any:
    """Returns the triangles of convex rings, ring after ring, each around its first corner."""
    begins, ends = with_zero(ends)[:-1].astype(np.int64), ends.astype(np.int64)
    last = np.maximum(ends - 1, begins + 1)
    second = ranges(begins + 1, last)
    return corners[np.stack((np.repeat(begins, last - begins - 1), second, second + 1), 1)]


# ---- Vertices


def vertices_of(points: Points, colors: Colors) -> Vertices:
    """Vertices at depth 0, of rows of x and y in pixels and of rows of red, green, blue and alpha, all
    of them numbers."""
    found = np.zeros(len(points), VERTEX)
    written = found.view(WRITTEN)
    for first in range(0, len(points), CHUNK):
        some = slice(first, first + CHUNK)
        places = np.multiply(points[some], UNIT)
        written["place"][some] = np.rint(places, out=places).astype(np.int32).view(np.int64)[:, 0]
        written["color"][some] = bytes_of(colors[some]).view(np.uint32)[:, 0]
    return found
