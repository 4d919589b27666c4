"""Clip rectangles and clip paths of a graphics context."""

from __future__ import annotations

import math
from itertools import count
from typing import Any, List, NamedTuple, Optional

from .._box import Box
from ._paths import path_polygon
from ._window import Clip

# Clip paths that are kept as polygons.
MAX_KEPT = 4


def clip_box(gc: Any, width: int, height: int) -> Box:
    """The pixels of the clip rectangle, rounded to whole ones as Agg does."""
    rectangle = gc.get_clip_rectangle()
    if rectangle is None:
        return Box(0, 0, width, height)
    (left, low), (right, high) = rectangle.get_points().tolist()
    if not (left or low or right or high) or not math.isfinite(left + low + right + high):
        return Box(0, 0, width, height)
    return Box(inside(left, width), inside(height - high, height), inside(right, width), inside(height - low, height))


def inside(position: float, end: int) -> int:
    return min(max(math.floor(position + 0.5), 0), end)


class Kept(NamedTuple):
    path: Any
    matrix: bytes
    snap: Optional[bool]
    clip: Clip


class Clips:
    """The last clip paths as polygons."""

    def __init__(self, height: int) -> None:
        self._height = height
        self._kept: List[Kept] = []
        self._numbers = count()

    def of(self, gc: Any) -> Optional[Clip]:
        """The clip path of a context, or None if there is none."""
        path, transform = gc.get_clip_path()
        if path is None:
            return None
        matrix, snap = transform.get_matrix(), gc.get_snap()
        key = matrix.tobytes()
        for kept in self._kept:
            if kept.path is path and kept.matrix == key and kept.snap == snap:
                return kept.clip
        clip = Clip(next(self._numbers), path_polygon(path, matrix, self._height, snap, 0.0))
        self._kept = [*self._kept[1 - MAX_KEPT :], Kept(path, key, snap, clip)]
        return clip
