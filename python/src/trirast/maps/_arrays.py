"""Geometries of shapely as the arrays of polygons."""

from __future__ import annotations

from typing import Any, Iterator, List, Sequence, SupportsFloat, Tuple

import numpy as np

from .._polygons import Polygons
from .._records import HIGH, LOW, UNIT
from .._ring_cuts import within
from .._snap import snap

# Pixels around a map at which polygons are cut that reach farther than a canvas does.
MARGIN = 64
Given = Sequence[SupportsFloat]
Window = Tuple[float, float, float, float]


def arrays_of(geometries: Any) -> Tuple[Any, Any, Any]:
    """Returns the corners, ring ends and polygon ends of geometries, each of which is one polygon of all its rings.

    Corners are rows of x and y in the units of the geometries. A geometry without an area, or None, is a polygon
    without rings. Parts of a collection that have an area are rings of its polygon. Raises TypeError at what is no
    geometry of shapely.
    """
    rings: List[Any] = []
    polygon_ends: List[int] = []
    for geometry in geometries:
        rings += rings_of(geometry)
        polygon_ends.append(len(rings))
    ring_ends = np.cumsum([len(ring) for ring in rings], dtype=np.uint32)
    corners = np.concatenate(rings) if rings else np.zeros((0, 2))
    return corners, ring_ends, np.array(polygon_ends, np.uint32)


def rings_of(geometry: Any) -> Iterator[Any]:
    """The rings of a geometry, rows of x and y."""
    if geometry is None or getattr(geometry, "is_empty", False):
        return
    if not hasattr(geometry, "geom_type"):
        raise TypeError(f"geometries: expected of shapely, got {type(geometry).__name__}")
    for part in getattr(geometry, "geoms", ()):
        yield from rings_of(part)
    if geometry.geom_type == "Polygon":
        for ring in (geometry.exterior, *geometry.interiors):
            # Heights are left out.
            yield np.asarray(ring.coords, np.float64)[:, :2]


def bounds_of(geometries: Any) -> Window:
    """The least x and y of geometries, and the greatest. Raises ValueError if there are none."""
    found = [each.bounds for each in geometries if each is not None and not each.is_empty]
    if not found:
        raise ValueError("geometries: expected at least one that is not empty, got none")
    low, high = np.min(found, 0), np.max(found, 0)
    return float(low[0]), float(low[1]), float(high[2]), float(high[3])


def checked_window(window: Any) -> Window:
    """The left, lower, right and upper border of a map. Raises ValueError if they enclose nothing."""
    left, bottom, right, top = (float(each) for each in window)
    if not (np.isfinite((left, bottom, right, top)).all() and left < right and bottom < top):
        wanted = "x and y of the lower left corner and then of the upper right one"
        raise ValueError(f"window: expected {wanted}, got {window}")
    return left, bottom, right, top


def placed(geometries: Any, window: Given, size: Tuple[int, int]) -> Polygons:
    """Returns the polygons of geometries in 1/256 pixel of a picture of this width and height, which shows a window of
    their units: x and y of its lower left corner, and then of its upper right one."""
    corners, ring_ends, polygon_ends = arrays_of(geometries)
    return snapped(in_pixels(corners, checked_window(window), size), ring_ends, polygon_ends, size)


def in_pixels(places: Any, window: Window, size: Tuple[int, int]) -> Any:
    """Positions as pixels from the upper left corner of a picture that shows a window."""
    (left, bottom, right, top), (width, height) = window, size
    x, y = (places[:, 0] - left) * (width / (right - left)), (top - places[:, 1]) * (height / (top - bottom))
    return np.stack((x, y), 1)


def snapped(places: Any, ring_ends: Any, polygon_ends: Any, size: Tuple[int, int]) -> Polygons:
    """Polygons of rings in pixels, all cut around the picture if one reaches farther than a canvas does."""
    if len(places) and not (LOW <= UNIT * places.min() and UNIT * places.max() <= HIGH):
        places, ring_ends = within(places, ring_ends, (-MARGIN, -MARGIN), (size[0] + MARGIN, size[1] + MARGIN))
    return Polygons(snap(places), ring_ends, polygon_ends)
