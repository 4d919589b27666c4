"""Rounds of a collection whose items have faces and edges: in a round all faces are drawn first, and then all edges.

Each item's face comes before its edge, and after the edges of earlier items. Items that touch no common cell of a grid
may be drawn in any order, and one round takes many of them.
"""

from __future__ import annotations

from typing import Any, Optional

import numpy as np

from .._polygons import Polygons
from .._records import UNIT
from ._inside import MITRE_LIMIT

# The side of a cell, in pixels.
CELL = 4
# Rounds cost time: each resolves the samples once, and loads what Agg has drawn. They are found item by item.
MAX_ROUNDS, MAX_ITEMS = 16, 4096
FIRST_ITEMS = 1024


def rounds_of(polygons: Polygons, faces: Any, edges: Any, widths: Any, width: int, height: int) -> Optional[Any]:
    """The round of each item in a picture of this size; None if there are too many. `faces` are the items whose face is
    drawn into samples, and `edges` those of which Agg draws something."""
    if len(faces) > MAX_ITEMS:
        return None
    bounds, has_corners = polygons.boxes / UNIT, np.diff(polygons.places) > 0
    cells = -(-height // CELL), -(-width // CELL)
    in_faces = cells_of(bounds, np.ones(len(bounds)), faces & has_corners, cells)
    in_edges = cells_of(bounds, reach_of(widths), edges & has_corners, cells)
    face_rounds, edge_rounds = np.zeros(cells, np.int32), np.full(cells, -1, np.int32)
    found = np.zeros(len(faces), np.int32)
    for n in range(len(faces)):
        face, edge = slices(in_faces[n]), slices(in_edges[n])
        found[n] = max(
            face_rounds[face].max(initial=0), edge_rounds[face].max(initial=-1) + 1,
            face_rounds[edge].max(initial=0), edge_rounds[edge].max(initial=0),
        )
        if found[n] >= MAX_ROUNDS:
            return None
        face_rounds[face] = edge_rounds[edge] = found[n]
    return found


def slices(cells: Any) -> Any:
    left, top, right, bottom = cells
    return slice(top, bottom), slice(left, right)


def reach_of(widths: Any) -> Any:
    """How far edges reach, in pixels. Two pixels more for what is snapped and smoothed."""
    return np.ceil(MITRE_LIMIT * widths / 2 + 2)


def cells_of(bounds: Any, reach: Any, which: Any, cells: Any) -> list[Any]:
    """The cells that items touch, with what lies around them, of the items that are set."""
    found = np.empty(bounds.shape)
    found[:, :2] = np.floor((bounds[:, :2] - reach[:, None]) / CELL)
    found[:, 2:] = np.floor((bounds[:, 2:] + reach[:, None]) / CELL) + 1
    found[~which] = 0
    rows, columns = cells
    whole: list[Any] = np.clip(found, 0, (columns, rows, columns, rows)).astype(int).tolist()
    return whole


def have_common_sides(polygons: Polygons) -> bool:
    """Whether two sides of polygons are the same, in one direction or the other, so that a seam could
    be between them."""
    # Of many polygons the first ones mostly say it.
    if polygons.count > FIRST_ITEMS and have_common_sides(polygons.part(0, FIRST_ITEMS)):
        return True
    corners = polygons.corners.astype(np.int64)
    if not len(corners):
        return False
    following = np.roll(corners, -1, 0)
    ends = polygons.ring_ends[polygons.ring_ends > np.concatenate(([0], polygons.ring_ends[:-1]))]
    following[ends - 1] = corners[np.concatenate(([0], ends[:-1]))]
    points, others = ((each[:, 0] << 32) ^ (each[:, 1] & 0xFFFFFFFF) for each in (corners, following))
    points, others = (points[points != others], others[points != others])
    # Two sides of one key are the same, but for one in some 10^10.
    keys = np.minimum(points, others) * 0x1E3779B97F4A7C15 ^ np.maximum(points, others) * 0x42B2AE3D27D4EB4F
    keys.sort()
    return bool((keys[1:] == keys[:-1]).any())
