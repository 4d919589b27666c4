"""Polygons drawn into a canvas by the nonzero rule, as triangles where these take less time."""

from __future__ import annotations

from typing import Any

from .._canvas import Canvas
from .._polygons import Polygons
from .._records import LOW, UNIT
from ._corners import triangles_of, vertices_of_corners
from ._polygons import are_simple


def draw_shapes(canvas: Canvas, polygons: Polygons, depth: int = 0, **state: Any) -> None:
    """Draws polygons in their colours at a depth, in a state of `Canvas.draw_polygons`."""
    triangles = triangles_of(polygons) if reaches(polygons.corners, canvas.origin) else None
    if triangles is not None:
        vertices = vertices_of_corners(polygons.corners, polygons.colors, depth)
        canvas.draw(vertices, triangles.tobytes(), **state)
        return
    rule: Any = "even-odd" if are_simple(polygons) else "nonzero"
    canvas.draw_polygons(polygons, rule=rule, depth=depth, **state)


def reaches(corners: Any, origin: Any) -> bool:
    """Whether corners lie in the guard band as seen from an origin, as those of triangles have to."""
    farthest = UNIT * max(origin)
    return not farthest or bool(len(corners)) and int(corners.min()) - farthest >= LOW
