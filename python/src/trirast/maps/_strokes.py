"""Lines, borders and points as polygons in pixels, by shapely."""

from __future__ import annotations

from itertools import cycle
from typing import Any, Iterator, List, Sequence, Tuple

from ._arrays import Window

# The types of parts that have an area, are lines, and are points.
AREAS, LINES, POINTS = ("Polygon",), ("LineString", "LinearRing"), ("Point",)
CAPS = {"butt": 2, "round": 1, "square": 3}
JOINS = {"miter": 2, "round": 1, "bevel": 3}
MITRE_LIMIT = 4.0
# The lines of a quarter of a circle.
QUARTER = 8


def in_picture(geometry: Any, window: Window, size: Tuple[int, int]) -> Any:
    """A geometry in pixels of a picture that shows a window."""
    from shapely.affinity import affine_transform

    (left, bottom, right, top), (width, height) = window, size
    across, down = width / (right - left), height / (top - bottom)
    return affine_transform(geometry, (across, 0, 0, -down, -left * across, top * down))


def stroke_of(geometry: Any, width: float, cap: str, join: str) -> Any:
    """The area of a line, or of the border of an area, in pixels."""
    line = geometry.boundary if geometry.geom_type.endswith("Polygon") else geometry
    return line.buffer(
        width / 2, resolution=QUARTER, cap_style=CAPS[cap], join_style=JOINS[join], mitre_limit=MITRE_LIMIT
    )


def parts_of(geometry: Any, kinds: Tuple[str, ...]) -> Iterator[Any]:
    """The parts of a geometry that have one of these types and are not empty."""
    if geometry is None or geometry.is_empty:
        return
    for part in getattr(geometry, "geoms", ()):
        yield from parts_of(part, kinds)
    if geometry.geom_type in kinds:
        yield geometry


def united(areas: Sequence[Any]) -> Any:
    """The union of areas, or None if there are none."""
    if len(areas) < 2:
        return areas[0] if areas else None
    from shapely.ops import unary_union

    return unary_union(areas)


def dashed(geometry: Any, lengths: Sequence[float]) -> Any:
    """The dashes of a line, or of the border of an area, in pixels: of these lengths in turn, with gaps between."""
    from shapely.geometry import MultiLineString

    line = geometry.boundary if geometry.geom_type.endswith("Polygon") else geometry
    dashes: List[Any] = []
    for each in getattr(line, "geoms", [line]):
        dashes += dashes_of(each, lengths)
    return MultiLineString(dashes)


def dashes_of(line: Any, lengths: Sequence[float]) -> Iterator[Any]:
    """The dashes of one line."""
    from shapely.ops import substring

    at, is_dash = 0.0, True
    for length in cycle(lengths):
        if at >= line.length:
            return
        if is_dash:
            yield substring(line, at, min(at + length, line.length))
        at, is_dash = at + length, not is_dash
