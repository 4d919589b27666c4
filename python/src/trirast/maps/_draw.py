"""A picture of a frame."""

from __future__ import annotations

from typing import Any, NamedTuple, Optional, Sequence, Tuple

import numpy as np

from .._arguments import between, real
from .._canvas import Canvas
from .._numbers import MAX_SIDE
from .._picture import Picture
from .._polygons import Polygons
from ._arrays import Window, arrays_of, bounds_of, checked_window, placed, snapped
from ._colors import colors_of, one_color
from ._strokes import AREAS, CAPS, JOINS, LINES, POINTS, in_picture, parts_of, stroke_of, united

OPAQUE = 255


class View(NamedTuple):
    """The window that a picture of some width and height shows."""

    window: Window
    size: Tuple[int, int]


class Pen(NamedTuple):
    """How lines and borders are drawn: the width in pixels, caps and joins."""

    width: float
    cap: str
    join: str


def draw(
    frame: Any, column: Optional[str] = None, cmap: Any = "viridis", *, color: Any = "#d0c8b0",
    missing: Any = "#dddddd", vmin: Optional[float] = None, vmax: Optional[float] = None, classes: Any = None,
    count: int = 5,
    stroke: Any = None, stroke_width: float = 1.0, cap: str = "round", join: str = "round", radius: float = 3.0,
    window: Optional[Sequence[float]] = None, width: int = 1024, samples: int = 16, background: Any = "white",
    threads: int = 1,
) -> Picture:
    """Draws a frame or a series of geopandas, or geometries of shapely, and returns a picture.

    Areas that share a border have no seam between them. The picture shows a `window` in the frame's units, x and y of
    its lower left corner and then of its upper right one, or all of the frame; `width` is in pixels, at most 4096, and
    the height follows. Each feature has one `color`, or that of its value in a `column`: numbers from `vmin` to `vmax`
    in a colour map of matplotlib, or in `classes`, "equal" or "quantiles" with a `count`, or the least numbers of all
    classes but the first; names one after another. What has no value is `missing`. Lines and borders are
    `stroke_width` pixels wide. Borders are drawn above all areas, in the colour `stroke`, if there is one; lines have
    it too, else the colour of their feature. Points are discs with this `radius` in pixels.

    Raises ValueError and TypeError, which name the parameter, and ImportError if a library is missing.
    """
    geometries = list(getattr(frame, "geometry", frame))
    colors = rows_of(frame, geometries, column, color, (cmap, (vmin, vmax), classes, count, missing))
    view = view_of(geometries, window, width)
    pen = pen_of(stroke_width, cap, join)
    canvas = Canvas(*view.size, samples)
    canvas.clear(background, threads=threads)
    draw_some(canvas, placed([areas(each) for each in geometries], *view), colors, threads)
    edge = None if stroke is None else np.broadcast_to(one_color("stroke", stroke), colors.shape)
    if edge is not None and pen.width:
        draw_some(canvas, strokes(geometries, AREAS, view, pen), edge, threads)
    if pen.width:
        draw_some(canvas, strokes(geometries, LINES, view, pen), colors if edge is None else edge, threads)
    dot = Pen(2 * real("radius", radius), "round", "round")
    draw_some(canvas, strokes(geometries, POINTS, view, dot), colors, threads)
    return Picture(canvas.width, canvas.height, False, memoryview(canvas.rgb(threads=threads)).cast("B"))


def rows_of(frame: Any, geometries: Sequence[Any], column: Optional[str], color: Any, scale: Tuple[Any, ...]) -> Any:
    """The colour of each geometry, a row of four bytes."""
    if column is None:
        return np.broadcast_to(one_color("color", color), (len(geometries), 4)).copy()
    if column not in getattr(frame, "columns", ()):
        names = ", ".join(map(str, getattr(frame, "columns", ()))) or "none, as a series has no columns"
        raise ValueError(f"column: expected one of {names}, got {column!r}")
    return colors_of(frame[column], *scale)


def view_of(geometries: Sequence[Any], window: Any, width: int) -> View:
    """What a picture of this width shows, and its height."""
    left, bottom, right, top = checked_window(bounds_of(geometries) if window is None else window)
    across = between("width", width, 1, MAX_SIDE)
    height = round(across * (top - bottom) / (right - left))
    if height > MAX_SIDE:
        raise ValueError(f"width: expected a height of at most {MAX_SIDE} by this window, got {height}")
    return View((left, bottom, right, top), (across, max(1, height)))


def pen_of(width: float, cap: str, join: str) -> Pen:
    for name, given, known in (("cap", cap, CAPS), ("join", join, JOINS)):
        if given not in known:
            raise ValueError(f"{name}: expected one of {', '.join(known)}, got {given!r}")
    if real("stroke_width", width) < 0:
        raise ValueError(f"stroke_width: expected at least 0, got {width!r}")
    return Pen(float(width), cap, join)


def areas(geometry: Any) -> Any:
    """A geometry that has an area, or None."""
    return geometry if geometry is not None and any(parts_of(geometry, AREAS)) else None


def strokes(geometries: Sequence[Any], kinds: Tuple[str, ...], view: View, pen: Pen) -> Polygons:
    """The areas of lines, borders or points, a polygon for each geometry."""
    found = []
    for geometry in geometries:
        parts = [in_picture(part, *view) for part in parts_of(geometry, kinds)]
        found.append(united([stroke_of(part, *pen) for part in parts]))
    return snapped(*arrays_of(found), view.size)


def draw_some(canvas: Canvas, polygons: Polygons, colors: Any, threads: int) -> None:
    """Draws polygons in their colours, blended where one is not opaque."""
    if len(polygons.corners):
        blend: Any = "over" if (colors[:, 3] < OPAQUE).any() else "none"
        canvas.draw_polygons(polygons, colors=colors, blend=blend, threads=threads)
