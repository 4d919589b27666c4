"""The pixels of windows: their triangles and polygons, drawn by a canvas that stands at one piece after another.

A triangle that is moved by whole pixels meets the moved samples and makes the same of them (the law
`canvas::moves_by_pixels`), so these are the pixels of the whole sheet.
"""

from __future__ import annotations

from typing import Callable, Iterator, Sequence

from .._ffi import library
from .._version import VERSION
from ._errors import ArraysError, EngineMissingError
from ._part import Part, PartDraw, begin_of
from ._scene import Pixels
from ._thread_canvas import Arrays, Target, own_canvas

# Pixels that triangles or polygons may have in one call, if each has all. Between calls a run can be stopped.
MOST = 1 << 29


def releases() -> str:
    """The releases of this package and of the library, which draw the same wherever they are the same."""
    return f"trirast {VERSION} with library {library().trirast_version_string().decode()}"


def sent_pixels(part: Part, wanted: str) -> Pixels:
    """The pixels of a part that another process sent, which has these releases. Raises EngineMissingError if they are
    not this one's: those may draw otherwise."""
    if wanted != releases():
        raise EngineMissingError(f"worker: expected {wanted}, got {releases()}; install the same there")
    return window_pixels(part)


def window_pixels(part: Part) -> Pixels:
    """The pixels of a part's area."""
    pixels = part.sheet.blank(part.area.height, part.area.width)
    put_pixels(part, pixels)
    return pixels


def put_pixels(part: Part, pixels: Pixels, is_stopped: Callable[[], bool] = lambda: False) -> None:
    """Draws the area of a part into pixels, whose rows may lie apart. Leaves out the rest once the run is stopped."""
    if not part.is_whole:
        part.sheet.fill(pixels)
    canvas, target = own_canvas(), Target(pixels, part.area)
    canvas.begin(part.sheet, begin_of(part), Arrays(part.vertices, part.triangles))
    for area, draws in part.pieces:
        if not area.is_within(part.area):
            raise ArraysError(f"part: expected a piece within {part.area}, got {area}")
        canvas.place(area)
        canvas.clear()
        for first, end, state, is_polygons in calls_of(draws, area.pixels):
            if is_stopped():
                return
            if is_polygons:
                canvas.draw_polygons(part.polygons.part(first, end), state, part.shift)
            else:
                canvas.draw(first, end - first, state)
        canvas.show(target)


def calls_of(draws: Sequence[PartDraw], pixels: int) -> Iterator[PartDraw]:
    """Draws in pieces, each of which takes a call that does not last long."""
    most = max(1, MOST // pixels)
    for draw in draws:
        if draw.end - draw.first <= most:
            yield draw
            continue
        for first in range(draw.first, draw.end, most):
            yield draw._replace(first=first, end=min(first + most, draw.end))
