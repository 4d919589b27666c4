"""Draws triangles by libtrirast: the same bytes as the program trirast writes.

    import trirast

    canvas = trirast.Canvas(1024, 768, samples=16)
    canvas.clear((24, 24, 32))
    xy = trirast.snap(positions)      # floats in pixels, y downwards
    canvas.draw(xy, triangles, colors=(230, 60, 50, 128), blend="over", threads=4)
    canvas.save("picture.png")
    array = canvas.rgb()

    picture = trirast.draw({"width": 64, "height": 64, "draws": [..]}, threads=4)     # a draw list
    picture.save("picture.ppm")
    array = numpy.asarray(picture)

    print(trirast.why(draw_list, 20, 30))
    print(trirast.triangle_samples(draw_list, 0, 5))

    seen = trirast.clip(positions, triangles, (0, 0, 1024, 768))      # in clip space
    canvas.draw(seen.vertices, seen.triangles)

docs/canvas.md says what a canvas is, docs/draw-list.md what a draw list is, and docs/python.md where the library is
looked for. It is loaded at the first call. Python 3.9 or later, standard library alone; numpy's arrays are taken and
given if numpy is there.
"""

from typing import TYPE_CHECKING, Any

from ._blend import BLENDS, Blend
from ._boxes import polygon_boxes
from ._canvas import Canvas, edges_at
from ._clip import Clipped, clip
from ._draw import Draw, State
from ._draw_list import DrawList, draw, draw_file, image_info
from ._errors import (
    BatchError,
    BufferTooSmallError,
    CanvasError,
    DrawListError,
    Error,
    FormatError,
    IndexSizeError,
    LimitError,
    MemorySizeError,
    OutOfMemoryError,
    PixelError,
    PositionError,
    SampleError,
    StrideError,
    StructSizeError,
    TileError,
    TileRowsError,
    TileSizeError,
    TriangleError,
)
from ._fragments import Fragments
from ._history import Event, Fragment, PixelHistory, SampleHistory, Stored, TriangleSamples, triangle_samples, why
from ._picture import ImageInfo, Picture
from ._snap import snap
from ._version import VERSION as __version__
from ._vertices import VERTEX

__all__ = [
    "BLENDS", "BatchError", "Blend", "BufferTooSmallError", "Canvas", "CanvasError", "Clipped", "Draw", "DrawList",
    "DrawListError", "Error", "Event", "FormatError", "Fragment", "Fragments", "ImageInfo", "IndexSizeError",
    "LimitError", "MemorySizeError", "OutOfMemoryError", "Picture", "PixelError", "PixelHistory", "PositionError",
    "SampleError", "SampleHistory", "State", "Stored", "StrideError", "StructSizeError", "TileError", "TileRowsError",
    "TileSizeError", "TriangleError", "TriangleSamples", "VERTEX", "__version__", "clip", "draw", "draw_file",
    "edges_at", "image_info", "polygon_boxes", "snap", "triangle_samples", "why",
]

if TYPE_CHECKING:
    from ._polygons import Polygons as Polygons
else:
    # Its module imports numpy, so it is loaded at its first use. `from trirast import *` leaves it out.
    def __getattr__(name: str) -> Any:
        if name == "Polygons":
            from ._polygons import Polygons

            return Polygons
        raise AttributeError(f"module {__name__!r} has no attribute {name!r}")
