"""The boxes of polygons, by which a call that draws passes over those beside its canvas."""

from typing import Any, Optional

from ._batch import address_of
from ._declarations import CError, CPolygons
from ._errors import BatchError, Error, adding
from ._ffi import library
from ._rings import BOX, BOX_BYTES, put_boxes, rings_of
from ._threads import with_stack
from ._values import OF_DRAWS, PolygonValues


def polygon_boxes(corners: Any, ring_ends: Optional[Any] = None, polygon_ends: Optional[Any] = None) -> memoryview:
    """Returns the box of each polygon's corners in 1/256 pixel of the screen: rows of left, top, right and bottom,
    which are the least x and y of them and the greatest. A polygon without corners has 2147483647 on its left and at
    its top, and -2147483648 on its right and at its bottom.

    The parameters are as for `Canvas.draw_polygons`, which takes the boxes of the same polygons as `boxes`: three
    arrays, or a `Polygons` alone. The result is a memoryview of signed 32-bit integers, of the shape (n, 4), which
    cannot be written to. `numpy.asarray` makes an array of it that shares its memory.

    Raises BatchError if the ends fall or leave the arrays, or a corner lies outside of -8388608 to 8388607; its
    element is the ring, the polygon or the corner. Raises TypeError or ValueError, which name the parameter, row and
    column, at what is no such value.
    """
    polygons = rings_of(corners, ring_ends, polygon_ends)
    with adding(BatchError, PolygonValues(polygons, None).of, without=OF_DRAWS):
        boxes = measured(polygons)
    count = polygons.polygon_count
    # A cast takes no shape without rows.
    rows = memoryview(boxes or bytes(BOX_BYTES)).cast("i", shape=[max(count, 1), len(BOX)])
    return rows.toreadonly()[:count]


def add_boxes(polygons: CPolygons) -> None:
    """Finds the boxes of polygons that have none, so that not each thread looks at all corners. If something is wrong
    with the polygons they get none, and the call that draws says what."""
    if polygons.box_count or not polygons.polygon_count:
        return
    try:
        boxes = measured(polygons)
    except Error:
        return
    put_boxes(polygons, boxes)


@with_stack
def measured(polygons: CPolygons) -> bytearray:
    """The boxes of polygons as C has them. Raises BatchError at corners and ends that cannot be drawn."""
    boxes = bytearray(BOX_BYTES * polygons.polygon_count)
    library().trirast_polygons_measure(polygons, address_of(boxes), polygons.polygon_count, CError())
    return boxes
