"""Polygons as C has them: rings of corners, each polygon in one colour and at one depth."""

import ctypes
import sys
import threading
from array import array
from typing import Any, Literal, Optional, Tuple

from ._arguments import between
from ._batch import address_of
from ._declarations import CDraw, CPolygons
from ._records import UNIT, Column, Copy, index_columns, indices_of, table_of
from ._vertices import PLACE, put_colors

Rule = Literal["even-odd", "nonzero"]
# In the order of their numbers in C.
RULES = ("even-odd", "nonzero")
# How many edges, spread over all of them, are looked at for the rows that they cross.
MOST_LOOKED_AT = 4096
CORNER_BYTES, END_BYTES, COLOR_BYTES, DEPTH_BYTES, BOX_BYTES = 8, 4, 4, 2, 16
COLOR = tuple(Column(name, "B", k) for k, name in enumerate(("red", "green", "blue", "alpha")))
DEPTH = Column("depth", "H", 0)
BOX = tuple(Column(name, "i", 4 * k) for k, name in enumerate(("left", "top", "right", "bottom")))
WHITE = 255, 255, 255
# What each thread keeps from call to call.
KEPT = threading.local()


def rings_of(corners: Any, ring_ends: Optional[Any], polygon_ends: Optional[Any]) -> CPolygons:
    """Returns polygons as C has them, which keep what they point to: of arrays copies without colours, or the arrays of
    a trirast.Polygons, which has ends of its own."""
    # The module of that class imports numpy, so it is there only if somebody has made polygons.
    module = sys.modules.get(f"{__package__}._polygons")
    if module is not None and isinstance(corners, module.Polygons):
        if ring_ends is not None or polygon_ends is not None:
            raise TypeError("ring_ends, polygon_ends: expected None, got ends beside those of the trirast.Polygons")
        found: CPolygons = corners.owned()._in_c()
        return found
    places = table_of("corners", corners, PLACE)
    packed = places.fill(bytearray(CORNER_BYTES * places.count), CORNER_BYTES)
    of_rings = indices_of("ring_ends", ring_ends, index_columns(1))
    of_polygons = indices_of("polygon_ends", polygon_ends, index_columns(1))
    made = CPolygons(
        0, 0, address_of(packed), places.count, address_of(of_rings), len(of_rings) // END_BYTES,
        address_of(of_polygons), len(of_polygons) // END_BYTES,
    )
    made.kept = packed, of_rings, of_polygons
    return made


def polygons_of(
    made: CPolygons, colors: Optional[Any], depth: Optional[Any], boxes: Optional[Any], rule: int,
    state: Tuple[Any, ...],
) -> CPolygons:
    """Returns polygons that are drawn: in these colours, or else in their own, or else in white."""
    count = made.polygon_count
    filled = bytearray()
    try:
        if colors is not None or made.colors is None:
            filled = bytearray(COLOR_BYTES * count)
            put_colors(filled, count, WHITE if colors is None else colors, COLOR, COLOR_BYTES)
            made.colors, made.color_count = address_of(filled), count
        depths = b"" if depth is None else depths_of(depth, count)
    except ValueError as error:
        # With a leading 0 there is one polygon more than colours.
        raise ValueError(f"{error}{leading_zero(*ends_of(made))}") from None
    made.fill_rule, made.state = rule, CDraw(0, 0, 0, *state)
    made.depths, made.depth_count = address_of(depths), len(depths) // DEPTH_BYTES
    made.kept += filled, depths
    if boxes is not None:
        put_boxes(made, boxes_of(boxes))
    return made


def ends_of(polygons: CPolygons) -> Tuple[Any, Any]:
    """Returns where rings end, and where polygons do."""
    rings, ends = ctypes.c_uint32 * polygons.ring_count, ctypes.c_uint32 * polygons.polygon_count
    return rings.from_address(polygons.ring_ends or 0), ends.from_address(polygons.polygon_ends or 0)


def put_boxes(polygons: CPolygons, boxes: Copy) -> None:
    """Gives polygons these boxes."""
    polygons.boxes, polygons.box_count = address_of(boxes), len(boxes) // BOX_BYTES
    polygons.kept += (boxes,)


def boxes_of(boxes: Any) -> Copy:
    """Returns rows of left, top, right and bottom."""
    table = table_of("boxes", boxes, BOX)
    return table.fill(bytearray(BOX_BYTES * table.count), BOX_BYTES)


def rows_crossed(polygons: CPolygons, top: int, bottom: int) -> int:
    """Returns how many rows of pixels between two heights, in 1/256 pixel, the edges cross: about, from some edges."""
    numbers = (ctypes.c_int32 * (2 * polygons.corner_count)).from_address(polygons.corners or 0)
    step = max(1, polygons.corner_count // MOST_LOOKED_AT)
    some = zip(numbers[1 :: 2 * step], numbers[3 :: 2 * step])
    crossed: int = step * sum(abs(min(max(a, top), bottom) - min(max(b, top), bottom)) for a, b in some) // UNIT
    return crossed


def leading_zero(ring_ends: Any, polygon_ends: Any) -> str:
    """Returns what to say of ends that do not fit and begin with 0, as offsets do; nothing of others."""
    names = [
        name for name, ends in (("ring_ends", ring_ends), ("polygon_ends", polygon_ends)) if len(ends) and ends[0] == 0
    ]
    return (
        f"; {' and '.join(names)} begin{'s' * (len(names) == 1)} with 0: leave the leading 0 of offsets out"
        if names else ""
    )


def depths_of(depth: Any, count: int) -> Copy:
    """Returns a depth for each polygon, from one for all or one for each."""
    if hasattr(depth, "__index__") and not hasattr(depth, "__len__"):
        return array("H", [between("depth", depth, 0, 65535)] * count).tobytes()
    return table_of("depth", depth, (DEPTH,)).fill(bytearray(DEPTH_BYTES * count), DEPTH_BYTES)


def scratch_of(size: int) -> Any:
    """Returns memory for a call, of this size in bytes, aligned to 8."""
    return (ctypes.c_uint64 * (size // 8))()


def kept_scratch(size: int) -> Any:
    """Returns such memory of this size or more, which the calling thread keeps for its next call."""
    if not hasattr(KEPT, "scratch") or ctypes.sizeof(KEPT.scratch) < size:
        KEPT.scratch = scratch_of(size)
    return KEPT.scratch
