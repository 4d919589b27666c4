"""Whether it can be seen in which order the areas and the edges of a collection are drawn."""

from __future__ import annotations

import numpy as np

from .._box import Box
from .._canvas import Canvas
from .._polygons import Polygons
from .._records import UNIT
from ._colors import OPAQUE, Edges
from ._drawing import windows
from ._shapes import draw_shapes

# The side of a canvas on which overlaps are looked for.
MAX_SIDE = 2048
# Edges of at most so many points hide a pixel or two of what lies below them, on a screen as in print.
THIN = 2.0
# Two layers of this colour are lighter than one, which shows as this pixel.
LAYER, ONCE = (255, 255, 255, 128), 0xFF808080


def is_order_hidden(polygons: Polygons, edges: Edges, box: Box) -> bool:
    """Returns whether all areas may be drawn before all edges inside of a box.

    No two areas overlap then, and edges are thin, or are opaque and all the same. So an edge that matplotlib draws
    under a later area is hidden again by the edge of that area, where the two are neighbours."""
    widths, colors = edges.widths, edges.colors
    is_thin = bool((widths <= THIN).all())
    is_one = bool((widths == widths[0]).all() and (colors == colors[0]).all() and colors[0, 3] == OPAQUE)
    return (is_thin or is_one) and are_apart(polygons, box)


def are_apart(polygons: Polygons, box: Box) -> bool:
    """Returns whether no two by two pixels of a box have all of their centres in two polygons. So neighbours are apart
    if their common border was rounded in two ways."""
    if polygons.count < 2 or not len(polygons.corners):
        return True
    left, top = (polygons.corners.min(0) // UNIT).tolist()
    right, bottom = (-(-polygons.corners.max(0) // UNIT)).tolist()
    return not any(has_overlap(polygons, part) for part in windows(box.common(Box(left, top, right, bottom)), MAX_SIDE))


def has_overlap(polygons: Polygons, box: Box) -> bool:
    """Returns whether two by two pixels of a box lie in two polygons, seen at the centre of each pixel."""
    canvas = Canvas(
        box.width, box.height, origin=box[:2], memory=np.empty(Canvas.size(box.width, box.height), np.uint8)
    )
    canvas.clear()
    layers = polygons.colored(np.broadcast_to(np.array(LAYER, np.uint8), (polygons.count, 4)))
    draw_shapes(canvas, layers, blend="over")
    is_twice = canvas.rgba().view(np.uint32)[..., 0] > ONCE
    if not is_twice.any():
        return False
    across = is_twice[:, 1:] & is_twice[:, :-1]
    return bool((across[1:] & across[:-1]).any())

