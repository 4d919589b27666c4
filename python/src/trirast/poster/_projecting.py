"""Positions of a map in pixels of its sheet, and rings of them as corners."""

from __future__ import annotations

from typing import Any

import numpy as np
from numpy.typing import NDArray

from .._records import HIGH, LOW, UNIT
from .._ring_cuts import within
from .._snap import snap
from ._map_style import PLANE, STEEPEST, Places, Style, mercator
from ._scene import Sheet

# Pixels around a map at which polygons are cut that reach too far.
MARGIN = 64
# The latitude at which others beyond it are drawn.
POLE = 90.0


def projected(degrees: Places, style: Style) -> Places:
    """Positions in pixels from the upper left corner of the window."""
    west, south, east, north = style.window
    across, latitude = (degrees[:, 0] - west) / (east - west), degrees[:, 1]
    if style.projection == "web mercator":
        latitude = mercator(np.clip(latitude, -STEEPEST, STEEPEST))
        south, north = mercator(south), mercator(north)
    elif style.projection != PLANE:
        latitude = np.clip(latitude, -POLE, POLE)
    down = (north - latitude) / (north - south)
    return np.stack((across * style.sheet.width, down * style.sheet.height), 1)


def within_band(places: Places, ends: NDArray[Any], sheet: Sheet) -> tuple[NDArray[Any], NDArray[Any]]:
    """Corners in 1/256 pixel and the ends of their rings. If one lies outside of the guard band, all rings are cut
    around the sheet."""
    if len(places) and not (LOW <= UNIT * places.min() and UNIT * places.max() <= HIGH):
        places, ends = within(places, ends, (-MARGIN, -MARGIN), (sheet.width + MARGIN, sheet.height + MARGIN))
    # The right border of the widest sheet is no position: the last samples lie before it.
    return snap(np.minimum(places, HIGH / UNIT)), ends
