"""Clipping of rings to a rectangle, before their positions are rounded."""

from __future__ import annotations

from typing import Any, Tuple

import numpy as np
from numpy.typing import NDArray

from ._polygons import with_zero

Numbers = NDArray[Any]


def within(
    places: Numbers, ends: Numbers, low: Tuple[float, float], high: Tuple[float, float]
) -> Tuple[Numbers, Numbers]:
    """Returns the parts of rings whose x and y are from `low` to `high`, and their end indices.

    `places` are rows of x and y, and of any further numbers, which are interpolated. A ring may be left without rows.
    Two rings that share an edge are cut at the same points, so no seam appears between them.
    """
    for axis in (0, 1):
        for limit, sign in ((low[axis], 1), (high[axis], -1)):
            places, ends = cut(places, ends, axis, limit, sign)
    return places, ends


def cut(places: Numbers, ends: Numbers, axis: int, limit: float, sign: int) -> Tuple[Numbers, Numbers]:
    """Returns the parts of rings on one side of a line: where the coordinate times the sign is at least the limit's."""
    is_kept = sign * (places[:, axis] - limit) >= 0
    if is_kept.all():
        return places, ends
    following = np.arange(1, len(places) + 1)
    begins = with_zero(ends)[:-1]
    some = begins < ends
    following[ends[some] - 1] = begins[some]
    is_cut = is_kept != is_kept[following]
    # From its end inside an edge is followed alike in both directions.
    is_ahead = is_kept[is_cut][:, None]
    here, there = places[is_cut], places[following[is_cut]]
    inside, outside = np.where(is_ahead, here, there), np.where(is_ahead, there, here)
    share = (limit - inside[:, axis]) / (outside[:, axis] - inside[:, axis])
    cuts = inside + share[:, None] * (outside - inside)
    cuts[:, axis] = limit
    counts = is_kept.astype(np.int64) + is_cut
    begin = np.cumsum(counts) - counts
    found = np.empty((int(counts.sum()), places.shape[1]))
    found[begin[is_kept]] = places[is_kept]
    found[(begin + is_kept)[is_cut]] = cuts
    return found, with_zero(np.cumsum(counts, dtype=np.uint32))[ends]
