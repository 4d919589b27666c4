"""Large polygons cut to the tile rows of windows, so that none is walked whole in each of them."""

from __future__ import annotations

from dataclasses import replace
from typing import NamedTuple, Sequence

import numpy as np
from numpy.typing import NDArray

from .._polygons import NONE, Polygons, checked
from ._pool import Pool
from ._scene import PosterDraw, Scene, owned
from ._windows import Windows

# A polygon is large if, in all tile rows of windows that it meets, more corners than these would be walked.
LARGE = 1 << 17
X, Y = 0, 1


class Cut(NamedTuple):
    """Polygons with the pixels at which they are drawn, and the index of each in the scene."""

    polygons: Polygons
    numbers: NDArray[np.int64]

    def strip(self, axis: int, low: int, end: int) -> Cut:
        """What is drawn from `low` to before `end` on an axis."""
        boxes = self.polygons.boxes
        met = np.flatnonzero((boxes[:, axis] < end) & (boxes[:, axis + 2] >= low))
        boxes = boxes[met]
        boxes[:, axis], boxes[:, axis + 2] = np.maximum(boxes[:, axis], low), np.minimum(boxes[:, axis + 2], end - 1)
        return Cut(replace(self.polygons.take(met).within(axis, low, end), drawn=boxes), self.numbers[met])


def joined_cuts(cuts: Sequence[Cut]) -> Cut:
    """Cuts one after another."""
    boxes = np.concatenate([cut.polygons.boxes for cut in cuts])
    return Cut(
        replace(NONE.followed_by(*(cut.polygons for cut in cuts)), drawn=boxes),
        np.concatenate([cut.numbers for cut in cuts]),
    )


def cut_to_windows(scene: Scene, windows: Windows, threads: int) -> Scene:
    """The same scene, in which a polygon of many corners is several: one for each tile row of each window that it
    meets, which covers there what the polygon does, and is drawn nowhere else."""
    polygons = scene.polygons
    is_large = places_met(polygons, windows) * np.diff(polygons.places) > LARGE
    if not is_large.any():
        return scene
    large = Cut(polygons.take(np.flatnonzero(is_large)), np.flatnonzero(is_large))
    with Pool(threads) as pool:
        for axis, edges in ((Y, windows.tile_row_edges()), (X, windows.column_edges())):
            cut, begins, ends = large, edges[:-1], edges[1:]
            large = joined_cuts(list(pool.map(lambda low, end: cut.strip(axis, low, end), begins, ends)))  # noqa: B023
    small = Cut(polygons.take(np.flatnonzero(~is_large)), np.flatnonzero(~is_large))
    both = joined_cuts((small, large))
    order = np.argsort(both.numbers, kind="stable")
    boxes, numbers = both.polygons.boxes[order], both.numbers[order]
    cut_ones = checked(replace(both.polygons.take(order), drawn=boxes))
    other = replace(scene, draws=list(counted(scene, numbers)), polygons=cut_ones, copy=False)
    return owned(other) if scene.is_own else other


def places_met(polygons: Polygons, windows: Windows) -> NDArray[np.int64]:
    """How many tile rows of windows each polygon meets by its box, and at least one."""
    left, top, right, bottom = polygons.boxes.T
    first, last = (np.clip(windows.columns_at(x), 0, windows.columns - 1) for x in (left, right))
    above, below = (np.clip(windows.tile_rows_at(y), 0, windows.last_tile_row) for y in (top, bottom))
    return (last - first + 1).astype(np.int64) * (below - above + 1)


def counted(scene: Scene, numbers: NDArray[np.int64]) -> Sequence[PosterDraw]:
    """The draws of a scene over polygons of which these numbers say from which of the scene's they were cut."""
    ends = np.cumsum([0] + [draw.polygons for draw in scene.draws])
    counts = np.diff(numbers.searchsorted(ends)).tolist()
    return [replace(draw, polygons=count) for draw, count in zip(scene.draws, counts)]
