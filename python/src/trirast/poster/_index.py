"""Which triangles and polygons are drawn in which tile rows of which windows, by their bounds, in the order in
which they are drawn.

What has no sample within its bounds is in no tile row: of a fine mesh these may be half. The places of a sheet are
the tile rows of its windows, window after window. Triangles and polygons are counted together, in the order in
which they are drawn.
"""

from __future__ import annotations

from typing import Any, Iterable, Iterator, NamedTuple, Sequence

import numpy as np
from numpy.typing import NDArray

from .._box import Box
from .._numbers import MAX_SIDE as LIST_SIDE
from .._records import LOW, UNIT
from ._errors import GuardBandError
from ._pool import Pool
from ._scene import AXES, SAMPLES, Boxes, Indices, Run, Scene, Triangles, Vertices
from ._windows import FARTHEST, SHIFT, TILE, Span, Windows

# Triangles or polygons of a group. Of fewer Python's lock would be handed from thread to thread too often. There are at
# least as many for each place, since a group has a table of them.
CHUNK = 1 << 18
FOR_A_PLACE = 4


class Bounds(NamedTuple):
    """Of each triangle or polygon the least and the greatest position of a corner on one axis, in 1/256 pixel."""

    low: Indices
    high: Indices


class Group(NamedTuple):
    """Some triangles or polygons by places: `members` has them place after place, and ascending in each;
    `places` the place of each.

    `begins` has of each place where its members begin, and then where the last ones end. `boxes` has the pixels within
    their bounds: the left column, the upper row, and of the right column and the lower row the complements. No
    triangle, also of those that are left out, lies left of `low` or above it.
    """

    members: Indices
    places: NDArray[Any]
    begins: NDArray[np.int64]
    boxes: Boxes
    low: tuple[int, int]


class Index:
    """For each tile row of each window of a poster the indices of what is drawn there."""

    def __init__(self, groups: Iterable[Group], windows: Windows, pool: Pool) -> None:
        self._columns, self._tile_rows = windows.columns, windows.tile_rows
        boxes, found = no_boxes(len(windows.places)), []
        counts = np.zeros(len(boxes), np.int64)
        # No triangle lies left of it or above it.
        self.low = (0, 0)
        for group in groups:
            np.minimum(boxes, group.boxes, out=boxes)
            self.low = min(self.low[0], group.low[0]), min(self.low[1], group.low[1])
            # Those of a place lie behind those that the groups before have there.
            found.append((group.members, group.places, counts - group.begins[:-1]))
            counts = counts + np.diff(group.begins)
        self._areas = areas_of(boxes.astype(np.int32), windows)
        self._begins = np.concatenate((np.zeros(1, np.int64), np.cumsum(counts)))
        self._members = np.empty(self._begins[-1], np.int32)

        def put(members: Indices, places: NDArray[Any], moved: NDArray[np.int64]) -> None:
            """Puts the members of a group to their places."""
            self._members[np.arange(len(places)) + (self._begins[:-1] + moved)[places]] = members

        list(pool.map(put, *zip(*found)))

    @classmethod
    def of(cls, scene: Scene, windows: Windows, threads: int = 1) -> Index:
        """The index of a scene. Raises GuardBandError if a triangle or a polygon cannot be moved into a
        window that it meets."""
        chunk = max(CHUNK, FOR_A_PLACE * len(windows.places))
        with Pool(threads) as pool:
            return cls(pool.map(lambda run: group_of(scene, run, windows), pieces_of(scene.runs, chunk)), windows, pool)

    def of_span(self, span: Span) -> tuple[Indices, Indices, Indices]:
        """What is drawn in some windows, tile row after tile row and ascending in each; where that of each tile row
        ends; and of each tile row the pixels that are within its bounds, as a Box has them."""
        first, end = (self._place(span.row, column) for column in (span.first, span.end))
        begin = self._begins[first]
        return (
            self._members[begin : self._begins[end]], self._begins[first + 1 : end + 1] - begin, self._areas[first:end]
        )

    def members_before(self, row: int) -> list[int]:
        """How many triangles and polygons there are before each window of a row and behind the last one."""
        before: list[int] = self._begins[self._place(row, 0) : self._place(row + 1, 0) + 1 : self._tile_rows].tolist()
        return before

    def is_near(self, area: Box) -> bool:
        """Whether each triangle of the scene can be moved into a picture that begins at any pixel of an area."""
        return min(self.low[0] - UNIT * area.right, self.low[1] - UNIT * area.bottom) >= LOW

    def _place(self, row: int, column: int) -> int:
        """The place of the first tile row of a window."""
        return (row * self._columns + column) * self._tile_rows


def pieces_of(runs: Sequence[Run], chunk: int) -> Iterator[Run]:
    """Runs in pieces of at most `chunk` triangles or polygons."""
    for first, end, number, is_polygons in runs:
        for begin in range(first, end, chunk):
            yield Run(begin, min(end, begin + chunk), number + begin - first, is_polygons)


def group_of(scene: Scene, run: Run, windows: Windows) -> Group:
    """The triangles or polygons of a run by places."""
    first, end, number, is_polygons = run
    last = number + end - first
    if is_polygons:
        boxes = scene.polygons.boxes[number:last].T
        across, down = Bounds(boxes[0], boxes[2]), Bounds(boxes[1], boxes[3])
    else:
        across, down = bounds_of(np.asarray(scene.vertices), np.asarray(scene.triangles)[number:last])
    for axis, bounds in enumerate((across, down)):
        (check_band if is_polygons else check_guard_band)(bounds, number, axis, windows)
    # Polygons need not be moved with a window.
    low = (0, 0) if is_polygons else (int(across.low.min(initial=0)), int(down.low.min(initial=0)))
    drawn = np.flatnonzero(hold_samples(across, down, scene.sheet.samples))
    across, down = (Bounds(bounds.low[drawn], bounds.high[drawn]) for bounds in (across, down))
    numbers, places = meetings(across, down, windows)
    # numpy sorts 16 bits several times faster than 32.
    places = windows.places[places].astype(np.uint16 if len(windows.places) <= 1 << 16 else np.int32)
    order = np.argsort(places, kind="stable")
    numbers, places = numbers[order], places[order]
    begins = np.searchsorted(places, np.arange(len(windows.places) + 1))
    boxes = no_boxes(len(windows.places))
    met = np.flatnonzero(np.diff(begins))
    for side, positions in enumerate((across.low, down.low, ~across.high, ~down.high)) if len(met) else ():
        boxes[met, side] = np.minimum.reduceat(positions[numbers], begins[met]) >> 8
    return Group((drawn + first).astype(np.int32)[numbers], places, begins, boxes, low)


def no_boxes(count: int) -> Boxes:
    """Boxes without a pixel."""
    return np.full((count, 4), 32767, np.int16)


def areas_of(boxes: Indices, windows: Windows) -> Indices:
    """Of each place the pixels of its tile row that are in its box: the numbers of a Box."""
    window, tile_row = np.divmod(np.arange(len(boxes), dtype=np.int32), np.int32(windows.tile_rows))
    row, column = np.divmod(window, np.int32(windows.columns))
    left, top = column * windows.side, row * windows.side + tile_row * TILE
    right, bottom = np.minimum(left + windows.side, windows.width), np.minimum((row + 1) * windows.side, windows.height)
    ends = np.minimum(-boxes[:, 2], right), np.minimum(-boxes[:, 3], np.minimum(top + TILE, bottom))
    return np.stack((np.maximum(boxes[:, 0], left), np.maximum(boxes[:, 1], top), *ends), 1)


def bounds_of(vertices: Vertices, triangles: Triangles) -> tuple[Bounds, Bounds]:
    """The bounds of triangles across and down."""
    found: list[Bounds] = []
    # Corner after corner, so that few arrays are in memory at once.
    for corner in range(3):
        names = triangles[:, corner].astype(np.intp)
        for number, axis in enumerate(AXES):
            positions = vertices[axis][names]
            if corner == 0:
                found.append(Bounds(positions, positions.copy()))
            else:
                np.minimum(found[number].low, positions, out=found[number].low)
                np.maximum(found[number].high, positions, out=found[number].high)
    across, down = found
    return across, down


def hold_samples(across: Bounds, down: Bounds, samples: int) -> NDArray[np.bool_]:
    """Of each triangle whether a sample lies within its bounds."""
    right, below = (bounds.high.astype(np.uint8) for bounds in (across, down))
    wide, tall = (np.minimum(bounds.high - bounds.low, UNIT - 1).astype(np.uint8) for bounds in (across, down))
    found = np.zeros(len(wide), np.bool_)
    for x, y in SAMPLES[samples]:
        # The differences, of which 8 bits stay, are how far the last sample within the upper bound lies before that.
        found |= (right - np.uint8(x) <= wide) & (below - np.uint8(y) <= tall)
    return found


def meetings(across: Bounds, down: Bounds, windows: Windows) -> tuple[NDArray[np.intp], Indices]:
    """The numbers of triangles, ascending, each once for each place that it meets; and these places, counted along the
    tile rows of the sheet."""
    left, right = (
        np.maximum(windows.columns_at(across.low), 0), np.minimum(windows.columns_at(across.high), windows.columns - 1)
    )
    top, bottom = (
        np.maximum(windows.tile_rows_at(down.low), 0),
        np.minimum(windows.tile_rows_at(down.high), windows.last_tile_row),
    )
    wide, tall = right - left, bottom - top
    places = top * np.int32(windows.columns) + left
    # Nearly all triangles meet one place. Of the others, which may meet none, the places are counted row by row.
    is_one = (wide | tall) == 0
    one, other = np.flatnonzero(is_one), np.flatnonzero(~is_one)
    counts = np.maximum(wide[other] + 1, 0).astype(np.int64) * np.maximum(tall[other] + 1, 0)
    number = np.arange(int(counts.sum())) - np.repeat(np.cumsum(counts) - counts, counts)
    row, column = np.divmod(number, np.repeat(wide[other] + 1, counts))
    # Of those that meet one place as many lie before a triangle as there are triangles before it, without the others.
    slots = np.arange(len(number)) + np.repeat(other - np.arange(len(other)), counts)
    is_one = np.ones(len(one) + len(slots), np.bool_)
    is_one[slots] = False
    numbers = np.empty(len(is_one), np.intp)
    numbers[is_one], numbers[slots] = one, np.repeat(other, counts)
    places = places[numbers]
    places[slots] += (row * windows.columns + column).astype(np.int32)
    return numbers, places


def check_band(bounds: Bounds, first: int, axis: int, windows: Windows) -> None:
    """Raises GuardBandError if one of some polygons cannot be moved by SHIFT pixels with a window that it meets
    and that needs it."""
    far = np.flatnonzero((bounds.low < LOW + UNIT * SHIFT) & (bounds.high >= UNIT * (FARTHEST - LIST_SIDE)))
    if len(far) and (windows.width, windows.height)[axis] > FARTHEST:
        raise GuardBandError(first + int(far[0]), AXES[axis], "polygon")


def check_guard_band(bounds: Bounds, first: int, axis: int, windows: Windows) -> None:
    """Raises GuardBandError if one of some triangles cannot be moved into a window that it meets. The first has
    the index `first`."""
    most, step = (windows.columns, windows.rows)[axis], windows.side * UNIT
    # A window can take every vertex that lies no further left or above than this.
    if int(bounds.low.min(initial=0)) >= (most - 1) * step + LOW:
        return
    last = np.minimum(bounds.high // step, most - 1)
    far = np.flatnonzero((np.maximum(bounds.low // step, 0) <= last) & is_too_far(bounds.low, last, axis, windows))
    if len(far):
        raise GuardBandError(first + int(far[0]), AXES[axis])


def is_too_far(low: Indices, last: Indices, axis: int, windows: Windows) -> NDArray[np.bool_]:
    """Of each triangle whether the last window that it meets ends more than 4096 pixels after the last pixel at which a
    picture can begin in which its first vertex lies in the guard band."""
    size = (windows.width, windows.height)[axis]
    end = np.minimum((last + 1) * windows.side, size)
    begin = np.minimum(last * windows.side, (low - LOW) // UNIT)
    return np.asarray(end - begin > LIST_SIDE)
