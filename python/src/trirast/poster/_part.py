"""The part of a scene that some windows have: what is drawn there, as it is given or sent to a worker."""

from __future__ import annotations

from bisect import bisect_right
from typing import Any, Mapping, NamedTuple, Sequence

import numpy as np
from numpy.typing import NDArray

from .._box import Box
from .._polygons import Polygons
from .._records import HIGH, LOW, UNIT
from ._index import Index
from ._scene import AXES, Indices, Scene, Sheet, Triangles, Vertices, check_range
from ._windows import FARTHEST, SHIFT, TILE, Span

# Vertices are looked up in blocks of 256: neighbours in a list are neighbours on the sheet, so a window names few
# blocks. If a table of these blocks had more entries for an index than SPREAD, the indices are sorted.
BLOCK_BITS = 8
BLOCK_MASK = (1 << BLOCK_BITS) - 1
SPREAD = 16


class PartDraw(NamedTuple):
    """A draw of a piece: the triangles or polygons of the part from `first` to before `end`, and its state."""

    first: int
    end: int
    state: Mapping[str, Any]
    is_polygons: bool


class Piece(NamedTuple):
    """Pixels of a window that are drawn together, and the draws that meet them.

    They are those of a tile row, or of several tile rows with the same triangles and polygons.
    """

    area: Box
    draws: Sequence[PartDraw]


class Part(NamedTuple):
    """What is drawn in windows by pieces, of each piece in its order, with positions on the whole sheet.

    `area` has the pixels of the windows. Nothing meets one of them that is in no piece; `is_whole` says that each one
    is in a piece. No vertex that the triangles name lies left of `low` or above it, in 1/256 pixel. Polygons are moved
    left and up by `shift` pixels.
    """

    sheet: Sheet
    area: Box
    is_whole: bool
    low: tuple[int, int]
    shift: tuple[int, int]
    vertices: Vertices
    triangles: Triangles
    polygons: Polygons
    pieces: Sequence[Piece]


def part_of(scene: Scene, index: Index, span: Span) -> Part:
    """The part of some windows, over all vertices of the scene and copies of their polygons. These are several only if
    the index says that their pixels are near.

    If somebody else may change the scene's arrays, it is over copies of those that it names. Raises ArraysError if an
    index was changed to one of no vertex.
    """
    chosen, ends, areas = index.of_span(span)
    members = members_of(scene, chosen)
    triangles = np.asarray(scene.triangles).take(members.triangles, 0)
    if not scene.is_own:
        check_range("triangles", triangles, 0, len(scene.vertices) - 1)
    x, y = shift = shift_of(span.area)
    polygons = scene.polygons.take(members.polygons)
    if x or y:
        polygons = polygons.moved(-UNIT * x, -UNIT * y)
    pieces = pieces_of(scene, chosen, members.polygons_before, ends, areas)
    is_whole = pixels_of(areas) == span.area.pixels
    low = low_of(scene, index, span, triangles)
    part = Part(scene.sheet, span.area, is_whole, low, shift, scene.vertices, triangles, polygons, pieces)
    return part if scene.is_own else compact(part)


class Members(NamedTuple):
    """The triangles and the polygons among what is drawn, by their indices in the scene, and how many polygons there
    are before each of both and behind the last one."""

    triangles: NDArray[Any]
    polygons: NDArray[Any]
    polygons_before: NDArray[np.int64]


def members_of(scene: Scene, chosen: Indices) -> Members:
    """The triangles and the polygons among what is chosen."""
    if not scene.polygons.count:
        return Members(chosen, chosen[:0], np.zeros(len(chosen) + 1, np.int64))
    ends, shifts, are_polygons = scene.run_table
    run = ends.searchsorted(chosen, "right")
    numbers, is_polygon = chosen + shifts[run], are_polygons[run]
    before = np.concatenate((np.zeros(1, np.int64), np.cumsum(is_polygon)))
    return Members(numbers[~is_polygon], numbers[is_polygon], before)


def shift_of(area: Box) -> tuple[int, int]:
    """By how many pixels polygons are moved left and up where an area is drawn."""
    return SHIFT * (area.right > FARTHEST), SHIFT * (area.bottom > FARTHEST)


def pixels_of(areas: Indices) -> int:
    """How many pixels there are in areas, of which some may be empty."""
    return int(np.maximum(areas[:, 2:] - areas[:, :2], 0).prod(1).sum())


def pieces_of(
    scene: Scene, chosen: Indices, polygons_before: NDArray[np.int64], ends: Indices, areas: Indices
) -> list[Piece]:
    """The pieces of some windows. What is chosen for their tile rows ends at `ends`, and `areas` has of each the pixels
    within its bounds."""
    begins = np.concatenate((np.zeros(1, ends.dtype), ends[:-1]))
    # It may lie behind the last pixel of a window that reaches past the sheet.
    met = np.flatnonzero((begins < ends) & (areas[:, 0] < areas[:, 2]) & (areas[:, 1] < areas[:, 3]))
    begins, ends, areas = begins[met], ends[met], areas[met]
    first, last = chosen[begins], chosen[ends - 1]
    heads = np.flatnonzero(~go_on(first, last, ends - begins, areas))
    # A piece ends with the last tile row that goes on.
    bottoms = areas[np.append(heads, len(met))[1:] - 1, 3:]
    columns = (np.concatenate((areas[heads, :3], bottoms), 1), begins[heads], ends[heads], first[heads], last[heads])
    rows = zip(*(column.tolist() for column in columns))
    return [Piece(Box._make(area), draws_of(scene, chosen, polygons_before, *more)) for area, *more in rows]


def go_on(first: Indices, last: Indices, counts: Indices, areas: Indices) -> NDArray[np.bool_]:
    """Of each tile row whether it goes on with what the one before it has: the same triangles and polygons in the same
    columns of one tile.

    These are known by the first, the last and their number alone, so they have to be one after another in the list. A
    line down a window is drawn once by this, and not in each tile row.
    """
    same = np.zeros(len(first), np.bool_)
    same[1:] = (areas[1:, 1] == areas[:-1, 3]) & (areas[1:, 2] - areas[1:, 0] <= TILE) & (
        counts[1:] == last[1:] - first[1:] + 1
    )
    for each in (first, last, counts, areas[:, 0], areas[:, 2]):
        same[1:] &= each[1:] == each[:-1]
    return same


def draws_of(
    scene: Scene, chosen: Indices, polygons_before: NDArray[np.int64], begin: int, end: int, first: int, last: int
) -> list[PartDraw]:
    """The draws that have what is chosen from `begin` to before `end`, which is ascending from `first` to `last`."""
    draws: list[PartDraw] = []
    while True:
        behind, state, is_polygons = scene.stretches[bisect_right(scene.ends, first)]
        is_last = last < behind
        middle = end if is_last else begin + int(chosen[begin:end].searchsorted(np.int32(behind)))
        before = int(polygons_before[begin])
        of_kind = before if is_polygons else begin - before
        draws.append(PartDraw(of_kind, of_kind + middle - begin, state, is_polygons))
        if is_last:
            return draws
        begin, first = middle, int(chosen[middle])


def low_of(scene: Scene, index: Index, span: Span, triangles: Triangles) -> tuple[int, int]:
    """A position left of and above all corners of triangles: that of the whole scene, if all windows can take it."""
    if index.is_near(span.area):
        return index.low
    x, y = (int(scene.vertices[axis][triangles].min(initial=HIGH)) for axis in AXES)
    return x, y


def begin_of(part: Part) -> tuple[int, int]:
    """The pixel at or before which each picture of a part begins, so that no vertex leaves the guard band."""
    x, y = ((low - LOW) // UNIT for low in part.low)
    return x, y


def compact(part: Part) -> Part:
    """The same part over the vertices alone that it names."""
    names, triangles = named_vertices(part.triangles)
    return part._replace(vertices=np.asarray(part.vertices[names]), triangles=triangles)


def named_vertices(triangles: Triangles) -> tuple[NDArray[Any], Triangles]:
    """The vertices that triangles name, ascending, and the triangles over these."""
    if not len(triangles):
        return np.zeros(0, np.int64), triangles
    low = int(triangles.min())
    near = triangles - np.int32(low)
    blocks = near >> BLOCK_BITS
    is_used = np.zeros(int(blocks.max()) + 1, np.bool_)
    is_used[blocks] = True
    used = np.flatnonzero(is_used)
    if len(used) << BLOCK_BITS > SPREAD * triangles.size + (1 << 16):
        names, places = np.unique(triangles, return_inverse=True)
        return names, places.reshape(-1, 3).astype(np.int32)
    # A table of the used blocks alone, one behind another.
    slots = np.cumsum(is_used, dtype=np.int32) - np.int32(1)
    packed = (slots[blocks] << BLOCK_BITS) + (near & BLOCK_MASK)
    is_named = np.zeros(len(used) << BLOCK_BITS, np.bool_)
    is_named[packed] = True
    place = np.cumsum(is_named, dtype=np.int32) - np.int32(1)
    found = np.flatnonzero(is_named)
    return (used[found >> BLOCK_BITS] << BLOCK_BITS) + (found & BLOCK_MASK) + low, place[packed]
