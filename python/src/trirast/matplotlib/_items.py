"""The items of a collection as polygons: transformed, snapped where Agg snaps them, and flattened as
Agg flattens them."""

from __future__ import annotations

from typing import Any, List, NamedTuple, Optional, Sequence, Tuple

import numpy as np
from matplotlib.path import Path

from .._polygons import Polygons, ranges, with_zero
from .._ring_cuts import within
from ._inside import MAX_SNAPPED, STRAIGHT, all_codes, all_vertices, are_one, cleaned, stacked, stacked_codes
from ._paths import range_any, rectilinear
from ._polygons import (
    CLOSEPOLY, LINETO, MOVETO, NOTHING, REACH, Rings, as_corners, as_numbers, equal_rings, in_units, is_near, joined,
    of_arrays, polygons, rings, rings_of_one_length,
)
from ._transforms import applied, matrix_of


# Items of equal length that are placed together.
CHUNK = 4096
# The vertices of a path among which a slanted line is looked for first.
FIRST_VERTICES = 64


class Items(NamedTuple):
    """What a collection draws: item n is path `path_of[n]` by a transform of its own, or all by one. `strokes` has the
    widths of their edges in pixels."""

    paths: Sequence[Any]
    path_of: Any
    transforms: Any  # (n or 1, 6), y downwards
    strokes: Any  # (n,)

    def of(self, some: Any) -> Items:
        transforms = self.transforms if len(self.transforms) == 1 else self.transforms[some]
        return Items(self.paths, self.path_of[some], transforms, self.strokes[some])


class Faces(NamedTuple):
    """Each item as one polygon, and which are made of whole pixels, as upright rectangles are that were snapped."""

    polygons: Polygons
    whole: Any


def faces_of(items: Items, snap: Optional[bool], together: bool, size: Tuple[int, int], margin: float = 1) -> Faces:
    """The faces of items, an empty one if it lies farther than the margin from a picture of this width and height.
    `together`: all are snapped or none, where matplotlib leaves it open."""
    alike = alike_items(items)
    if alike is not None:
        found = equal_faces(items, alike, snap, together)
        if found is not None:
            return found
    return any_faces(items, snap, together, size, margin)


# ---- Items of one ring each and of as many corners, as most collections have them


class Alike(NamedTuple):
    """The vertices of paths of one ring each, as many in each, and how many of them are corners: all, or
    all but the last."""

    arrays: Sequence[Any]
    length: int
    corners: int

    def points(self, transforms: Any, some: slice) -> Any:
        """The vertices of some paths in pixels, by one transform or one for each path: of the shape (n, length, 2)."""
        vertices = np.asarray(stacked(self.arrays[some]), np.float64)
        if len(transforms) == 1:
            return applied(transforms[0], vertices).reshape(-1, self.length, 2)
        return applied(transforms[some, None], vertices.reshape(-1, self.length, 2))

    def are_near(self, points: Any) -> bool:
        """Whether all corners are numbers in the guard band. The last vertices mostly are too, and it takes
        less to look at all."""
        return is_near(points) or is_near(points[:, : self.corners])


def alike_items(items: Items) -> Optional[Alike]:
    """The vertices of items, if each is one ring of as many corners; else None."""
    of_paths, arrays = all_codes(items.paths), all_vertices(items.paths)
    codes, length = of_paths[0], len(arrays[0])
    if not length or not are_one(of_paths) or len(set(map(len, arrays))) > 1:
        return None
    if (
        codes is not None
        and not (codes[0] == MOVETO and (codes[1:-1] == LINETO).all() and codes[-1] in (LINETO, CLOSEPOLY))
    ):
        return None
    if len(arrays) != len(items.path_of):
        arrays = [arrays[n] for n in items.path_of.tolist()]
    return Alike(arrays, length, length - int(codes is not None and codes[-1] == CLOSEPOLY))


def equal_faces(items: Items, alike: Alike, snap: Optional[bool], together: bool) -> Optional[Faces]:
    """The faces of such items, or None if one is too far away, or has a number that is none."""
    if snap is False or (snap is None and not may_be_snapped(items, alike, together)):
        return unsnapped_faces(items, alike)
    points = alike.points(items.transforms, slice(0, len(alike.arrays)))
    if not alike.are_near(points):
        return None
    points = points[:, : alike.corners]
    upright = straight(points, together) if alike.corners <= MAX_SNAPPED else np.zeros(len(points), bool)
    snapped = upright if snap is None else np.full(len(points), snap)
    added = half_of_odd(items.strokes)
    if snapped.any():
        moved = np.floor(points + 0.5) + added[:, None, None]
        points = moved if snapped.all() else np.where(snapped[:, None, None], moved, points)
    return Faces(equal_rings(points), snapped & upright & (added == 0))


def may_be_snapped(items: Items, alike: Alike, together: bool) -> bool:
    """Whether Agg may snap such items: not if they are long, or if all are snapped or none and the
    first one is slanted."""
    if alike.corners > MAX_SNAPPED or not together:
        return alike.corners <= MAX_SNAPPED
    return bool(straight(alike.points(items.transforms, slice(0, 1))[:, : alike.corners], True).any())


def unsnapped_faces(items: Items, alike: Alike) -> Optional[Faces]:
    """The faces of such items of which none is snapped, some at a time, so that they stay in the cache
    of a processor."""
    count = len(alike.arrays)
    corners = np.empty((count, alike.corners, 2), np.int32)
    for start in range(0, count, CHUNK):
        points = alike.points(items.transforms, slice(start, start + CHUNK))
        if not alike.are_near(points):
            return None
        corners[start : start + CHUNK] = in_units(points[:, : alike.corners])
    return Faces(rings_of_one_length(corners), np.zeros(count, bool))


def straight(points: Any, together: bool) -> Any:
    """Which items have level and upright lines alone; none if they are snapped together and one has another line."""
    if together and not (np.abs(np.diff(points[0], axis=0)) < STRAIGHT).any(-1).all():
        return np.zeros(len(points), bool)
    found = np.ones(len(points), bool)
    for n in range(1, points.shape[1]):
        step = np.abs(points[:, n] - points[:, n - 1])
        found &= (step[:, 0] < STRAIGHT) | (step[:, 1] < STRAIGHT)
    return found if not together or found.all() else np.zeros(len(points), bool)


# ---- Items of any paths


def any_faces(items: Items, snap: Optional[bool], together: bool, size: Tuple[int, int], margin: float) -> Faces:
    vertices, codes, counts = path_members(items)
    points = applied(item_transforms(items, counts), vertices)
    is_whole = is_seen_whole(points, size)
    if is_whole and is_drawn_as_it_is(points, codes, counts, snap, together):
        return Faces(rings(points, codes, counts), np.zeros(len(counts), bool))
    if not is_whole:
        seen = meets(points, counts, size, margin) & np.isfinite(items.transforms).all(1)
        if not seen.all():
            some = any_faces(items.of(seen), snap, together, size, margin) if seen.any() else Faces(NOTHING, seen[:0])
            return Faces(spread(some.polygons, seen), spread_flags(some.whole, seen))
    curved = range_any(are_curves(codes), counts)
    near = is_whole or is_near(points)
    with np.errstate(invalid="ignore"):
        odd = np.zeros(len(points), bool) if near else ~(np.abs(points) <= REACH).all(1)
    odd[1:] |= are_behind(codes)
    slow = range_any(odd, counts)
    if curved.any() and not snap and not slow.any():
        # Agg snaps no path with a curve, unless it is asked to.
        return any_faces(flattened(items, curved), False if together or curved.all() else snap, together, size, margin)
    upright = rectilinear(points, codes, counts) if snap is not False else np.zeros(len(counts), bool)
    lost = range_any(~np.isfinite(points).all(1), counts) if together and not near else np.zeros(len(counts), bool)
    snapped = snapped_items(counts, upright, curved, lost, together) if snap is None else np.full(len(counts), snap)
    snap = False if snap is None and together and not snapped.any() else snap
    slow |= curved
    snapped &= ~slow
    added = half_of_odd(items.strokes)
    if snapped.any():
        which = np.repeat(snapped, counts)
        points[which] = np.floor(points[which] + 0.5) + np.repeat(added, counts)[which, None]
    if not slow.any():
        return Faces(rings(points, codes, counts), snapped & (added == 0) & upright)
    return Faces(joined(slow_paths(items, points, codes, counts, slow, snap)), snapped & (added == 0) & upright)


def is_drawn_as_it_is(points: Any, codes: Any, counts: Any, snap: Optional[bool], together: bool) -> bool:
    """Whether nothing is to be snapped, flattened or opened, as of most contours: so it is looked at first,
    and in few steps."""
    if snap or not (snap is False or together) or are_curves(codes).any() or are_behind(codes).any():
        return False
    return snap is False or is_slanted(points[: counts[0]], codes)


def is_slanted(points: Any, codes: Any) -> bool:
    """Whether one of a path's first lines is neither level nor upright, which says that none is snapped where all are
    or none. Mostly the first one is, so numbers without arrays take less time."""
    first = points[:FIRST_VERTICES].tolist()
    lines = zip(first, first[1:], codes[1:FIRST_VERTICES].tolist())
    return any(code == LINETO and abs(x - u) >= STRAIGHT and abs(y - v) >= STRAIGHT for (x, y), (u, v), code in lines)


def are_curves(codes: Any) -> Any:
    return (codes == Path.CURVE3) | (codes == Path.CURVE4)


def are_behind(codes: Any) -> Any:
    """Which codes but the first are lines behind a CLOSEPOLY, which are rare."""
    return (codes[1:] == LINETO) & (codes[:-1] == CLOSEPOLY)


def is_seen_whole(points: Any, size: Tuple[int, int]) -> bool:
    """Whether all positions lie in a picture of this size."""
    with np.errstate(invalid="ignore"):
        return (
            bool(len(points))
            and bool(points.min() >= 0 and points[:, 0].max() <= size[0] and points[:, 1].max() <= size[1])
        )


def snapped_items(counts: Any, upright: Any, curved: Any, lost: Any, together: bool) -> Any:
    """Which items Agg snaps, where matplotlib leaves it open. `lost` are those with a number that is none."""
    found = ~curved & (counts <= MAX_SNAPPED) & upright
    # Such an item is looked at alone.
    if together and not (found | lost).all():
        found[:] = False
    return found


def slow_paths(items: Items, points: Any, codes: Any, counts: Any, slow: Any, snap: Optional[bool]) -> List[Rings]:
    """The items one by one: those that are slow as Path.cleaned has them."""
    found: List[Rings] = []
    for n, end in enumerate(np.cumsum(counts)):
        if slow[n]:
            transform = items.transforms[n if len(items.transforms) > 1 else 0]
            found.append(cleaned(items.paths[items.path_of[n]], matrix_of(transform), snap, float(items.strokes[n])))
        else:
            found.append((points[end - counts[n] : end], codes[end - counts[n] : end]))
    return found


def path_members(items: Items) -> Tuple[Any, Any, Any]:
    """The vertices and codes of all items behind each other, and how many each has."""
    arrays = all_vertices(items.paths)
    lengths = np.fromiter(map(len, arrays), np.int64, len(arrays))
    vertices, codes = stacked(arrays), joined_codes(items.paths, lengths)
    if len(items.paths) == len(items.path_of):
        return np.asarray(vertices, np.float64), codes, lengths
    ends = with_zero(np.cumsum(lengths))
    members = ranges(ends[items.path_of], ends[items.path_of + 1])
    return np.asarray(vertices[members], np.float64), codes[members], lengths[items.path_of]


def joined_codes(paths: Sequence[Any], lengths: Any) -> Any:
    """The codes of paths, one after another."""
    given = all_codes(paths)
    whole = stacked_codes(given)
    if whole is not None:
        return whole
    found = np.full(lengths.sum(), LINETO, np.uint8)
    ends = np.cumsum(lengths)
    found[(ends - lengths)[lengths > 0]] = MOVETO
    for end, length, codes in zip(ends.tolist(), lengths.tolist(), given):
        if codes is not None:
            found[end - length : end] = codes
    return found


def item_transforms(items: Items, counts: Any) -> Any:
    """Of each vertex the transform, or one for all."""
    return items.transforms[0] if len(items.transforms) == 1 else np.repeat(items.transforms, counts, 0)


def flattened(items: Items, curved: Any) -> Items:
    """The items with lines for curves. Items that differ by their place alone are flattened once."""
    transforms = np.broadcast_to(items.transforms, (len(items.path_of), 6)).copy()
    keys = np.concatenate((items.path_of[curved, None], transforms[curved, :4]), 1)
    _keys, firsts, index = np.unique(keys, axis=0, return_index=True, return_inverse=True)
    still = transforms[curved][firsts]
    still[:, 4:] = 0
    paths = list(items.paths)
    for path, transform in zip(items.path_of[curved][firsts], still):
        vertices, codes = cleaned(items.paths[path], matrix_of(transform), False, 0.0)
        paths.append(Path(vertices, codes) if len(vertices) else Path(np.zeros((1, 2)), [MOVETO]))
    path_of = items.path_of.copy()
    path_of[curved] = len(items.paths) + index.reshape(-1)
    transforms[curved, :4] = (1, 0, 0, 1)
    return Items(paths, path_of, transforms, items.strokes)


def half_of_odd(strokes: Any) -> Any:
    """What is added to snapped positions: half a pixel if the edge has an odd width, as Agg rounds it."""
    if not strokes.any():
        return np.zeros(strokes.shape)
    return np.where(np.trunc(strokes + 0.5).astype(np.int64) % 2, 0.5, 0.0)


def meets(points: Any, counts: Any, size: Tuple[int, int], margin: float) -> Any:
    """Which ranges of points have bounds that meet a picture with a margin around it."""
    found = counts > 0
    starts = (np.cumsum(counts) - counts)[found]
    if len(starts):
        with np.errstate(invalid="ignore"):
            least, greatest = np.fmin.reduceat(points, starts), np.fmax.reduceat(points, starts)
            found[found] = ((greatest >= -margin) & (least <= np.add(size, margin))).all(1)
    return found


def spread(given: Polygons, places: Any) -> Polygons:
    """The polygons in the places that are set, and empty ones in the others."""
    counts = np.zeros(len(places), np.int64)
    counts[places] = np.diff(given.polygon_ends, prepend=0)
    return of_arrays(given.corners, given.ring_ends, np.cumsum(counts))


def spread_flags(flags: Any, places: Any) -> Any:
    found = np.ones(len(places), bool)
    found[places] = flags
    return found


# ---- Meshes


def quad_faces(coordinates: Any, transform: Any, snap: Optional[bool], stroke: float = 0) -> Faces:
    """The quads of a grid of points, row after row, by one transform. All are snapped or none. As in Agg, a quad with
    one corner that is no number is a triangle, and with more of them it is empty."""
    grid = applied(transform, np.asarray(coordinates, np.float64))
    near = is_near(grid)
    if not near:
        grid = np.where(np.isfinite(grid).all(-1, keepdims=True), grid, np.nan)
    across, down = np.abs(grid[:, 1:] - grid[:, :-1]), np.abs(grid[1:] - grid[:-1])
    # Where an end is no number, there is no line.
    upright = not ((across >= STRAIGHT).all(-1).any() or (down >= STRAIGHT).all(-1).any())
    if snap or (snap is None and upright):
        grid = np.floor(grid + 0.5) + half_of_odd(np.float64(stroke))
    found = near_quads(grid) if near else far_quads(grid)
    return Faces(found, np.full(found.count, upright and snap is not False))


def near_quads(grid: Any) -> Polygons:
    """The quads of a grid of numbers in the guard band."""
    # Corners are rounded before they are put together, of which each is four times there.
    whole = as_numbers(in_units(grid).reshape(-1, 2).astype(np.int32)).reshape(grid.shape[:2])
    return rings_of_one_length(as_corners(quads_of(whole).reshape(-1)).reshape(-1, 4, 2))


def far_quads(grid: Any) -> Polygons:
    """The quads of any grid, without corners that are no numbers, cut to the guard band."""
    corners = quads_of(grid).reshape(-1, 4, 2)
    kept = ~np.isnan(corners[..., 0])
    kept[kept.sum(1) < 3] = False
    counts = kept.sum(1)
    whole = within(corners[kept], np.cumsum(counts), (-REACH, -REACH), (REACH, REACH))
    return polygons(*whole, np.arange(1, len(counts) + 1))


def quads_of(grid: Any) -> Any:
    """The four corners of each quad of a grid, in their order around it."""
    return np.stack((grid[:-1, :-1], grid[:-1, 1:], grid[1:, 1:], grid[1:, :-1]), 2)
