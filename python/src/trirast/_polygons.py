"""Polygons as arrays of numpy, and what is left of them in a strip of the screen.

A corner may be left out where it changes no sample of a strip. A sample's ray goes to the left (docs/polygons.md), so
it crosses no edge that lies above the strip's samples, below them or right of them. Where consecutive edges all lie
left of the samples, their crossings add up to those of one edge, from the first corner to the last. In each case that
one edge replaces them all, exactly.
"""

from __future__ import annotations

from dataclasses import dataclass, field
from functools import cached_property
from typing import Any, Callable, Optional, Tuple

import numpy as np
from numpy.typing import NDArray

from ._arguments import OF_FLOATS, color_of, shown, without_texts
from ._declarations import CPolygons
from ._records import HIGH, LOW, SNAP
from ._rings import leading_zero

# What a box has in which no sample lies: samples lie at multiples of 16.
NOWHERE = 1
# The greatest end index, and a channel of a colour that is not given: opaque white.
MOST, OPAQUE = (1 << 32) - 1, 255

Numbers = NDArray[Any]


@dataclass(frozen=True, eq=False)
class Polygons:
    """Polygons in one colour each. A polygon is any number of rings, and a ring any number of corners.

    `corners` are rows of x and y in 1/256 pixel, of all rings one after another. `ring_ends` has the end index of each
    ring, past its last corner, and `polygon_ends` that of each polygon, past its last ring. `colors` are rows of red,
    green, blue and alpha, or of three channels, or one colour of all; without any they are white. Each is an array or a
    list. They are checked by `owned`, by a call that draws them and by a scene, and not before.
    """

    corners: Any
    ring_ends: Any
    polygon_ends: Any
    colors: Any = None
    # Whether they were checked, and nobody else can change them. Those that `dataclasses.replace` makes were not.
    is_own: bool = field(init=False, default=False, repr=False)
    # If they are drawn only there, the box of each: the first and the last x and y.
    drawn: Optional[Numbers] = field(default=None, repr=False)

    def owned(self, copy: bool = True) -> Polygons:
        """Returns these polygons in arrays that fit each other and that nobody can write to.

        Calls that draw them copy nothing. If `copy` is false, they share arrays that have the library's types already,
        which somebody else may still change. Raises TypeError if an array has no integers, and ValueError if a number
        is out of range or the arrays do not fit each other. The message names the array.
        """
        if self.is_own:
            return self
        corners, ring_ends, polygon_ends = (
            array_of(name, getattr(self, name), like) for name, like in zip(ENDS, NONE.arrays)
        )
        colors = color_rows(array_of("colors", without_texts("colors", self.colors), NONE.colors), len(polygon_ends))
        found = Polygons(
            own_corners(corners, copy),
            own_numbers("ring_ends", ring_ends, (0, MOST), NONE.ring_ends, copy),
            own_numbers("polygon_ends", polygon_ends, (0, MOST), NONE.polygon_ends, copy),
            own_numbers("colors", colors, (0, 255), NONE.colors, copy),
        )
        zero = leading_zero(found.ring_ends, found.polygon_ends)
        check_ends("ring_ends", found.ring_ends, len(found.corners), "corners", zero)
        check_ends("polygon_ends", found.polygon_ends, len(found.ring_ends), "rings", zero)
        if len(found.colors) != found.count:
            wanted = f"{found.count} rows, one for each polygon"
            raise ValueError(f"colors: expected {wanted}, got {len(found.colors)}{zero}")
        return checked(found)

    def _in_c(self) -> CPolygons:
        """The polygons as C has them. They keep the arrays that they point to, which are copied only if they do not
        lie as C reads them. Raises ValueError at arrays that were given another type or shape in place."""
        arrays = [as_read(array, like) for array, like in zip(self.arrays, NONE.arrays) if array is not None]
        found = CPolygons(0, 0, *(each for array in arrays for each in (array.ctypes.data, len(array))))
        found.kept = tuple(arrays)
        return found

    def __reduce__(self) -> Tuple[Any, ...]:
        # A copy has arrays that can be written to, so it is not checked.
        return Polygons, (self.corners, self.ring_ends, self.polygon_ends, self.colors)

    @property
    def arrays(self) -> Tuple[Numbers, Numbers, Numbers, Any]:
        """The four arrays; without colours the last is `None`."""
        return self.corners, self.ring_ends, self.polygon_ends, self.colors

    @property
    def count(self) -> int:
        """How many polygons there are."""
        return len(self.polygon_ends)

    @cached_property
    def rings(self) -> Numbers:
        """The index of each polygon's first ring, then the end index of all rings."""
        return with_zero(self.polygon_ends)

    @cached_property
    def places(self) -> Numbers:
        """The index of each polygon's first corner, then the end index of all corners."""
        return with_zero(self.ring_ends)[self.rings]

    def take(self, numbers: Numbers) -> Polygons:
        """Returns some polygons, in this order."""
        first, end = self.rings[numbers], self.rings[numbers + 1]
        corner, behind = self.places[numbers], self.places[numbers + 1]
        # Ends within each polygon, and what lies before it among those that are taken.
        ends = self.ring_ends[ranges(first, end)] - np.repeat(corner, end - first)
        before = np.cumsum(behind - corner, dtype=np.uint32) - (behind - corner)
        return self._derived(
            self.corners[ranges(corner, behind)], ends + np.repeat(before, end - first),
            np.cumsum(end - first, dtype=np.uint32), None if self.colors is None else self.colors[numbers],
        )

    def part(self, first: int, end: int) -> Polygons:
        """Returns the polygons from `first` to before `end`, whose corners and colours are not copied."""
        (ring, last), (corner, behind) = self.rings[[first, end]], self.places[[first, end]]
        ends = self.ring_ends[ring:last] - corner, self.polygon_ends[first:end] - ring
        return self._derived(
            self.corners[corner:behind], *ends, None if self.colors is None else self.colors[first:end]
        )

    def colored(self, colors: Numbers) -> Polygons:
        """Returns these polygons in other colours, a row of four bytes for each."""
        found = object.__new__(Polygons)
        # With what was found of their places and boxes.
        found.__dict__.update(self.__dict__, colors=colors.view())
        found.colors.flags.writeable = False
        return found

    def _derived(self, *arrays: Any) -> Polygons:
        """Polygons of these arrays, which fit each other if those of these polygons do."""
        return checked(Polygons(*arrays)) if self.is_own else Polygons(*arrays)

    @cached_property
    def boxes(self) -> Numbers:
        """The least x and y at which each polygon is drawn, then the greatest, in 1/256 pixel: those of its corners,
        if it is drawn whole."""
        if self.drawn is not None:
            return self.drawn
        found = np.full((self.count, 4), NOWHERE, np.int32)
        some = np.flatnonzero(np.diff(self.places))
        if len(some):
            # What lies between two polygons with corners has none.
            found[some, :2] = np.minimum.reduceat(self.corners, self.places[some], 0)
            found[some, 2:] = np.maximum.reduceat(self.corners, self.places[some], 0)
        return found

    def followed_by(self, *others: Polygons) -> Polygons:
        """Returns these polygons and then others. Either all have colours, or none."""
        parts = (self, *others)
        if not others:
            return self
        corners = np.cumsum([0] + [len(part.corners) for part in parts], dtype=np.uint32)
        rings = np.cumsum([0] + [len(part.ring_ends) for part in parts], dtype=np.uint32)
        found = Polygons(
            np.concatenate([part.corners for part in parts]),
            np.concatenate([part.ring_ends + before for part, before in zip(parts, corners)]),
            np.concatenate([part.polygon_ends + before for part, before in zip(parts, rings)]),
            None if self.colors is None else np.concatenate([part.colors for part in parts]),
        )
        return checked(found) if all(part.is_own for part in parts) else found

    def moved(self, x: int, y: int) -> Polygons:
        """Returns the polygons, moved by 1/256 pixels."""
        return self._derived(
            self.corners + np.array((x, y), np.int32), self.ring_ends, self.polygon_ends, self.colors
        )

    def within(self, axis: int, low: int, end: int) -> Polygons:
        """Returns the same polygons for samples whose x or y is from `low` to before `end`, in 1/256 pixel: without
        corners that change none."""
        return self.without_runs(axis, lambda at: at <= low).without_runs(axis, lambda at: at >= end)

    def without_runs(self, axis: int, lies_beyond: Callable[[Numbers], Numbers]) -> Polygons:
        """Returns polygons without runs of corners beyond a line. Of each run the first and the last corner are left,
        and nothing of a ring that lies wholly beyond the line."""
        beyond = lies_beyond(self.corners[:, axis])
        ends = self.ring_ends
        begins = with_zero(ends)[:-1]
        some = begins < ends
        before, behind = np.roll(beyond, 1), np.roll(beyond, -1)
        before[begins[some]], behind[ends[some] - 1] = beyond[ends[some] - 1], beyond[begins[some]]
        kept = ~(beyond & before & behind)
        ring_ends = with_zero(np.cumsum(kept, dtype=np.uint32))[ends]
        is_left = np.diff(ring_ends, prepend=np.uint32(0)) > 0
        polygon_ends = with_zero(np.cumsum(is_left, dtype=np.uint32))[self.polygon_ends]
        return self._derived(self.corners[kept], ring_ends[is_left], polygon_ends, self.colors)


# What is given beside colours.
ENDS = "corners", "ring_ends", "polygon_ends"
NONE = Polygons(np.zeros((0, 2), np.int32), np.zeros(0, np.uint32), np.zeros(0, np.uint32), np.zeros((0, 4), np.uint8))


def with_zero(ends: Numbers) -> Numbers:
    """Returns ends behind a 0, so that what begins is found at the index of what ends."""
    return np.concatenate((np.zeros(1, ends.dtype), ends))


def ranges(first: Numbers, end: Numbers) -> Numbers:
    """Returns the numbers from each `first` to before its `end`, one after another."""
    counts = end.astype(np.int64) - first
    before = np.cumsum(counts) - counts
    found: Numbers = np.arange(int(counts.sum())) + np.repeat(first - before, counts)
    return found


# ---- Polygons that are given


def own_corners(array: Any, copy: bool = False) -> Numbers:
    """Returns corners as `owned` has them, by themselves."""
    return own_numbers("corners", array, (LOW, HIGH), NONE.corners, copy)


def checked(polygons: Polygons) -> Polygons:
    """Returns the same polygons, which fit each other and whose arrays nobody else has. They can be written to no
    more."""
    for array in polygons.arrays:
        if array is not None:
            array.flags.writeable = False
    object.__setattr__(polygons, "is_own", True)
    return polygons


def as_read(array: Numbers, like: Numbers) -> Numbers:
    """Returns an array as the library reads it: contiguous, aligned, and a view whose shape nobody else changes.

    Raises ValueError if it has another type or shape than this one, as when somebody gave it another one in place.
    """
    found = np.require(np.ndarray.view(array, np.ndarray), None, ("C", "A"))
    if found.dtype != like.dtype or found.ndim != like.ndim or found.shape[1:] != like.shape[1:]:
        raise ValueError(
            f"polygons: expected an array of {like.dtype} in rows of the shape {like.shape[1:]}, got {found.dtype} "
            f"of the shape {found.shape}; give no array another type or shape in place"
        )
    return found


def array_of(name: str, given: Any, like: Numbers) -> Any:
    """Returns a list as an array; what is an array stays. Raises ValueError at rows of different lengths."""
    if not isinstance(given, (list, tuple)):
        return given
    try:
        found = np.array(given)
    except (ValueError, OverflowError) as error:
        raise ValueError(f"{name}: expected rows of integers, got {shown(given)}: {error}") from error
    return found if found.size else like


def color_rows(colors: Any, count: int) -> Any:
    """Returns colours with alpha, which is 255 if they have none, and one colour as rows of it."""
    if colors is None:
        return np.full((count, 4), OPAQUE, np.uint8)
    if isinstance(colors, str):
        colors = np.array(color_of("colors", colors, 3, 4))
    if getattr(colors, "ndim", 0) == 1 and colors.shape[0] in (3, 4):
        colors = np.broadcast_to(colors, (count, len(colors)))
    if getattr(colors, "ndim", 0) != 2 or colors.shape[1] != 3:
        return colors
    found: Numbers = np.pad(colors, ((0, 0), (0, 1)), constant_values=OPAQUE)
    return found


def own_numbers(name: str, array: Any, limits: tuple[int, int], like: Numbers, copy: bool) -> Numbers:
    """Returns an array of the type and the columns of another one. Raises TypeError at what are no integers, and
    ValueError at another shape or a number out of range."""
    wide = "" if like.ndim == 1 else f" in rows of {like.shape[1]}"
    if (
        not isinstance(array, np.ndarray) or isinstance(array, np.ma.MaskedArray)
        or array.dtype.kind not in "iu" and array.size
    ):
        kind = f"{type(array).__name__} {getattr(array, 'dtype', '')}".strip()
        hint = {"corners": f"; {SNAP}", "colors": OF_FLOATS}.get(name, "")
        how = hint * kind.startswith("ndarray float")
        raise TypeError(f"{name}: expected an array or a list of integers{wide}, without a mask, got {kind}{how}")
    # Another class may say what it likes of its size.
    array = np.asarray(array)
    if array.shape[1:] != like.shape[1:] or array.ndim != like.ndim:
        raise ValueError(f"{name}: expected integers{wide}, got the shape {array.shape}")
    least, most = limits
    if array.size and not (least <= int(array.min()) and int(array.max()) <= most):
        raise ValueError(f"{name}: expected {least} to {most}, got {array.min()} to {array.max()}")
    is_own = array.dtype == like.dtype and array.dtype.isnative and not copy
    found: Numbers = np.require(array, None, ("C", "A")).view() if is_own else np.array(array, like.dtype, order="C")
    found.flags.writeable = False
    return found


def check_ends(name: str, ends: Numbers, count: int, of: str, zero: str) -> None:
    """Raises ValueError unless ends rise to the number of what they end. `zero` says of a leading 0."""
    falls = np.flatnonzero(ends[1:] < ends[:-1])
    if len(falls):
        raise ValueError(f"{name}[{falls[0] + 1}]: expected at least {ends[falls[0]]}, got {ends[falls[0] + 1]}")
    last = int(ends[-1]) if len(ends) else 0
    if last != count:
        raise ValueError(f"{name}[-1]: expected {count}, the number of {of}, got {last}{zero}")
