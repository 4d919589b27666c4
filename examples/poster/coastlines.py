"""The world's coastlines (GSHHG, full resolution) as rings of whole 1/256 pixels.

Debian has GSHHG only as the bins of GMT (`gmt-gshhg-full`, read by `python3-netcdf4`): squares of some degrees, whose
border cuts each polygon into chords. A ring here is one piece of the polygons of one level within one bin: chords
joined along the border of the bin. Level 1 is land, 2 lakes in it, 3 islands in these, 4 ponds. A level is drawn over
the one before, so no ring has holes.
"""

from __future__ import annotations

from typing import Any, Dict, List, NamedTuple, Sequence, Tuple

import numpy as np

FILE = "/usr/share/gmt-gshhg/binned_GSHHS_{}.nc"
# Parts of a bin's side in the file, and the corners at the ends of the sides south, east, north and west.
UNIT = 65535
CORNERS = ((UNIT, 0), (UNIT, UNIT), (0, UNIT), (0, 0))
# What a chord has in place of a side if it is closed; the grounding line below the ice front, and that front,
# which is drawn as land.
CLOSED, GROUNDING_LINE, ICE_FRONT = 4, 6, 5
LEVELS = (1, 2, 3, 4)
# 32,768 * 256 itself is no position: the last samples lie before it.
FARTHEST = 32768 * 256 - 1

Array = Any


class Rings(NamedTuple):
    """Rings one after another: their corners (x, y) in 1/256 pixel, the corners of each, and the level
    and the bin of each."""

    corners: Array
    lengths: Array
    levels: Array
    bins: Array


class Cells(NamedTuple):
    """Polygons that share the map among them: the arrays of trirast's draw_polygons, and of each polygon the
    level, 0 of the sea."""

    corners: Array
    ring_ends: Array
    polygon_ends: Array
    levels: Array


class Chord(NamedTuple):
    """A piece of a polygon within a bin: the sides at which it comes in and goes out, and its points."""

    entry: int
    exit: int
    points: Array


class Bins:
    """The bins of a resolution: c, l, i, h or f, from crude to full."""

    def __init__(self, resolution: str) -> None:
        import netCDF4

        data = netCDF4.Dataset(FILE.format(resolution))
        data.set_auto_mask(False)
        read = {name: np.asarray(variable[...]) for name, variable in data.variables.items()}
        self.columns = int(read["N_bins_in_360_longitude_range"][0])
        self.rows = int(read["N_bins_in_180_degree_latitude_range"][0])
        info = read["Embedded_npts_levels_exit_entry_for_a_segment"].astype(np.int64)
        self._exit, self._entry, self._level, self._count = info & 7, info >> 3 & 7, info >> 6 & 7, info >> 9
        self._first_point = read["Id_of_first_point_in_a_segment"]
        self._first, self._segments = read["Id_of_first_segment_in_a_bin"], read["N_segments_in_a_bin"].astype(np.int64)
        self._nodes = read["Embedded_node_levels_in_a_bin"].astype(np.int64)
        names = ("Relative_longitude_from_SW_corner_of_bin", "Relative_latitude_from_SW_corner_of_bin")
        self._points = np.stack([read[name].astype(np.int64) & 0xFFFF for name in names], 1)

    def corner_levels(self, number: int) -> List[int]:
        """The levels at the corners SE, NE, NW and SW of a bin: what lies there is inside all levels up to that."""
        return [int(self._nodes[number] >> shift & 7) for shift in (6, 3, 0, 9)]

    def chords(self, number: int) -> Dict[int, List[Chord]]:
        """The chords of a bin by their level. Inside is on the left of each."""
        found: Dict[int, List[Chord]] = {}
        for k in range(self._first[number], self._first[number] + self._segments[number]):
            level = int(self._level[k])
            if level == GROUNDING_LINE:
                continue
            level = 1 if level == ICE_FRONT else level
            points = self._points[self._first_point[k] : self._first_point[k] + self._count[k]]
            chord = Chord(int(self._entry[k]), int(self._exit[k]), points)
            if level % 2 == 0:
                # Lakes and ponds run clockwise in the file.
                chord = Chord(chord.exit, chord.entry, points[::-1])
            found.setdefault(level, []).append(chord)
        return found


def place(side: int, point: Array) -> int:
    """Where a point of a side lies along the border of a bin, counterclockwise from the SW corner."""
    x, y = int(point[0]), int(point[1])
    return side * UNIT + (x, y, UNIT - x, UNIT - y)[side]


def border_order(chords: Sequence[Chord], starts_inside: bool) -> List[Tuple[int, bool, int]]:
    """The beginnings and ends of chords along the border: place, whether it is an end, and the chord.

    They take turns, and at one place the turn says which comes first; which comes first of all, whether the
    SW corner is inside.
    """
    left = sorted(
        [(place(chord.entry, chord.points[0]), False, k) for k, chord in enumerate(chords)]
        + [(place(chord.exit, chord.points[-1]), True, k) for k, chord in enumerate(chords)]
    )
    order, is_inside = [], starts_inside
    while left:
        tie = [each for each in left if each[0] == left[0][0]]
        take = next((each for each in tie if each[1] != is_inside), tie[0])
        left.remove(take)
        order.append(take)
        is_inside = take[1]
    return order


def followers(chords: Sequence[Chord], starts_inside: bool) -> Dict[int, Tuple[int, int]]:
    """Of each chord the next that begins behind its end, counterclockwise, with the place of that beginning."""
    order = border_order(chords, starts_inside)
    found = {}
    for k, (_, is_end, chord) in enumerate(order):
        if is_end:
            n = k + 1
            while order[n % len(order)][1]:
                n += 1
            at, _, other = order[n % len(order)]
            found[chord] = (at + (4 * UNIT if n >= len(order) else 0), other)
    return found


def rings_of_bin(chords: Sequence[Chord], corners: Sequence[bool]) -> List[Array]:
    """The rings of one level in one bin. `corners` says whether SE, NE, NW and SW are inside."""
    rings = [chord.points for chord in chords if chord.entry == CLOSED]
    cut = [chord for chord in chords if chord.entry != CLOSED]
    if not cut:
        return rings + ([np.array(CORNERS, np.int64)] if all(corners) else [])
    follow = followers(cut, corners[3])
    left = set(range(len(cut)))
    while left:
        k, parts = min(left), []
        while k in left:
            left.discard(k)
            parts.append(cut[k].points)
            here = place(cut[k].exit, cut[k].points[-1])
            at, k = follow[k]
            for corner in range(here // UNIT + 1, -(-at // UNIT)):
                parts.append(np.array((CORNERS[(corner - 1) % 4],), np.int64))
        rings.append(np.concatenate(parts))
    return rings


def read_rings(resolution: str, width: int) -> Rings:
    """The rings on a sheet of `width` pixels, half as high: from the pole, and from 180 degrees west."""
    bins = Bins(resolution)
    rings: List[Array] = []
    levels: List[int] = []
    places: List[int] = []
    for number in range(bins.columns * bins.rows):
        column, row = number % bins.columns, bins.rows - 1 - number // bins.columns
        corners, chords = bins.corner_levels(number), bins.chords(number)
        left = column - bins.columns if column >= bins.columns // 2 else column
        for level in LEVELS:
            for ring in rings_of_bin(chords.get(level, []), [corner >= level for corner in corners]):
                rings.append(ring + np.array((left * UNIT, row * UNIT)))
                levels.append(level)
                places.append(number)
    lengths = np.array([len(ring) for ring in rings], np.int32)
    return Rings(
        snapped(np.concatenate(rings), bins, width), lengths, np.array(levels, np.int8), np.array(places, np.int32)
    )


def snapped(points: Array, bins: Bins, width: int) -> Array:
    """Points in parts of a bin to 1/256 pixel: one exact rounding of the whole position, so that bins
    agree on their border."""
    across = 2 * bins.columns * UNIT
    x = (2 * (points[:, 0] + bins.columns * UNIT // 2) * (width * 256) + across // 2) // across
    down = 2 * bins.rows * UNIT
    y = (2 * (bins.rows * UNIT - points[:, 1]) * (width * 128) + down // 2) // down
    return np.minimum(np.stack((x, y), 1), FARTHEST).astype(np.int32)


def read_cells(resolution: str, width: int) -> Cells:
    """The rings as a partition of the map. A bin has up to five polygons: the sea is its rectangle and the rings of
    level 1, land the rings of levels 1 and 2, lakes those of levels 2 and 3, and so on. So each ring is in two
    polygons, and neighbours share all their edges."""
    bins, found = Bins(resolution), read_rings(resolution, width)
    of_bins: Dict[int, List[int]] = {}
    for ring, number in enumerate(found.bins.tolist()):
        of_bins.setdefault(number, []).append(ring)
    levels, each = found.levels.tolist(), np.split(found.corners, np.cumsum(found.lengths)[:-1])
    rings: List[Array] = []
    polygon_ends: List[int] = []
    of_polygons: List[int] = []
    for number in range(bins.columns * bins.rows):
        mine = of_bins.get(number, [])
        for level in (0, *LEVELS):
            around = [rectangle(bins, number, width)] if level == 0 else []
            around += [each[ring] for ring in mine if levels[ring] in (level, level + 1)]
            if around:
                rings += around
                polygon_ends.append(len(rings))
                of_polygons.append(level)
    ring_ends = np.cumsum([len(ring) for ring in rings], dtype=np.uint32)
    return Cells(np.concatenate(rings), ring_ends, np.array(polygon_ends, np.uint32), np.array(of_polygons, np.int8))


def rectangle(bins: Bins, number: int, width: int) -> Array:
    """The corners of a bin on the sheet."""
    column, row = number % bins.columns, bins.rows - 1 - number // bins.columns
    left = column - bins.columns if column >= bins.columns // 2 else column
    return snapped(np.array(CORNERS, np.int64) + np.array((left * UNIT, row * UNIT)), bins, width)
