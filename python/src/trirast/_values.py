"""What a BatchError says behind the library's line: the values that were passed, as ", got 1 for 2 polygons"."""

import ctypes
import struct
from typing import Any, NamedTuple, Optional, Tuple

from ._declarations import CBatch, CPolygons
from ._errors import BatchError
from ._numbers import COUNTS, TOPOLOGIES
from ._records import HIGH, LOW, UNIT
from ._rings import CORNER_BYTES, ends_of, leading_zero

INDEX = ctypes.c_uint32
# What the library's line says of draws beside what it says of polygons.
OF_DRAWS = "a vertex or an index is in no draw, or "


class BatchValues(NamedTuple):
    """Those of a batch, by the error that it has."""

    batch: CBatch
    origin: Tuple[int, int]
    first_id: Optional[int]

    def of(self, error: BatchError) -> str:
        draw, element = error.draw or 0, error.element or 0
        if error.name == "TooManyIds":
            return f", got {self.first_id} as the first"
        # Rows of indices are whole.
        if error.name == "NotWhole":
            return f", got {self._draws[draw].vertex_count} vertices; a triangle has three"
        if error.name == "BadIndex":
            return self._index_values(draw, element)
        if error.name == "BadPosition":
            return position_values(self._vertex(draw, element), self.origin)
        return self._quad_values(draw, element) if error.name == "NotConvex" else ""

    def _index_values(self, draw: int, element: int) -> str:
        name, length = TOPOLOGIES[self._draws[draw].topology]
        row, place = divmod(element, length)
        return f": {self._draws[draw].vertex_count}; {name}[{row}]" + f"[{place}]" * (length > 1)

    def _quad_values(self, draw: int, element: int) -> str:
        first = sum(each.index_count for each in self._draws[:draw]) + 4 * element
        quad = (INDEX * 4).from_address(self.batch.indices + ctypes.sizeof(INDEX) * first)
        places = (str(self._vertex(draw, index)) for index in quad)
        return f", got vertices {', '.join(map(str, quad))} at {', '.join(places)} in 1/256 pixel"

    @property
    def _draws(self) -> Any:
        return self.batch.kept[0]

    def _vertex(self, draw: int, number: int) -> Tuple[int, int]:
        """Where a vertex of a draw lies."""
        first = sum(each.vertex_count for each in self._draws[:draw])
        return place_at(self.batch.vertices + self.batch.vertex_stride * (first + number))


class PolygonValues(NamedTuple):
    """Those of polygons, by the error that they have."""

    polygons: CPolygons
    first_id: Optional[int]

    def of(self, error: BatchError) -> str:
        given, element = self.polygons, error.element
        if error.name == "TooManyIds":
            return f", got {self.first_id} as the first of {given.polygon_count}"
        if error.name in COUNTS:
            wanted, passed = (getattr(given, member) for member in COUNTS[error.name])
            return f", got {passed} for {wanted} polygons"
        if error.name == "BadPosition":
            return position_values(place_at(given.corners + CORNER_BYTES * (element or 0)), (0, 0))
        rings, polygons = ends_of(given)
        if error.name not in ("BadRing", "BadPolygon", "LeftOver"):
            return ""
        is_ring = error.name == "BadRing" or (error.name == "LeftOver" and last_of(rings) < given.corner_count)
        ends = (
            ("ring", rings, element, f"{given.corner_count} corners")
            if is_ring else ("polygon", polygons, element, f"{given.ring_count} rings")
        )
        return end_values(*ends) + leading_zero(rings, polygons)


def last_of(ends: Any) -> int:
    """Where the last one ends."""
    return int(ends[-1]) if len(ends) else 0


def end_values(name: str, ends: Any, element: Optional[int], of_all: str) -> str:
    """Where one ends, or the last one."""
    if element is None:
        return f", got {of_all}, and the last {name} ends at {last_of(ends)}"
    return f", got {ends[element]} after {last_of(ends[:element])}, of {of_all}"


def place_at(address: int) -> Tuple[int, int]:
    """The x and y of a vertex or a corner."""
    x, y = (ctypes.c_int32 * 2).from_address(address)
    return x, y


def point_values(points: bytearray) -> str:
    """The first of the points that is out of range."""
    places = struct.iter_unpack("=ii", points)
    row, (x, y) = next((row, place) for row, place in enumerate(places) if min(place) < LOW or max(place) > HIGH)
    return f": expected points[{row}] of {LOW} to {HIGH}{position_values((x, y), (0, 0))}"


def position_values(place: Tuple[int, int], origin: Tuple[int, int]) -> str:
    """A position, and the range of each coordinate that is outside of it: on the screen, and as seen from an origin."""
    x, y = place
    parts = [f", got x {x} and y {y} in 1/256 pixel ({pixels(x)} and {pixels(y)} pixels)"]
    for name, value, begin in zip("xy", place, origin):
        least, greatest = max(LOW, LOW + UNIT * begin), min(HIGH, HIGH + UNIT * begin)
        if not least <= value <= greatest:
            parts.append(f"{name}{f' with the origin {begin}' * (begin != 0)}: {range_of(least, greatest)}")
    return "; ".join(parts)


def range_of(least: int, greatest: int) -> str:
    """A range in 1/256 pixel, and in pixels."""
    return f"{least} to {greatest} ({pixels(least)} to {pixels(greatest)} pixels)" if least <= greatest else "none"


def pixels(units: int) -> str:
    """A number of 1/256 pixel in pixels, exactly."""
    return f"{units / UNIT:.15g}"
