"""One triangle of clip space, cut by planes and into triangles on the screen: include/trirast_clip.h in
Python, to the last bit.

The header says why no crack comes about. A float of Python is a double, and no product is fused with a sum.
"""

from typing import Any, Iterator, List, NamedTuple, Sequence, Tuple

Place = Tuple[float, ...]
# The vertex of a corner that a cut made.
MADE = -1


class Plane(NamedTuple):
    """A plane keeps a position if factor * w + sign * (its coordinate on the axis) is at least `constant`. The factor
    is 0 or a power of two and the sign 1 or -1, so that products are exact."""

    factor: float
    sign: float
    axis: int
    constant: float = 0.0

    def distance(self, place: Any) -> Any:
        """Not negative if the plane keeps the position, which is four floats, or four arrays of them.
        Its sign is exact."""
        return self.factor * place[3] + self.sign * place[self.axis] - self.constant


class Corner(NamedTuple):
    """A corner of a polygon."""

    # x, y, z and w.
    place: Place
    # Of the corners of the triangle of the source.
    weights: Place
    # Its index in the source, or MADE.
    vertex: int


def cut(plane: Plane, one: Corner, other: Corner) -> Corner:
    """The point in which a plane cuts the edge between two corners on either side of it, taken in the order of
    their coordinates."""
    first, last = (other, one) if other.place < one.place else (one, other)
    behind = plane.distance(first.place)
    share = behind / (behind - plane.distance(last.place))

    def between(ends: Tuple[Place, Place]) -> List[float]:
        # Not beyond the ends whatever is rounded: so w stays positive.
        return [min(max(a + share * (b - a), min(a, b)), max(a, b)) for a, b in zip(*ends)]

    place = between((first.place, last.place))
    # What the plane says of a coordinate holds to the last bit.
    place[plane.axis] = plane.sign * (plane.constant - plane.factor * place[3])
    return Corner(tuple(place), tuple(between((first.weights, last.weights))), MADE)


def kept(plane: Plane, corners: Sequence[Corner]) -> Iterator[Corner]:
    """What a plane keeps of a polygon."""
    for here, following in zip(corners, (*corners[1:], *corners[:1])):
        at, ahead = plane.distance(here.place), plane.distance(following.place)
        if at >= 0:
            yield here
        # An end that lies on the plane is the cut itself.
        if at < 0 < ahead or ahead < 0 < at:
            yield cut(plane, here, following)


class Ears:
    """The corners on the screen, x and y, that are left of a polygon. Rounding may bend a side inwards, so a fan from
    the first corner could have triangles that lie upon each other."""

    def __init__(self, corners: Sequence[Tuple[int, int]]) -> None:
        self._corners = corners
        self._left = list(range(len(corners)))
        self._sense = 1
        self._sense = -1 if sum(self._area(0, k, k + 1) for k in range(1, len(corners) - 1)) < 0 else 1
        self.is_folded = False

    def __iter__(self) -> Iterator[Tuple[int, ...]]:
        """Triangles of one sense, unless the polygon is folded."""
        while len(self._left) > 2:
            ears = (k for k in range(len(self._left)) if self._is_ear(k))
            best = next(ears, None)
            self.is_folded |= best is None
            first = best or 0
            yield tuple(self._left[(first + k) % len(self._left)] for k in range(3))
            del self._left[(first + 1) % len(self._left)]

    def _area(self, a: int, b: int, c: int) -> int:
        """The doubled area of three of the corners that are left, positive in the polygon's sense."""
        (ax, ay), (bx, by), (cx, cy) = (self._corners[self._left[k % len(self._left)]] for k in (a, b, c))
        return self._sense * ((bx - ax) * (cy - ay) - (by - ay) * (cx - ax))

    def _is_ear(self, a: int) -> bool:
        """Whether the corner behind `a` can be cut off: it does not bend inwards, no other corner lies in what is cut
        off, and a triangle that is left is not turned over."""
        b, c, count = a + 1, a + 2, len(self._left)
        if self._area(a, b, c) < 0:
            return False
        others = range(a + 3, a + count)
        if any(self._area(a, b, k) > 0 and self._area(b, c, k) > 0 and self._area(c, a, k) > 0 for k in others):
            return False
        return count != 4 or self._area(a, c, a + 3) >= 0
