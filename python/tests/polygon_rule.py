"""The rule of polygons once more, counted edge by edge, and polygons as the arrays of the calls."""

from typing import Any, List, Sequence, Tuple

Corner = Tuple[int, int]


def is_inside(rings: Sequence[Sequence[Corner]], rule: str, x: Any, y: Any) -> Any:
    """Whether a ray to the left crosses an odd number of edges, or as many downwards as upwards do not cancel. x and y
    are integers, or arrays of numpy that fit each other, and then so is the answer."""
    crossed: Any = 0
    turns: Any = 0
    for ring in rings:
        for (ax, ay), (bx, by) in zip(ring, (*ring[1:], *ring[:1])):
            down = 1 if ay < by else -1
            (px, py), (qx, qy) = ((ax, ay), (bx, by)) if down == 1 else ((bx, by), (ax, ay))
            # The line at the height of y is at x or left of it; the upper end belongs to the edge, the
            # lower one does not.
            is_left = px * (qy - py) + (qx - px) * (y - py) <= x * (qy - py)
            is_crossed = (py <= y) & (y < qy) & is_left
            crossed, turns = crossed + is_crossed, turns + down * is_crossed
    return crossed % 2 == 1 if rule == "even-odd" else turns != 0


def flat(polygons: Sequence[Sequence[Sequence[Corner]]]) -> Tuple[List[Corner], List[int], List[int]]:
    """Corners, ends of rings and ends of polygons."""
    corners: List[Corner] = []
    rings: List[int] = []
    ends = []
    for polygon in polygons:
        for ring in polygon:
            corners += ring
            rings.append(len(corners))
        ends.append(len(rings))
    return corners, rings, ends


def area(ring: Sequence[Any]) -> float:
    """The area of a ring, negative if it runs the other way round."""
    return float(sum(x * v - u * y for (x, y), (u, v) in zip(ring, [*ring[1:], *ring[:1]])) / 2)


def clipped(ring: Sequence[Any], low: Sequence[float], high: Sequence[float]) -> Sequence[Any]:
    """The part of a ring within a rectangle, side by side."""
    for axis in (0, 1):
        for limit, sign in ((low[axis], 1), (high[axis], -1)):
            kept = []
            for p, q in zip(ring, [*ring[1:], *ring[:1]]):
                is_kept = sign * (p[axis] - limit) >= 0
                if is_kept:
                    kept.append(p)
                if is_kept != (sign * (q[axis] - limit) >= 0):
                    share = (limit - p[axis]) / (q[axis] - p[axis])
                    kept.append([a + share * (b - a) for a, b in zip(p, q)])
            ring = kept
    return ring
