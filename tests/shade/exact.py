"""Weights beside exact fractions: the bounds that include/trirast_shade.h states."""

from __future__ import annotations

from fractions import Fraction
from typing import Callable, Iterable, NamedTuple, Sequence

from tests.cases import must

Point = tuple[int, int]
WEIGHT, SUM, STEP = Fraction(1, 2**20), Fraction(1, 2**21), Fraction(1, 2**19)


class Corner(NamedTuple):
    x: int
    y: int
    w: Fraction


def edge(a: Corner, b: Corner, point: Point) -> int:
    return (b.x - a.x) * (point[1] - a.y) - (b.y - a.y) * (point[0] - a.x)


def total(numbers: Iterable[Fraction]) -> Fraction:
    return sum(numbers, Fraction(0))


def planes(corners: Sequence[Corner], point: Point) -> list[Fraction]:
    """The edge functions by w."""
    return [edge(corners[k - 2], corners[k - 1], point) / corners[k].w for k in range(3)]


def check_steps(
    corners: Sequence[Corner], point: Point, next_to: Callable[[int], Point], got: Sequence[Fraction]
) -> None:
    """Differences to the next pixel keep their bound, but for those nearest to a tie which one is taken."""
    here, ahead = planes(corners, point), planes(corners, next_to(1))
    share, sign = total(ahead) / total(here), 1
    if abs(share - Fraction(1, 2)) < Fraction(1, 10000):
        return
    if share < Fraction(1, 2):
        ahead, sign = planes(corners, next_to(-1)), -1
    r = total(abs(a - b) for a, b in zip(ahead, here)) / abs(total(ahead))
    for k in range(3):
        wanted = sign * (ahead[k] / total(ahead) - here[k] / total(here))
        must(abs(got[k] - wanted) < STEP * r * (1 + r), f"a difference at {point} of {corners}")


def check_line(line: str) -> bool:
    """Weights of a point and their differences keep their bounds. Returns whether the point lies in the triangle."""
    words = line.split()
    corners = [Corner(int(words[k]), int(words[k + 1]), Fraction(float.fromhex(words[k + 2]))) for k in (0, 3, 6)]
    point = int(words[9]), int(words[10])
    edges = [edge(corners[k - 2], corners[k - 1], point) for k in range(3)]
    if not sum(edges) or min(edges) < 0 < max(edges):
        return False
    got = [Fraction(float.fromhex(word)) for word in words[11:]]
    n = planes(corners, point)
    for k in range(3):
        wanted = n[k] / total(n)
        must(got[k] == 0 if wanted == 0 else abs(got[k] / wanted - 1) < WEIGHT, f"a weight at {point} of {corners}")
    must(abs(total(got[:3]) - 1) < SUM, f"the sum of the weights at {point} of {corners}")
    check_steps(corners, point, lambda side: (point[0] + 256 * side, point[1]), got[3:6])
    check_steps(corners, point, lambda side: (point[0], point[1] + 256 * side), got[6:9])
    return True
