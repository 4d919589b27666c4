"""Depths at the ends of their range and past them, and what the rules draw of a triangle that reaches past an end.

A triangle is clipped to the depths 0 to 65535 before it is drawn, so that its part past an end is not there.
"""

from __future__ import annotations

import random
from fractions import Fraction
from itertools import chain
from typing import Iterator, Sequence

from conformance.suites.shapes import (
    PIXEL, Lists, Triangle, draw, each_draw, own_colour, rectangle, scene, triangles_in, vertex, with_triangles,
)
from tools.draw_list import Draw, DrawList, Vertex

SIDE = 64  # columns and rows of a picture
CELL = 16  # pixels
LAST = 65535
STEP = 128  # a depth changes by a multiple of this from pixel to pixel, by a multiple of 8 from 1/16 pixel to the next
LAYERS = 16
MARGIN = 4  # layers lie 4 past a multiple of 8
# x, y, z, and the colour and the alpha that stay.
Corner = tuple[Fraction, Fraction, Fraction]


def cut(corners: Sequence[Corner], end: int, sign: int, axis: int = 2) -> list[Corner]:
    """The part of a polygon whose depths are at least the end, or with the sign -1 at most; or another coordinate."""
    kept: list[Corner] = []
    for one, other in zip(corners, [*corners[1:], *corners[:1]]):
        here, there = (sign * (corner[axis] - end) for corner in (one, other))
        if here >= 0:
            kept.append(one)
        if here * there < 0:
            share = here / (here - there)
            x, y, z = (a + share * (b - a) for a, b in zip(one, other))
            kept.append((x, y, z))
    return kept


def fan(corners: Sequence[Corner], rest: Sequence[int]) -> list[Triangle]:
    """The triangles of a convex polygon. Raises `ValueError` if a corner is no position of a list."""
    if any(number.denominator != 1 for corner in corners for number in corner):
        raise ValueError("a cut between two positions")
    whole: list[Vertex] = [[*map(int, corner), *rest] for corner in corners]
    return [[whole[0], whole[k], whole[k + 1]] for k in range(1, len(whole) - 1)]


def parts(triangle: Triangle, clamps: bool) -> Iterator[Triangle]:
    """The part of a triangle within the range of depths, as triangles; if it is clamped the parts past the ends
    too, at the ends."""
    rest = triangle[0][3:]
    x, y, z = ([Fraction(corner[axis]) for corner in triangle] for axis in range(3))
    corners = list(zip(x, y, z))
    yield from fan(cut(cut(corners, 0, 1), LAST, -1), rest)
    if clamps:
        for end, sign in ((0, -1), (LAST, 1)):
            yield from fan([(x, y, Fraction(end)) for x, y, _z in cut(corners, end, sign)], rest)


def within_depths(scene: DrawList, clamps: bool) -> DrawList:
    """The list of what is drawn of each triangle."""

    def change(listed: Draw) -> Draw:
        return with_triangles(listed, chain.from_iterable(parts(triangle, clamps) for triangle in triangles_in(listed)))

    return each_draw(scene, change)


def sloped(rng: random.Random, left: int, top: int, number: int) -> list[Triangle]:
    """A cell whose depth changes along one axis and passes an end between two pixels, or reaches it at
    the cell's border."""
    along, slope = rng.randrange(2), STEP * rng.choice((-1, 1)) * rng.randint(1, LAST // CELL // STEP)
    crossing, end = rng.randrange(CELL + 1), rng.choice((0, LAST))
    corners = []
    for x, y in ((0, 0), (CELL, 0), (0, CELL), (CELL, CELL)):
        depth = end + slope * ((x, y)[along] - crossing)
        corners.append(vertex((PIXEL * (left + x), PIXEL * (top + y)), own_colour(number), depth))
    return [[corners[0], corners[1], corners[2]], [corners[1], corners[3], corners[2]]]


def depth_ends(rng: random.Random, samples: int) -> Lists:
    """Cells that reach past the ends of the range, and flat layers between their depths and at the ends."""
    for n in range(20):
        test = ("less_equal", "greater")[n % 2]
        places = [(left, top) for top in range(0, SIDE, CELL) for left in range(0, SIDE, CELL)]
        cells = [triangle for k, (left, top) in enumerate(places) for triangle in sloped(rng, left, top, k)]
        depths = sorted(
            {0, LAST, *(8 * rng.randrange(8191) + MARGIN for _ in range(LAYERS))}, reverse=test == "greater"
        )
        layers = [
            draw(rectangle(0, 0, SIDE, SIDE, own_colour(100 + k), depth), depth_test=test)
            for k, depth in enumerate(depths)
        ]
        chosen = rng.sample(layers, 3)
        yield f"{test}, {n}", scene([draw(cells, depth_write=True), *chosen], samples, SIDE, SIDE, clear_depth=32768)
