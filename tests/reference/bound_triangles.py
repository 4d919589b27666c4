"""Draw lists of triangles at the bound up to which planes of whole values are raised.

A unit g divides the doubled area S and the numerators at all samples. With k fractional bits, 24 for a channel and 16
for a depth, a plane is raised if 6 S < g 2^k, so if S / g is at most 2^k / 6. Each triangle here has S / g beside a
bound: one under it, at it and one over it, or beside what it would be with 3, 4 or 5 in place of 6. One attribute,
whose gradient is such that g is known, has at some sample a value that is g / S below a whole number, which is where a
plane that is too high gives the number after the value. Green grows by thirds, so that the first block of the triangle
is corrected, and the planes are made anew before that sample is drawn.
"""

from __future__ import annotations

import math
import random
from typing import Iterator, NamedTuple

from tools.draw_list import Draw, DrawList, draw, draw_list, vertex
from tests.reference.renderer import LIST, SAMPLES, side

TRIANGLES = 1000
# A triangle has a cell of two by two blocks to itself.
CELL = 16
CELLS_A_ROW = 64
# Green is 255 at this distance from where it is 0.
THIRDS = 255 * 3 * 256


class Kind(NamedTuple):
    """An attribute of the triangles: its place in a vertex, its greatest value, and the bits of its fraction."""

    place: int
    most: int
    bits: int


RED = Kind(3, 255, 24)
DEPTH = Kind(2, 65535, 16)


def bounds(kind: Kind) -> list[int]:
    """The numbers S / g of the triangles."""
    return [2**kind.bits // units + step for units in (6, 5, 4, 3) for step in (-1, 0, 1)]


def unit(points: list[tuple[int, int]], values: tuple[int, int, int]) -> int:
    """The greatest g of three values at these points: it divides the doubled area and the numerator at each multiple of
    an eighth of a pixel."""
    (ax, ay), (bx, by), (cx, cy) = points
    u, v, w = (value - values[0] for value in values)
    across, down = v * (cy - ay) - w * (by - ay), w * (bx - ax) - v * (cx - ax)
    return math.gcd(side(*points), 32 * across, 32 * down, ax % 32 * across + ay % 32 * down)


def triangle(pick: random.Random, kind: Kind, bound: int, left: int, top: int, first: tuple[int, int]) -> Draw:
    """A triangle over the cell whose first pixel is at (left, top), with S / g = bound. The first sample of a
    pixel is at `first`.

    Its legs are as long as the bound, along which the attribute grows or shrinks, and as THIRDS."""
    turned = pick.random() < 0.5  # the long leg goes downwards
    at, beside = ((top, left) if turned else (left, top))
    offset, offset_beside = (first[::-1] if turned else first)
    grows = pick.random() < 0.5
    while True:
        # The sample in the cell's second block, as far from the vertex, where the value is a part of 1 / bound
        # below a whole number.
        change = pick.randint(1, min(kind.most, bound - 1))
        if math.gcd(change, bound) > 1:
            continue
        distance = (-pow(change, -1, bound) if grows else pow(change, -1, bound)) % bound
        if 2048 + 256 < distance < bound * 9 // 10:
            break
    start = 256 * (at + 8 + pick.randrange(8)) + offset - distance
    start_beside = 256 * (beside - 3 * pick.randrange(1, 12)) + offset_beside
    places = [(start, start_beside), (start + bound, start_beside), (start, start_beside + THIRDS)]
    values = (0, change, 0) if grows else (change, 0, change)
    vertices = [
        vertex(*(place[::-1] if turned else place), 0, (77, green, 5)) for place, green in zip(places, (0, 0, 255))
    ]
    for corner, value in zip(vertices, values):
        corner[kind.place] = value
    if pick.random() < 0.5:
        vertices[1], vertices[2] = vertices[2], vertices[1]
    return draw(vertices, scissor=[left, top, left + CELL, top + CELL], depth_write=kind is DEPTH)


def scene(kind: Kind, samples: int) -> DrawList:
    """A list of TRIANGLES triangles, each in its cell."""
    pick = random.Random(f"bound {kind.place} {samples}")
    targets = bounds(kind)
    draws = []
    for k in range(TRIANGLES):
        left, top = CELL * (k % CELLS_A_ROW), CELL * (k // CELLS_A_ROW)
        draws.append(
            triangle(pick, kind, targets[k % len(targets)], left, top, (SAMPLES[samples][0][0], SAMPLES[samples][0][1]))
        )
    height = CELL * -(-TRIANGLES // CELLS_A_ROW)
    output = "depth" if kind is DEPTH else "color"
    return draw_list(CELL * CELLS_A_ROW, height, *draws, samples=samples, output=output)


def lists() -> Iterator[DrawList]:
    """The lists: of red and of depth, with one and with four samples."""
    for kind in (RED, DEPTH):
        for samples in LIST.counts:
            yield scene(kind, samples)
