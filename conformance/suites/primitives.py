"""Triangle strips, and scissors that reach far past the picture."""

from __future__ import annotations

import random

from conformance.suites.shapes import PIXEL, SIDE, Lists, box_of_pixels, draw, own_colour, rectangle, scene, vertex
from conformance.suites.states import CULLS, any_triangle
from tools.draw_list import Draw

FAR = 1 << 16  # how far a scissor reaches past the left and the upper border at most
FARTHEST = (1 << 31) - 1 - FAR  # its greatest right and lower side, so that no interface's width passes its range


def strip(rng: random.Random, row: int, count: int, cull: str) -> Draw:
    """A strip in zigzag along a row of 16 pixels, each vertex of its own colour. Some vertices are repeated, so that
    triangles have no area and the sense of those behind them turns."""
    top, corners = PIXEL * 16 * row, []
    for k in range(count):
        x, y = (
            PIXEL * SIDE * k // count + rng.randrange(-PIXEL, PIXEL), top + PIXEL * 16 * (k % 2) + rng.randrange(PIXEL)
        )
        corners.append(vertex((x, y), own_colour(100 * row + k)))
    indices = [k for k in range(count) for _ in range(rng.choice((1, 1, 1, 2)))]
    return {"cull": cull, "vertices": corners, "strip": indices}


def strips(rng: random.Random, samples: int) -> Lists:
    for n in range(20):
        draws = [strip(rng, row, rng.choice((3, 4, 9, 30)), CULLS[(n + row) % 3]) for row in range(8)]
        yield f"eight strips, {n}", scene(draws, samples)


def far_side(rng: random.Random, place: int, first: bool) -> int:
    """A side of a scissor: the place itself, or one far past the picture."""
    if rng.getrandbits(1):
        return place
    return (
        -rng.choice((1, 255, 4097, FAR))
        if first else rng.choice((SIDE, SIDE + 1, 16385, 32768, FAR, FAR + 64, 1 << 24, FARTHEST))
    )


def large_scissors(rng: random.Random, samples: int) -> Lists:
    """Scissors each of whose sides lies within the picture or far past it, across rectangles and across edges."""
    for n in range(24):
        draws = []
        for k in range(6):
            box = [far_side(rng, place, side < 2) for side, place in enumerate(box_of_pixels(rng))]
            shape = [[vertex(point, own_colour(k)) for point in any_triangle(rng)]]
            draws.append(draw(rectangle(*box_of_pixels(rng), own_colour(k)) if n % 2 else shape, scissor=box))
        yield f"{'rectangles' if n % 2 else 'any triangles'}, {n}", scene(draws, samples)
