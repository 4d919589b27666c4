"""What a draw's state makes of covered samples, in flat colours and flat depths, which a driver must hold exactly.

But for one subject, the scissor across slanted edges, all shapes are rectangles of whole pixels. They come out alike
whatever a driver does at edges, so that each subject shows its own matter alone.
"""

from __future__ import annotations

import random

from conformance.suites.shapes import (
    PIXEL, SIDE, Lists, Points, Triangle, box_of_pixels, draw, each_its_own, own_colour, rectangle, scene,
)

CULLS = ("none", "front", "back")
TESTS = ("never", "less", "equal", "less_equal", "greater", "not_equal", "greater_equal", "always")
BACKGROUND = (40, 80, 120)


def any_triangle(rng: random.Random) -> Points:
    return [(rng.randrange(PIXEL * SIDE), rng.randrange(PIXEL * SIDE)) for _ in range(3)]


def turned(triangle: Triangle) -> Triangle:
    return [triangle[0], triangle[2], triangle[1]]


def culling(rng: random.Random, samples: int) -> Lists:
    for cull in CULLS:
        for n in range(4):
            triangles = []
            for k in range(40):
                one, other = rectangle(*box_of_pixels(rng), own_colour(k))
                triangles += rng.choice(([one, other], [turned(one), turned(other)]))
            yield f"{cull}, {n}", scene([draw(triangles, cull=cull)], samples)


def scissor(rng: random.Random, samples: int) -> Lists:
    for n in range(24):
        draws = []
        for k in range(6):
            triangles = rectangle(*box_of_pixels(rng), own_colour(k))
            draws.append(draw(triangles, scissor=list(box_of_pixels(rng))))
        yield f"rectangles, {n}", scene(draws, samples)


def scissored_edges(rng: random.Random, samples: int) -> Lists:
    for n in range(24):
        triangles = each_its_own([any_triangle(rng) for _ in range(6)])
        draws = [draw([triangle], scissor=list(box_of_pixels(rng))) for triangle in triangles]
        yield f"any triangles, {n}", scene(draws, samples)


def sample_mask(rng: random.Random, samples: int) -> Lists:
    for mask in range(16):
        draws = [draw(rectangle(*box_of_pixels(rng), own_colour(k)), sample_mask=mask) for k in range(4)]
        yield f"mask {mask}", scene(draws, samples, clear=list(BACKGROUND))
    for n in range(8):
        draws = []
        for k in range(24):
            triangles = rectangle(*box_of_pixels(rng), own_colour(k))
            draws.append(draw(triangles, sample_mask=rng.getrandbits(4)))
        yield f"any masks, {n}", scene(draws, samples)


def depth_tests(rng: random.Random, samples: int) -> Lists:
    """Depths 0, 1, 2 and 65533 to 65535 and their neighbours of a stored depth, by all eight tests."""
    for test in TESTS:
        for stored in (0, 1, 2, 32767, 32768, 65534, 65535):
            near = [z for z in (0, stored - 1, stored, stored + 1, 65535) if 0 <= z <= 65535]
            draws = []
            for k in range(12):
                triangles = rectangle(*box_of_pixels(rng), own_colour(k), rng.choice(near))
                draws.append(draw(triangles, depth_test=test, depth_write=bool(rng.getrandbits(1))))
            yield f"{test}, begun at {stored}", scene(draws, samples, clear_depth=stored)


def write_mask(rng: random.Random, samples: int) -> Lists:
    for bits in range(8):
        write = [bool(bits >> k & 1) for k in range(3)]
        draws = [draw(rectangle(*box_of_pixels(rng), own_colour(997 * (k + 1))), write=write) for k in range(8)]
        yield f"write {write}", scene(draws, samples, clear=list(BACKGROUND))


def order(rng: random.Random, samples: int) -> Lists:
    """Many triangles over one another, some of them twice; the last one stands."""
    for n in range(16):
        triangles = []
        for k in range(120):
            triangles += rectangle(*box_of_pixels(rng), own_colour(k))
            if rng.getrandbits(2) == 0:
                triangles += triangles[:2]
        yield f"rectangles, {n}", scene([draw(triangles[:120]), draw(triangles[120:])], samples)


def clear(rng: random.Random, samples: int) -> Lists:
    """Pictures in which nothing is drawn, and a rectangle beside what was cleared."""
    for first in range(0, 256, 32):
        for channel in range(3):
            values = [0, 0, 0]
            values[channel] = first + rng.randrange(1, 32)
            triangles = rectangle(*box_of_pixels(rng), own_colour(first + channel))
            yield f"channel {channel} cleared to {values[channel]}", scene([draw(triangles)], samples, clear=values)
    yield "cleared to white", scene([], samples, clear=[255, 255, 255])
