"""Colours, blending, depths and resolve: what drivers hold in floating point, and so near the rules and not equal."""

from __future__ import annotations

import random

from conformance.suites.shapes import (
    PIXEL, SIDE, Colour, Lists, Triangle, box_of_pixels, draw, rectangle, scene, vertex
)
from tools.draw_list import Draw

LAYERS = 256
LADDER_SIDE = 64


def any_colour(rng: random.Random) -> Colour:
    red, green, blue = (rng.getrandbits(8) for _ in range(3))
    return red, green, blue


def any_shaded(rng: random.Random, alpha: int | None = None) -> Triangle:
    """A triangle with another colour at each vertex, some of them far larger than the picture."""
    reach = rng.choice((0, 0, 64, 512))
    low, high = -PIXEL * reach, PIXEL * (SIDE + reach)
    corners = [(rng.randrange(low, high), rng.randrange(low, high)) for _ in range(3)]
    return [vertex(p, any_colour(rng), alpha=rng.getrandbits(8) if alpha is None else alpha) for p in corners]


def colours(rng: random.Random, samples: int) -> Lists:
    for n in range(24):
        yield f"colours, {n}", scene([draw([any_shaded(rng, 255) for _ in range(8)])], samples)


def blending(rng: random.Random, samples: int) -> Lists:
    for n in range(8):
        triangles = []
        for _ in range(16):
            triangles += rectangle(*box_of_pixels(rng), any_colour(rng), alpha=rng.choice((0, 1, 127, 128, 254, 255)))
        yield f"flat alpha, {n}", scene([draw(triangles, blend="over")], samples, clear=list(any_colour(rng)))
    for n in range(8):
        triangles = [any_shaded(rng) for _ in range(8)]
        yield f"any alpha, {n}", scene([draw(triangles, blend="over")], samples, clear=list(any_colour(rng)))


def one_layer(rng: random.Random, samples: int) -> Lists:
    """Squares of 8 by 8 pixels beside each other, each with a colour and an alpha of its own over one clear colour."""
    for n in range(8):
        triangles = []
        for top in range(0, SIDE, 8):
            for left in range(0, SIDE, 8):
                triangles += rectangle(left, top, left + 8, top + 8, any_colour(rng), alpha=rng.getrandbits(8))
        yield f"alphas, {n}", scene([draw(triangles, blend="over")], samples, clear=list(any_colour(rng)))


def ladder(first: int, stride: int) -> list[Draw]:
    """Layers over the whole picture at rising depths; the last one that is not behind a stored depth stays, so that the
    picture shows the depth."""
    draws = []
    for layer in range(LAYERS):
        triangles = rectangle(0, 0, LADDER_SIDE, LADDER_SIDE, (layer,) * 3, first + layer * stride)
        draws.append(draw(triangles, depth_test="less_equal"))
    return draws


def depths(rng: random.Random, samples: int) -> Lists:
    """A slanted plane of depths, and a ladder of flat layers that makes its depths visible as shades of grey."""
    for first, stride in ((0, 1), (32000, 1), (65280, 1), (0, 256)):
        for n in range(3):
            corners = ((-PIXEL * 8, -PIXEL * 8), (PIXEL * 140, -PIXEL * 8), (-PIXEL * 8, PIXEL * 140))
            plane = [vertex(p, (0, 0, 0), first + stride * rng.getrandbits(8)) for p in corners]
            draws = [draw([plane], depth_write=True), *ladder(first, stride)]
            name = f"depths from {first} in steps of {stride}, {n}"
            yield name, scene(draws, samples, LADDER_SIDE, LADDER_SIDE, clear_depth=first)


def resolve(rng: random.Random, samples: int) -> Lists:
    """Whole pixels, each of whose samples has a colour of its own."""
    for n in range(12):
        draws = []
        for sample in range(samples):
            triangles = []
            for _ in range(200):
                triangles += rectangle(*box_of_pixels(rng), any_colour(rng))
            draws.append(draw(triangles, sample_mask=1 << sample))
        yield f"own colours, {n}", scene(draws, samples)
