"""Triangles, draws and lists, as the suites make them. Positions are whole numbers of 1/256 pixel."""

from __future__ import annotations

import random
from typing import Any, Callable, Iterable, Iterator, Sequence

from tools.draw_list import Draw, DrawList, Vertex, triangles_of
from tests.reference.renderer import BAND, SAMPLES

Point = tuple[int, int]
# Three corners.
Points = list[Point]
Triangle = list[Vertex]
Colour = tuple[int, int, int]
# The lists of a subject with their titles.
Lists = Iterator[tuple[str, DrawList]]

# Where the samples of a pixel lie by the rules. A copy: a model with another pattern is asked the same lists.
PLACES: dict[int, tuple[Point, ...]] = {count: tuple((x, y) for x, y in places) for count, places in SAMPLES.items()}
PIXEL = 256
SIDE = 128  # columns and rows of most lists; a power of two, so that a driver's floats hold each position exactly
WHITE = (252, 252, 252)  # a quarter of it is a whole number


def own_colour(n: int) -> Colour:
    """A colour for the n-th triangle of a list: no other has it, and a quarter of each channel is a whole number."""
    red, green, blue = (4 * (1 + n // 63**digit % 63) for digit in range(3))
    return red, green, blue


def vertex(point: Point, colour: Colour = WHITE, z: int = 0, alpha: int = 255) -> Vertex:
    return [point[0], point[1], z, *colour, alpha]


def draw(triangles: Sequence[Triangle], **state: Any) -> Draw:
    """A draw of triangles given by their vertices."""
    vertices = [corner for triangle in triangles for corner in triangle]
    return {**state, "vertices": vertices, "triangles": [[3 * n, 3 * n + 1, 3 * n + 2] for n in range(len(triangles))]}


def triangles_in(draw: Draw) -> list[Triangle]:
    """The triangles of a draw by their vertices."""
    return [[draw["vertices"][corner] for corner in triangle] for triangle in triangles_of(draw)]


def with_triangles(old: Draw, triangles: Iterable[Triangle]) -> Draw:
    """A draw of other triangles in the same state."""
    state = {key: value for key, value in old.items() if key not in ("vertices", "triangles", "strip", "quads")}
    return draw(list(triangles), **state)


def is_flat(draw: Draw) -> bool:
    """Whether each triangle of a draw has one colour, and one alpha."""
    vertices = draw["vertices"]
    return all(vertices[a][3:] == vertices[b][3:] == vertices[c][3:] for a, b, c in triangles_of(draw))


def flat(points: Points, colour: Colour = WHITE, z: int = 0, alpha: int = 255) -> Triangle:
    """A triangle of one colour and one depth."""
    return [vertex(point, colour, z, alpha) for point in points]


def each_its_own(shapes: Sequence[Points]) -> list[Triangle]:
    """The triangles, given by their points, with a colour of its own for each."""
    return [flat(points, own_colour(n)) for n, points in enumerate(shapes)]


def halves(left: int, top: int, right: int, bottom: int) -> list[Points]:
    """The two triangles of an upright rectangle, both clockwise."""
    return [[(left, top), (right, top), (left, bottom)], [(right, top), (right, bottom), (left, bottom)]]


def rectangle(
    left: int, top: int, right: int, bottom: int, colour: Colour = WHITE, z: int = 0, alpha: int = 255
) -> list[Triangle]:
    """An upright rectangle of one colour whose sides are given in pixels."""
    box = (PIXEL * left, PIXEL * top, PIXEL * right, PIXEL * bottom)
    return [flat(points, colour, z, alpha) for points in halves(*box)]


def scene(draws: list[Draw], samples: int, width: int = SIDE, height: int = SIDE, **more: Any) -> DrawList:
    return {"width": width, "height": height, "samples": samples, **more, "draws": draws}


def all_samples(scene: DrawList) -> int:
    """The sample mask of a draw that names none."""
    samples: int = scene.get("samples", 1)
    return max(15, (1 << samples) - 1)


def colours_of_steps(scene: DrawList, step: int) -> DrawList:
    """The list with other colours, each of them multiples of this step, and different where its own are."""
    level = 255 // step
    found: dict[tuple[int, ...], list[int]] = {}

    def other(colour: Sequence[int]) -> list[int]:
        n = len(found)
        return found.setdefault(tuple(colour), [step * (1 + n // level**digit % level) for digit in range(3)])

    def change(draw: Draw) -> Draw:
        return {**draw, "vertices": [[*vertex[:3], *other(vertex[3:6]), *vertex[6:]] for vertex in draw["vertices"]]}

    return each_draw(scene, change)


def each_draw(scene: DrawList, change: Callable[[Draw], Draw]) -> DrawList:
    """The list with each of its draws changed."""
    return {**scene, "draws": [change(draw) for draw in scene["draws"]]}


def coarser(scene: DrawList, bits: int) -> DrawList:
    """The list with its positions rounded to this number of subpixel bits, halves up."""
    step = PIXEL >> bits

    def rounded(position: int) -> int:
        return min((position + step // 2) // step * step, BAND[1] // step * step)

    def change(draw: Draw) -> Draw:
        return {**draw, "vertices": [[rounded(x), rounded(y), *rest] for x, y, *rest in draw["vertices"]]}

    return each_draw(scene, change)


def box_of_pixels(rng: random.Random, side: int = SIDE) -> tuple[int, int, int, int]:
    """A box within the picture: left, top, right, bottom in pixels, each at least one apart."""
    left, right = sorted(rng.sample(range(side + 1), 2))
    top, bottom = sorted(rng.sample(range(side + 1), 2))
    return left, top, right, bottom


def point_near(rng: random.Random, low: int, high: int, samples: int) -> Point:
    """A point in the square from low to high pixels: half of them lie on a sample, or one step away from one."""
    if rng.getrandbits(1):
        return rng.randrange(PIXEL * low, PIXEL * high), rng.randrange(PIXEL * low, PIXEL * high)
    x, y = (
        PIXEL * rng.randrange(low, high) + offset + rng.choice((-1, 0, 0, 1)) for offset in rng.choice(PLACES[samples])
    )
    return x, y
