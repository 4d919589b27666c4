"""Which samples a triangle covers: edges, shared edges, slivers, sample positions, subpixel bits, far vertices."""

from __future__ import annotations

import random
from math import cos, gcd, sin, tau

from conformance.suites.shapes import (
    PIXEL, PLACES, SIDE, Lists, Point, Points, draw, each_its_own, flat, halves, own_colour, point_near, scene,
)
from tools.draw_list import DrawList

CELL = 16  # pixels
CELLS = SIDE // CELL
STEPS = ((0, 0), (1, 0), (-1, 0), (0, 1), (0, -1))
DIRECTIONS = [(x, y) for x in range(-2, 3) for y in range(-2, 3) if gcd(x, y) == 1]
LEVER = 2048  # pixels
POSITION_CELL, POSITION_SIDE = 4, 64  # pixels


def cell_corner(n: int, cells: int = CELLS, cell: int = CELL) -> Point:
    """The upper left corner of the n-th cell of a picture, in 1/256 pixel."""
    return PIXEL * cell * (n % cells), PIXEL * cell * (n // cells)


def edge_triangle(through: Point, direction: Point, to_the_right: int, backwards: int) -> Points:
    """A triangle with an edge of this direction, which runs through this point and the same place of other pixels."""
    (x, y), (dx, dy) = through, direction
    turn = 1 if to_the_right else -1
    ends = [(x + 256 * k * dx, y + 256 * k * dy) for k in (-3, 3)]
    third = (x - turn * dy * 700, y + turn * dx * 700)
    return [*ends[::-1], third] if backwards else [*ends, third]


def edges_through_samples(samples: int, place: Point, step: Point) -> DrawList:
    """All directions, both sides and both orders, through a sample's place or one step of 1/256 away from it."""
    kinds = [(way, side, order) for way in DIRECTIONS for side in (0, 1) for order in (0, 1)]
    shapes = []
    for n, kind in enumerate(kinds):
        corner = cell_corner(n)
        x, y = (corner[k] + PIXEL * CELL // 2 + place[k] + step[k] for k in (0, 1))
        shapes.append(edge_triangle((x, y), *kind))
    return scene([draw(each_its_own(shapes))], samples)


def corners_on_samples(rng: random.Random, samples: int) -> DrawList:
    """Small triangles whose vertices lie on samples or one step away, one in each cell."""
    shapes = []
    for n in range(CELLS * CELLS):
        x, y = cell_corner(n)
        points = [point_near(rng, 1, CELL - 1, samples) for _ in range(3)]
        shapes.append([(x + p, y + q) for p, q in points])
    return scene([draw(each_its_own(shapes))], samples)


def top_left(rng: random.Random, samples: int) -> Lists:
    for number, place in enumerate(PLACES[samples]):
        for step in STEPS:
            yield f"edges past sample {number}, {step[0]:+}, {step[1]:+}", edges_through_samples(samples, place, step)
    for n in range(24):
        yield f"vertices near samples, {n}", corners_on_samples(rng, samples)


def mesh_points(rng: random.Random, box: tuple[int, int], cells: int, samples: int) -> dict[Point, Point]:
    """The points of a square mesh over a box of pixels (its first and its last), moved about; half of them lie on
    samples or a step away."""
    low, high = box
    cell = (high - low) // cells
    points = {}
    for j in range(cells + 1):
        for i in range(cells + 1):
            moved = point_near(rng, -(cell // 4), cell // 4 + 1, samples)
            points[i, j] = (PIXEL * (low + cell * i) + moved[0], PIXEL * (low + cell * j) + moved[1])
    return points


def mesh(rng: random.Random, box: tuple[int, int], cells: int, samples: int) -> list[Points]:
    """Triangles that share their edges, each cell cut by one of its diagonals, in either order of vertices."""
    points, shapes = mesh_points(rng, box, cells, samples), []
    for j in range(cells):
        for i in range(cells):
            a, b, c, d = (points[p] for p in ((i, j), (i + 1, j), (i + 1, j + 1), (i, j + 1)))
            cut = ([a, b, c], [a, c, d]) if rng.getrandbits(1) else ([a, b, d], [b, c, d])
            shapes += [points[::-1] if rng.getrandbits(1) else points for points in cut]
    return shapes


def fan(rng: random.Random, count: int, samples: int) -> list[Points]:
    """Triangles around one point on a sample, whose far points lie on a circle of 60 pixels."""
    x, y = (PIXEL * SIDE // 2 + offset for offset in rng.choice(PLACES[samples]))
    turns = sorted(rng.random() for _ in range(count))
    ring = [(round(x + 60 * PIXEL * cos(tau * turn)), round(y + 60 * PIXEL * sin(tau * turn))) for turn in turns]
    return [[(x, y), ring[n], ring[(n + 1) % count]] for n in range(count)]


def both_orders(name: str, shapes: list[Points], samples: int) -> Lists:
    """A list in its order and in the reversed one: a sample that two triangles cover differs in one of them."""
    triangles = each_its_own(shapes)
    yield f"{name}, in order", scene([draw(triangles)], samples)
    yield f"{name}, reversed", scene([draw(triangles[::-1])], samples)


def shared_edges(rng: random.Random, samples: int) -> Lists:
    """Meshes and fans that stay within the picture."""
    for _ in range(2):
        for cells in (3, 6, 6, 12, 12):
            yield from both_orders(f"mesh of {cells}", mesh(rng, (16, SIDE - 16), cells, samples), samples)
        for count in (5, 12, 40, 120):
            yield from both_orders(f"fan of {count}", fan(rng, count, samples), samples)


def border(rng: random.Random, samples: int) -> Lists:
    """Meshes of which many triangles reach past the picture, by 2 to 60 pixels."""
    for out in (2, 8, 24, 60):
        for cells in (3, 6, 12):
            shapes = mesh(rng, (-out, SIDE + out), cells, samples)
            yield from both_orders(f"mesh of {cells}, {out} pixels past the border", shapes, samples)


def sliver(rng: random.Random, samples: int) -> Points:
    """A long triangle whose third vertex is at most a pixel off the line of the two others."""
    a, b = point_near(rng, 0, SIDE, samples), point_near(rng, 0, SIDE, samples)
    share, off = rng.random(), rng.choice((1, 2, 16, 256))
    x, y = (round(a[k] + share * (b[k] - a[k])) + rng.randrange(-off, off + 1) for k in (0, 1))
    return [a, b, (x, y)]


def without_area(rng: random.Random, samples: int) -> Points:
    """A triangle of area zero: three points of a line through samples, or a repeated point."""
    a, (dx, dy) = point_near(rng, 16, SIDE - 16, samples), rng.choice(DIRECTIONS)
    first, second = rng.randrange(-7 * PIXEL, 7 * PIXEL), rng.choice((0, PIXEL, rng.randrange(7 * PIXEL)))
    return [a, (a[0] + first * dx, a[1] + first * dy), (a[0] + second * dx, a[1] + second * dy)]


def slivers(rng: random.Random, samples: int) -> Lists:
    for n in range(16):
        yield f"slivers, {n}", scene([draw(each_its_own([sliver(rng, samples) for _ in range(60)]))], samples)
    for n in range(8):
        shapes = [without_area(rng, samples) for _ in range(200)]
        yield f"areas of zero, {n}", scene([draw(each_its_own(shapes))], samples)


def position_rectangle(n: int, axis: str, ends: bool) -> list[Points]:
    """In cell n of 4 by 4 pixels a rectangle that begins, or ends, n / 256 pixel after its pixel 1 along the axis."""
    corner = cell_corner(n, POSITION_SIDE // POSITION_CELL, POSITION_CELL)
    span = (0, PIXEL + n) if ends else (PIXEL + n, 4 * PIXEL)
    x, y = (span, (0, 4 * PIXEL)) if axis == "x" else ((0, 4 * PIXEL), span)
    return halves(corner[0] + x[0], corner[1] + y[0], corner[0] + x[1], corner[1] + y[1])


def position_list(samples: int, axis: str, ends: bool = False) -> DrawList:
    shapes = [shape for n in range(256) for shape in position_rectangle(n, axis, ends)]
    return scene([draw([flat(points) for points in shapes])], samples, POSITION_SIDE, POSITION_SIDE)


def sample_positions(_rng: random.Random, samples: int) -> Lists:
    """An edge at each of the 256 places of a pixel, so that the first rectangle past a sample shows where
    that sample lies."""
    for axis in ("x", "y"):
        yield f"rectangles that begin at each {axis}", position_list(samples, axis)
        yield f"rectangles that end at each {axis}", position_list(samples, axis, True)


def lever_list(axis: str, samples: int = 1) -> DrawList:
    """In each row a triangle 2048 pixels long, whose far end is 1/256 lower than in the row before.

    Each such step moves the place where the edge crosses the row's centre by 2 to 4 pixels, so that the number of
    different crossings is the number of different positions that are kept of a pixel's 256.
    """
    triangles = []
    for row in range(256):
        top, far = PIXEL * row, PIXEL * LEVER
        points = [(0, top), (far, top), (far, top + 256 + row)]
        triangles.append(flat(points if axis == "y" else [(y, x) for x, y in points], own_colour(row)))
    size = (LEVER, 256) if axis == "y" else (256, LEVER)
    return scene([draw(triangles)], samples, *size)


def subpixel_bits(_rng: random.Random, samples: int) -> Lists:
    for axis in ("y", "x"):
        yield f"positions in {axis}", lever_list(axis, samples)


def far_triangle(rng: random.Random, samples: int, reach: int) -> Points:
    """A triangle with an edge through the picture's middle and vertices up to `reach` pixels away."""
    x, y = point_near(rng, SIDE // 4, SIDE - SIDE // 4, samples)
    limit, share = PIXEL * reach, rng.choice((1, 2, 3))
    right, down = (rng.choice((-1, 1)) * rng.randrange(limit // 4, limit - 2 * PIXEL * SIDE) // share for _ in (0, 1))
    third = (rng.randrange(-limit, limit), rng.randrange(-limit, limit))
    return [(x + share * right, y + share * down), (x - right, y - down), third]


def guard_band(rng: random.Random, samples: int) -> Lists:
    for power in range(9, 16):
        for n in range(4):
            shapes = [far_triangle(rng, samples, 2**power) for _ in range(8)]
            yield f"vertices up to {2**power} pixels away, {n}", scene([draw(each_its_own(shapes))], samples)
