#!/usr/bin/env python3
"""Writes mesh.json: a shaded knot of some thousand triangles before a soft background.

    examples/make_mesh.py > examples/mesh.json

The mesh is turned, projected and lit here, since a draw list holds screen positions and colours alone. It gives the
same bytes each time. Standard library alone.
"""

from __future__ import annotations

import json
import math
from typing import Any

Vector = tuple[float, ...]

WIDTH, HEIGHT = 640, 480
ALONG, ROUND = 200, 20
TUBE = 0.46
EYE = 7.6
ZOOM = 750.0
NEAR, FAR = 4.5, 10.7
LIGHT = (-0.42, -0.65, -0.63)


def add(a: Vector, b: Vector) -> Vector:
    return tuple(x + y for x, y in zip(a, b))


def scale(a: Vector, factor: float) -> Vector:
    return tuple(x * factor for x in a)


def dot(a: Vector, b: Vector) -> float:
    return sum(x * y for x, y in zip(a, b))


def cross(a: Vector, b: Vector) -> Vector:
    return (a[1] * b[2] - a[2] * b[1], a[2] * b[0] - a[0] * b[2], a[0] * b[1] - a[1] * b[0])


def unit(a: Vector) -> Vector:
    return scale(a, 1 / math.sqrt(dot(a, a)))


def turned(p: Vector) -> Vector:
    """Turned a little about the x axis, then about the y axis."""
    x, y, z = p
    cos, sin = math.cos(0.55), math.sin(0.55)
    y, z = cos * y - sin * z, sin * y + cos * z
    cos, sin = math.cos(-0.5), math.sin(-0.5)
    return (cos * x + sin * z, y, cos * z - sin * x)


def knot(t: float) -> Vector:
    """The middle line of the tube: a trefoil on a torus, t from 0 to a whole turn."""
    distance = 1.35 + 0.62 * math.cos(3 * t)
    return (distance * math.cos(2 * t), distance * math.sin(2 * t), 0.8 * math.sin(3 * t))


def frame(t: float) -> tuple[Vector, Vector, Vector]:
    """A point of the middle line and two directions across it."""
    here = knot(t)
    ahead = unit(add(knot(t + 1e-3), scale(knot(t - 1e-3), -1)))
    outwards = unit(cross(ahead, add(here, (0.0, 0.0, 2.0))))
    return here, outwards, cross(ahead, outwards)


def hue(turn: float) -> list[float]:
    return [0.56 + 0.44 * math.cos(2 * math.pi * (turn - shift)) for shift in (0.02, 0.36, 0.64)]


def lit(normal: Vector, view: Vector, turn: float) -> list[int]:
    """The colour of a point of the tube: ambient, diffuse, and a highlight."""
    light = scale(LIGHT, -1)
    diffuse = max(0.0, -dot(normal, light))
    half = unit(add(scale(light, -1), view))
    highlight = max(0.0, dot(normal, half)) ** 40
    rim = (1 - max(0.0, dot(normal, view))) ** 3
    return [min(255, round(255 * (c * (0.16 + 0.84 * diffuse) + 0.75 * highlight + 0.16 * rim))) for c in hue(turn)]


def vertex(along: int, around: int) -> list[int]:
    here, first, second = frame(2 * math.pi * along / ALONG)
    angle = 2 * math.pi * around / ROUND
    normal = add(scale(first, math.cos(angle)), scale(second, math.sin(angle)))
    point = turned(add(here, scale(normal, TUBE)))
    normal = turned(normal)
    distance = point[2] + EYE
    view = unit(add((0.0, 0.0, -EYE), scale(point, -1)))
    colour = lit(normal, view, 2 * along / ALONG)
    x = WIDTH / 2 - 8 + ZOOM * point[0] / distance
    y = HEIGHT / 2 + 14 + ZOOM * point[1] / distance
    depth = 65000 * (distance - NEAR) / (FAR - NEAR)
    return [round(256 * x), round(256 * y), max(0, min(65535, round(depth))), *colour, 255]


def tube() -> dict[str, Any]:
    vertices = [vertex(along, around) for along in range(ALONG) for around in range(ROUND)]
    triangles = []
    for along in range(ALONG):
        for around in range(ROUND):
            here = along * ROUND + around
            beside = along * ROUND + (around + 1) % ROUND
            ahead = (here + ROUND) % len(vertices)
            corner = (beside + ROUND) % len(vertices)
            triangles += [[here, ahead, beside], [beside, ahead, corner]]
    return {"cull": "back", "depth_test": "less", "depth_write": True, "vertices": vertices, "triangles": triangles}


def background() -> dict[str, Any]:
    corners = [(0, 0, (58, 66, 92)), (WIDTH, 0, (40, 48, 72)), (WIDTH, HEIGHT, (16, 18, 28)), (0, HEIGHT, (24, 26, 38))]
    vertices = [[256 * x, 256 * y, 65535, *colour, 255] for x, y, colour in corners]
    return {"vertices": vertices, "triangles": [[0, 1, 2], [2, 3, 0]]}


def main() -> None:
    def line(value: object) -> str:
        return json.dumps(value, separators=(",", ":"))

    print(f'{{"width":{WIDTH},"height":{HEIGHT},"samples":4,"draws":[')
    print(line(background()) + ",")
    print(line(tube()) + "]}")


if __name__ == "__main__":
    main()
