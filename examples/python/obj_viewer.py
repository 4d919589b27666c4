#!/usr/bin/env python3
"""Draws a Wavefront OBJ model in perspective, with light and depth.

    PYTHONPATH=python/src python3 examples/python/obj_viewer.py examples/python/ring.obj ring.ppm
        [--turn 30] [--tilt 35] [--size 640 480] [--colour 230 180 90] [--threads 4] [--list ring.json]

The model is moved to the middle, and the camera stands so far away that all of it is in view. Of the file the lines v
and f count: faces of three corners or more that run counterclockwise seen from outside, each as 7, 7/1, 7//3 or 7/1/3,
and by negative numbers; a face is drawn as a fan from its first corner. Every other line is passed over. A draw list
holds at most 65,536 triangles, and 65,536 vertices in a draw: a model with more is refused. --list leaves the draw list
that was drawn. After `pip install ./python` no PYTHONPATH is needed.
"""

import argparse
import json
import math
import sys
from typing import Any, Dict, List, Sequence, Tuple

import trirast

MAX_TRIANGLES = 65536
MAX_VERTICES = 65536
MAX_DEPTH = 65535
CLEAR = [28, 30, 38]
FIELD_OF_VIEW = math.radians(40)
LIGHT = (0.45, 0.65, 0.61)
SHADE = 0.18


Vector = List[float]
Triangles = List[List[int]]


class RefusedError(Exception):
    """A file that is no model, or one that a draw list cannot hold."""


# ---- The model -----------------------------------------------------------------------------------------------------


def read_model(path: str) -> Tuple[List[Vector], Triangles]:
    """Points and triangles of an OBJ file; a triangle is three indices of points, from 0."""
    points: List[Vector] = []
    triangles: Triangles = []
    with open(path, encoding="utf-8", errors="replace") as file:
        for number, line in enumerate(file, 1):
            key, *parts = line.split() or [""]
            try:
                if key == "v":
                    points.append(point_of(parts[:3]))
                elif key == "f":
                    triangles += fan([index_of(part, len(points)) for part in parts])
            except (ValueError, IndexError) as error:
                raise RefusedError(f"line {number}: {error}") from None
    if not triangles:
        raise RefusedError("the model has no faces")
    if len(triangles) > MAX_TRIANGLES:
        raise RefusedError(f"the model has {len(triangles)} triangles, and a draw list holds at most {MAX_TRIANGLES}")
    return points, triangles


def point_of(parts: List[str]) -> Vector:
    point = [float(part) for part in parts]
    if len(point) != 3 or not all(math.isfinite(number) for number in point):
        raise ValueError("a point has three numbers")
    return point


def index_of(corner: str, count: int) -> int:
    """The index of the point that a corner names: from 1, or from the last point backwards by a negative number."""
    number = int(corner.split("/")[0])
    index = number - 1 if number > 0 else count + number
    if number == 0 or not 0 <= index < count:
        raise ValueError(f"there is no point {number}")
    return index


def fan(corners: List[int]) -> Triangles:
    if len(corners) < 3:
        raise ValueError("a face has three corners or more")
    return [[corners[0], corners[k], corners[k + 1]] for k in range(1, len(corners) - 1)]


def used(points: List[Vector], triangles: Triangles) -> Tuple[List[Vector], Triangles]:
    """The points that triangles name, and the triangles over these alone."""
    indices = sorted({index for triangle in triangles for index in triangle})
    if len(indices) > MAX_VERTICES:
        raise RefusedError(f"the model has {len(indices)} vertices, and a draw holds at most {MAX_VERTICES}")
    renamed = {index: k for k, index in enumerate(indices)}
    return [points[index] for index in indices], [[renamed[index] for index in triangle] for triangle in triangles]


# ---- Vectors -------------------------------------------------------------------------------------------------------


def minus(a: Sequence[float], b: Sequence[float]) -> Vector:
    return [x - y for x, y in zip(a, b)]


def dot(a: Sequence[float], b: Sequence[float]) -> float:
    return sum(x * y for x, y in zip(a, b))


def cross(a: Sequence[float], b: Sequence[float]) -> Vector:
    return [a[1] * b[2] - a[2] * b[1], a[2] * b[0] - a[0] * b[2], a[0] * b[1] - a[1] * b[0]]


def normals_of(points: List[Vector], triangles: Triangles) -> List[Vector]:
    """A normal for each point, of any length: the sum of its triangles' normals, each as long as its area asks for."""
    normals = [[0.0, 0.0, 0.0] for _ in points]
    for a, b, c in triangles:
        normal = cross(minus(points[b], points[a]), minus(points[c], points[a]))
        for index in (a, b, c):
            normals[index] = [x + y for x, y in zip(normals[index], normal)]
    return normals


# ---- The camera ----------------------------------------------------------------------------------------------------


class Camera:
    """Looks along -z at the middle of a model that was turned, from outside the sphere round it."""

    def __init__(self, points: List[Vector], turn: float, tilt: float, size: Sequence[int]) -> None:
        self.width, self.height = size
        low, high = ([pick(axis) for axis in zip(*points)] for pick in (min, max))
        self.middle = [(a + b) / 2 for a, b in zip(low, high)]
        self.radius = max(math.dist(point, self.middle) for point in points) or 1.0
        self.away = self.radius / math.sin(FIELD_OF_VIEW / 2)
        self.zoom = min(self.width, self.height) / 2 / math.tan(FIELD_OF_VIEW / 2)
        self.turn, self.tilt = math.radians(turn), math.radians(tilt)

    def turned(self, vector: Vector) -> Vector:
        """About the upright axis, then about the one from left to right."""
        x, y, z = vector
        x, z = (x * math.cos(self.turn) + z * math.sin(self.turn), z * math.cos(self.turn) - x * math.sin(self.turn))
        return [x, y * math.cos(self.tilt) - z * math.sin(self.tilt), y * math.sin(self.tilt) + z * math.cos(self.tilt)]

    def seen(self, point: Vector) -> List[int]:
        """The place of a point on the screen: x and y in 1/256 pixel, y downwards, and its depth.

        The depth goes with 1 / distance, and so is a plane on the screen over each triangle, as the distance is not.
        """
        x, y, z = self.turned(minus(point, self.middle))
        distance = self.away - z
        near, far = self.away - 1.01 * self.radius, self.away + 1.01 * self.radius
        part = (1 / near - 1 / distance) / (1 / near - 1 / far)
        return [
            round(256 * (self.width / 2 + self.zoom * x / distance)),
            round(256 * (self.height / 2 - self.zoom * y / distance)),
            round(MAX_DEPTH * part),
        ]

    def lit(self, normal: Vector, colour: Sequence[int]) -> List[int]:
        """The colour of a point, by how its normal faces the light."""
        turned = self.turned(normal)
        light = SHADE + (1 - SHADE) * max(0.0, dot(turned, LIGHT) / (math.hypot(*turned) or 1.0))
        return [min(255, round(channel * light)) for channel in colour]


def list_of(points: List[Vector], triangles: Triangles, camera: Camera, colour: Sequence[int]) -> Dict[str, Any]:
    """The draw list of the model as the camera sees it."""
    pairs = zip(points, normals_of(points, triangles))
    vertices = [camera.seen(point) + camera.lit(normal, colour) + [255] for point, normal in pairs]
    draw = {"depth_test": "less", "depth_write": True, "vertices": vertices, "triangles": triangles}
    return {"width": camera.width, "height": camera.height, "samples": 4, "clear": CLEAR, "draws": [draw]}


def main() -> None:
    parser = argparse.ArgumentParser(description="Draws a Wavefront OBJ model.")
    parser.add_argument("model", help="the OBJ file")
    parser.add_argument("picture", help="the PPM file to write")
    parser.add_argument("--turn", type=float, default=30, help="degrees about the upright axis (30)")
    parser.add_argument("--tilt", type=float, default=35, help="degrees about the axis from left to right (35)")
    parser.add_argument(
        "--size", nargs=2, type=int, default=(640, 480), metavar="PIXELS", help="width, height (640 480)"
    )
    parser.add_argument("--colour", nargs=3, type=int, default=(230, 180, 90), metavar="N", help="red, green, blue")
    parser.add_argument("--threads", type=int, default=4, help="threads that draw (4)")
    parser.add_argument("--list", metavar="FILE", help="leave the draw list there")
    arguments = parser.parse_args()
    try:
        points, triangles = used(*read_model(arguments.model))
        camera = Camera(points, arguments.turn, arguments.tilt, arguments.size)
        scene = list_of(points, triangles, camera, arguments.colour)
        picture = trirast.draw(scene, threads=arguments.threads)
    except (RefusedError, trirast.Error, OSError) as error:
        sys.exit(f"{arguments.model}: {error}")
    if arguments.list:
        with open(arguments.list, "w", encoding="ascii") as file:
            json.dump(scene, file)
    picture.save_ppm(arguments.picture)
    print(f"{len(triangles)} triangles over {len(points)} vertices, {picture.width} by {picture.height} pixels")


if __name__ == "__main__":
    main()
