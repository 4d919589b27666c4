"""Triangles in clip space from a seed, as the filter reads them: meshes whose vertices are shared, coordinates of every
size, on planes, odd numbers, and polygons so small that rounding folds them."""

from __future__ import annotations

import math
import random
import struct
from array import array
from typing import NamedTuple

SEEDS = 300
POSITIONS, TRIANGLES = 40, 30
# Triangles that fill the viewport, and how often they are clipped, since filters clip by turns.
FILLING, FILLING_TURNS = 90, 5
ODD = (0.0, math.inf, -math.inf, math.nan, 1.0, 3e38, 1e-42)
DEPTHS = ((0, 65535), (65535, 0), (1000, 2000))
# The numbers of trirast_clip in their order, the number of positions and that of indices.
HEAD = struct.Struct("=10i")


class Task(NamedTuple):
    """What is clipped, and how."""

    # x, y, z and w of each position, floats of 32 bits.
    positions: array[float]
    # Three of each triangle.
    indices: array[int]
    # left, top, width and height.
    viewport: tuple[int, int, int, int]
    near_plane: int
    sides: int
    depths: tuple[int, int]

    def encoded(self) -> bytes:
        counts = len(self.positions) // 4, len(self.indices)
        head = HEAD.pack(*self.viewport, self.near_plane, self.sides, *self.depths, *counts)
        return head + self.positions.tobytes() + self.indices.tobytes()


def position(numbers: random.Random, seed: int, index: int) -> list[float]:
    """x, y, z and w of a position; the first ones lie on a plane, and those of some seeds behind them
    are odd numbers."""
    if seed % 4 == 2:
        # Of some 1/256 pixel round a corner of the viewport, at the near plane: polygons that rounding folds.
        w = numbers.uniform(0.5, 2)
        x, y, z = (w * (corner + numbers.uniform(-4e-4, 4e-4)) for corner in (1, -1, 0))
        return [x, y, z, w]
    size = 10 ** numbers.uniform(-3, (1, 3, 6)[seed % 3])
    found = [size * numbers.uniform(-1, 1) for _axis in range(4)]
    if numbers.random() < 0.7:
        found[3] = abs(found[3])
    if index < 8:
        found[numbers.randrange(3)] = found[3] * numbers.choice((-1, 0, 1))
    elif index < 12 and seed % 5 == 0:
        found = [numbers.choice(ODD) for _axis in range(4)]
    return found


def task(seed: int) -> Task:
    numbers = random.Random(seed)
    greatest = (500, 16384)[seed % 2]
    left, top = (numbers.randint(-16384, 16384) for _axis in range(2))
    width, height = (numbers.randint(1, greatest) for _axis in range(2))
    positions = array("f", [each for index in range(POSITIONS) for each in position(numbers, seed, index)])
    indices = array("I", [numbers.randrange(POSITIONS) for _corner in range(3 * TRIANGLES)])
    return Task(positions, indices, (left, top, width, height), seed % 2, seed // 2 % 2, DEPTHS[seed % 3])


def filling() -> Task:
    """Triangles that fill the viewport, so that all of its sides cut each of them: more cuts than one plane makes."""
    numbers = random.Random(SEEDS)
    corners = ((-1, -1), (0, 2), (1, -1))
    sizes = [numbers.uniform(5, 9) for _triangle in range(FILLING)]
    positions = array("f", [each for size in sizes for x, y in corners for each in (size * x, size * y, 0.5, 1.0)])
    return Task(positions, array("I", range(3 * FILLING)), (0, 0, 200, 100), 0, 1, DEPTHS[0])


def all_tasks() -> list[Task]:
    return [*(task(seed) for seed in range(SEEDS)), *(FILLING_TURNS * [filling()])]
