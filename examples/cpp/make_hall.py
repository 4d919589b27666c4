#!/usr/bin/env python3
"""Writes a hall with pillars to walk through, for obj.cpp: hall.obj, hall.mtl and two textures, into a folder.

    python3 examples/cpp/make_hall.py FOLDER

It gives the same bytes each time. Standard library alone.
"""

import math
import os
import sys
from typing import Callable, List, Tuple

SIDE = 128
# Half of the hall, its height, and where pillars stand.
X, Z, HEIGHT = 3.0, 6.0, 3.2
PILLARS = [(x, z) for x in (-1.4, 1.4) for z in (-3.6, 0.0, 3.6)]
RADIUS, ROUND = 0.35, 24

Point = Tuple[float, float, float]
Place = Tuple[float, float]
Color = Tuple[int, int, int]


def bricks(x: float, y: float) -> Color:
    row = int(4 * y)
    across = 2 * x + 0.5 * (row % 2)
    if 4 * y % 1 < 0.08 or across % 1 < 0.04:
        return 58, 54, 52
    shade = (7 * row + 5 * (int(across) % 2)) % 8 * 6
    return 150 + shade, 92 + shade // 2, 70 + shade // 3


def tiles(x: float, y: float) -> Color:
    if min(2 * x % 1, 2 * y % 1) < 0.04:
        return 70, 72, 78
    return (214, 208, 190) if (x < 0.5) ^ (y < 0.5) else (96, 112, 124)


def write_texture(path: str, color: Callable[[float, float], Color]) -> None:
    texels = bytes(c for y in range(SIDE) for x in range(SIDE) for c in color((x + 0.5) / SIDE, (y + 0.5) / SIDE))
    with open(path, "wb") as file:
        file.write(b"P6\n%d %d\n255\n" % (SIDE, SIDE) + texels)


class Obj:
    def __init__(self) -> None:
        self.lines = ["# Written by make_hall.py.", "mtllib hall.mtl"]
        self.corners = 0

    def use(self, material: str) -> None:
        self.lines.append(f"usemtl {material}")

    def face(self, points: List[Point], places: List[Place]) -> None:
        """A face, counterclockwise as it is seen."""
        self.lines += ["v {:.4f} {:.4f} {:.4f}".format(*point) for point in points]
        self.lines += ["vt {:.4f} {:.4f}".format(*place) for place in places]
        numbers = range(self.corners + 1, self.corners + len(points) + 1)
        self.lines.append("f " + " ".join(f"{number}/{number}" for number in numbers))
        self.corners += len(points)


def add_hall(found: Obj) -> None:
    """Floor, ceiling and four walls, of a few large faces: what the near plane and the guard band cut."""
    found.use("floor")
    found.face([(-X, 0, Z), (X, 0, Z), (X, 0, -Z), (-X, 0, -Z)], [(0, 0), (2 * X, 0), (2 * X, 2 * Z), (0, 2 * Z)])
    found.use("ceiling")
    found.face([(-X, HEIGHT, -Z), (X, HEIGHT, -Z), (X, HEIGHT, Z), (-X, HEIGHT, Z)], [(0, 0), (1, 0), (1, 1), (0, 1)])
    found.use("wall")
    ends = [(-X, -Z), (X, -Z), (X, Z), (-X, Z)]
    for (ax, az), (bx, bz) in zip(ends, ends[1:] + ends[:1]):
        length = math.hypot(bx - ax, bz - az) / 2
        places = [(0.0, 0.0), (length, 0.0), (length, HEIGHT / 2), (0.0, HEIGHT / 2)]
        found.face([(ax, 0, az), (bx, 0, bz), (bx, HEIGHT, bz), (ax, HEIGHT, az)], places)


def add_pillar(found: Obj, x: float, z: float) -> None:
    """A closed body: nobody sees its ends, but the layers of a closed model can be counted."""
    turns = [2 * math.pi * k / ROUND for k in range(ROUND)]
    low, high = ([(x + RADIUS * math.sin(t), y, z + RADIUS * math.cos(t)) for t in turns] for y in (0.0, HEIGHT))
    for k in range(ROUND):
        places = [(k / 8, 0.0), ((k + 1) / 8, 0.0), ((k + 1) / 8, 2.0), (k / 8, 2.0)]
        after = (k + 1) % ROUND
        found.face([low[k], low[after], high[after], high[k]], places)
    found.face(high, ROUND * [(0.0, 0.0)])
    found.face(low[::-1], ROUND * [(0.0, 0.0)])


def main() -> None:
    folder = sys.argv[1]
    os.makedirs(folder, exist_ok=True)
    found = Obj()
    add_hall(found)
    found.use("pillar")
    for x, z in PILLARS:
        add_pillar(found, x, z)
    with open(os.path.join(folder, "hall.obj"), "w", encoding="ascii") as file:
        file.write("\n".join(found.lines) + "\n")
    with open(os.path.join(folder, "hall.mtl"), "w", encoding="ascii") as file:
        file.write("newmtl wall\nKd 1 1 1\nmap_Kd bricks.ppm\nnewmtl floor\nKd 1 1 1\nmap_Kd tiles.ppm\n")
        file.write("newmtl ceiling\nKd 0.85 0.83 0.78\nnewmtl pillar\nKd 0.9 0.95 1\nmap_Kd tiles.ppm\n")
    write_texture(os.path.join(folder, "bricks.ppm"), bricks)
    write_texture(os.path.join(folder, "tiles.ppm"), tiles)


if __name__ == "__main__":
    main()
