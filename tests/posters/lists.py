"""Generated draw lists by which posters are compared with the program. A seed gives the same lists each time.

They are as large as a list can be, up to 4096 pixels, and have what crosses windows: triangles of all sizes, scissors,
depth tests and blending, vertices outside of the picture and at both ends of the guard band.
"""

from __future__ import annotations

import random

from tests.reference import generated_lists, renderer
from tools.draw_list import Draw, DrawList, Vertex

LOW, HIGH = renderer.BAND
MAX_SIDE = 4096
# A window's side for each list, and the windows that a list has at most.
SIDES = (64, 100, 128, 256, 512, 1024)
MAX_WINDOWS = 400


def a_size(pick: random.Random) -> tuple[int, int]:
    kind = pick.random()
    if kind < 0.05:
        return pick.choice(((MAX_SIDE, pick.randint(1, 70)), (pick.randint(1, 70), MAX_SIDE)))
    if kind < 0.30:
        return pick.randint(300, 1500), pick.randint(300, 1100)
    return pick.randint(1, 300), pick.randint(1, 300)


def a_side(pick: random.Random, width: int, height: int) -> int:
    """The side of the windows of a list: not so small that there are too many."""
    sides = [side for side in SIDES if -(-width // side) * -(-height // side) <= MAX_WINDOWS]
    return pick.choice(sides)


def a_cloud(pick: random.Random, width: int, height: int, depths: list[int]) -> list[Vertex]:
    """Vertices around a pixel, within a small or a large part of the picture or past it."""
    size = pick.choice((0.02, 0.1, 0.4, 2.0))
    centre = (pick.uniform(0, width), pick.uniform(0, height))
    vertices: list[Vertex] = []
    for _ in range(pick.randint(3, 40)):
        place = [
            min(max(int(256 * (middle + pick.uniform(-1, 1) * size * side)), LOW), HIGH)
            for middle, side in zip(centre, (width, height))
        ]
        if pick.random() < 0.3:
            # On the border of a pixel or through its centre, and often on a window's border.
            place = [
                coordinate // 128 * 128 if pick.random() < 0.5 else coordinate // 16384 * 16384 for coordinate in place
            ]
        vertices.append(place + generated_lists.some_values(pick, depths))
    return vertices


def a_draw(pick: random.Random, width: int, height: int, samples: int, depths: list[int]) -> Draw:
    if pick.random() < 0.4:
        vertices = generated_lists.some_vertices(pick, width, height, samples, depths)
        faces = generated_lists.some_faces(pick, vertices)
    else:
        vertices = a_cloud(pick, width, height, depths)
        count = len(vertices)
        faces = {"triangles": [[pick.randrange(count) for _ in range(3)] for _ in range(pick.randint(0, 40))]}
    return {**generated_lists.a_state(pick, width, height), "vertices": vertices, **faces}


def a_list(pick: random.Random) -> DrawList:
    width, height = a_size(pick)
    samples = pick.choice((1, 4))
    depths = generated_lists.some_depths(pick)
    scene: DrawList = {"width": width, "height": height, "samples": samples}
    if pick.random() < 0.6:
        scene["clear"] = [pick.randint(0, 255) for _ in range(3)]
    if pick.random() < 0.4:
        scene["clear_depth"] = pick.choice((0, 65535, pick.randint(0, 65535), *depths))
    if pick.random() < 0.2:
        scene["output"] = "depth"
    scene["draws"] = [a_draw(pick, width, height, samples, depths) for _ in range(pick.randint(0, 5))]
    return scene
