"""Writes the draw lists of the benchmark into bench/out/.

    python3 -m bench.scenes [NAME ..]

Without names it writes all of them. The same names give the same bytes each time. Standard library alone.
"""

from __future__ import annotations

import json
import math
import os
import random
import sys
from typing import Any, Callable, Iterable, Sequence, TypeVar

from tools.draw_list import Draw, DrawList, Vertex, draw
from tools.places import BENCH_OUT
from tools.small_pictures import FIRST

# Each triangle by its three vertices.
Triangles = list[list[Vertex]]
Number = TypeVar("Number", int, float)

MAX_VERTICES = 65536
MAX_TRIANGLES = 65536


def some_colour(pick: random.Random) -> list[int]:
    return [pick.randint(0, 255) for _ in range(3)]


def vertex(x: float, y: float, z: int, colour: Sequence[int], alpha: int = 255) -> Vertex:
    """A vertex at x, y in pixels."""
    return [round(256 * x), round(256 * y), z, *colour, alpha]


def draws_of(triangles: Triangles, **state: Any) -> list[Draw]:
    """Draws of triangles that share no vertex, as many as the limit of vertices asks for."""
    draws = []
    step = MAX_VERTICES // 3
    for first in range(0, len(triangles), step):
        part = triangles[first : first + step]
        vertices = [corner for triangle in part for corner in triangle]
        draws.append(draw(vertices, [(3 * k, 3 * k + 1, 3 * k + 2) for k in range(len(part))], **state))
    return draws


def tiny() -> DrawList:
    """The first triangle, on nine pixels: what a run costs besides drawing."""
    return FIRST


def empty() -> DrawList:
    """4096 by 4096 pixels without draws: clearing, resolving and writing 48 MiB."""
    return {"width": 4096, "height": 4096, "draws": []}


def large_triangles(name: str) -> Triangles:
    """32 triangles, most of them larger than a picture of 1024 by 1024 pixels, with smooth colours and depths."""
    pick = random.Random(name)
    triangles = []
    for _ in range(32):
        turn = pick.random() * 2 * math.pi
        corners = [turn + k * 2 * math.pi / 3 + pick.uniform(-0.3, 0.3) for k in range(3)]
        radius = pick.uniform(500, 1600)
        triangles.append([
            vertex(512 + radius * math.cos(a), 512 + radius * math.sin(a), pick.randint(0, 65535), some_colour(pick))
            for a in corners
        ])
    return triangles


def smooth() -> DrawList:
    """Large triangles with smooth colours and depths, four samples, depth test."""
    draws = draws_of(large_triangles("smooth"), depth_test="less", depth_write=True)
    return {"width": 1024, "height": 1024, "samples": 4, "draws": draws}


def depths_first() -> DrawList:
    """Such triangles drawn twice: their depths alone, and then their colours at equal depths."""
    triangles = large_triangles("depths first")
    depths = draws_of(triangles, depth_test="less", depth_write=True, write=[False, False, False])
    draws = depths + draws_of(triangles, depth_test="equal")
    return {"width": 1024, "height": 1024, "samples": 4, "draws": draws}


def small() -> DrawList:
    """65,536 triangles of about eight pixels each, four samples, depth test."""
    pick = random.Random("small")
    triangles = []
    for _ in range(MAX_TRIANGLES):
        x, y = pick.uniform(0, 1920), pick.uniform(0, 1080)
        colour, depth = some_colour(pick), pick.randint(0, 65535)
        triangles.append([vertex(x + pick.uniform(-4, 4), y + pick.uniform(-4, 4), depth, colour) for _ in range(3)])
    draws = draws_of(triangles, depth_test="less", depth_write=True)
    return {"width": 1920, "height": 1080, "samples": 4, "draws": draws}


def bent_sheet(width: int, height: int, cells: tuple[int, int], bend: int, waves: tuple[int, int, int]) -> Draw:
    """Triangles that share their vertices and fill the picture: columns and rows of cells, bent by this many pixels."""
    columns, rows = cells
    vertices = []
    for j in range(rows + 1):
        for i in range(columns + 1):
            x, y = width * i / columns, height * j / rows
            wave = math.sin(x / waves[0]) * math.cos(y / waves[1])
            colour = [round(128 + 120 * wave), round(255 * j / rows), round(255 * i / columns)]
            bent_x, bent_y = x + bend * wave, y + bend * math.sin(x / waves[2])
            vertices.append(vertex(bent_x, bent_y, round(32768 + 30000 * wave), colour))
    triangles = []
    for here in [j * (columns + 1) + i for j in range(rows) for i in range(columns)]:
        below = here + columns + 1
        triangles += [[here, here + 1, below], [below, here + 1, below + 1]]
    return draw(vertices, triangles, depth_test="less", depth_write=True)


def mesh() -> DrawList:
    """A bent sheet of 65,000 triangles that share their vertices and fill 1920 by 1080 pixels, four samples."""
    sheet = bent_sheet(1920, 1080, (240, 135), 3, (97, 71, 53))
    return {"width": 1920, "height": 1080, "samples": 4, "draws": [{"cull": "back", **sheet}]}


def sliver(number: Callable[[int, int], Number], side: int) -> list[tuple[Number, Number]]:
    """The corners of a triangle from a point of a square of this side to another, and at most 2 to the side of that."""
    (ax, ay), (bx, by) = ((number(0, side), number(0, side)) for _ in "ab")
    dx, dy = number(-2, 2), number(-2, 2)
    return [(ax, ay), (bx, by), (bx + dx, by + dy)]


def slivers() -> DrawList:
    """2,048 triangles across the whole picture, each under two pixels wide: large boxes, few samples."""
    pick = random.Random("slivers")
    triangles = []
    for _ in range(2048):
        corners, colour = sliver(pick.uniform, 1024), some_colour(pick)
        triangles.append([vertex(x, y, 0, colour) for x, y in corners])
    return {"width": 1024, "height": 1024, "samples": 4, "draws": draws_of(triangles)}


def blended() -> DrawList:
    """48 half transparent layers over the whole picture, one sample."""
    pick = random.Random("blended")
    triangles = []
    for _ in range(48):
        corners = [(0, 0), (1024, 0), (1024, 1024), (0, 1024)]
        four = [vertex(x, y, 0, some_colour(pick), pick.randint(20, 120)) for x, y in corners]
        triangles += [[four[0], four[1], four[2]], [four[2], four[3], four[0]]]
    return {"width": 1024, "height": 1024, "draws": draws_of(triangles, blend="over")}


def flat_triangles(name: str, alpha: int = 255) -> Triangles:
    """48 triangles larger than the picture, each of one colour and one depth."""
    pick = random.Random(name)
    triangles = []
    for _ in range(48):
        turn, radius = pick.random() * 2 * math.pi, pick.uniform(500, 1600)
        colour, z = some_colour(pick), pick.randint(0, 65535)
        angles = [turn + k * 2 * math.pi / 3 + pick.uniform(-0.3, 0.3) for k in range(3)]
        corners = [(512 + radius * math.cos(a), 512 + radius * math.sin(a)) for a in angles]
        triangles.append([vertex(x, y, z, colour, alpha) for x, y in corners])
    return triangles


def flat() -> DrawList:
    """48 large triangles of one colour each, four samples: nothing but coverage and stores."""
    return {"width": 1024, "height": 1024, "samples": 4, "draws": draws_of(flat_triangles("flat"))}


def flat_depth() -> DrawList:
    """The same with a depth for each triangle and the depth test."""
    draws = draws_of(flat_triangles("flat depth"), depth_test="less", depth_write=True)
    return {"width": 1024, "height": 1024, "samples": 4, "draws": draws}


def flat_blended() -> DrawList:
    """The same, half transparent."""
    draws = draws_of(flat_triangles("flat blended", 100), blend="over")
    return {"width": 1024, "height": 1024, "samples": 4, "draws": draws}


def large_mesh() -> DrawList:
    """A bent sheet of 65,000 triangles that fills 4096 by 4096 pixels, one sample, depth test: the largest picture."""
    return {"width": 4096, "height": 4096, "draws": [bent_sheet(4096, 4096, (180, 180), 7, (207, 171, 153))]}


def whole_values() -> DrawList:
    """Layers of triangles whose legs are 255 pixels long, with colours from 0 to 255 along them, so that every value is
    a whole number at every sample: which fixed-point arithmetic with an error mistakes for the number below."""
    layer = []
    for row in range(4):
        for column in range(4):
            x, y = 255 * column + 0.5, 255 * row + 0.5
            corner = [vertex(x + i, y + j, 0, (i, j, 255 - i)) for i, j in ((0, 0), (255, 0), (255, 255), (0, 255))]
            layer += [[corner[0], corner[1], corner[3]], [corner[3], corner[1], corner[2]]]
    return {"width": 1024, "height": 1024, "draws": draws_of(12 * layer)}


def thin_slivers() -> DrawList:
    """4,096 triangles under 2/256 pixel wide, smooth and blended: values change too steeply for a plane."""
    pick = random.Random("thin slivers")
    triangles = []
    for _ in range(4096):
        corners = sliver(pick.randint, 262144)
        triangles.append([[x, y, 0, *some_colour(pick), pick.randint(100, 255)] for x, y in corners])
    return {"width": 1024, "height": 1024, "samples": 4, "draws": draws_of(triangles, blend="over")}


def level_rows() -> DrawList:
    """24 large triangles whose depth is the same along each row, four samples, depth test."""
    pick = random.Random("level rows")
    triangles = []
    for _ in range(24):
        above, below = pick.randint(0, 65535), pick.randint(0, 65535)
        places = [(-300, -100, above), (1400, -100, above), (pick.uniform(0, 1024), 1200, below)]
        triangles.append([vertex(x, y, z, some_colour(pick)) for x, y, z in places])
    draws = draws_of(triangles, depth_test="less", depth_write=True)
    return {"width": 1024, "height": 1024, "samples": 4, "draws": draws}


def level_quad(x: float, y: float, side: int, most: int, z: tuple[int, int]) -> Triangles:
    """Two triangles over `side` pixels: red grows from 0 to `most` to the right, green downwards, and blue shrinks. The
    depth grows from the first of `z` to the right by the second."""
    corner = [
        vertex(x + side * i, y + side * j, z[0] + z[1] * i, (most * i, most * j, most - most * i))
        for i, j in ((0, 0), (1, 0), (1, 1), (0, 1))
    ]
    return [[corner[0], corner[1], corner[3]], [corner[3], corner[1], corner[2]]]


def level_quads(layers: int, sides: Sequence[int], most: int, depth: bool = False) -> Triangles:
    """Layers of such quads over 1024 by 1024 pixels, as many as fit, each layer of the next of these sides. Their
    corners are centres of pixels, so that a value is a whole number wherever it can be one. With `depth` each layer is
    nearer, and depths grow as red does."""
    triangles = []
    for layer in range(layers):
        side = sides[layer % len(sides)]
        for place in range((1023 // side) ** 2):
            row, column = divmod(place, 1023 // side)
            z = (60000 - 1000 * layer, most if depth else 0)
            triangles += level_quad(side * column + 0.5, side * row + 0.5, side, most, z)
    return triangles


def levels() -> DrawList:
    """12 layers of quads with 100 levels over 300 pixels: each third value is a whole number that no
    binary fraction meets."""
    return {"width": 1024, "height": 1024, "draws": draws_of(level_quads(12, [300], 100))}


def levels_four() -> DrawList:
    """The same with four samples."""
    return {**levels(), "samples": 4}


def levels_depth() -> DrawList:
    """The same with one sample and depths that grow by thirds too, and the depth test."""
    draws = draws_of(level_quads(12, [300], 100, depth=True), depth_test="less", depth_write=True)
    return {"width": 1024, "height": 1024, "draws": draws}


def charts() -> DrawList:
    """12 layers of quads of 48 pixels with 80 levels."""
    return {"width": 1024, "height": 1024, "draws": draws_of(level_quads(12, [48], 80))}


def steps() -> DrawList:
    """12 layers of quads with 255 levels over 256, 510 and 512 pixels."""
    return {"width": 1024, "height": 1024, "draws": draws_of(level_quads(12, [256, 510, 512], 255))}


def sprites() -> DrawList:
    """32,768 quads of 12 pixels, as of sprites and glyphs: every other one of one colour, the others with a
    colour at each corner."""
    pick = random.Random("sprites")
    triangles = []
    for number in range(MAX_TRIANGLES // 2):
        x, y = pick.randrange(1908) + 0.5, pick.randrange(1068) + 0.5
        colour = some_colour(pick)
        corner = [
            vertex(x + 12 * i, y + 12 * j, 0, some_colour(pick) if number % 2 else colour)
            for i, j in ((0, 0), (1, 0), (1, 1), (0, 1))
        ]
        triangles += [[corner[0], corner[1], corner[3]], [corner[3], corner[1], corner[2]]]
    return {"width": 1920, "height": 1080, "draws": draws_of(triangles)}


def dust() -> DrawList:
    """65,536 smooth triangles of two to four pixels a side, depth test."""
    pick = random.Random("dust")
    triangles = []
    for _ in range(MAX_TRIANGLES):
        x, y, turn = pick.uniform(0, 1920), pick.uniform(0, 1080), pick.uniform(0, 2 * math.pi)
        angles = [turn + k * 2 * math.pi / 3 for k in range(3)]
        radius = pick.uniform(2, 4) / math.sqrt(3)
        triangles.append([
            vertex(x + radius * math.cos(a), y + radius * math.sin(a), pick.randint(0, 65535), some_colour(pick))
            for a in angles
        ])
    draws = draws_of(triangles, depth_test="less", depth_write=True)
    return {"width": 1920, "height": 1080, "draws": draws}


def hidden_quads() -> DrawList:
    """Four layers of 7,225 quads of 12 pixels with a colour at each corner: the first layer hides the others,
    by the depth test."""
    side, columns = 12, 85
    triangles = []
    for layer in range(4):
        for place in range(columns**2):
            row, column = divmod(place, columns)
            triangles += level_quad(
                side * column + 37 / 256, side * row + 37 / 256, side, 255, (10000 * (layer + 1), 100)
            )
    draws = draws_of(triangles, depth_test="less", depth_write=True)
    return {"width": 1024, "height": 1024, "draws": draws}


def refused_list() -> DrawList:
    """The long list with its last index past the vertices: an error that is found only at the end."""
    scene = long_list()
    scene["draws"][-1]["triangles"][-1][-1] = MAX_VERTICES
    return scene


def long_list() -> DrawList:
    """A list of about 40 MB, nearly all of it vertices: reading."""
    pick = random.Random("long")
    draws = []
    for _ in range(16):
        vertices = [
            [pick.randint(-8388608, 8388607), pick.randint(-8388608, 8388607), pick.randint(0, 65535)]
            + [pick.randint(0, 255) for _ in range(4)]
            for _ in range(MAX_VERTICES)
        ]
        triangles = [[pick.randrange(MAX_VERTICES) for _ in range(3)] for _ in range(4)]
        draws.append({"blend": "over", "vertices": vertices, "triangles": triangles})
    return {"width": 256, "height": 256, "draws": draws}


SCENES = {
    "tiny": tiny,
    "empty": empty,
    "smooth": smooth,
    "small": small,
    "mesh": mesh,
    "slivers": slivers,
    "blended": blended,
    "flat": flat,
    "flat_depth": flat_depth,
    "flat_blended": flat_blended,
    "large_mesh": large_mesh,
    "whole_values": whole_values,
    "thin_slivers": thin_slivers,
    "level_rows": level_rows,
    "depths_first": depths_first,
    "levels": levels,
    "levels_four": levels_four,
    "levels_depth": levels_depth,
    "charts": charts,
    "steps": steps,
    "sprites": sprites,
    "dust": dust,
    "hidden_quads": hidden_quads,
    "long_list": long_list,
    "refused_list": refused_list,
}


def path_of(name: str) -> str:
    return os.path.join(BENCH_OUT, f"{name}.json")


def write(name: str) -> None:
    """Writes a scene that is not there yet."""
    os.makedirs(BENCH_OUT, exist_ok=True)
    if os.path.exists(path_of(name)):
        return
    text = json.dumps(SCENES[name](), separators=(",", ":"))
    with open(path_of(name) + ".part", "w", encoding="ascii") as file:
        file.write(text)
    os.replace(path_of(name) + ".part", path_of(name))


def write_all(names: Iterable[str]) -> list[str]:
    """Writes these scenes, and returns their files."""
    for name in names:
        write(name)
    return [path_of(name) for name in names]


def main() -> int:
    names = sys.argv[1:] or list(SCENES)
    unknown = [name for name in names if name not in SCENES]
    if unknown:
        print(f"scenes.py: no scene {unknown[0]}; there are {', '.join(SCENES)}", file=sys.stderr)
        return 2
    write_all(names)
    return 0


if __name__ == "__main__":
    sys.exit(main())
