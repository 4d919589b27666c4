#!/usr/bin/env python3
"""Writes the small draw lists that stand beside this script, all but triangle.json and mesh.json.

    examples/make_examples.py

It gives the same bytes each time. Standard library alone.
"""

from __future__ import annotations

import json
import math
import os
from typing import Any, Callable, Sequence

# The value of a list.
Scene = dict[str, Any]

PIXEL = 256
CENTRE = 128
FOLDER = os.path.dirname(os.path.abspath(__file__))


def at(pixels: float) -> int:
    """A coordinate in pixels as one in 1/256 pixel."""
    return round(pixels * PIXEL)


def vertex(x: float, y: float, colour: Sequence[int], alpha: int = 255, z: int = 0) -> list[int]:
    """A vertex at x, y in pixels."""
    return [at(x), at(y), z, *colour, alpha]


def hue(turn: float) -> list[int]:
    """A bright colour of the colour circle, by the part of a turn."""
    return [round(127.5 + 127.5 * math.cos(2 * math.pi * (turn - third / 3))) for third in range(3)]


def rectangle(
    x0: float, y0: float, x1: float, y1: float, colours: Sequence[Sequence[int]], alpha: int = 255,
    depths: Sequence[int] = (0, 0, 0, 0),
) -> list[list[int]]:
    """Four vertices in the order left top, right top, right bottom, left bottom."""
    corners = ((x0, y0), (x1, y0), (x1, y1), (x0, y1))
    return [vertex(x, y, c, alpha, z) for (x, y), c, z in zip(corners, colours, depths)]


RECTANGLE = [[0, 1, 2], [2, 3, 0]]


def disc(x: float, y: float, radius: float, colour: Sequence[int], alpha: int, spokes: int = 48) -> dict[str, Any]:
    """A disc as a fan of triangles round its middle."""
    rim = [2 * math.pi * k / spokes for k in range(spokes)]
    vertices = [vertex(x, y, colour, alpha)]
    vertices += [vertex(x + radius * math.cos(a), y + radius * math.sin(a), colour, alpha) for a in rim]
    return {"vertices": vertices, "triangles": [[0, 1 + k, 1 + (k + 1) % spokes] for k in range(spokes)]}


def seam() -> Scene:
    """The same fan twice, each triangle half transparent: on the left in one colour, on the right in many."""
    spokes = 40
    radii = [70 + 45 * math.sin(k * 2.4) ** 2 for k in range(spokes)]
    angles = [2 * math.pi * (k + 0.3 * math.sin(5 * k)) / spokes for k in range(spokes)]
    draws = []
    halves: tuple[tuple[int, Callable[[int], Sequence[int]]], ...] = (
        (128, lambda k: (255, 255, 255)),
        (384, lambda k: hue(k * 7 / spokes)),
    )
    for middle, colour_of in halves:
        vertices, triangles = [], []
        for k in range(spokes):
            colour = colour_of(k)
            vertices.append(vertex(middle + 0.37, 128.21, colour, 128))
            for n in (k, (k + 1) % spokes):
                x, y = radii[n] * math.cos(angles[n]), radii[n] * math.sin(angles[n])
                vertices.append(vertex(middle + x, 128 + y, colour, 128))
            triangles.append([3 * k, 3 * k + 1, 3 * k + 2])
        draws.append({"blend": "over", "vertices": vertices, "triangles": triangles})
    return {"width": 512, "height": 256, "clear": [24, 28, 40], "draws": draws}


def top_left() -> Scene:
    """A board of half transparent squares whose corners lie on pixel centres."""
    side, squares = 8, 7
    vertices: list[list[int]] = []
    triangles: list[list[int]] = []
    for row in range(squares):
        for column in range(squares):
            x, y = 3 + side * column, 3 + side * row
            colour = hue((row * squares + column) * 5 / 49)
            first = len(vertices)
            for i, j in ((x, y), (x + side, y), (x + side, y + side), (x, y + side)):
                vertices.append([PIXEL * i + CENTRE, PIXEL * j + CENTRE, 0, *colour, 160])
            triangles += [[first, first + 1, first + 2], [first + 2, first + 3, first]]
    draw = {"blend": "over", "vertices": vertices, "triangles": triangles}
    return {"width": 64, "height": 64, "clear": [255, 255, 255], "draws": [draw]}


def spokes(samples: int) -> Scene:
    """Thin spokes from the middle outwards."""
    count, middle = 48, 128
    vertices: list[list[int]] = []
    triangles: list[list[int]] = []
    for k in range(count):
        angle = 2 * math.pi * (k + 0.25) / count
        along, across = (math.cos(angle), math.sin(angle)), (-math.sin(angle), math.cos(angle))
        first = len(vertices)
        for distance, width in ((18, 0), (120, 1.6), (120, -1.6)):
            x = middle + distance * along[0] + width * across[0]
            y = middle + distance * along[1] + width * across[1]
            vertices.append(vertex(x, y, (30, 60, 110)))
        triangles.append([first, first + 1, first + 2])
    draw = {"vertices": vertices, "triangles": triangles}
    return {"width": 256, "height": 256, "samples": samples, "clear": [250, 248, 240], "draws": [draw]}


def depth() -> Scene:
    """Four boards that run through one another, drawn with the depth test."""
    near, far = 8000, 56000
    boards = [
        (rectangle(30, 90, 290, 150, [(230, 80, 60), (250, 190, 90), (250, 190, 90), (230, 80, 60)],
                   depths=(near, far, far, near)), RECTANGLE),
        (rectangle(30, 170, 290, 230, [(60, 120, 230), (120, 220, 240), (120, 220, 240), (60, 120, 230)],
                   depths=(far, near, near, far)), RECTANGLE),
        (rectangle(130, 20, 190, 300, [(70, 190, 90), (70, 190, 90), (220, 240, 120), (220, 240, 120)],
                   depths=(20000, 20000, 44000, 44000)), RECTANGLE),
        ([vertex(60, 60, (255, 255, 255), z=0), vertex(280, 160, (180, 180, 200), z=65535),
          vertex(60, 260, (90, 90, 110), z=30000)], [[0, 1, 2]]),
    ]
    draws = [{"depth_test": "less", "depth_write": True, "vertices": v, "triangles": t} for v, t in boards]
    return {"width": 320, "height": 320, "samples": 4, "clear": [20, 22, 30], "draws": draws}


def blending() -> Scene:
    """Three half transparent discs, on the left from red to blue, on the right from blue to red."""
    colours = [(230, 40, 40), (40, 180, 70), (40, 80, 230)]
    places = [(128, 95), (95, 150), (161, 150)]
    draws = []
    for shift, order in ((0, (0, 1, 2)), (256, (2, 1, 0))):
        for k in order:
            x, y = places[k]
            draws.append({"blend": "over", **disc(x + shift, y, 66, colours[k], 160)})
    return {"width": 512, "height": 256, "samples": 4, "clear": [255, 255, 255], "draws": draws}


def scissor_and_masks() -> Scene:
    """One coloured board in eight windows: four write masks above, four sample masks below, and a disc in a scissor."""
    colours = [(255, 120, 120), (120, 255, 120), (120, 120, 255), (255, 255, 120)]
    windows: list[dict[str, Any]] = [{"write": list(w)} for w in
               ((True, False, False), (False, True, False), (False, False, True), (True, True, False))]
    windows += [{"sample_mask": mask} for mask in (1, 3, 7, 15)]
    draws = []
    for k, state in enumerate(windows):
        left, top = 12 + 96 * (k % 4), 12 + 96 * (k // 4)
        board = rectangle(left - 8, top - 8, left + 88, top + 88, colours)
        draws.append({**state, "scissor": [left, top, left + 80, top + 80], "vertices": board, "triangles": RECTANGLE})
    draws.append({"scissor": [180, 0, 4096, 104], **disc(204, 104, 40, (255, 255, 255), 255)})
    return {"width": 396, "height": 204, "samples": 4, "draws": draws}


def gradient() -> Scene:
    """A fan of twelve triangles with a white middle and the colours of the circle on its rim."""
    count = 12
    vertices = [vertex(128, 128, (255, 255, 255))]
    for k in range(count):
        angle = 2 * math.pi * k / count
        vertices.append(vertex(128 + 118 * math.cos(angle), 128 + 118 * math.sin(angle), hue(k / count)))
    triangles = [[0, 1 + k, 1 + (k + 1) % count] for k in range(count)]
    draw = {"vertices": vertices, "triangles": triangles}
    return {"width": 256, "height": 256, "samples": 4, "clear": [18, 18, 22], "draws": [draw]}


def strip() -> Scene:
    """A twisted ribbon as one strip: its front is drawn warm and its back cold, as the strip keeps its orientation."""
    turns, steps = 3, 96
    vertices: dict[str, list[list[int]]] = {"back": [], "front": []}
    for k in range(steps + 1):
        along = k / steps
        x = 24 + 464 * along
        middle = 128 + 46 * math.sin(2 * math.pi * along)
        turn = 2 * math.pi * turns * along / 2
        for way in (1, -1):
            y, z = middle + way * 52 * math.cos(turn), 32768 + way * 20000 * math.sin(turn)
            light = round(90 + 165 * abs(math.cos(turn)))
            vertices["back"].append(vertex(x, y, (light, light * 5 // 8, light // 4), z=round(z)))
            vertices["front"].append(vertex(x, y, (light // 4, light // 2, light), z=round(z)))
    draws = [
        {"cull": cull, "depth_test": "less", "depth_write": True, "vertices": corners,
         "strip": list(range(len(corners)))}
        for cull, corners in vertices.items()
    ]
    return {"width": 512, "height": 256, "samples": 4, "clear": [250, 248, 240], "draws": draws}


def quads() -> Scene:
    """Two bent grids of half transparent quads, in which no inner diagonal shows."""
    columns, rows = 12, 8
    draws = []
    grids: tuple[tuple[int, Callable[[float, float], Sequence[int]]], ...] = (
        (0, lambda u, v: (40, 90, 160)),
        (1, lambda u, v: hue(u + v / 3)),
    )
    for shift, colour_of in grids:
        vertices = []
        for row in range(rows + 1):
            for column in range(columns + 1):
                u, v = column / columns, row / rows
                x = 26 + 330 * u + 46 * shift + 9 * math.sin(5 * v + 2 * shift)
                y = 26 + 180 * v + 30 * shift + 9 * math.sin(6 * u + shift)
                vertices.append(vertex(x, y, colour_of(u, v), 128))
        corner = [row * (columns + 1) + column for row in range(rows) for column in range(columns)]
        faces = [[k, k + 1, k + columns + 2, k + columns + 1] for k in corner]
        draws.append({"blend": "over", "vertices": vertices, "quads": faces})
    return {"width": 430, "height": 264, "samples": 4, "clear": [255, 255, 255], "draws": draws}


def depth_picture() -> Scene:
    """The boards of depth.json as their depths: the nearer, the darker."""
    scene = depth()
    draws = scene.pop("draws")
    return {**scene, "output": "depth", "draws": draws}


def write(name: str, scene: Scene) -> None:
    def line(value: object) -> str:
        return json.dumps(value, separators=(",", ":"))

    top = [f"{line(key)}: {line(value)}" for key, value in scene.items() if key != "draws"]
    draws = []
    for draw in scene["draws"]:
        parts = [f"{line(key)}: {line(value)}" for key, value in draw.items()]
        draws.append("    {" + ",\n     ".join(parts) + "}")
    text = "{" + ", ".join(top) + ",\n \"draws\": [\n" + ",\n".join(draws) + "\n]}\n"
    with open(os.path.join(FOLDER, name), "w", encoding="ascii", newline="\n") as file:
        file.write(text)


def main() -> None:
    write("seam.json", seam())
    write("top_left.json", top_left())
    write("one_sample.json", spokes(1))
    write("four_samples.json", spokes(4))
    write("depth.json", depth())
    write("blending.json", blending())
    write("scissor_and_masks.json", scissor_and_masks())
    write("gradient.json", gradient())
    write("strip.json", strip())
    write("quads.json", quads())
    write("depth_picture.json", depth_picture())


if __name__ == "__main__":
    main()
