"""Writes scenes of triangles and polygons with what the Python package draws of them, for the tests of
the crate in Rust.

    PYTHONPATH=python/src python3 -m tests.library.python_scenes FILE

A scene is integers of 32 bits, in the order in which `encoded` lists them, and then what was drawn: the pixels, and of
each sample the ids and the depths of all pixels. bindings/rust/trirast/tests/python.rs reads it.
"""

from __future__ import annotations

import random
import sys
from array import array
from typing import Any, Iterable, NamedTuple

SCENES, SEED = 60, 7
COUNTS = (1, 2, 4, 8, 16)
RULES: tuple[Any, ...] = ("even-odd", "nonzero")
# No id: triangles and polygons are drawn in their colours.
IN_COLOURS = -1


class Scene(NamedTuple):
    """What is drawn on a canvas: triangles without indices, then polygons, both by one blend equation."""

    size: tuple[int, int]
    samples: int
    origin: tuple[int, int]
    first_id: int
    rule: int
    # Factors and operations by their numbers in Direct3D 11, and red, green, blue and alpha of the constant.
    equation: tuple[int, ...]
    constant: tuple[int, ...]
    # Rows of x, y, depth, red, green, blue and alpha.
    vertices: list[list[int]]
    corners: list[list[int]]
    ring_ends: list[int]
    polygon_ends: list[int]
    # Rows of red, green, blue and alpha.
    colors: list[list[int]]
    depths: list[int]

    def encoded(self) -> Iterable[int]:
        yield from (*self.size, self.samples, *self.origin, self.first_id, self.rule, *self.equation, *self.constant)
        for rows in (self.vertices, self.corners, self.colors):
            yield len(rows)
            yield from (number for row in rows for number in row)
        for numbers in (self.ring_ends, self.polygon_ends, self.depths):
            yield len(numbers)
            yield from numbers


def some(pick: random.Random, count: int, end: int = 256) -> list[int]:
    return [pick.randrange(end) for _ in range(count)]


def a_scene(pick: random.Random, samples: int) -> Scene:
    import trirast._numbers as numbers

    size, origin = (pick.randint(1, 140), pick.randint(1, 140)), (pick.randint(-9, 9), pick.randint(-9, 9))

    def places(count: int) -> list[list[int]]:
        # On quarters of pixels, where samples are met often.
        return [[64 * pick.randint(-99, 4 * side + 99) for side in size] for _ in range(count)]

    rings = [pick.randint(0, 9) for _ in range(pick.randint(0, 8))]
    ring_ends = [sum(rings[: k + 1]) for k in range(len(rings))]
    polygon_ends = sorted(pick.randint(0, len(rings)) for _ in range(pick.randint(0, 3))) + [len(rings)]
    factors, operations = list(numbers.FACTORS.values()), list(numbers.OPERATIONS.values())
    equation = tuple(
        number for _ in "ca" for number in (pick.choice(factors), pick.choice(factors), pick.choice(operations))
    )
    return Scene(
        size, samples, origin, pick.choice((IN_COLOURS, 0, 5, 70000)), pick.randrange(2), equation,
        tuple(some(pick, 4)),
        [[*place, pick.randrange(65536), *some(pick, 4)] for place in places(3 * pick.randint(0, 4))],
        places(sum(rings)), ring_ends, polygon_ends, [some(pick, 4) for _ in polygon_ends],
        some(pick, len(polygon_ends), 65536) if pick.random() < 0.5 else [],
    )


def drawn(scene: Scene) -> Any:
    """The canvas on which a scene was drawn."""
    import trirast
    import trirast._numbers as numbers

    canvas = trirast.Canvas(*scene.size, samples=scene.samples, origin=scene.origin)
    canvas.clear((10, 200, 90), 40000)
    names = [
        {number: name for name, number in known.items()}
        for known in 2 * (numbers.FACTORS, numbers.FACTORS, numbers.OPERATIONS)
    ]
    make_blend: Any = trirast.Blend
    equation = make_blend(*(name[number] for name, number in zip(names, scene.equation)), constant=scene.constant)
    first_id = None if scene.first_id == IN_COLOURS else scene.first_id
    state: Any = {"blend": equation, "depth_test": "less_equal", "depth_write": True, "first_id": first_id}
    canvas.draw(scene.vertices, **state)
    if first_id is not None:
        state["first_id"] = first_id + len(scene.vertices) // 3
    polygons = scene.corners, scene.ring_ends, scene.polygon_ends, scene.colors
    canvas.draw_polygons(*polygons, depth=scene.depths or None, rule=RULES[scene.rule], **state)
    return canvas


def answer(canvas: Any) -> bytes:
    parts = [canvas.rgb()]
    for sample in range(canvas.samples):
        parts += [canvas.ids(sample), canvas.depth(sample)]
    return b"".join(memoryview(part).tobytes() for part in parts)


def main() -> int:
    pick = random.Random(SEED)
    with open(sys.argv[1], "wb") as file:
        for number in range(SCENES):
            scene = a_scene(pick, COUNTS[number % len(COUNTS)])
            file.write(array("i", scene.encoded()).tobytes() + answer(drawn(scene)))
    return 0


if __name__ == "__main__":
    sys.exit(main())
