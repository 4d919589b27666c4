"""Canvases by the calls of trirast.h, for tests/reference/compare_canvas.py and compare_polygons.py: a program in C
makes the calls that it is sent."""

from __future__ import annotations

import os
import subprocess
from array import array
from enum import IntEnum
from functools import lru_cache
from typing import Any, Iterable, List, Sequence, Tuple

from conformance.blending import FACTORS, OPERATIONS
from python.tests.polygon_rule import flat
from tests.library.commands import WARNINGS
from tests.library.lists import CULLS, DEPTH_TESTS, indices_of, topology_of
from tests.library.runners import RUNNERS
from tools.draw_list import Draw, DrawList
from tools.places import OUT, TOP
from tests.reference import blending
from tests.reference.polygon_scenes import RULES, Call, Clear, Picture, Polygons, Triangles

SOURCE = os.path.join(TOP, "tests", "reference", "canvas_in_c.c")
EVERY_SAMPLE = 65535
# Instead of the index of a sample: each of them, as a number of 32 bits that is signed.
EACH = -1
# The pixels of a canvas with alpha, their colours as they are stored and divided by alpha, and for each sample index
# the colours with alpha, the ids and the depths.
Answer = Tuple[bytes, bytes, List[bytes], List[List[int]], List[List[int]]]


class Kind(IntEnum):
    """The calls of the program: its `enum kind`."""

    CANVAS = 0
    CLEAR = 1
    BATCH = 2
    POLYGONS = 3
    PICTURE = 4
    READ = 5


# The platform for which the program is built, of those in tests/library/runners.py: `--on` sets another.
platform = "linux-x86_64"


def numbers_of_blend(given: Any) -> Iterable[int]:
    equation = blending.PRESETS[given] if isinstance(given, str) else blending.Equation(**given)
    for part in (equation[:3], equation[3:6]):
        yield from (FACTORS[part[0]], FACTORS[part[1]], OPERATIONS[part[2]])
    yield from equation.constant


def numbers_of_draw(draw: Draw) -> Iterable[int]:
    """The members of trirast_draw in the order in which the program reads them."""
    yield from (len(draw["vertices"]), len(indices_of(draw)), topology_of(draw), CULLS.index(draw.get("cull", "none")))
    yield from (DEPTH_TESTS.index(draw.get("depth_test", "always")), int(draw.get("depth_write", False)))
    yield sum(1 << bit for bit, is_written in enumerate(draw.get("write", ())) if not is_written)
    yield EVERY_SAMPLE & ~draw.get("sample_mask", EVERY_SAMPLE)
    yield int("scissor" in draw)
    yield from draw.get("scissor", (0, 0, 0, 0))
    yield from numbers_of_blend(draw.get("blend", "none"))


def numbers_of_batch(batch: Sequence[Draw]) -> Iterable[int]:
    vertices = [vertex for draw in batch for vertex in draw["vertices"]]
    indices = [index for draw in batch for index in indices_of(draw)]
    yield from (len(batch), len(vertices), len(indices))
    for draw in batch:
        yield from numbers_of_draw(draw)
    for vertex in vertices:
        yield from vertex
    yield from indices


def numbers_of_canvas(
    size: Sequence[int], samples: int, has_alpha: bool, origin: Sequence[int]
) -> Iterable[int]:
    """A new canvas, on which the next calls are made."""
    yield from (Kind.CANVAS, *size, samples, 4 if has_alpha else 3, *origin)


def numbers_of_call(call: Call) -> Iterable[int]:
    """A call of a scene of tests/reference/polygon_scenes.py."""
    if isinstance(call, Clear):
        yield from (Kind.CLEAR, *call.colour, call.depth)
    elif isinstance(call, Picture):
        yield from (Kind.PICTURE, EACH if call.sample is None else call.sample, len(call.pixels[0][0]))
        yield from (channel for row in call.pixels for pixel in row for channel in pixel)
    elif isinstance(call, Triangles):
        yield from (Kind.BATCH, *numbers_of_id(call.first_id))
        in_order = [[k, k + 1, k + 2] for k in range(0, len(call.vertices), 3)]
        yield from numbers_of_batch([{**call.state, "vertices": call.vertices, "triangles": in_order}])
    else:
        yield from (Kind.POLYGONS, *numbers_of_id(call.first_id))
        yield from numbers_of_polygons(call)


def numbers_of_id(first_id: int | None) -> tuple[int, int]:
    """Whether a call draws by ids, and the first one."""
    return (0, 0) if first_id is None else (1, first_id)


def numbers_of_polygons(call: Polygons) -> Iterable[int]:
    corners, rings, ends = flat(call.polygons)
    # One call of two has the boxes of its polygons.
    yield from (RULES.index(call.rule), len(corners) % 2, len(corners), len(rings), len(ends))
    yield from numbers_of_draw({**call.state, "vertices": [], "triangles": []})
    for each in (*corners, rings, ends, *call.colours, call.depths):
        yield from each


@lru_cache(maxsize=None)
def program() -> subprocess.Popen[bytes]:
    """The program, which is built and started once."""
    path = os.path.join(OUT, "compare", f"canvas_in_c-{platform}.exe")
    RUNNERS[platform].build(path, [SOURCE], ["-std=gnu11", "-O2", *WARNINGS])
    return subprocess.Popen(RUNNERS[platform].command(path), stdin=subprocess.PIPE, stdout=subprocess.PIPE)


def read(count: int) -> bytes:
    output = program().stdout
    assert output is not None
    found = output.read(count)
    if len(found) != count:
        raise ValueError("the program in C ended")
    return found


def answered(numbers: Iterable[int], pixels: int, samples: int, threads: int) -> Answer:
    """Makes calls on a canvas of so many pixels, by so many threads. Returns what is read of it then. Raises
    `ValueError` if a call is refused."""
    channel = program().stdin
    assert channel is not None
    channel.write(array("i", [*numbers, Kind.READ, threads]).tobytes())
    channel.flush()
    (status,) = array("I", read(4))
    if status:
        raise ValueError(f"the program in C: status {status}")
    stored, straight = read(4 * pixels), read(4 * pixels)
    colours: list[bytes] = []
    ids: list[list[int]] = []
    depths: list[list[int]] = []
    for _ in range(samples):
        colours.append(read(4 * pixels))
        ids.append(array("I", read(4 * pixels)).tolist())
        depths.append(array("H", read(2 * pixels)).tolist())
    return stored, straight, colours, ids, depths


def drawn(
    scene: DrawList, batches: Sequence[Sequence[Draw]], counts: Sequence[int], size: tuple[int, int],
    origin: tuple[int, int], threads: int, clear: Sequence[int], by_ids: bool,
) -> Answer:
    """What is read of a canvas on which batches are drawn. `counts` are the triangles of each batch."""
    samples, has_alpha = scene.get("samples", 1), "clear_alpha" in scene
    numbers = [*numbers_of_canvas(size, samples, has_alpha, origin), Kind.CLEAR, *clear]
    before = 0
    for batch, count in zip(batches, counts):
        numbers += [Kind.BATCH, int(by_ids), before, *numbers_of_batch(batch)]
        before += count
    return answered(numbers, size[0] * size[1], samples, threads)
