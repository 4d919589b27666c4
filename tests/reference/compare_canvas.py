"""Compares canvases with the slow reference renderer, sample by sample, on generated draw lists, and with the program.

    python3 -m tests.reference.compare_canvas [--lists 1000] [--seed 1] [--samples 1 2 4 8 16] [--on PLATFORM]

Each list of tests/reference/generated_lists.py has one of these numbers of samples a pixel, alpha or none, masks of 16
bits and any blend equations (tests/reference/blending.py). It is split at random into batches, one triangle a batch
among them, and drawn on a canvas by some threads, with and without a window, by the Python package and by a program in
C, with --on for another platform, by Wine or qemu. Some batches have no indices, but the vertices of each triangle in
their order, and those in C have vertices with strides. Every pixel, with colours as they are stored and divided by
alpha, and of every sample the colour, alpha, the depth and the id of the last triangle that passes there, is compared
with the reference's; with one or four samples, and no other blending than a list has, every pixel and depth also with
the program's. Exit status 1 on any difference; the list is then left in out/compare/.
"""

from __future__ import annotations

import argparse
import os
import random
import subprocess
import sys
from dataclasses import replace
from typing import Any, NamedTuple, Sequence

from tools import answers, picture_file
from tests.reference import canvas_in_c, generated_lists, renderer
from tools.draw_list import Draw, DrawList, encode, triangles_of
from tests.library.commands import PACKAGE_ENVIRONMENT
from tests.library.lists import indices_of
from tests.library.runners import RUNNERS
from tools.places import PROGRAM, SHARED_LIBRARY, TOP, is_built

LISTS = 1000
LOWEST, HIGHEST = -8388608, 8388607
WHITE = (255, 255, 255)
CLEARED = 0xFFFFFF
# The alpha to which a canvas without alpha is cleared.
UNREAD = 77


# ---- Batches


def split(pick: random.Random, draws: list[Draw]) -> list[list[Draw]]:
    """The draws as batches of one draw or several, some of them cut into batches of their triangles."""
    batches: list[list[Draw]] = []
    whole: list[Draw] = []
    for draw in draws:
        if pick.random() < 0.4:
            whole.append(draw)
            continue
        if whole:
            batches.append(whole)
            whole = []
        state = {key: value for key, value in draw.items() if key not in ("triangles", "strip", "quads")}
        triangles, first = triangles_of(draw), 0
        most = pick.choice((1, 2, 65, 1000))
        while first < len(triangles):
            end = first + pick.randint(1, most)
            batches.append([{**state, "triangles": triangles[first:end]}])
            first = end
    return batches + ([whole] if whole else [])


def without_indices(draw: Draw) -> Draw:
    """The same triangles, whose vertices stand in the order in which they are drawn."""
    state = {key: value for key, value in draw.items() if key not in ("triangles", "strip", "quads")}
    vertices = [draw["vertices"][k] for triangle in triangles_of(draw) for k in triangle]
    return {**state, "vertices": vertices}


def count_of(batch: list[Draw]) -> int:
    return sum(len(triangles_of(draw)) for draw in batch)


def an_origin(pick: random.Random, scene: DrawList) -> tuple[int, int]:
    """A place for a window at which each vertex that an index names stays in the guard band, also one of a strip
    without triangles."""
    found = []
    for axis, pixels in enumerate((scene["width"], scene["height"])):
        used = [draw["vertices"][k][axis] for draw in scene["draws"] for k in indices_of(draw)] or [0]
        lowest, highest = -((HIGHEST - max(used)) // 256), (min(used) - LOWEST) // 256
        found.append(min(max(pick.randint(-5, pixels), lowest), highest))
    return found[0], found[1]


# ---- What canvases and the reference have


class Difference(Exception):
    """What differs."""


class Readings(NamedTuple):
    """The pixels of a picture with alpha, their colours as they are stored and divided by alpha, and for each sample
    index the colours with alpha, the ids and the depths of all pixels."""

    pixels: bytes
    straight: bytes
    colours: list[bytes]
    ids: list[list[int]]
    depths: list[list[int]]


def drawn(
    scene: DrawList, batches: list[list[Draw]], size: tuple[int, int], origin: tuple[int, int], threads: int,
    by_ids: bool = False,
) -> Any:
    """A canvas of this size at this origin, on which the batches of a list are drawn."""
    import trirast

    canvas = trirast.Canvas(*size, samples=scene.get("samples", 1), alpha="clear_alpha" in scene, origin=origin)
    canvas.clear(cleared_to(scene, by_ids), scene.get("clear_depth", 65535), threads=threads)
    before = 0
    for number, batch in enumerate(batches):
        draws = [without_indices(draw) for draw in batch] if number % 4 == 3 else batch
        try:
            canvas.draw_batch([draw_of(draw) for draw in draws], first_id=before if by_ids else None, threads=threads)
        except trirast.Error as error:
            raise Difference(f"a canvas at {origin} refuses a batch: {error}") from error
        before += count_of(batch)
    return canvas


def cleared_to(scene: DrawList, by_ids: bool) -> tuple[int, ...]:
    """Red, green, blue and alpha. A canvas without alpha does not look at that."""
    return (*(WHITE if by_ids else scene.get("clear", (0, 0, 0))), scene.get("clear_alpha", UNREAD))


def draw_of(draw: Draw) -> Any:
    """A draw of a canvas."""
    import trirast

    return trirast.Draw(**named_arguments(draw))


def named_arguments(draw: Draw) -> dict[str, Any]:
    """What a draw of a list, or a state alone, has by name in a call of the package."""
    import trirast

    given = {key: value for key, value in draw.items() if key != "write"}
    if isinstance(draw.get("blend"), dict):
        given["blend"] = trirast.Blend(**draw["blend"])
    keep = "".join(letter for letter, is_written in zip("rgba", draw.get("write", ())) if not is_written)
    return {"keep": keep, **given}


def of_canvas(canvas: Any, threads: int) -> Readings:
    samples = range(canvas.samples)
    colours = [bytes_of(canvas.colors(s, format="rgba", threads=threads)) for s in samples]
    ids = [memoryview(bytes_of(canvas.ids(s, threads=threads))).cast("I").tolist() for s in samples]
    depths = [memoryview(bytes_of(canvas.depth(s, threads=threads))).cast("H").tolist() for s in samples]
    stored, straight = (bytes_of(canvas.rgba(straight=is_straight, threads=threads)) for is_straight in (False, True))
    return Readings(stored, straight, colours, ids, depths)


def in_c(
    scene: DrawList, batches: list[list[Draw]], size: tuple[int, int], origin: tuple[int, int], threads: int,
    by_ids: bool = False,
) -> Readings:
    """The same canvas by the calls of C."""
    clear = (*cleared_to(scene, by_ids), scene.get("clear_depth", 65535))
    counts = [count_of(batch) for batch in batches]
    try:
        return Readings(*canvas_in_c.drawn(scene, batches, counts, size, origin, threads, clear, by_ids))
    except ValueError as error:
        raise Difference(f"a canvas in C at {origin}: {error}") from error


def of_reference(rules: Any, scene: renderer.Scene) -> Readings:
    """What these rules make of a scene: tests/reference/renderer.py, or a mutant of it."""
    return of_samples(rules, rules.drawn(scene), scene.samples)


def of_samples(rules: Any, samples: list[renderer.Sample], count: int) -> Readings:
    """What is read of these samples, those of a pixel one after another."""
    each = [samples[s::count] for s in range(count)]
    stored, straight = (rules.pixels(samples, count, layout) for layout in ("rgba", "rgba_straight"))
    ids, depths = [list(map(number_of, own)) for own in each], [[sample[3] for sample in own] for own in each]
    return Readings(stored, straight, [rules.pixels(own, 1, "rgba") for own in each], ids, depths)


def number_of(sample: Sequence[int]) -> int:
    """The colour of a sample as a number, as ids are stored."""
    return sample[0] + 256 * sample[1] + 65536 * sample[2]


def with_ids(scene: renderer.Scene) -> renderer.Scene:
    """The scene with each triangle in the colour of its id, on white."""
    triangles = tuple(with_id(triangle, number) for number, triangle in enumerate(scene.triangles))
    return replace(scene, triangles=triangles, clear=(*WHITE, *scene.clear[3:]))


def with_id(triangle: renderer.Triangle, number: int) -> renderer.Triangle:
    """A triangle in the colour of this id."""
    colour = (number % 256, number // 256 % 256, number // 65536, 255)
    # Alpha may be kept.
    state = replace(triangle.state, write=(True, True, True, *triangle.state.write[3:]), blend="none")
    return replace(triangle, vertices=tuple(vertex[:3] + colour for vertex in triangle.vertices), state=state)


def bytes_of(buffer: Any) -> bytes:
    return memoryview(buffer).tobytes()


# ---- Comparisons


def compare_readings(what: str, found: Readings, wanted: Readings) -> int:
    """Returns the number of values that were compared."""
    for name in ("colours", "ids", "depths"):
        for s, (there, here) in enumerate(zip(getattr(wanted, name), getattr(found, name))):
            if there != here:
                raise Difference(f"{what}: other {name} of sample {s}")
    if found.pixels != wanted.pixels:
        raise Difference(f"{what}: other pixels")
    if found.straight != wanted.straight:
        raise Difference(f"{what}: other pixels divided by alpha")
    return len(found.pixels) // 2 + 3 * sum(map(len, found.ids))


def file_of(scene: DrawList, output: str) -> bytes:
    """The pixels of the program's file."""
    listed = {key: value for key, value in scene.items() if key != "clear_alpha"}
    answer = answers.drawn(
        PROGRAM, encode({**listed, "draws": list(map(of_list, scene["draws"])), "output": output}), []
    )
    if answer.status != 0:
        raise Difference(f"the program refuses the list: {answer}")
    return picture_file.decode(answer.output).pixel_data


def of_list(draw: Draw) -> Draw:
    """A draw of a canvas as one of a list, which has no more than four samples and no alpha to be kept."""
    write = {"write": draw["write"][:3]} if "write" in draw else {}
    return {**draw, "sample_mask": draw.get("sample_mask", 15) & 15, **write}


def same(
    what: str, wanted: bytes, found: bytes, size: tuple[int, int], part: tuple[int, int], origin: tuple[int, int],
    unit: int,
) -> int:
    """Compares the pixels of a canvas of the size `part` that lie in the picture of this size. Returns their number."""
    compared = 0
    for j in range(part[1]):
        row = j + origin[1]
        first, end = max(0, -origin[0]), min(part[0], size[0] - origin[0])
        if not 0 <= row < size[1] or first >= end:
            continue
        there = (row * size[0] + first + origin[0]) * unit
        here = (j * part[0] + first) * unit
        length = (end - first) * unit
        if wanted[there : there + length] != found[here : here + length]:
            raise Difference(f"{what}: other values than the program's in row {j} of the canvas at {origin}")
        compared += end - first
    return compared


def is_of_list(scene: DrawList) -> bool:
    """Whether a draw list can say what is drawn."""
    sides = [side for draw in scene["draws"] for side in draw.get("scissor", ())]
    least, greatest = renderer.LIST.edges
    is_blended = all(draw.get("blend", "none") in ("none", "over") for draw in scene["draws"])
    return is_blended and all(least <= side <= greatest for side in sides)


def compare_with_program(scene: DrawList, canvas: Any) -> int:
    """Compares the pixels and the first depths of a canvas of a list with those of the program."""
    size, part = (scene["width"], scene["height"]), (canvas.width, canvas.height)
    depths = b"".join(pair[::-1] for pair in pairs(file_of(scene, "depth")))
    compared = same("colours", file_of(scene, "color"), bytes_of(canvas.rgb()), size, part, canvas.origin, 3)
    return compared + same("depths", depths, bytes_of(canvas.depth(0)), size, part, canvas.origin, 2)


def pairs(data: bytes) -> list[bytes]:
    return [data[k : k + 2] for k in range(0, len(data), 2)]


def compare(scene: DrawList, pick: random.Random) -> int:
    """Compares a list's canvases. Returns the number of values that were compared."""
    read, batches = renderer.read(encode(scene), renderer.CANVAS), split(pick, scene["draws"])
    size = (read.width, read.height)
    window = (pick.randint(1, size[0] + 9), pick.randint(1, size[1] + 9))
    compared = 0
    for part, origin in ((size, (0, 0)), (window, an_origin(pick, scene))):
        seen = replace(read, width=part[0], height=part[1], origin=origin)
        canvas = drawn(scene, batches, part, origin, pick.randint(1, 4))
        found, wanted = of_canvas(canvas, pick.randint(1, 3)), of_reference(renderer, seen)
        compared += compare_readings(f"a canvas at {origin}", found, wanted)
        compared += compare_readings(
            f"a canvas in C at {origin}", in_c(scene, batches, part, origin, pick.randint(1, 9)), wanted
        )
        if read.samples in renderer.LIST.counts and is_of_list(scene):
            compared += compare_with_program(scene, canvas)
        wanted = of_reference(renderer, with_ids(seen))
        found = of_canvas(drawn(scene, batches, part, origin, pick.randint(1, 4), by_ids=True), 1)
        compared += compare_readings(f"ids of a canvas at {origin}", found, wanted)
        found = in_c(scene, batches, part, origin, pick.randint(1, 9), by_ids=True)
        compared += compare_readings(f"ids of a canvas in C at {origin}", found, wanted)
    return compared


def compare_lists(lists: int, seed: int, counts: list[int]) -> int:
    compared = differences = 0
    for number in range(lists):
        has_alpha = random.Random(f"alpha {seed} {number}").random() < 0.6
        scene = generated_lists.canvas_list(seed, number, counts[number % len(counts)], has_alpha)
        try:
            compared += compare(scene, random.Random(f"canvas {seed} {number}"))
        except Difference as difference:
            differences += 1
            print(f"{answers.keep(f'canvas_{number}', encode(scene))}: {difference}")
    print(f"{lists} lists, {compared} values compared, {differences} differences")
    print(f"{lists - differences} passed, {differences} failed", flush=True)
    return 1 if differences or not compared else 0


# ---- The command


def run_with_package(module: str, *built: str, made_by: str = "make compare-canvas") -> int | None:
    """Runs a module again in an environment in which the package is found, over what has to be built, by default the
    program and the library. Returns its status, or `None` if this is that run."""
    if "TRIRAST_CANVAS_COMPARED" in os.environ:
        return None
    if not is_built(*(built or (PROGRAM, SHARED_LIBRARY)), made_by=made_by):
        return 1
    environment = {**os.environ, **PACKAGE_ENVIRONMENT, "TRIRAST_CANVAS_COMPARED": "1"}
    return subprocess.run([sys.executable, "-m", module, *sys.argv[1:]], env=environment, cwd=TOP).returncode


def main() -> int:
    parser = argparse.ArgumentParser(description="Compares canvases with the reference and the program.")
    parser.add_argument("--lists", type=int, default=LISTS, help=f"number of lists (default {LISTS})")
    parser.add_argument("--seed", type=int, default=1, help="of the lists and the batches (default 1)")
    counts = renderer.CANVAS.counts
    parser.add_argument(
        "--samples", type=int, nargs="+", choices=counts, default=counts, help="samples of a pixel, list after list"
    )
    parser.add_argument(
        "--on", choices=RUNNERS, default=canvas_in_c.platform, help="the platform of the program in C (default here)"
    )
    options = parser.parse_args()
    canvas_in_c.platform = options.on
    status = run_with_package("tests.reference.compare_canvas")
    return compare_lists(options.lists, options.seed, list(options.samples)) if status is None else status


if __name__ == "__main__":
    sys.exit(main())
