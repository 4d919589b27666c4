"""Compares polygons on canvases with their rule, sample by sample, over blocks that canvases keep in every way.

    python3 -m tests.reference.compare_polygons [--scenes 400] [--seed 1] [--samples 1 2 4 8 16] [--on PLATFORM]

Each scene of tests/reference/polygon_scenes.py is drawn by the Python package, or with --on by a program in C for a
platform, by Wine or qemu; and by tests/reference/polygon_samples.py, which keeps each sample by itself. After each call
the colour, alpha and the depth of every sample are compared, and after the last also the ids and every pixel, with
colours as they are stored and divided by alpha. Exit status 1 on any difference, whose line names the seed, the scene
and the call, or if nothing was compared. tests/reference/test_compare_polygons.py shows which mistakes the scenes find.
Needs numpy and the library (make library), or the one that TRIRAST_LIBRARY names.
"""

from __future__ import annotations

import argparse
import os
import random
import sys
from typing import Any, Sequence

import numpy as np

from python.tests.polygon_rule import flat
from tools.places import SHARED_LIBRARY
from tests.library.runners import RUNNERS
from tests.reference import canvas_in_c, renderer
from tests.reference.compare_canvas import (
    Difference, Readings, compare_readings, named_arguments, of_canvas, run_with_package,
)
from tests.reference.polygon_samples import NEW, Samples
from tests.reference.polygon_scenes import Call, Clear, Picture, Polygons, Scene, Triangles, a_scene

SCENES = 400
# The numbers of samples, scene after scene: mostly those of which blocks are kept as pairs.
COUNTS = (16, 8, 4, 16, 8, 2, 16, 8, 1)


class OfPackage:
    """A canvas of the Python package, on which the calls of a scene are made."""

    def __init__(self, scene: Scene) -> None:
        import trirast

        self.canvas: Any = trirast.Canvas(
            scene.width, scene.height, scene.samples, alpha=scene.has_alpha, origin=scene.origin
        )
        self.threads = scene.threads

    def draw(self, call: Call) -> None:
        """Makes a call. Raises `Difference` if it is refused."""
        import trirast

        try:
            self._draw(call)
        except trirast.Error as error:
            raise Difference(f"refused: {error}") from error

    def _draw(self, call: Call) -> None:
        canvas, threads = self.canvas, self.threads
        if isinstance(call, Clear):
            canvas.clear(call.colour, call.depth, threads=threads)
        elif isinstance(call, Picture):
            pixels = bytes(channel for row in call.pixels for pixel in row for channel in pixel)
            if call.sample is None:
                canvas.load(pixels, threads=threads)
            else:
                canvas.store(pixels, call.sample, threads=threads)
        elif isinstance(call, Triangles):
            canvas.draw(call.vertices, first_id=call.first_id, threads=threads, **named_arguments(call.state))
        else:
            self._draw_polygons(call)

    def _draw_polygons(self, call: Polygons) -> None:
        from trirast import polygon_boxes

        rings = flat(call.polygons)
        # One call of two has the boxes of its polygons. By several threads the package finds them for the others.
        boxes = polygon_boxes(*rings) if len(rings[0]) % 2 else None
        self.canvas.draw_polygons(
            *rings, call.colours, rule=call.rule, depth=call.depths, first_id=call.first_id, boxes=boxes,
            threads=self.threads, **named_arguments(call.state),
        )

    def colours(self, sample: int) -> Any:
        return np.asarray(self.canvas.colors(sample, format="rgba"))

    def depths(self, sample: int) -> Any:
        return np.asarray(self.canvas.depth(sample))

    def readings(self) -> Readings:
        return of_canvas(self.canvas, self.threads)


class InC:
    """A canvas by the calls of C, on which the calls of a scene are made."""

    def __init__(self, scene: Scene) -> None:
        self.scene = scene
        self.first = [
            *canvas_in_c.numbers_of_canvas((scene.width, scene.height), scene.samples, scene.has_alpha, scene.origin),
            *canvas_in_c.numbers_of_call(NEW),
        ]

    def draw(self, call: Call) -> None:
        """Makes a call, and reads the whole canvas. Raises `Difference` if it is refused."""
        numbers, self.first = [*self.first, *canvas_in_c.numbers_of_call(call)], []
        pixels, samples = self.scene.width * self.scene.height, self.scene.samples
        try:
            self.read = Readings(*canvas_in_c.answered(numbers, pixels, samples, self.scene.threads))
        except ValueError as error:
            raise Difference(str(error)) from error

    def colours(self, sample: int) -> Any:
        return np.frombuffer(self.read.colours[sample], np.uint8).reshape(self.scene.height, self.scene.width, 4)

    def depths(self, sample: int) -> Any:
        return np.array(self.read.depths[sample]).reshape(self.scene.height, self.scene.width)

    def readings(self) -> Readings:
        return self.read


def compare_samples(what: str, canvas: OfPackage | InC, samples: Samples) -> int:
    """Compares the colour with alpha and the depth of each sample. Returns the number of values that were compared.
    Raises `Difference` if one differs."""
    for sample in range(samples.frame.samples):
        if not np.array_equal(canvas.colours(sample), samples.colours(sample)):
            raise Difference(f"{what}: other colours of sample {sample}")
        if not np.array_equal(canvas.depths(sample), samples.depths(sample)):
            raise Difference(f"{what}: other depths of sample {sample}")
    return 2 * int(samples.values.size)


def compare(scene: Scene, kind: type[OfPackage] | type[InC]) -> int:
    """Compares all samples after each call, and all that is read of a canvas after the last. Returns the number of
    values that were compared. Raises `Difference` if one differs."""
    canvas, samples, compared = kind(scene), Samples(scene), 0
    for number, call in enumerate(scene.calls):
        what = f"{scene.width} by {scene.height}, {scene.samples} samples, call {number}, {type(call).__name__}"
        try:
            canvas.draw(call)
        except Difference as difference:
            raise Difference(f"{what}: {difference}") from difference
        samples.draw(call)
        compared += compare_samples(what, canvas, samples)
    return compared + compare_readings("after all calls", canvas.readings(), samples.readings())


def seeded_scene(seed: int, number: int, samples: int) -> Scene:
    return a_scene(random.Random(f"polygons {seed} {number}"), samples)


def compare_scenes(
    scenes: int, seed: int, counts: Sequence[int], kind: type[OfPackage] | type[InC] = OfPackage
) -> int:
    compared = differences = 0
    for number in range(scenes):
        scene = seeded_scene(seed, number, counts[number % len(counts)])
        try:
            compared += compare(scene, kind)
        except Difference as difference:
            differences += 1
            print(f"seed {seed}, scene {number}: {difference}", flush=True)
    print(f"{scenes} scenes, {compared} values compared, {differences} differences")
    print(f"{scenes - differences} passed, {differences} failed", flush=True)
    return 1 if differences or not compared else 0


def main() -> int:
    parser = argparse.ArgumentParser(description="Compares polygons on canvases with their rule.")
    parser.add_argument("--scenes", type=int, default=SCENES, help=f"number of scenes (default {SCENES})")
    parser.add_argument("--seed", type=int, default=1, help="of the scenes (default 1)")
    parser.add_argument(
        "--samples", type=int, nargs="+", choices=renderer.CANVAS.counts, default=COUNTS,
        help="samples of a pixel, scene after scene",
    )
    parser.add_argument("--on", choices=RUNNERS, help="the platform of a program in C (default the Python package)")
    options = parser.parse_args()
    if options.on:
        canvas_in_c.platform = options.on
        return compare_scenes(options.scenes, options.seed, list(options.samples), InC)
    library = os.environ.get("TRIRAST_LIBRARY") or SHARED_LIBRARY
    status = run_with_package("tests.reference.compare_polygons", library, made_by="make library")
    return compare_scenes(options.scenes, options.seed, list(options.samples)) if status is None else status


if __name__ == "__main__":
    sys.exit(main())
