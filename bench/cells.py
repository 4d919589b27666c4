"""Counts how many cells of a partition cover each sample, for each number of samples of a pixel.

    PYTHONPATH=python/src python3 -m bench.cells [--scenes partition world ..]

Each cell adds 1 to the samples that it covers, so each sample has 1 then: one with 0 is lost, and one with more is
taken twice. Exit status 1 if there is such a sample. The partitions are those of `bench.polygons`, drawn by four
threads. It needs `make library` and numpy; the worlds also gmt-gshhg-high (or -full) and python3-netcdf4, and are left
out without them.
"""

from __future__ import annotations

import argparse
import sys

import numpy as np

from bench import report
from bench.options import add_scenes
from bench.polygons import EVEN_ODD, PARTITIONS, SCENES, Scene

THREADS = 4
SAMPLES = (1, 2, 4, 8, 16)


def counted(scene: Scene, samples: int) -> tuple[int, int]:
    """How many samples no cell covers, and how many more than one does."""
    from trirast import Blend, Canvas

    colors = np.full((len(scene.polygon_ends), 4), 1, np.uint8)
    canvas = Canvas(*scene.size, samples=samples, origin=scene.origin)
    canvas.clear((0, 0, 0, 0), threads=THREADS)
    canvas.draw_polygons(
        scene.corners.astype(np.int32), scene.ring_ends, scene.polygon_ends, colors,
        rule="even-odd" if scene.rule == EVEN_ODD else "nonzero", blend=Blend("one", "one"), depth_test="always",
        depth_write=False, threads=THREADS,
    )
    covers = [np.asarray(canvas.colors(s))[..., 0] for s in range(samples)]
    return sum(int((each == 0).sum()) for each in covers), sum(int((each > 1).sum()) for each in covers)


def main() -> int:
    parser = argparse.ArgumentParser(description="Counts how many cells of a partition cover each sample.")
    add_scenes(parser, PARTITIONS)
    options = parser.parse_args()
    wrong = 0
    report.print_head(("Partition", "Samples of a pixel", "Samples", "Lost", "Taken twice"))
    for name in options.scenes:
        try:
            scene = SCENES[name]()
        except ImportError as error:
            print(f"{name} is left out: {error}", file=sys.stderr)
            continue
        for samples in SAMPLES:
            lost, twice = counted(scene, samples)
            wrong += lost + twice
            width, height = scene.size
            print(f"| {name} | {samples} | {width * height * samples:,} | {lost:,} | {twice:,} |", flush=True)
    return 1 if wrong else 0


if __name__ == "__main__":
    sys.exit(main())
