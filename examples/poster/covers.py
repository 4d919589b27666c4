"""Counts how many polygons of the map cover each sample, and compares the counts with the rings.

    PYTHONPATH=python/src python3 examples/poster/covers.py world.npz [--samples 0 1 2 3] [--rows FIRST END]

The map's polygons are drawn in white with alpha 4 over black, one sample of four a run (`sample_mask`): then the
mean of the four samples is the number of polygons that cover that one, exactly up to 8. Levels 1 and 4 count in red,
2 in green and 3 in blue. What is expected is found by numpy, in whole numbers: the edges that the row of a sample
crosses left of it, of which an odd number is crossed where an odd number of polygons covers it. So a sample that is
left out is wrong, and one that is taken twice too. Exit status 1 if one is. Ponds, of level 4, are covered twice:
they lie on land, of level 1.
"""

from __future__ import annotations

import argparse
import os
import sys
import tempfile
from concurrent.futures import ThreadPoolExecutor
from dataclasses import replace
from typing import Any, List, NamedTuple, Tuple

import numpy as np

from coastlines import LEVELS
from trirast import poster

# The four samples of a pixel, in 1/256 pixel (docs/rules.md).
SAMPLES = ((96, 32), (224, 96), (32, 160), (160, 224))
# The channel in which each level counts.
CHANNELS = (0, 1, 2, 0)
NAMES = ("levels 1 and 4", "level 2", "level 3")
ALPHA = 4
BAND = 256

Array = Any


class Edges(NamedTuple):
    """The edges of all rings but the horizontal ones, each from its upper end to its lower one. `channel` is where
    its level counts."""

    ends: Array
    channel: Array


def edges_of(rings: poster.Polygons, levels: Array) -> Edges:
    """The edges of rings."""
    begins, ends = rings.places[:-1], rings.places[1:]
    following = np.arange(1, len(rings.corners) + 1)
    following[ends - 1] = begins
    p, q = rings.corners, rings.corners[following]
    is_up = (q[:, 1] < p[:, 1])[:, None]
    found = np.concatenate((np.where(is_up, q, p), np.where(is_up, p, q)), 1).astype(np.int64)
    keep = p[:, 1] != q[:, 1]
    channel = np.array(CHANNELS)[np.repeat(levels, ends - begins)[keep] - 1]
    return Edges(found[keep], channel.astype(np.int8))


def crossings(edges: Edges, top: int, height: int, width: int, sample: Tuple[int, int]) -> Array:
    """How many edges are crossed left of a sample of each pixel of some rows: (height, width, 3)."""
    x, y = sample
    near = (edges.ends[:, 3] > top * 256 + y) & (edges.ends[:, 1] <= (top + height - 1) * 256 + y)
    ends, channel = edges.ends[near], edges.channel[near]
    # The rows whose samples lie from the upper end on and above the lower one.
    first = np.maximum(-((y - ends[:, 1]) // 256), top)
    last = np.minimum((ends[:, 3] - 1 - y) // 256, top + height - 1)
    count = np.maximum(last - first + 1, 0)
    which = np.repeat(np.arange(len(ends)), count)
    row = first[which] + np.arange(int(count.sum())) - np.repeat(np.cumsum(count) - count, count)
    ends, channel = ends[which], channel[which]
    # The first column whose sample lies on the edge or right of it: an exact fraction, rounded up.
    down = ends[:, 3] - ends[:, 1]
    across = (ends[:, 0] - x) * down + (256 * row + y - ends[:, 1]) * (ends[:, 2] - ends[:, 0])
    column = np.clip(-(-across // (256 * down)), 0, width)
    found = np.zeros((height, width + 1, 3), np.int16)
    np.add.at(found, (row - top, column, channel), 1)
    return np.cumsum(found, 1, dtype=np.int16)[:, :width]


def counting_scene(sheet: poster.Sheet, rings: poster.Polygons, levels: Array, sample: int) -> poster.Scene:
    """The map's polygons of each level, such that each adds one to the pixels whose sample it covers."""
    draws = [
        {
            "polygons": int((levels == level).sum()), "blend": "over", "sample_mask": 1 << sample,
            "write": [channel == k for k in range(3)],
        }
        for level, channel in zip(LEVELS, CHANNELS)
    ]
    value = {"width": sheet.width, "height": sheet.height, "samples": 4, "draws": draws}
    white = np.full((rings.count, 4), (255, 255, 255, ALPHA), np.uint8)
    return poster.scene_of_polygons(replace(rings, colors=white), value)


def compared(counts: Array, edges: Edges, sample: int, threads: int, rows: Tuple[int, int]) -> Array:
    """By channel: samples inside of an odd number of polygons, wrong ones, and those that are covered
    more than once."""

    def band(top: int) -> Array:
        got = counts[top : min(top + BAND, rows[1])]
        is_inside = crossings(edges, top, len(got), got.shape[1], SAMPLES[sample]) % 2 == 1
        return np.array([fact.sum((0, 1)) for fact in (is_inside, got % 2 != is_inside, got > 1)]).T

    with ThreadPoolExecutor(threads) as pool:
        return sum(pool.map(band, range(*rows, BAND)), np.zeros((3, 3), np.int64))


def count_covers(path: str, samples: List[int], threads: int, rows: Tuple[int, int]) -> int:
    """Prints the counts of each sample. Returns how many samples are wrong."""
    scene = poster.scene_of(path)
    levels = np.load(os.path.splitext(path)[0] + ".rings.npz")["levels"]
    rings = scene.polygons.part(0, len(levels))
    edges = edges_of(rings, levels)
    width, height = scene.sheet.width, scene.sheet.height
    rows = (rows[0], min(rows[1], height))
    wrong = 0
    with tempfile.TemporaryDirectory(dir=os.path.dirname(os.path.abspath(path))) as folder:
        for sample in samples:
            file = os.path.join(folder, "counts.ppm")
            poster.draw_poster(counting_scene(scene.sheet, rings, levels, sample), file, workers=threads)
            counts = np.memmap(file, np.uint8, "r", os.path.getsize(file) - 3 * width * height, (height, width, 3))
            for name, (inside, off, often) in zip(NAMES, compared(counts, edges, sample, threads, rows)):
                print(
                    f"sample {sample}, {name}: {inside} inside, {off} wrong, {often} covered more than once", flush=True
                )
                wrong += int(off)
            del counts
    return wrong


def main() -> int:
    parser = argparse.ArgumentParser(description="Counts the covers of each sample of a map.")
    parser.add_argument("map", metavar="MAP.npz")
    parser.add_argument(
        "--samples", type=int, nargs="+", default=list(range(4)), choices=range(4), help="which of the four"
    )
    parser.add_argument(
        "--rows", type=int, nargs=2, default=(0, 1 << 20), metavar=("FIRST", "END"), help="rows that are compared"
    )
    parser.add_argument("--threads", type=int, default=os.cpu_count() or 1)
    options = parser.parse_args()
    assert len(CHANNELS) == len(LEVELS)
    return 1 if count_covers(options.map, options.samples, options.threads, (options.rows[0], options.rows[1])) else 0


if __name__ == "__main__":
    sys.exit(main())
