"""Times polygons on a canvas beside cairo, AGG and FreeType, and counts wrong pixels along shared edges.

    python3 -m bench.polygons [--scenes partition buildings ..] [--threads 1 4] [--turns 4]

A frame is clearing, all polygons and pixels in memory, and the boxes of polygons where some are left out by threads or
beside a window. The frames of all renderers take turns in one process; the least of each counts.
The others blend by the covered area of a pixel, with 256 levels at an edge. 4 and 16 samples have 5 and 17.
FreeType has no figure for a scene with a polygon of more than 32,767 corners, which it cannot draw.
Seams are pixels that are not white after all polygons of a partition were drawn in white over a dark ground.

It needs `make library`, numpy, g++, and of Debian libcairo2-dev, libagg-dev and libfreetype-dev. The worlds
also need gmt-gshhg-high (or -full) and python3-netcdf4, and are left out without them. Exit status 2 if the
program cannot be built or ends with an error.
"""

from __future__ import annotations

import argparse
import os
import subprocess
import sys
import tempfile
from typing import Any, Callable, NamedTuple

import numpy as np

from bench import report
from bench.options import add_scenes
from tools.places import BENCH_OUT, EXAMPLES, INCLUDE, LEVEL, SHARED_LIBRARY, TOP, is_built

SIDE = 2048
UNIT = 256
EVEN_ODD, NONZERO = 0, 1
RENDERERS = ("cairo", "agg", "freetype", "4", "16")
TURN = 2 * np.pi
# Of land and water, by level.
LEVEL_COLORS = np.array(
    [(144, 184, 216, 255), (160, 192, 128, 255), (144, 184, 216, 255), (176, 208, 144, 255), (144, 184, 216, 255)]
)

Array = Any


class Scene(NamedTuple):
    """Polygons on a window of the screen."""

    size: tuple[int, int]
    origin: tuple[int, int]
    rule: int
    corners: Array
    ring_ends: Array
    polygon_ends: Array
    colors: Array

    def write(self, path: str) -> None:
        """Writes it as polygons.cpp reads it."""
        with open(path, "wb") as file:
            counts = len(self.corners), len(self.ring_ends), len(self.polygon_ends)
            np.array([*self.size, *self.origin, self.rule, *counts], np.int32).tofile(file)
            self.corners.astype(np.int32).tofile(file)
            for ends in (self.ring_ends, self.polygon_ends):
                ends.astype(np.uint32).tofile(file)
            self.colors.astype(np.uint8).tofile(file)


def scene_of(polygons: list[list[Array]], colors: Array, rule: int = EVEN_ODD) -> Scene:
    """A scene of rings in pixels."""
    rings = [ring for polygon in polygons for ring in polygon]
    corners = np.rint(UNIT * np.concatenate(rings))
    ends = np.cumsum([len(ring) for ring in rings]), np.cumsum([len(polygon) for polygon in polygons])
    return Scene((SIDE, SIDE), (0, 0), rule, corners, *ends, colors)


def random_colors(pick: Any, count: int, alphas: Array) -> Array:
    return np.concatenate((pick.integers(0, 256, (count, 3)), np.resize(alphas, count)[:, None]), 1)


def partition() -> Scene:
    """A grid of triangles with moved corners, joined to 3,000 regions."""
    pick, count, regions = np.random.default_rng(7), 160, 3000
    cell = SIDE / (count - 2)
    y, x = np.mgrid[: count + 1, : count + 1]
    points = ((np.stack((x, y), 2) - 1 + pick.uniform(-0.2, 0.2, (count + 1, count + 1, 2))) * cell).reshape(-1, 2)
    a = (np.arange(count)[:, None] * (count + 1) + np.arange(count)).ravel()
    b, d, e = a + 1, a + count + 1, a + count + 2
    is_falling = pick.integers(0, 2, len(a)).astype(bool)[:, None]
    halves = np.where(is_falling, np.stack((a, b, e, a, e, d), 1), np.stack((a, b, d, b, e, d), 1)).reshape(-1, 3)
    seeds = pick.uniform(-20, SIDE + 22, (regions, 2))
    middles = points[halves[:, 0]]
    labels = np.concatenate([((part[:, None] - seeds) ** 2).sum(2).argmin(1) for part in np.array_split(middles, 64)])
    outlines = [rings_around(halves[labels == region]) for region in np.unique(labels)]
    return scene_of(
        [[points[ring] for ring in rings] for rings in outlines], random_colors(pick, len(outlines), np.array([255]))
    )


def rings_around(triangles: Array) -> list[list[int]]:
    """The rings of edges that only one of some triangles has."""
    edges = {(int(t[k]), int(t[k - 2])) for t in triangles for k in range(3)}
    follow: dict[int, list[int]] = {}
    for p, q in sorted(edges):
        if (q, p) not in edges:
            follow.setdefault(p, []).append(q)
    rings = []
    while follow:
        start = here = next(iter(follow))
        ring = []
        while here in follow:
            ring.append(here)
            following = follow[here].pop()
            if not follow[here]:
                del follow[here]
            here = following
            if here == start:
                break
        rings.append(ring)
    return rings


def buildings() -> Scene:
    """100,000 turned rectangles and shapes of an L, a quarter of them blended."""
    pick, count = np.random.default_rng(8), 100_000
    place, size, turn = pick.uniform(0, SIDE, (count, 2)), pick.uniform(3, 12, (count, 2)), pick.uniform(0, 1.6, count)
    box = np.array([(0, 0), (1, 0), (1, 1), (0, 1)])
    bent = np.array([(0, 0), (1, 0), (1, 1 / 2), (1 / 3, 1 / 2), (1 / 3, 1), (0, 1)])
    turns = np.stack((np.cos(turn), np.sin(turn), -np.sin(turn), np.cos(turn)), 1).reshape(-1, 2, 2)
    rings = [[place[k] + ((box if k % 2 else bent) * size[k]) @ turns[k]] for k in range(count)]
    return scene_of(rings, random_colors(pick, count, np.array([160, 255, 255, 255])))


def coast() -> Scene:
    """One ring of 524,288 corners: the middles of its edges were moved, again and again."""
    pick = np.random.default_rng(9)
    angles = np.arange(8) * TURN / 8
    ring = SIDE / 2 + 800 * np.stack((np.cos(angles), np.sin(angles)), 1)
    while len(ring) < 500_000:
        across = np.roll(ring, -1, 0) - ring
        move = pick.uniform(-0.3, 0.3, (len(ring), 1))
        middles = ring + across / 2 + move * np.stack((-across[:, 1], across[:, 0]), 1)
        ring = np.stack((ring, middles), 1).reshape(-1, 2)
    return scene_of([[ring]], np.array([(96, 160, 64, 255)]))


def glyphs() -> Scene:
    """20,000 shapes like letters, by the nonzero rule."""
    pick = np.random.default_rng(10)
    angles = np.arange(24) * TURN / 24
    circle = np.stack((np.cos(angles), np.sin(angles)), 1)

    def bar(left: float, top: float, width: float, height: float) -> Array:
        return np.array([(left, top), (left + width, top), (left + width, top + height), (left, top + height)])

    def letter(kind: int) -> list[Array]:
        width, height, stroke = pick.uniform((3, 4, 0.8), (5, 7, 1.8))
        oval = [circle * (width, 0.6 * height), circle[::-1] * (width - stroke, 0.6 * height - stroke)]
        return [
            oval, [*oval, bar(-width, -height, stroke, 1.6 * height)],
            [
                bar(-width, -height, stroke, 2 * height), bar(width - stroke, -height, stroke, 2 * height),
                bar(-width, -stroke / 2, 2 * width, stroke),
            ],
            [bar(-stroke / 2, -height, stroke, 2 * height), bar(-width, -height, 2 * width, stroke)],
        ][kind]

    polygons = [[ring + (12.8 * (k % 160) + 6, 16.3 * (k // 160) + 8) for ring in letter(k % 4)] for k in range(20_000)]
    return scene_of(polygons, np.array([(16, 16, 16, 255)] * len(polygons)), NONZERO)


def stars() -> Scene:
    """400 stars that cross themselves, by the nonzero rule, half of them blended."""
    pick = np.random.default_rng(11)
    polygons = []
    for k in range(400):
        corners = 5 + 2 * (k % 6)
        angles = pick.uniform(0, 1) + np.arange(corners) * (corners // 2) * TURN / corners
        star = pick.uniform(20, 250) * np.stack((np.cos(angles), np.sin(angles)), 1)
        polygons.append([pick.uniform(0, SIDE, 2) + star])
    return scene_of(polygons, random_colors(pick, 400, np.array([128, 255])), NONZERO)


def world(width: int, size: tuple[int, int], origin: tuple[int, int]) -> Scene:
    """A window of the coastlines of GSHHG in high resolution, as a partition of land and water."""
    sys.path.append(os.path.join(EXAMPLES, "poster"))
    import coastlines

    cells = coastlines.read_cells("h", width)
    return Scene(size, origin, EVEN_ODD, cells.corners, cells.ring_ends, cells.polygon_ends, LEVEL_COLORS[cells.levels])


SCENES: dict[str, Callable[[], Scene]] = {
    "partition": partition, "buildings": buildings, "coast": coast, "glyphs": glyphs, "stars": stars,
    "world": lambda: world(4096, (4096, 2048), (0, 0)),
    "world, a window": lambda: world(32768, (SIDE, SIDE), (15360, 2560)),
}
PARTITIONS = ("partition", "world", "world, a window")


def built() -> str:
    """Compiles the program over the shared library. Returns its path."""
    os.makedirs(BENCH_OUT, exist_ok=True)
    path = os.path.join(BENCH_OUT, "polygons")
    wanted = ("pkg-config", "--cflags", "--libs", "cairo", "libagg", "freetype2")
    found = subprocess.run(wanted, stdout=subprocess.PIPE, check=True, text=True).stdout.split()
    flags = [
        "-std=c++17", "-O3", f"-march={LEVEL}", "-Wall", "-Wextra", "-I", INCLUDE,
        os.path.join(TOP, "bench", "polygons.cpp"), "-o", path,
    ]
    folder = os.path.dirname(os.environ.get("TRIRAST_LIBRARY", SHARED_LIBRARY))
    subprocess.run(["g++", *flags, "-L", folder, "-ltrirast", f"-Wl,-rpath,{folder}", *found, "-pthread"], check=True)
    return path


def lines_of(*command: str) -> dict[str, list[float]]:
    """What the program prints, by renderer."""
    output = subprocess.run(command, stdout=subprocess.PIPE, check=True, text=True).stdout
    return {name: [float(number) for number in numbers] for name, *numbers in map(str.split, output.splitlines())}


def print_times(program: str, path: str, name: str, threads: int, turns: int) -> None:
    """Prints a row: cairo's milliseconds, and the others' times by cairo's, of the wall and of the processor."""
    found = lines_of(program, "time", path, str(threads), str(turns))
    wall, processor = found["cairo"]
    ratios = [
        f"{found[each][0] / wall:.2f}, {found[each][1] / processor:.2f}" if each in found else "-"
        for each in RENDERERS[1:]
    ]
    print(
        "| " + " | ".join([name, str(threads), f"{1e3 * wall:.0f}, {1e3 * processor:.0f}", *ratios]) + " |", flush=True
    )


def print_tables(options: argparse.Namespace, folder: str) -> None:
    program = built()
    print(f"{report.machine()}\n")
    report.print_head(
        (
            "Scene", "Threads", "cairo: ms of the wall, of the processor", "AGG by cairo",
            "FreeType by cairo", "4 samples by cairo", "16 samples by cairo",
        )
    )
    paths = {}
    for name in options.scenes:
        try:
            scene = SCENES[name]()
        except ImportError as error:
            print(f"{name} is left out: {error}", file=sys.stderr)
            continue
        paths[name] = os.path.join(folder, name)
        scene.write(paths[name])
        for threads in options.threads:
            print_times(program, paths[name], name, threads, options.turns)
    print()
    report.print_head(
        ("Partition", "Pixels", "Wrong by cairo", "by AGG", "by FreeType", "by 4 samples", "by 16 samples")
    )
    for name in [name for name in PARTITIONS if name in paths]:
        width, height = np.fromfile(paths[name], np.int32, 2)
        counts = lines_of(program, "seams", paths[name])
        wrong = [f"{counts[each][0]:,.0f}" if each in counts else "-" for each in RENDERERS]
        print(report.row([name, f"{width * height:,}", *wrong]), flush=True)
    report.print_end()


def main() -> int:
    parser = argparse.ArgumentParser(description="Times polygons beside cairo, AGG and FreeType.")
    add_scenes(parser, tuple(SCENES))
    parser.add_argument("--threads", type=int, nargs="+", default=(1, 4), help="default 1 4")
    parser.add_argument("--turns", type=int, default=4, help="frames of which the least counts (default 4)")
    options = parser.parse_args()
    if "TRIRAST_LIBRARY" not in os.environ and not is_built(SHARED_LIBRARY, made_by="make library"):
        return 2
    try:
        with tempfile.TemporaryDirectory() as folder:
            print_tables(options, folder)
    except (subprocess.CalledProcessError, OSError) as error:
        return report.failed("polygons", error)
    return 0


if __name__ == "__main__":
    sys.exit(main())
