"""A map of the world for `python3 -m trirast.poster`: land, lakes, islands and ponds, and a graticule of thin lines.

    PYTHONPATH=python/src python3 examples/poster/make_map.py world.npz [--width 32768] [--resolution f]
    PYTHONPATH=python/src python3 -m trirast.poster world.npz -o world.png

It needs of Debian `gmt-gshhg-full`, `python3-netcdf4` and `python3-numpy`. The map is a plate carree: x is the
longitude and y the latitude. Each ring is a polygon, drawn over those of the level before. Beside the map
world.rings.npz has the level of each, for covers.py.
"""

from __future__ import annotations

import argparse
import os
from typing import Any, List, Tuple

import numpy as np

from coastlines import FARTHEST, LEVELS, read_rings
from trirast import poster

SEA = [118, 164, 206]
COLORS = {1: (222, 214, 190), 2: (150, 190, 222), 3: (208, 198, 168), 4: (128, 172, 212)}
# The graticule: a line every 10 degrees, one and a half pixels wide, blended.
DEGREES, HALF_WIDTH, LINE = 10, 192, (40, 60, 90, 110)


def land_and_water(resolution: str, width: int) -> Tuple[poster.Polygons, Any]:
    """A polygon for each ring, level after level, and these levels."""
    rings = read_rings(resolution, width)
    ends = np.arange(1, len(rings.lengths) + 1, dtype=np.uint32)
    colors = np.array([(*COLORS[level], 255) for level in LEVELS], np.uint8)[rings.levels - LEVELS[0]]
    polygons = poster.Polygons(rings.corners, np.cumsum(rings.lengths, dtype=np.uint32), ends, colors)
    order = np.argsort(rings.levels, kind="stable")
    return polygons.take(order), rings.levels[order]


def graticule(width: int, height: int) -> poster.Polygons:
    """The lines, each a polygon."""
    places: List[Tuple[int, int]] = []
    for degrees in range(DEGREES, 360, DEGREES):
        x = round(256 * width * degrees / 360)
        places += quad(x - HALF_WIDTH, 0, x + HALF_WIDTH, 256 * height)
    for degrees in range(DEGREES, 180, DEGREES):
        y = round(256 * height * degrees / 180)
        places += quad(0, y - HALF_WIDTH, 256 * width, y + HALF_WIDTH)
    corners = np.minimum(np.array(places, np.int32), FARTHEST)
    ends = np.arange(1, len(corners) // 4 + 1, dtype=np.uint32)
    return poster.Polygons(corners, 4 * ends, ends, np.array([LINE] * len(ends), np.uint8))


def quad(left: int, top: int, right: int, bottom: int) -> List[Tuple[int, int]]:
    return [(left, top), (right, top), (right, bottom), (left, bottom)]


def make_map(path: str, width: int, resolution: str) -> None:
    height = width // 2
    (land, levels), lines = land_and_water(resolution, width), graticule(width, height)
    draws = [{"polygons": land.count}, {"polygons": lines.count, "blend": "over"}]
    poster.save_polygons(
        path, land.followed_by(lines), {"width": width, "height": height, "samples": 4, "clear": SEA, "draws": draws}
    )
    np.savez(os.path.splitext(path)[0] + ".rings.npz", levels=levels)
    print(f"{land.count} rings, {len(land.corners)} corners")


def main() -> None:
    parser = argparse.ArgumentParser(description="Makes a map of the world's coastlines for a poster.")
    parser.add_argument("out", metavar="OUT.npz")
    parser.add_argument("--width", type=int, default=32768, help="pixels; it is half as high (default 32768)")
    parser.add_argument("--resolution", choices="clihf", default="f", help="of GSHHG, from crude to full (default f)")
    options = parser.parse_args()
    make_map(options.out, options.width, options.resolution)


if __name__ == "__main__":
    main()
