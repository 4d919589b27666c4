#!/usr/bin/python3
"""A map whose cells are coloured by a number, half transparent and without seams, and their areas by
ids, summed exactly.

    PYTHONPATH=python/src python3 examples/python/choropleth.py land.png
    PYTHONPATH=python/src python3 examples/python/choropleth.py countries.png --map countries.geojson --style style.json

Without a map the cells are land and sea of GSHHG in squares of ten degrees, and land is coloured by its share of its
square: it needs of Debian gmt-gshhg-low and python3-netcdf4. A map and its style are as for `python3 -m trirast.poster`
(docs/maps.md), so a file of countries and a property of theirs will do. It needs numpy, and with 16 samples some 230
bytes a pixel. After `pip install ./python` no PYTHONPATH is needed.
"""

import argparse
import os
import sys
from dataclasses import replace
from typing import Any, Optional, Tuple

import numpy as np

import trirast
from trirast import poster

WIDTH, HEIGHT, SAMPLES = 1440, 720, 16
GROUND, SEA, ALPHA = (255, 255, 255), (120, 170, 210), 128
# From no land to land alone.
FEW, MANY = np.array((250, 220, 130)), np.array((150, 20, 60))
# The id of a sample that no polygon covers: that of the white to which a canvas is cleared.
NONE = 0xFFFFFF


def canvas_of(sheet: poster.Sheet, color: Tuple[int, int, int]) -> trirast.Canvas:
    canvas = trirast.Canvas(sheet.width, sheet.height, sheet.samples)
    canvas.clear(color)
    return canvas


def areas_of(sheet: poster.Sheet, polygons: poster.Polygons) -> Tuple[Any, int]:
    """The area of each polygon in samples, and that of no polygon: each sample has the id of the polygon that was
    drawn there last."""
    canvas = canvas_of(sheet, GROUND)
    canvas.draw_polygons(polygons, first_id=0)
    counts = np.zeros(NONE + 1, np.int64)
    for sample in range(sheet.samples):
        counts += np.bincount(canvas.ids(sample).ravel(), minlength=NONE + 1)
    return counts[: polygons.count], int(counts[NONE])


def covers_of(sheet: poster.Sheet, polygons: poster.Polygons) -> Any:
    """How many samples are covered by no polygon, by one, by two and so on: each adds 1 to the red of its samples."""
    canvas = canvas_of(sheet, (0, 0, 0))
    canvas.draw_polygons(polygons, colors=(1, 0, 0, 255), blend="add")
    return sum(np.bincount(canvas.colors(sample)[..., 0].ravel(), minlength=256) for sample in range(sheet.samples))


def land_by_squares() -> Tuple[poster.Sheet, poster.Polygons]:
    """Land and sea in squares of ten degrees, coloured by the areas that are counted first."""
    sys.path.append(os.path.join(os.path.dirname(os.path.abspath(__file__)), "..", "poster"))
    from coastlines import read_cells

    cells = read_cells("l", WIDTH)
    sheet = poster.Sheet(WIDTH, HEIGHT, SAMPLES, GROUND)
    polygons = poster.Polygons(
        cells.corners, cells.ring_ends, cells.polygon_ends, np.zeros((len(cells.levels), 4), np.uint8)
    )
    areas, _ = areas_of(sheet, polygons)
    # A square begins with its sea.
    square = np.cumsum(cells.levels == 0) - 1
    is_land = cells.levels % 2 == 1
    share = np.bincount(square, areas * is_land) / np.maximum(np.bincount(square, areas), 1)
    colors = np.where(is_land[:, None], FEW + share[square][:, None] * (MANY - FEW), SEA)
    alphas = np.full((len(colors), 1), ALPHA)
    return sheet, replace(polygons, colors=np.concatenate((np.rint(colors), alphas), 1).astype(np.uint8))


def given_map(path: str, style: Optional[str]) -> Tuple[poster.Sheet, poster.Polygons]:
    """The polygons of a map, as a poster draws them."""
    scene = poster.scene_of(path, style)
    return scene.sheet, scene.polygons


def main() -> None:
    parser = argparse.ArgumentParser(
        description="Draws a map whose cells are coloured by a number, and counts their areas."
    )
    parser.add_argument("picture", help="the PNG or PPM file to write")
    parser.add_argument("--map", metavar="MAP.geojson", help="polygons of GeoJSON, at most 4096 pixels a side")
    parser.add_argument("--style", metavar="STYLE.json", help="their window, and their colours by a property")
    options = parser.parse_args()
    if not options.picture.lower().endswith((".png", ".ppm")):
        parser.error("the picture's name has to end in .png or .ppm")
    try:
        draw(options)
    except (OSError, trirast.Error, poster.PosterError) as error:
        sys.exit(f"choropleth: {error}")


def draw(options: argparse.Namespace) -> None:
    """Draws the picture and prints what was counted."""
    sheet, polygons = land_by_squares() if options.map is None else given_map(options.map, options.style)
    canvas = canvas_of(sheet, sheet.clear)
    canvas.draw_polygons(polygons, blend="over", threads=os.cpu_count() or 1)
    canvas.save(options.picture)
    areas, rest = areas_of(sheet, polygons)
    covers = covers_of(sheet, polygons)
    whole = sheet.width * sheet.height * sheet.samples
    print(
        f"{polygons.count} polygons have {areas.sum():,} samples, and {rest:,} have no polygon: "
        f"together {areas.sum() + rest:,} of {whole:,}"
    )
    print(f"{covers[0]:,} samples are in no polygon, {covers[1]:,} in one, {covers[2:].sum():,} in several")
    largest = np.argsort(-areas, kind="stable")[:3].tolist()
    print("the largest, in pixels: " + ", ".join(f"feature {k} {areas[k] / sheet.samples:,.0f}" for k in largest))


if __name__ == "__main__":
    main()
