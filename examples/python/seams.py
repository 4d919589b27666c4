#!/usr/bin/python3
"""Draws land and water of the world as a partition in one colour at half opacity, by cairo and by trirast,
and counts the seams.

    PYTHONPATH=python/src python3 examples/python/seams.py seams.png

The polygons are neighbours without gaps, so each pixel has to be of that colour, blended once over the white ground:
that is the most frequent one. A pixel of another colour was drawn twice, or not wholly. It needs numpy, and of Debian
python3-cairo, gmt-gshhg-low and python3-netcdf4. After `pip install ./python` no PYTHONPATH is needed.
"""

import argparse
import os
import sys
from typing import Any, List, Tuple

import cairo
import numpy as np

import trirast

sys.path.append(os.path.join(os.path.dirname(os.path.abspath(__file__)), "..", "poster"))
from coastlines import Cells, read_cells  # noqa: E402

# Bins of five degrees are whole pixels, so cairo draws their straight borders without a seam: what is
# left are the coasts.
WIDTH, HEIGHT, RESOLUTION = 288, 144, "i"
COLOR, ALPHA = (0, 20, 60), 128
# Each pixel is shown as three by three; between the halves and below them, in these.
ENLARGED, GAP, LINE = 3, 16, 34


def by_cairo(cells: Cells) -> Any:
    """The pixels by cairo."""
    surface = cairo.ImageSurface(cairo.FORMAT_RGB24, WIDTH, HEIGHT)
    context = cairo.Context(surface)
    context.set_source_rgb(1, 1, 1)
    context.paint()
    context.set_fill_rule(cairo.FILL_RULE_EVEN_ODD)
    context.set_source_rgba(*(each / 255 for each in (*COLOR, ALPHA)))
    rings = [(ring / 256).tolist() for ring in np.split(cells.corners, cells.ring_ends[:-1])]
    for first, end in zip([0, *cells.polygon_ends[:-1].tolist()], cells.polygon_ends.tolist()):
        for ring in rings[first:end]:
            context.new_sub_path()
            for place in ring:
                context.line_to(*place)
            context.close_path()
        context.fill()
    surface.flush()
    return np.ndarray((HEIGHT, WIDTH, 4), np.uint8, surface.get_data())[..., 2::-1].copy()


def by_trirast(cells: Cells, samples: int) -> Any:
    """The pixels by trirast."""
    canvas = trirast.Canvas(WIDTH, HEIGHT, samples)
    canvas.clear((255, 255, 255))
    canvas.draw_polygons(cells.corners, cells.ring_ends, cells.polygon_ends, (*COLOR, ALPHA), blend="over")
    return canvas.rgb()


def seams(pixels: Any) -> int:
    """How many pixels are not of the colour that most have."""
    _, counts = np.unique(pixels.reshape(-1, 3), axis=0, return_counts=True)
    return int(counts.sum() - counts.max())


def show(path: str, halves: List[Tuple[str, Any]]) -> None:
    """Writes a picture of two pictures side by side, enlarged, each with a line below it."""
    width, height = ENLARGED * WIDTH, ENLARGED * HEIGHT
    surface = cairo.ImageSurface(cairo.FORMAT_RGB24, 2 * width + GAP, height + LINE)
    context = cairo.Context(surface)
    context.set_source_rgb(1, 1, 1)
    context.paint()
    context.set_source_rgb(0, 0, 0)
    context.select_font_face("sans-serif")
    context.set_font_size(20)
    for k, (line, _) in enumerate(halves):
        context.move_to(k * (width + GAP) + (width - context.text_extents(line).width) / 2, height + LINE - 10)
        context.show_text(line)
    surface.flush()
    pixels: Any = np.ndarray((height + LINE, 2 * width + GAP, 4), np.uint8, surface.get_data())
    for k, (_, half) in enumerate(halves):
        left = k * (width + GAP)
        pixels[:height, left : left + width, :3] = half[..., ::-1].repeat(ENLARGED, 0).repeat(ENLARGED, 1)
    surface.write_to_png(path)


def main() -> None:
    parser = argparse.ArgumentParser(
        description="Draws a partition of the world in one colour by cairo and by trirast."
    )
    parser.add_argument("picture", help="the PNG file to write")
    path = parser.parse_args().picture
    cells = read_cells(RESOLUTION, WIDTH)
    halves = [
        ("cairo", by_cairo(cells)),
        *((f"trirast, {samples} samples", by_trirast(cells, samples)) for samples in (1, 4, 16)),
    ]
    lines = [f"{name}: {seams(pixels):,} of {WIDTH * HEIGHT:,} pixels differ" for name, pixels in halves]
    print(*lines, sep="\n")
    show(path, [(lines[0], halves[0][1]), (lines[-1], halves[-1][1])])


if __name__ == "__main__":
    main()
