"""Counts the pixels that show a seam between neighbouring faces by matplotlib's Agg and by trirast.matplotlib,
and prints one table.

    PYTHONPATH=python/src /usr/bin/python3 -m bench.seams [--pictures FOLDER]

Ten plots, in one colour at two alphas. A pixel inside of the union of the faces shows a seam if it has another colour
than most have. Agg draws four of these plots without antialiasing by default, which hides seams of opaque faces and
leaves steps; "smooth" are its seams with antialiasing. In a second drawing each face has a colour of its own: "away" is
the greatest difference between both backends at pixels more than 1.5 pixels from an edge.
"""

from __future__ import annotations

import argparse
from pathlib import Path
from typing import Any

import numpy as np
from matplotlib.backends.backend_agg import FigureCanvasAgg

from bench import report
from python.tests import neighbours
from trirast.matplotlib import FigureCanvasTrirast

ALPHAS = (0.5, 1.0)
COLUMNS = (
    "plot", "0.5: Agg", "smooth", "trirast", "1: Agg", "smooth", "trirast", "pixels inside", "away, 0.5", "away, 1"
)
# The plots that matplotlib draws without antialiasing by default.
OFF = (neighbours.contourf, neighbours.pcolormesh, neighbours.pcolor, neighbours.tripcolor)


def smoothly(plot: neighbours.Plot, alpha: float) -> int:
    """Agg's seams where all collections are antialiased."""

    def smooth(axes: Any, palette: neighbours.Palette) -> None:
        plot(axes, palette)
        for collection in axes.collections:
            collection.set_antialiased(True)
            # Of a QuadMesh, which has a setting of its own.
            collection._antialiased = True

    return int(neighbours.seams(smooth if plot in OFF else plot, FigureCanvasAgg, alpha).sum())


def away(plot: neighbours.Plot, alpha: float) -> int:
    far = ~neighbours.near_edges(plot, FigureCanvasAgg)
    agg, ours = (
        neighbours.drawn(lambda axes: plot(axes, neighbours.many_colors(alpha)), each)
        for each in (FigureCanvasAgg, FigureCanvasTrirast)
    )
    return int(np.abs(agg.astype(int) - ours)[far].max())


def row_of(name: str, plot: neighbours.Plot) -> str:
    cells = [name]
    for alpha in ALPHAS:
        by_agg, ours = (
            int(neighbours.seams(plot, each, alpha).sum()) for each in (FigureCanvasAgg, FigureCanvasTrirast)
        )
        cells += [f"{by_agg:,}", f"{smoothly(plot, alpha):,}", f"{ours:,}"]
    within = neighbours.inside(plot, FigureCanvasAgg, 1.0)
    cells += [f"{int(within.sum()):,}", *(str(away(plot, alpha)) for alpha in ALPHAS)]
    return report.row(cells)


def save(folder: Path, name: str, plot: Any) -> None:
    from PIL import Image

    folder.mkdir(parents=True, exist_ok=True)
    for alpha in ALPHAS:
        draw = lambda axes: plot(axes, neighbours.many_colors(alpha))  # noqa: E731
        pictures = [neighbours.drawn(draw, each) for each in (FigureCanvasAgg, FigureCanvasTrirast)]
        Image.fromarray(np.concatenate(pictures, 1)).save(folder / f"{name.split(',')[0]}_{alpha}.png")


def main() -> None:
    parser = argparse.ArgumentParser(description="Counts seams between neighbouring faces.")
    parser.add_argument("--pictures", type=Path, help="a folder for pictures of both backends side by side")
    options = parser.parse_args()
    report.print_head(COLUMNS)
    for name, plot in neighbours.PLOTS.items():
        print(row_of(name, plot), flush=True)
        if options.pictures:
            save(options.pictures, name, plot)


if __name__ == "__main__":
    main()
