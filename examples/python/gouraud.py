#!/usr/bin/python3
"""Draws half transparent meshes by matplotlib's Agg and by trirast.matplotlib side by side, and counts the
pixels of their seams.

    PYTHONPATH=python/src python3 examples/python/gouraud.py gouraud.png

Each mesh has one colour and covers all of its axes, so each pixel of the axes has to be of that colour, blended once
over the white ground. That is the most frequent colour: a pixel of another one was drawn twice, or not wholly. Pixels
of the whole plot are counted, and the picture shows a part of it enlarged. It needs numpy and matplotlib
(python3-matplotlib in Debian). After `pip install ./python` no PYTHONPATH is needed.
"""

import argparse
from typing import Any, Callable, Dict, List, Tuple

import numpy as np
from matplotlib.backends.backend_agg import FigureCanvasAgg
from matplotlib.figure import Figure
from matplotlib.tri import Triangulation

from trirast.matplotlib import FigureCanvasTrirast

CANVASES = (("Agg", FigureCanvasAgg), ("trirast", FigureCanvasTrirast))
ALPHA = 0.5
COLORS = "GnBu"
# The axes, as parts of a figure of 640 by 480 pixels, and the pixels inside of them that are counted.
AXES = (0.1, 0.1, 0.8, 0.8)
INSIDE = (slice(60, -60), slice(80, -80))
# What the picture shows of them, four times as large.
SHOWN = (slice(150, 250), slice(200, 350))
SHOWN_MESH = "tripcolor"

Draws = Callable[[Any], None]


def points() -> Tuple[Any, Any]:
    """Points at random and the corners of the unit square."""
    x, y = np.random.default_rng(1).random((2, 3000))
    x[:4], y[:4] = (0, 1, 0, 1), (0, 0, 1, 1)
    return x, y


def warped() -> Tuple[Any, Any]:
    """A grid that is bent."""
    x, y = np.meshgrid(np.linspace(0, 1, 60), np.linspace(0, 1, 50))
    return x + 0.03 * np.sin(7 * y), y + 0.03 * np.sin(5 * x)


def one_color(x: Any) -> Any:
    """A value for each point, which is the same everywhere."""
    return np.full_like(x, 0.7)


def tripcolor(axes: Any) -> None:
    x, y = points()
    axes.tripcolor(Triangulation(x, y), one_color(x), shading="gouraud", vmin=0, vmax=1, alpha=ALPHA, cmap=COLORS)


def pcolormesh(axes: Any) -> None:
    x, y = warped()
    axes.pcolormesh(x, y, one_color(x), shading="gouraud", vmin=0, vmax=1, alpha=ALPHA, cmap=COLORS)


MESHES: Dict[str, Draws] = {"tripcolor": tripcolor, "pcolormesh": pcolormesh}


def pixels_of(draw: Draws, canvas_class: Any) -> Any:
    """The pixels of a figure whose axes a mesh covers, of the shape (480, 640, 4)."""
    figure = Figure(figsize=(6.4, 4.8), dpi=100)
    canvas = canvas_class(figure)
    axes = figure.add_axes(AXES, xlim=(0.05, 0.95), ylim=(0.05, 0.95))
    axes.set_axis_off()
    draw(axes)
    canvas.draw()
    return np.asarray(canvas.buffer_rgba()).copy()


def seams(pixels: Any) -> Tuple[int, int]:
    """How many pixels inside of the axes are not of the colour that most have, and how many there are."""
    inside = pixels[INSIDE][..., :3].reshape(-1, 3)
    colors, counts = np.unique(inside, axis=0, return_counts=True)
    return len(inside) - int(counts.max()), len(inside)


def show(path: str, halves: List[Tuple[str, Any]]) -> None:
    """Writes a picture of two pictures side by side, each with a line below it."""
    figure = Figure(figsize=(12, 4.3), dpi=100)
    FigureCanvasAgg(figure)
    for k, (line, pixels) in enumerate(halves):
        axes = figure.add_axes((k * 0.505, 0.07, 0.495, 0.93))
        axes.imshow(pixels[SHOWN], interpolation="nearest")
        axes.set_axis_off()
        figure.text(k * 0.505 + 0.2475, 0.022, line, fontsize=13, ha="center")
    figure.savefig(path)


def main() -> None:
    parser = argparse.ArgumentParser(description="Draws half transparent meshes by Agg and by trirast.matplotlib.")
    parser.add_argument("picture", help="the PNG file to write, of the first mesh")
    path = parser.parse_args().picture
    halves = []
    for mesh, draw in MESHES.items():
        for name, canvas_class in CANVASES:
            pixels = pixels_of(draw, canvas_class)
            wrong, count = seams(pixels)
            print(f"{name}: {mesh}: {wrong} of {count} pixels are not of the most frequent colour")
            if mesh == SHOWN_MESH:
                halves.append((f"{name}: {wrong:,} of {count:,} pixels of the whole plot differ", pixels))
    show(path, halves)


if __name__ == "__main__":
    main()
