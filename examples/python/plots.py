#!/usr/bin/python3
"""Draws translucent plots with matplotlib's Agg and with trirast.matplotlib, and counts the pixels in their seams.

    PYTHONPATH=python/src python3 examples/python/plots.py plots.png

Each plot fills its axes with neighbouring areas. Drawn in one colour at half opacity, every pixel should show that
colour, blended once over the white background. A pixel of any other colour is in a seam: it was blended twice, or only
in part. The image shows a part of the `contourf` plot in several colours, enlarged, with its count. The program needs
numpy and matplotlib (python3-matplotlib in Debian). After `pip install ./python` no PYTHONPATH is needed.
"""

import argparse
from typing import Any, Callable, Dict, List, Tuple

import numpy as np
from matplotlib import colormaps
from matplotlib.backends.backend_agg import FigureCanvasAgg
from matplotlib.colors import to_rgba
from matplotlib.figure import Figure
from matplotlib.patches import Polygon

from trirast.matplotlib import FigureCanvasTrirast

CANVASES = (("Agg", FigureCanvasAgg), ("trirast", FigureCanvasTrirast))
TITLES = {"Agg": "matplotlib's Agg", "trirast": "trirast"}
# The axes, as parts of a figure of 640 by 480 pixels, and the pixels inside them that are counted.
AXES = (0.1, 0.1, 0.8, 0.8)
INSIDE = (slice(49, 431), slice(65, 575))
# The part that the image shows, enlarged, and the width and height of that part in pixels of the image.
SHOWN = (slice(80, 280), slice(195, 445))
PANEL = (500, 400)

Draws = Callable[[Any, Any], None]


def contourf(axes: Any, colors: Any) -> None:
    x, y = np.meshgrid(np.linspace(-0.1, 1.1, 90), np.linspace(-0.1, 1.1, 70))
    z = np.sin(6 * x) * np.cos(5 * y) + 0.3 * x
    axes.contourf(x, y, z, np.linspace(z.min() - 0.01, z.max() + 0.01, 25), colors=colors(24))


def tripcolor(axes: Any, colors: Any) -> None:
    x, y = np.random.default_rng(2).uniform(-0.1, 1.1, (2, 500))
    mesh = axes.tripcolor(x, y, np.zeros(500), antialiased=True)
    mesh.set(array=None, facecolor=colors(len(mesh.get_paths())))


def stackplot(axes: Any, colors: Any) -> None:
    x = np.linspace(0, 1, 60)
    axes.stackplot(x, [0.045 + 0.02 * np.sin(19 * x + n) for n in range(36)], colors=colors(36))


def regions(axes: Any, colors: Any) -> None:
    """Strips with ragged borders, each a patch of its own."""
    x, y = np.linspace(-0.1, 1.1, 80), np.linspace(-0.1, 1.1, 25)
    borders = y[:, None] + 0.02 * np.sin(40 * x + 9 * y[:, None]) + 0.02 * np.sin(113 * x)
    for below, above, color in zip(borders, borders[1:], colors(24)):
        axes.add_patch(
            Polygon(
                np.concatenate((np.stack((x, below), 1), np.stack((x, above), 1)[::-1])), facecolor=color, linewidth=0
            )
        )


PLOTS: Dict[str, Draws] = {"contourf": contourf, "tripcolor": tripcolor, "stackplot": stackplot, "patches": regions}


def pixels_of(draw: Draws, canvas_class: Any, colors: Any) -> Any:
    """The pixels of a figure whose axes a plot covers, of the shape (480, 640, 4)."""
    figure = Figure(figsize=(6.4, 4.8), dpi=100)
    canvas = canvas_class(figure)
    axes = figure.add_axes(AXES, frameon=False)
    draw(axes, colors)
    axes.set(xlim=(0, 1), ylim=(0, 1), xticks=(), yticks=())
    canvas.draw()
    return np.asarray(canvas.buffer_rgba()).copy()


def one_color(count: int) -> Any:
    return [to_rgba("C0", 0.5)] * count


def many_colors(count: int) -> Any:
    return colormaps["viridis"](np.linspace(0, 1, count), alpha=0.5)


def seams(pixels: Any) -> Tuple[int, int]:
    """How many pixels inside the axes are in seams, and how many there are."""
    inside = pixels[INSIDE][..., :3].reshape(-1, 3)
    _colors, counts = np.unique(inside, axis=0, return_counts=True)
    return len(inside) - int(counts.max()), len(inside)


def show(path: str, pictures: List[Tuple[str, Any]]) -> None:
    """Writes an image of parts of pictures side by side, each below its title."""
    (width, height), gap, title = PANEL, 20, 40
    size = len(pictures) * (width + gap) - gap, height + title
    # An inch has 128 pixels, so that no size is rounded.
    figure = Figure(figsize=(size[0] / 128, size[1] / 128), dpi=128)
    FigureCanvasAgg(figure)
    for n, (text, pixels) in enumerate(pictures):
        left = n * (width + gap)
        axes = figure.add_axes((left / size[0], 0, width / size[0], height / size[1]))
        axes.imshow(pixels[SHOWN], interpolation="nearest")
        axes.set_axis_off()
        figure.text((left + width / 2) / size[0], 1 - title / 2 / size[1], text, fontsize=10, ha="center", va="center")
    figure.savefig(path)


def main() -> None:
    parser = argparse.ArgumentParser(description="Draws translucent plots with Agg and with trirast.matplotlib.")
    parser.add_argument("picture", help="the PNG file to write")
    path = parser.parse_args().picture
    pictures: List[Tuple[str, Any]] = []
    for name, canvas_class in CANVASES:
        for plot, draw in PLOTS.items():
            wrong, count = seams(pixels_of(draw, canvas_class, one_color))
            print(f"{name}: {plot}: {wrong} of {count} pixels are in seams")
            if draw is contourf:
                title = f"{TITLES[name]}: {wrong:,} of {count:,} pixels in seams"
                pictures.append((title, pixels_of(draw, canvas_class, many_colors)))
    show(path, pictures)


if __name__ == "__main__":
    main()
