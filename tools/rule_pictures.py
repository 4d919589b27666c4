"""Draws the pictures of docs/ that show rules, over what the program draws. Needs matplotlib (Debian's
python3-matplotlib).

    python3 -m tools.rule_pictures

Writes docs/first_list.svg, docs/top_left.svg and docs/shared_edge.svg. Each pixel has the colour that
bin/trirast gave it.
"""

from __future__ import annotations

import os
import sys
from typing import Any, Sequence

import matplotlib
from matplotlib.figure import Figure
from matplotlib.patches import Rectangle

from tools import answers, picture_file, places
from tools.draw_list import DrawList, Vertex, draw, draw_list, encode, vertex

# Greys and two colours that people with any sight for colours tell apart.
PAPER = (255, 255, 255)
BLUE = (120, 170, 220)
ORANGE = (240, 180, 100)
INK = "#202020"
# As in web/: an edge that owns its points is solid.
OWNED = {"color": INK, "linewidth": 2.4, "solid_capstyle": "round"}
OTHER = {"color": INK, "linewidth": 1.4, "linestyle": (0, (1.2, 2.2))}


def pixel_colors(value: DrawList) -> list[list[tuple[float, ...]]]:
    """The colours that the program gives the pixels of a list, row by row."""
    answer = answers.drawn(places.PROGRAM, encode(value))
    if answer.status != 0:
        sys.exit(f"rule_pictures: {answer}")
    picture = picture_file.decode(answer.output)
    colors = [tuple(channel / 255 for channel in pixel) for pixel in picture.pixels()]
    return [colors[row * picture.width : (row + 1) * picture.width] for row in range(picture.height)]


def axes_of(value: DrawList, pixel: float) -> tuple[Figure, Any]:
    """A figure with the list's pixels as squares of `pixel` inches, each with its centre."""
    width, height = value["width"], value["height"]
    figure = Figure(figsize=((width + 0.3) * pixel, (height + 0.3) * pixel))
    axes = figure.add_axes((0, 0, 1, 1), xlim=(-0.15, width + 0.15), ylim=(height + 0.15, -0.15))
    axes.set_axis_off()
    for j, row in enumerate(pixel_colors(value)):
        for i, color in enumerate(row):
            axes.add_patch(Rectangle((i, j), 1, 1, facecolor=color, edgecolor="#b0b0b0", linewidth=0.8))
            axes.plot(i + 0.5, j + 0.5, marker="o", markersize=3.2, color=INK)
    return figure, axes


def is_top_or_left(a: Vertex, b: Vertex, third: Vertex) -> bool:
    """Whether the edge from a to b owns the points on it: a top edge or a left one, by the third vertex."""
    (ax, ay), (bx, by), (cx, cy) = a[:2], b[:2], third[:2]
    if ay == by:
        return cy > ay
    return ax + (bx - ax) * (cy - ay) / (by - ay) < cx


def outlines(axes: Any, *triangles: Sequence[Vertex]) -> None:
    """The edges of triangles, each once: solid if it is a top or a left one of one of them, else dotted."""
    owned: dict[tuple[tuple[int, ...], ...], bool] = {}
    for corners in triangles:
        for k in range(3):
            a, b, third = (corners[(k + n) % 3] for n in range(3))
            ends = tuple(sorted((tuple(a[:2]), tuple(b[:2]))))
            owned[ends] = owned.get(ends, False) or is_top_or_left(a, b, third)
    for ends, is_owned in owned.items():
        axes.plot([x / 256 for x, _y in ends], [y / 256 for _x, y in ends], **(OWNED if is_owned else OTHER))


def corner(x: float, y: float, color: Sequence[int]) -> Vertex:
    """A vertex at x, y in pixels."""
    return vertex(round(256 * x), round(256 * y), colour=color)


def triangle(color: Sequence[int], *points: tuple[float, float]) -> list[Vertex]:
    return [corner(x, y, color) for x, y in points]


def white(width: int, height: int, *triangles: list[Vertex]) -> DrawList:
    """A white picture with these triangles, each in its colour."""
    return draw_list(width, height, *(draw(corners) for corners in triangles), clear=list(PAPER))


def first_list() -> Figure:
    """The triangle of the first list of docs/draw-list.md on its nine pixels, in blue on white in place
    of white on black."""
    corners = triangle(BLUE, (0.5, 0.5), (2.5, 0.5), (0.5, 2.5))
    figure, axes = axes_of(white(3, 3, corners), 1)
    outlines(axes, corners)
    for x, y, beside in ((128, 128, -0.12), (640, 128, -0.12), (128, 640, 0.27)):
        axes.text(x / 256, y / 256 + beside, f"{x}, {y}", fontsize=9, color=INK, ha="center")
    return figure


def top_left() -> Figure:
    """Triangles whose edges go through pixel centres."""
    triangles = [
        triangle(BLUE, (0.5, 0.5), (4.5, 0.5), (0.5, 4.5)),
        triangle(BLUE, (9.5, 0.5), (9.5, 4.5), (5.5, 4.5)),
        triangle(BLUE, (12.5, 0.5), (14.5, 2.5), (10.5, 2.5)),
        triangle(BLUE, (10.5, 3.5), (14.5, 3.5), (12.5, 5.5)),
    ]
    figure, axes = axes_of(white(16, 6, *triangles), 0.5)
    outlines(axes, *triangles)
    return figure


def shared_edge() -> Figure:
    """Two triangles on the two sides of an edge that goes through pixel centres."""
    left = triangle(BLUE, (5.5, 0.5), (5.5, 6.5), (0.5, 3.5))
    right = triangle(ORANGE, (5.5, 0.5), (10.5, 3.5), (5.5, 6.5))
    slanted = triangle(BLUE, (11.5, 0.5), (17.5, 6.5), (11.5, 6.5))
    other = triangle(ORANGE, (11.5, 0.5), (17.5, 0.5), (17.5, 6.5))
    figure, axes = axes_of(white(19, 7, left, right, slanted, other), 0.45)
    outlines(axes, left, right, slanted, other)
    return figure


PICTURES = {"first_list": first_list, "top_left": top_left, "shared_edge": shared_edge}


def main() -> int:
    if not places.is_built(places.PROGRAM):
        return 1
    # The same bytes each time.
    matplotlib.rcParams["svg.hashsalt"] = "trirast"
    for name, make in PICTURES.items():
        path = os.path.join(places.TOP, "docs", f"{name}.svg")
        make().savefig(path, metadata={"Date": None})
        print(os.path.relpath(path, places.TOP))
    return 0


if __name__ == "__main__":
    sys.exit(main())
