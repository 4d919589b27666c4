#!/usr/bin/env python3
"""Draws a part of a list's picture enlarged, with samples and triangle edges, and the history of one pixel
below it, as an SVG file.

    PYTHONPATH=python/src python3 examples/python/inspect_picture.py list.json X,Y [--around 5] [--all]
        [--out out/inspect.svg]

The drawing says what its shapes are. Its lines are the edges of the triangles whose vertices bound some of the pixels
shown. Below it stands what `trirast.why` reports: an event for each triangle that covers a sample of the pixel, and
with --all for every triangle. Needs the library.
"""

import argparse
import json
import sys
from html import escape
from typing import Any, Dict, Iterator, List, Sequence, Tuple

import trirast

# The side of a pixel, the width of a letter and the height of a line in the drawing.
SIDE, LETTER, LINE = 56, 7.3, 17
MARGIN = 12
LEGEND = (
    "squares     pixels of the picture", "small dots  their samples", "lines       edges of triangles",
    "red frame   the pixel asked for",
    "large dots  its samples, in their colours",
)
# How many lines of a history are shown at most.
MOST_LINES = 60
OFFSETS = {1: [(128, 128)], 4: [(96, 32), (224, 96), (32, 160), (160, 224)]}

Window = Tuple[int, int, int, int]


def triangles_of(draw: Dict[str, Any]) -> List[List[int]]:
    """The triangles of a draw, by the indices of their vertices."""
    if "strip" in draw:
        return [draw["strip"][k : k + 3] for k in range(len(draw["strip"]) - 2)]
    if "quads" in draw:
        return [half for a, b, c, d in draw["quads"] for half in ([a, b, c], [c, d, a])]
    return [list(triangle) for triangle in draw["triangles"]]


def window_around(x: int, y: int, around: int, width: int, height: int) -> Window:
    """The first and the last column and row that are shown: the pixel and this number of pixels on each
    side, in the picture."""
    return max(0, x - around), max(0, y - around), min(width - 1, x + around), min(height - 1, y + around)


def hex_of(color: Sequence[int]) -> str:
    return "#%02x%02x%02x" % (color[0], color[1], color[2])


class Drawing:
    """The shapes of an SVG file, whose left part shows a window of a picture."""

    def __init__(self, window: Window) -> None:
        self.window = window
        self.shapes: List[str] = []

    def at(self, x: float, y: float) -> Tuple[float, float]:
        """Where a position in 1/256 pixel lies in the drawing."""
        return MARGIN + (x / 256 - self.window[0]) * SIDE, MARGIN + (y / 256 - self.window[1]) * SIDE

    @property
    def size(self) -> Tuple[int, int]:
        left, top, right, bottom = self.window
        return (right - left + 1) * SIDE, (bottom - top + 1) * SIDE

    def pixel(self, x: int, y: int, fill: str, border: str = "#808080", width: float = 0.5) -> None:
        left, top = self.at(256 * x, 256 * y)
        style = f'fill="{fill}" stroke="{border}" stroke-width="{width}"'
        self.shapes.append(f'<rect x="{left}" y="{top}" width="{SIDE}" height="{SIDE}" {style}/>')

    def sample(self, x: int, y: int, fill: str, radius: float) -> None:
        column, row = self.at(x, y)
        self.shapes.append(
            f'<circle cx="{column}" cy="{row}" r="{radius}" fill="{fill}" stroke="#000000" stroke-width="1.4"/>'
            f'<circle cx="{column}" cy="{row}" r="{radius + 1}" fill="none" stroke="#ffffff" stroke-width="0.7"/>'
        )

    def triangle(self, corners: List[Tuple[int, int]]) -> None:
        points = " ".join("%g,%g" % self.at(x, y) for x, y in corners)
        for color, width in (("#000000", 2.2), ("#ffd000", 1.1)):
            self.shapes.append(f'<polygon points="{points}" fill="none" stroke="{color}" stroke-width="{width}"/>')

    def text(self, left: int, top: int, lines: Sequence[str]) -> None:
        for k, line in enumerate(lines):
            self.shapes.append(
                f'<text x="{left}" y="{top + LINE * (k + 1)}" xml:space="preserve">{escape(line)}</text>'
            )

    def svg(self, lines: List[str]) -> str:
        """The file: the window, cut at its border, what its shapes are beside it, and the lines below it."""
        picture, self.shapes = self.shapes, []
        width, height = self.size
        self.text(2 * MARGIN + width, MARGIN, LEGEND)
        self.text(MARGIN, 2 * MARGIN + max(height, LINE * len(LEGEND)), lines)
        beside = width + MARGIN + LETTER * max(map(len, LEGEND))
        below = LETTER * max(map(len, lines))
        whole = 2 * MARGIN + round(max(beside, below)), 4 * MARGIN + max(height, LINE * len(LEGEND)) + LINE * len(lines)
        parts = [
            f'<svg xmlns="http://www.w3.org/2000/svg" width="{whole[0]}" height="{whole[1]}" '
            'font-family="monospace" font-size="12">',
            f'<clipPath id="window"><rect x="{MARGIN}" y="{MARGIN}" width="{width}" height="{height}"/></clipPath>',
            '<rect width="100%" height="100%" fill="#ffffff"/>',
            '<g clip-path="url(#window)">',
            *picture,
            "</g>",
            *self.shapes,
            "</svg>",
        ]
        return "\n".join(parts) + "\n"


def colors_of(picture: trirast.Picture, window: Window) -> Iterator[Tuple[int, int, Tuple[int, int, int]]]:
    """The pixels of the window, each with its colour, or with its depth as a grey."""
    for y in range(window[1], window[3] + 1):
        for x in range(window[0], window[2] + 1):
            grey = picture.depth(x, y) // 256 if picture.is_depth else 0
            yield x, y, (grey, grey, grey) if picture.is_depth else picture.pixel(x, y)


def meets_window(corners: List[Tuple[int, int]], window: Window) -> bool:
    """Whether the box of a triangle has a part of the window."""
    xs, ys = [x / 256 for x, _y in corners], [y / 256 for _x, y in corners]
    return min(xs) <= window[2] + 1 and max(xs) >= window[0] and min(ys) <= window[3] + 1 and max(ys) >= window[1]


def drawing_of(scene: Dict[str, Any], history: trirast.PixelHistory, around: int) -> Drawing:
    window = window_around(history.x, history.y, around, scene["width"], scene["height"])
    drawing = Drawing(window)
    pixels = list(colors_of(trirast.draw(scene), window))
    for x, y, color in pixels:
        drawing.pixel(x, y, hex_of(color))
    for draw in scene["draws"]:
        for triangle in triangles_of(draw):
            corners = [(draw["vertices"][k][0], draw["vertices"][k][1]) for k in triangle]
            if meets_window(corners, window):
                drawing.triangle(corners)
    for x, y, _color in pixels:
        for right, down in OFFSETS[scene.get("samples", 1)]:
            drawing.sample(256 * x + right, 256 * y + down, "none", 1.5)
    drawing.pixel(history.x, history.y, "none", "#e02020", 3)
    for sample in history.samples:
        drawing.sample(*sample.position, hex_of(sample.end.color), 5)
    return drawing


def pixel_named(text: str) -> Tuple[int, int]:
    x, y = text.split(",")
    return int(x), int(y)


def main() -> None:
    parser = argparse.ArgumentParser(description="Draws a part of a picture with the history of one pixel.")
    parser.add_argument("list", metavar="list.json")
    parser.add_argument("pixel", type=pixel_named, metavar="X,Y")
    parser.add_argument("--around", type=int, default=5, metavar="PIXELS", help="pixels shown on each side (5)")
    parser.add_argument("--all", action="store_true", help="the triangles that do not cover a sample too")
    parser.add_argument("--out", default="inspect.svg", metavar="FILE", help="(inspect.svg)")
    arguments = parser.parse_args()
    with open(arguments.list, "rb") as file:
        scene = json.load(file)
    try:
        x, y = arguments.pixel
        history = trirast.why(scene, x, y, all_triangles=arguments.all)
        drawing = drawing_of(scene, history, arguments.around)
    except (trirast.Error, IndexError) as error:
        sys.exit(str(error))
    lines = str(history).split("\n")
    if len(lines) > MOST_LINES:
        lines[MOST_LINES:] = [f"and {len(lines) - MOST_LINES} lines more"]
    with open(arguments.out, "w", encoding="utf-8") as file:
        file.write(drawing.svg(lines))


if __name__ == "__main__":
    main()
