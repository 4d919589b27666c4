#!/usr/bin/env python3
"""Draws almost level and almost upright bars with 1, 4 and 16 samples a pixel, side by side and
enlarged, as a PPM file.

    PYTHONPATH=python/src python3 examples/python/edges.py edges.ppm

Needs the library.
"""

import sys
from typing import List, Tuple

import trirast

# In pixels: the side of a picture, the side of one of its pixels when it is enlarged, the gap between two pictures, and
# the height of the label above each and the side of the squares of which its letters are made.
SIDE, ZOOM, GAP, LABEL, DOT = 60, 5, 10, 25, 3
DARK, LIGHT, WARM = (18, 26, 44), (235, 240, 250), (255, 176, 64)
PAPER = (255, 255, 255)
COUNTS = (1, 4, 16)
# Letters of five rows of squares, joined by slashes.
LETTERS = {
    "1": " # /## / # / # /###", "4": "# #/# #/###/  #/  #", "6": "###/#  /###/# #/###", " ": "  /  /  /  /  ",
    "S": "###/#  /###/  #/###", "A": "###/# #/###/# #/# #", "M": "#   #/## ##/# # #/#   #/#   #",
    "P": "###/# #/###/#  /#  ", "L": "#  /#  /#  /#  /###", "E": "###/#  /## /#  /###",
}

Bar = Tuple[Tuple[float, float], Tuple[float, float], Tuple[int, int, int]]


def bars() -> List[Bar]:
    """Where each bar begins and ends, and its colour: each leans a little more than the one before it."""
    level: List[Bar] = [((3, 5 + 9.5 * k), (35, 5 + 9.5 * k + 0.5 + k), LIGHT) for k in range(5)]
    upright: List[Bar] = [((38 + 4.2 * k, 3), (38 + 4.2 * k + 0.5 + k, 57), WARM) for k in range(4)]
    return level + upright


def draw_bar(canvas: trirast.Canvas, bar: Bar, thickness: float) -> None:
    """Draws a bar, which is as thick as this downwards or, if it is upright, to the right."""
    start, end, color = bar
    is_level = end[0] - start[0] > end[1] - start[1]
    right, down = (0.0, thickness) if is_level else (thickness, 0.0)
    corners = [start, end, (end[0] + right, end[1] + down), (start[0] + right, start[1] + down)]
    canvas.draw(trirast.snap(corners), quads=[[0, 1, 2, 3]], colors=color)


def picture(samples: int) -> "memoryview":
    """The pixels of all bars with this number of samples a pixel."""
    canvas = trirast.Canvas(SIDE, SIDE, samples=samples)
    canvas.clear(DARK)
    for bar in bars():
        draw_bar(canvas, bar, 2.0)
    return memoryview(memoryview(canvas.rgb()).tobytes())


def label(text: str) -> "memoryview":
    """The pixels of a label, whose letters are squares that are drawn as quads."""
    canvas = trirast.Canvas(SIDE * ZOOM, LABEL)
    canvas.clear(PAPER)
    left = 0
    for letter in text:
        rows = LETTERS[letter].split("/")
        for y, row in enumerate(rows):
            for x in (x for x, square in enumerate(row) if square == "#"):
                start = left + DOT * x, DOT * (y + 2)
                draw_bar(canvas, (start, (start[0] + DOT, start[1]), DARK), DOT)
        left += DOT * (len(rows[0]) + 1)
    return memoryview(memoryview(canvas.rgb()).tobytes())


def enlarged(row: "memoryview") -> bytes:
    """A row of pixels in which each is ZOOM pixels wide."""
    return b"".join(bytes(row[k : k + 3]) * ZOOM for k in range(0, len(row), 3))


def main(path: str) -> None:
    pictures = [picture(samples) for samples in COUNTS]
    labels = [label(f"{samples} SAMPLE{'S' if samples > 1 else ''}") for samples in COUNTS]
    between = bytes(PAPER) * GAP
    with open(path, "wb") as file:
        width = len(COUNTS) * SIDE * ZOOM + (len(COUNTS) - 1) * GAP
        file.write(b"P6\n%d %d\n255\n" % (width, LABEL + SIDE * ZOOM))
        for row in range(LABEL):
            part = slice(3 * SIDE * ZOOM * row, 3 * SIDE * ZOOM * (row + 1))
            file.write(between.join(bytes(pixels[part]) for pixels in labels))
        for row in range(SIDE):
            part = slice(3 * SIDE * row, 3 * SIDE * (row + 1))
            file.write(between.join(enlarged(pixels[part]) for pixels in pictures) * ZOOM)


if __name__ == "__main__":
    if len(sys.argv) != 2:
        sys.exit(f"usage: {sys.argv[0]} PICTURE.ppm")
    main(sys.argv[1])
