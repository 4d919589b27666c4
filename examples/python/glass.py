"""Draws a triangle and a pane of glass over it from numpy's floats, on a canvas with alpha and 16 samples a pixel, and
saves them without a background: the picture of examples/c/threads.c. At the top of the repository:

    make library
    PYTHONPATH=python/src python3 examples/python/glass.py glass.png

Needs numpy.
"""

import sys
from typing import Any

import numpy as np
import trirast

# x and y in pixels, y downwards; red, green, blue and alpha from 0 to 1.
SOLID = np.array([(50.0, 10.0), (95.0, 190.0), (5.0, 190.0)])
COLORS = np.array([(1.0, 0.0, 0.0), (0.0, 1.0, 0.0), (0.0, 0.0, 1.0)])
GLASS = np.array([(10.0, 50.0), (90.0, 70.0), (45.0, 170.0)])
WHITE = np.array([(1.0, 1.0, 1.0, 0.6), (1.0, 1.0, 1.0, 0.6), (1.0, 1.0, 1.0, 0.2)])


def in_bytes(colors: Any) -> Any:
    """Colours of 0 to 255. What is out of range then, draw refuses: astype("uint8") would wrap it."""
    return np.rint(255 * colors).astype(int)


# It begins as clear() makes it: black of alpha 0, on which "over" leaves colours that are multiplied by their
# alpha. save divides by it.
canvas = trirast.Canvas(100, 200, samples=16, alpha=True)
canvas.draw(trirast.snap(SOLID), colors=in_bytes(COLORS), threads=4)
canvas.draw(trirast.snap(GLASS), colors=in_bytes(WHITE), blend="over", threads=4)
canvas.save(sys.argv[1])  # canvas.rgba(straight=True) has the pixels
