"""Draws a triangle on a canvas, and saves the picture. At the top of the repository:

    make library
    PYTHONPATH=python/src python3 examples/python/canvas.py canvas.png
"""

import sys

import trirast

# x and y in pixels, y downwards.
CORNERS = [(320, 10), (620, 450), (20, 380)]
COLORS = [(255, 0, 0), (0, 255, 0), (0, 0, 255)]

canvas = trirast.Canvas(640, 480, samples=4)
canvas.clear((24, 24, 32))
canvas.draw(
    trirast.snap(CORNERS), [(0, 1, 2)], colors=COLORS, depth=[100, 200, 300], depth_test="less", depth_write=True,
    threads=4,
)
canvas.save(sys.argv[1])  # PNG, or PPM if the name ends in .ppm; canvas.rgb() has the pixels
