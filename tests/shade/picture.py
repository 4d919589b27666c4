"""Draws the picture of docs/shading.md by examples/cpp/textured.cpp, as a PNG file: ids, weights, texture coordinates
and the shaded scene.

    python3 -m tests.shade.picture

Writes docs/shading.png. It needs `make library` and g++.
"""

from __future__ import annotations

import os
import sys

from tools import picture_file, png
from tests.library.commands import run
from tests.shade.programs import OUT, program_of
from tools.places import TOP

PICTURE = os.path.join(TOP, "docs", "shading.png")
PANELS = ("ids", "weights", "places", "shaded")
SIZE = 320, 210


def panel(program: str, name: str) -> picture_file.PictureFile:
    words = ["--show", name, "--scene", "coarse", "--size", *map(str, SIZE), "--samples", "16", "--output", "-"]
    return picture_file.decode(run([program, *words]))


def drawn() -> bytes:
    """Builds and runs the example. Returns four panels, two by two, as a PNG file."""
    os.makedirs(OUT, exist_ok=True)
    program = program_of("textured", "-O2", "-march=x86-64-v2", "-ffp-contract=off")
    panels = [panel(program, name).pixel_data for name in PANELS]
    width, height = SIZE
    row = 3 * width
    lines = [panels[k + side][row * y :][:row] for k in (0, 2) for y in range(height) for side in (0, 1)]
    return png.encode(2 * width, 2 * height, 3, b"".join(lines), is_smooth=True)


def main() -> int:
    with open(PICTURE, "wb") as file:
        file.write(drawn())
    return 0


if __name__ == "__main__":
    sys.exit(main())
