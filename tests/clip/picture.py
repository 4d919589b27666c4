"""Draws the picture of docs/clipping.md: the example's, as a PNG file.

    python3 -m tests.clip.picture

Writes docs/clipping.png. It needs `make library` and g++.
"""

from __future__ import annotations

import os
import subprocess
import sys

from tools import picture_file, png
from tests.clip.programs import OUT
from tests.library.commands import WARNINGS, need, run
from tools.places import EXAMPLES, INCLUDE, STATIC_LIBRARY, TOP

PICTURE = os.path.join(TOP, "docs", "clipping.png")


def drawn() -> tuple[bytes, str]:
    """Builds and runs the example. Returns its picture as a PNG file, and its line on standard error."""
    os.makedirs(OUT, exist_ok=True)
    program = os.path.join(OUT, "example")
    flags = ["-std=c++17", "-O2", *WARNINGS, "-Wconversion", "-I", INCLUDE]
    run([need("g++"), *flags, os.path.join(EXAMPLES, "cpp", "clip.cpp"), STATIC_LIBRARY, "-o", program, "-lm"])
    done = subprocess.run([program], capture_output=True, check=True)
    picture = picture_file.decode(done.stdout)
    return png.encode(picture.width, picture.height, 3, picture.pixel_data), done.stderr.decode()


def main() -> int:
    found, line = drawn()
    with open(PICTURE, "wb") as file:
        file.write(found)
    print(line, end="")
    return 0


if __name__ == "__main__":
    sys.exit(main())
