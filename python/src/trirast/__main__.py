"""python3 -m trirast"""

import argparse
import os
import platform
import sys
from typing import Any, Iterator, List, Optional, Tuple

from ._canvas import Canvas
from ._errors import Error
from ._ffi import library, loaded_path
from ._snap import snap
from ._version import VERSION

# The middle of a hexagon and its corners, in units of its radius: 1 and the roots of 3 and of 1 in halves.
HEXAGON = ((0, 0), (1, 0), (0.5, 0.866), (-0.5, 0.866), (-1, 0), (-0.5, -0.866), (0.5, -0.866))
COLORS = ((255, 255, 255), (230, 60, 50), (240, 190, 40), (60, 180, 75), (40, 180, 200), (60, 90, 220), (180, 60, 190))
SIDE, RADIUS = 256, 112


def facts() -> Iterator[Tuple[str, Any]]:
    """What is printed: a name and a value each."""
    yield "version", VERSION
    yield "library", loaded_path()
    yield "interface", library().trirast_interface()
    yield "processor", level_of(loaded_path(), platform.machine())


def level_of(path: str, machine: str) -> str:
    """The processors for which a library is, by the folder in which the loader finds that of the second level."""
    if machine not in ("x86_64", "AMD64"):
        return machine
    return "x86-64-v3" if "x86-64-v3" in os.path.realpath(path).split(os.sep) else "x86-64-v2"


def first_picture() -> Canvas:
    """Six triangles around a white vertex, 256 by 256 pixels."""
    canvas = Canvas(SIDE, SIDE, samples=16)
    canvas.clear((24, 24, 32))
    places = snap([(SIDE / 2 + RADIUS * x, SIDE / 2 + RADIUS * y) for x, y in HEXAGON])
    canvas.draw(places, [(0, k, k % 6 + 1) for k in range(1, 7)], colors=COLORS)
    return canvas


def main(words: Optional[List[str]] = None) -> int:
    """Prints the facts, and draws the picture if it is asked for.

    Returns 1 after an error, which one line on standard error names. Exits with 2 if the arguments are wrong.
    """
    parser = argparse.ArgumentParser(
        prog="python3 -m trirast",
        description="Prints the version of trirast, the library that was loaded, the number of its interface and the "
        "processors that it is for.",
    )
    parser.add_argument("--draw", metavar="FILE.png", help="draw a first picture, of six triangles, to this file")
    options = parser.parse_args(words)
    try:
        for name, value in facts():
            print(f"{name:<9} {value}")
        if options.draw is not None:
            first_picture().save(options.draw)
    except (Error, ImportError, OSError, ValueError) as error:
        print(f"trirast: {' '.join(str(error).split())}", file=sys.stderr)
        return 1
    return 0


if __name__ == "__main__":
    sys.exit(main())
