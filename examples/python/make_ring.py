#!/usr/bin/env python3
"""Writes ring.obj: a ring of quads, wavy and twisted.

    python3 examples/python/make_ring.py > examples/python/ring.obj

It gives the same bytes each time. Standard library alone.
"""

import math
from typing import Tuple

ALONG, ROUND = 48, 18


def point(along: int, around: int) -> Tuple[float, float, float]:
    turn, angle = 2 * math.pi * along / ALONG, 2 * math.pi * (around / ROUND + along / ALONG)
    tube = 0.34 + 0.05 * math.cos(3 * angle)
    distance = 1 + tube * math.cos(angle)
    return distance * math.cos(turn), tube * math.sin(angle) + 0.1 * math.sin(2 * turn), distance * math.sin(turn)


def main() -> None:
    print("# Written by make_ring.py.")
    for along in range(ALONG):
        for around in range(ROUND):
            print("v {:.4f} {:.4f} {:.4f}".format(*point(along, around)))
    for along in range(ALONG):
        ahead = (along + 1) % ALONG
        for around in range(ROUND):
            beside = (around + 1) % ROUND
            corners = (along * ROUND + around, along * ROUND + beside, ahead * ROUND + beside, ahead * ROUND + around)
            print("f {} {} {} {}".format(*(corner + 1 for corner in corners)))


if __name__ == "__main__":
    main()
