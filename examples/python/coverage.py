#!/usr/bin/env python3
"""Draws one triangle at a time, and prints which of the four samples of each pixel it covers.

    PYTHONPATH=python/src python3 examples/python/coverage.py [--triangle 128 128 1920 512 640 1900] [--triangle ..]
                                                              [--size 8 8] [--keep FOLDER]

A triangle is the x and y of three corners in 1/256 pixel; without any, some hard ones are drawn. Each pixel is
printed as a digit from 0 to f whose bit s says that sample s is covered, or as a dot if none is. With --keep the list
and the picture of each triangle are left in a folder. After `pip install ./python` no PYTHONPATH is needed.

A list has no way to ask for a sample. So the triangle is drawn once for each, under a sample mask of that sample
alone and with a red of 4, 8, 16 or 32; a pixel's red is the mean of its four samples, and so 1, 2, 4 and 8 for
each that is covered.
"""

import argparse
import json
import os
import sys
from typing import Any, Dict, List, Sequence

import trirast

SAMPLES = 4
HARD = [
    [0, 0, 2048, 0, 0, 2048],  # half of the picture, by its diagonal
    [2048, 0, 2048, 2048, 0, 2048],  # the other half: no sample is in both, and none in neither
    [96, 32, 1888, 416, 608, 1760],  # corners on positions of samples
    [0, 980, 2048, 1004, 0, 1000],  # a sliver across a row of samples
    [-100000, -300, 100000, 700, 900, 2500],  # corners far outside
    [256, 256, 1024, 1024, 1792, 1792],  # no area
]


def list_of(triangle: Sequence[int], width: int, height: int) -> Dict[str, Any]:
    """The draw list of one triangle, once for each sample."""
    corners = [triangle[k : k + 2] for k in range(0, 6, 2)]
    draws = [
        {
            "sample_mask": 1 << sample,
            "vertices": [[x, y, 0, 4 << sample, 0, 0, 255] for x, y in corners],
            "triangles": [[0, 1, 2]],
        }
        for sample in range(SAMPLES)
    ]
    return {"width": width, "height": height, "samples": SAMPLES, "draws": draws}


def masks_of(picture: trirast.Picture) -> List[List[int]]:
    """The masks of covered samples, row after row."""
    return [[picture.pixel(column, row)[0] for column in range(picture.width)] for row in range(picture.height)]


def show(triangle: Sequence[int], masks: List[List[int]]) -> None:
    corners = " ".join(f"({triangle[k]}, {triangle[k + 1]})" for k in range(0, 6, 2))
    covered = sum(bin(mask).count("1") for row in masks for mask in row)
    print(f"{corners}: {covered} samples")
    for row in masks:
        print("    " + " ".join(f"{mask:x}" if mask else "." for mask in row))


def keep(folder: str, number: int, scene: Dict[str, Any], picture: trirast.Picture) -> None:
    os.makedirs(folder, exist_ok=True)
    with open(os.path.join(folder, f"triangle-{number}.json"), "w", encoding="ascii") as file:
        json.dump(scene, file)
    picture.save_ppm(os.path.join(folder, f"triangle-{number}.ppm"))


def main() -> None:
    parser = argparse.ArgumentParser(description="Prints which samples triangles cover.")
    parser.add_argument("--triangle", nargs=6, type=int, action="append", metavar="N", help="x and y of three corners")
    parser.add_argument("--size", nargs=2, type=int, default=(8, 8), metavar="PIXELS", help="width and height (8 8)")
    parser.add_argument("--keep", metavar="FOLDER", help="leave lists and pictures there")
    arguments = parser.parse_args()
    for number, triangle in enumerate(arguments.triangle or HARD):
        scene = list_of(triangle, *arguments.size)
        try:
            picture = trirast.draw(scene)
        except trirast.Error as error:
            sys.exit(str(error))
        show(triangle, masks_of(picture))
        if arguments.keep:
            keep(arguments.keep, number, scene, picture)


if __name__ == "__main__":
    main()
