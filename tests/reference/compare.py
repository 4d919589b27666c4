"""Compares the program with the slow reference renderer on generated draw lists.

    python3 -m tests.reference.compare [--lists 1000] [--refused 1000] [--seed 1] [--program bin/trirast]

Each list of tests/reference/generated_lists.py is drawn with every tile size and several numbers of workers, and every
byte is compared with the reference. A few lists at the ends of their ranges come first, and those of
tests/reference/bound_triangles.py. Broken lists follow, with one mistake or more: of these the line on standard error,
the status and the empty output are compared. Exit status 1 on any difference; the list is then left in out/compare/.
"""

from __future__ import annotations

import argparse
import json
import os
import random
import sys
from typing import Iterable

from tools import answers, picture_file
from tests.reference import bound_triangles, generated_lists
from tools.answers import Answer
from tools.places import PROGRAM, is_built

TILES = (8, 16, 32, 64)
WORKERS = (1, 2, 7, 16)
LISTS = 1000


class Comparison:
    """Compares the program's answers with the reference's, and counts them."""

    def __init__(self, program: str) -> None:
        self.program = program
        self.runs = self.pixels = self.drawn = self.refused = self.differences = 0

    def run(self, text: bytes, tile: int, workers: int) -> Answer:
        self.runs += 1
        return answers.drawn(self.program, text, ["--tile", str(tile), "--workers", str(workers)])

    def compare(self, text: bytes, name: str, choices: Iterable[tuple[int, int]]) -> None:
        """Compares the answers to a list with each of these tile sizes and numbers of workers, up to the
        first that differs."""
        expected = answers.expected(text)
        for tile, workers in choices:
            found = self.run(text, tile, workers)
            if found != expected:
                self.report(text, name, f"--tile {tile} --workers {workers}", expected, found)
                return
        if expected.status == 0:
            pixels = picture_file.decode(expected.output).pixels()
            self.pixels += len(pixels)
            self.drawn += sum(pixel != pixels[-1] for pixel in pixels)
        else:
            self.refused += 1

    def report(self, text: bytes, name: str, arguments: str, expected: Answer, found: Answer) -> None:
        """Prints how two answers differ, and leaves the list in out/compare/."""
        self.differences += 1
        print(f"{answers.keep(name, text)}: {arguments}")
        print(f"    expected {expected}")
        print(f"    found    {found}")
        if expected.status == 0 and found.status == 0:
            print(f"    {picture_file.difference(expected.output, found.output)}")

    def summary(self, lists: int, broken: int) -> str:
        return (
            f"{lists} lists and {broken} broken ones, {self.runs} runs; {self.pixels} pixels, "
            f"{self.drawn} of them unlike the "
            f"last pixel; {self.refused} refused with the right line; {self.differences} differences"
        )


def add_options(parser: argparse.ArgumentParser, lists: int, refused: int) -> None:
    """Adds the options that say which lists are drawn, and by which program."""
    parser.add_argument("--lists", type=int, default=lists, help=f"number of accepted lists (default {lists})")
    parser.add_argument("--refused", type=int, default=refused, help=f"number of broken lists (default {refused})")
    parser.add_argument("--seed", type=int, default=1, help="of the lists (default 1)")
    parser.add_argument("--program", default=PROGRAM, help="default bin/trirast")


def main() -> int:
    parser = argparse.ArgumentParser(description="Compares the program with the reference renderer.")
    add_options(parser, LISTS, LISTS)
    options = parser.parse_args()
    if not is_built(options.program):
        return 2
    comparison = Comparison(os.path.abspath(options.program))
    every = [(tile, workers) for tile in TILES for workers in WORKERS]
    ends = [*generated_lists.at_the_ends(), *bound_triangles.lists()]
    for k, scene in enumerate(ends):
        comparison.compare(json.dumps(scene).encode(), f"end-{k}", every)
    for k in range(options.lists):
        comparison.compare(generated_lists.accepted_text(options.seed, k), f"list-{options.seed}-{k}", every)
    for k in range(options.refused):
        pick = random.Random(f"broken {options.seed} {k}")
        text, one = generated_lists.a_broken_text(pick), (pick.choice(TILES), pick.choice(WORKERS))
        comparison.compare(text, f"broken-{options.seed}-{k}", [one])
    print(comparison.summary(len(ends) + options.lists, options.refused))
    return 1 if comparison.differences else 0


if __name__ == "__main__":
    sys.exit(main())
