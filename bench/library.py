"""Times the library beside the program on the scenes of bench/scenes.py and prints one table.

    PYTHONPATH=python/src python3 -m bench.library [--runs 5] [--threads 4] [--scenes tiny mesh ..]

Needs `make library`. For each scene it gives the least time of some rounds of: the program with one worker and with as
many workers as threads, a whole process each; trirast_list_info, which reads the list and draws nothing;
trirast_list_draw on one thread, which reads the list and draws its file into a buffer that is there; and trirast.draw
of Python with the threads, which reads the image info, makes a buffer, and has each thread read the list and draw its
part. The ways take turns, so that a busy machine slows them all. Linux alone.
"""

from __future__ import annotations

import argparse
import os
import sys
import time
from typing import Any, Callable

import trirast
from trirast import _declarations, _ffi

from bench import report, run, scenes
from bench.options import add_runs, add_scenes
from tools.places import PROGRAM, is_built

SCENES = tuple(name for name in run.SCENES if name not in run.REFUSED)
TILE_SIZE = 32

# Draws a list once, and returns the seconds that it took.
Way = Callable[[], float]


def seconds(call: Callable[..., object], *arguments: Any) -> float:
    """The time that a call takes."""
    begin = time.perf_counter()
    call(*arguments)
    return time.perf_counter() - begin


def ways(program: str, threads: int, source: str) -> dict[str, Way]:
    """The ways to draw a list, by name."""
    with open(source, "rb") as file:
        data = file.read()
    buffer, error = bytearray(trirast.draw_file(data)), _declarations.CError()
    part = _ffi.memory_of(memoryview(buffer))

    def process(workers: int) -> float:
        return run.Run([program, "--workers", str(workers)], source, os.devnull).wall

    def draw() -> float:
        return seconds(_ffi.library().trirast_list_draw, data, len(data), TILE_SIZE, part, len(buffer), error)

    return {
        "program, 1 worker": lambda: process(1),
        f"program, {threads} workers": lambda: process(threads),
        "trirast_list_info": lambda: seconds(trirast.image_info, data),
        "trirast_list_draw": draw,
        f"Python, {threads} threads": lambda: seconds(trirast.draw, data, TILE_SIZE, threads),
    }


def milliseconds(time_taken: float) -> str:
    return run.milliseconds(time_taken) if time_taken >= 0.001 else f"{1000 * time_taken:.2f}"


def row_of(name: str, chosen: dict[str, Way], rounds: int) -> str:
    """The table's row of a scene: the least time of each way."""
    times = [[way() for way in chosen.values()] for _ in range(rounds)]
    least = [milliseconds(min(times_of_way)) for times_of_way in zip(*times)]
    return report.row([name, *least])


def main() -> int:
    parser = argparse.ArgumentParser(description="Times the library beside the program.")
    parser.add_argument("--program", default=PROGRAM, help="default bin/trirast")
    add_runs(parser, 5, "rounds of which the least counts")
    parser.add_argument("--threads", type=int, default=4, help="threads and workers (default 4)")
    add_scenes(parser, SCENES)
    options = parser.parse_args()
    if not is_built(options.program):
        return 1
    scenes.write_all(options.scenes)
    print(report.machine())
    print(f"Least of {options.runs} rounds, tiles of {TILE_SIZE} pixels, milliseconds.\n")
    for number, name in enumerate(options.scenes):
        chosen = ways(os.path.abspath(options.program), options.threads, scenes.path_of(name))
        if number == 0:
            report.print_head(("scene", *chosen))
        print(row_of(name, chosen, options.runs), flush=True)
    report.print_end()
    return 0


if __name__ == "__main__":
    sys.exit(main())
