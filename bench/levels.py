"""Times whole processes of programs that draw the same, in turns: the program by level of x86-64, and
as it is installed.

    python3 -m bench.levels [--runs 9] [--scenes small ..] [--workers 1 4] PROGRAM ..

For each scene and number of workers it gives the least processor time of each program, in brackets the least wall time,
both in milliseconds, and the ratio of its processor time to that of the first program. Output is thrown away, after one
run of each whose pictures are compared. Exit status 1 if a run fails or a picture differs.

Linux alone.
"""

from __future__ import annotations

import argparse
import filecmp
import os
import sys
from typing import Sequence

from bench import report, scenes
from bench.options import add_runs, add_scenes
from bench.run import SCENES, Run
from tools.places import BENCH_OUT, is_built

DEFAULT_SCENES = ("tiny", "smooth", "small", "mesh", "blended", "large_mesh", "sprites", "dust", "long_list")


def agree(commands: Sequence[list[str]], source: str) -> bool:
    """Whether all programs end with status 0 and write the same picture."""
    pictures = [os.path.join(BENCH_OUT, f"picture{number}.ppm") for number in range(len(commands))]
    is_drawn = all(Run(command, source, picture).status == 0 for command, picture in zip(commands, pictures))
    is_same = all(filecmp.cmp(pictures[0], picture, shallow=False) for picture in pictures[1:])
    for picture in pictures:
        os.remove(picture)
    return is_drawn and is_same


def times(commands: Sequence[list[str]], source: str, runs: int) -> list[str]:
    """A cell of the table for each program."""
    found: list[list[Run]] = [[] for _ in commands]
    for _ in range(runs):
        for command, runs_of_it in zip(commands, found):
            runs_of_it.append(Run(command, source, os.devnull))
    processors = [1000 * min(run.processor for run in runs_of_it) for runs_of_it in found]
    walls = [1000 * min(run.wall for run in runs_of_it) for runs_of_it in found]
    return [f"{time:.1f} ({wall:.1f}), {time / processors[0]:.2f}" for time, wall in zip(processors, walls)]


def main() -> int:
    parser = argparse.ArgumentParser(description="Times whole processes of several programs in turns.")
    parser.add_argument("programs", nargs="+", metavar="PROGRAM")
    add_runs(parser, 9, "runs of which the least counts")
    add_scenes(parser, SCENES, DEFAULT_SCENES)
    parser.add_argument("--workers", nargs="+", type=int, default=(1, 4), help="numbers of workers (default 1 4)")
    options = parser.parse_args()
    programs = [os.path.abspath(program) for program in options.programs]
    if not is_built(*programs):
        return 2
    scenes.write_all(options.scenes)
    print(f"{report.machine()} Least of {options.runs} runs.\n")
    report.print_head(("scene", "workers", *options.programs))
    has_failed = False
    for name in options.scenes:
        source = os.path.join(BENCH_OUT, f"{name}.json")
        for workers in options.workers:
            commands = [[program, "--workers", str(workers)] for program in programs]
            if not agree(commands, source):
                print(f"{name}, {workers} workers: a program fails, or draws another picture", flush=True)
                has_failed = True
                continue
            print(report.row([name, str(workers), *times(commands, source, options.runs)]), flush=True)
    report.print_end()
    return 1 if has_failed else 0


if __name__ == "__main__":
    sys.exit(main())
