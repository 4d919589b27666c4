"""Times the program on the scenes of bench/scenes.py and prints one table.

    python3 -m bench.run [--program bin/trirast] [--runs 3] [--scenes tiny mesh ..] [--tiles 32 ..] [--before PROGRAM]

For each scene and tile side it gives the wall time with 1, 2 and 4 workers, the ratio to the time with one worker, the
processor time, and the peak memory, all from this one call; times are the best of a few runs with the output thrown
away. If g++ is there, bench/plain.cpp is built and its time stands next to it, and each picture of the program is
compared with its picture, byte for byte. With --before each row is followed by that of another build's program. Exit
status 1 if a run fails or a picture differs.

Linux alone.
"""

from __future__ import annotations

import argparse
import filecmp
import os
import shutil
import subprocess
import sys
import time
from typing import Sequence

from bench import report, scenes
from bench.options import add_before, add_runs, add_scenes, builds
from tools.places import BENCH_OUT, PROGRAM, TOP, is_built

SCENES = (
    "tiny", "empty", "smooth", "small", "mesh", "slivers", "blended", "flat", "flat_depth", "flat_blended",
    "large_mesh", "whole_values", "thin_slivers", "level_rows", "depths_first", "levels", "levels_four", "levels_depth",
    "charts", "steps", "sprites", "dust", "hidden_quads", "long_list", "refused_list",
)
# Lists that are refused: the program ends with status 1 and no picture.
REFUSED = ("refused_list",)
TILES = (8, 16, 32, 64)
WORKERS = (1, 2, 4)
ENOUGH_SECONDS = 6.0


class Run:
    """One run of a command: wall and processor time in seconds, peak memory in bytes, exit status.

    With `is_quiet` what it writes to standard error goes to the target too.
    """

    def __init__(self, command: list[str], source: str, target: str, is_quiet: bool = False) -> None:
        reading = os.open(source, os.O_RDONLY)
        writing = os.open(target, os.O_WRONLY | os.O_CREAT | os.O_TRUNC, 0o644)
        actions = [(os.POSIX_SPAWN_DUP2, reading, 0), (os.POSIX_SPAWN_DUP2, writing, 1)]
        actions += [(os.POSIX_SPAWN_DUP2, writing, 2)] if is_quiet else []
        begin = time.perf_counter()
        child = os.posix_spawn(command[0], command, os.environ, file_actions=actions)
        _, status, usage = os.wait4(child, 0)
        self.wall = time.perf_counter() - begin
        os.close(reading)
        os.close(writing)
        self.processor = usage.ru_utime + usage.ru_stime
        self.memory = usage.ru_maxrss * 1024
        self.status = status


def best(command: list[str], source: str, runs: int) -> Run:
    """The run of the least wall time, of as many as asked for or as fit into some seconds."""
    found: list[Run] = []
    spent = 0.0
    while len(found) < runs and (not found or spent < ENOUGH_SECONDS):
        found.append(Run(command, source, os.devnull))
        spent += found[-1].wall
    return min(found, key=lambda run: run.wall)


def peak_memory(command: list[str], source: str, target: str) -> Run:
    """A run under GNU time, if it is there, which sees smaller peaks than a python process can of its children."""
    timer, report = shutil.which("time"), os.path.join(BENCH_OUT, "memory.txt")
    if timer is None:
        return Run(command, source, target)
    run = Run([timer, "-q", "-f", "%M", "-o", report, *command], source, target)
    with open(report, encoding="ascii") as file:
        run.memory = 1024 * int(file.read())
    os.remove(report)
    return run


def build_plain() -> str | None:
    """Builds the plain program. Returns `None` if there is no compiler."""
    compiler = shutil.which("g++")
    if compiler is None:
        return None
    program = os.path.join(BENCH_OUT, "plain")
    subprocess.run([compiler, "-O2", "-std=c++17", "-o", program, os.path.join(TOP, "bench", "plain.cpp")], check=True)
    return program


def milliseconds(seconds: float) -> str:
    return f"{1000 * seconds:.1f}" if seconds < 0.1 else f"{1000 * seconds:.0f}"


def megabytes(number: int) -> str:
    return f"{number / 1e6:.1f}"


class Table:
    """The rows of one scene, and what went wrong in any."""

    def __init__(self, programs: dict[str, str], plain: str | None, runs: int, tiles: Sequence[int]) -> None:
        # By what a row's label has behind the scene's name.
        self.programs = {label: os.path.abspath(program) for label, program in programs.items()}
        self.plain, self.runs, self.tiles = plain, runs, tiles
        self.wrong: list[str] = []

    def head(self) -> None:
        columns = ["scene", "tile", "1 worker, ms", "2 workers, ms", "4 workers, ms"]
        columns += ["processor ms, 1 and 4", "peak MB, 1, 2 and 4", "plain, ms"]
        report.print_head(columns)

    def scene(self, name: str) -> None:
        source = os.path.join(BENCH_OUT, f"{name}.json")
        wanted, plain_time = None, "-"
        if self.plain and name not in REFUSED:
            wanted = os.path.join(BENCH_OUT, f"{name}.plain.ppm")
            self.must_end(Run([self.plain], source, wanted), f"{name}, plain")
            found = best([self.plain], source, self.runs)
            plain_time = milliseconds(found.wall)
        for tile in self.tiles:
            for label, program in self.programs.items():
                self.row(program, name + label, tile, source, wanted, plain_time)
        for path in (wanted, os.path.join(BENCH_OUT, "picture.ppm")):
            if path and os.path.exists(path):
                os.remove(path)

    def row(self, program: str, name: str, tile: int, source: str, wanted: str | None, plain_time: str) -> None:
        picture = os.path.join(BENCH_OUT, "picture.ppm")
        found: list[Run] = []
        peaks = []
        for workers in WORKERS:
            command = [program, "--tile", str(tile), "--workers", str(workers)]
            title = f"{name}, tile {tile}, {workers} workers"
            first = peak_memory(command, source, picture)
            self.must_end(first, title)
            peaks.append(megabytes(first.memory))
            if wanted and not filecmp.cmp(wanted, picture, shallow=False):
                self.wrong.append(f"{title}: other bytes than the plain program's")
            found.append(best(command, source, self.runs))
            self.must_end(found[-1], title)
        times = [milliseconds(found[0].wall)]
        times += [f"{milliseconds(run.wall)} ({found[0].wall / run.wall:.2f}x)" for run in found[1:]]
        processor = f"{milliseconds(found[0].processor)}, {milliseconds(found[-1].processor)}"
        cells = [name, str(tile), *times, processor, ", ".join(peaks), plain_time]
        print(report.row(cells), flush=True)

    def must_end(self, run: Run, title: str) -> None:
        wanted = 1 << 8 if title.startswith(REFUSED) else 0
        if run.status != wanted:
            self.wrong.append(f"{title}: ended with wait status {run.status}")


def print_beginning(runs: int, plain: str | None) -> None:
    """Prints what the table's numbers are of, and what a process costs here that does nothing."""
    nothing = [shutil.which("true") or "/bin/true"]
    floor, least = Run(nothing, os.devnull, os.devnull), peak_memory(nothing, os.devnull, os.devnull)
    print(report.machine())
    print(f"Best of {runs} runs, output thrown away. The ratio is the time with one worker by this one.")
    print("Shared machines are noisy: two calls of this script can differ by a third and more, so compare only what")
    print("stands in one table.")
    costs = f"{milliseconds(floor.wall)} ms and a peak of {megabytes(least.memory)} MB"
    print(f"A process that does nothing takes {costs} here.")
    if plain:
        print("plain: bench/plain.cpp by g++ -O2, one thread, the picture with all samples in memory.")
    else:
        print("There is no g++, so the plain program was not run and no picture was compared.")
    print()


def main() -> int:
    parser = argparse.ArgumentParser(description="Times the program on generated scenes.")
    parser.add_argument("--program", default=PROGRAM, help="default bin/trirast")
    add_before(parser, "the program")
    add_runs(parser, 3, "runs of which the best counts")
    add_scenes(parser, SCENES)
    parser.add_argument("--tiles", nargs="+", type=int, choices=TILES, default=TILES, help="tile sizes (default all)")
    options = parser.parse_args()
    if not is_built(options.program):
        return 2
    scenes.write_all(options.scenes)
    plain = build_plain()
    print_beginning(options.runs, plain)
    programs = builds(options.program, options.before)
    table = Table(programs, plain, options.runs, options.tiles)
    table.head()
    for name in options.scenes:
        table.scene(name)
    report.print_end()
    for line in table.wrong:
        print(line)
    if plain and not table.wrong:
        print("Every picture had the bytes of the plain program's.")
    return 1 if table.wrong else 0


if __name__ == "__main__":
    sys.exit(main())
