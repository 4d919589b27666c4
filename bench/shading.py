"""Times shading on a canvas and by llvmpipe, Mesa's software driver, with the same triangles, texels and shader.

    python3 -m bench.shading [--scenes ring back front dust] [--threads 1 4] [--frames 9] [--rounds 4]
        [--level x86-64-v3] [--write]
    python3 -m bench.shading --probe

A frame of 1280 by 720 pixels with four samples goes from the model's vertices to pixels in memory: textured triangles
under a light, and five panes of glass. The frames of both take turns in one process, and the processes of each number
of threads take turns too; the least of each counts. The parts of ours are shares of the processor time of frames that
do them one after another: setup is clipping, projection and look-up tables; ids with the clear; shading, of which
`plain` is that by one colour; glass; resolve. `calls` is by how much a frame takes longer if the two calls of the
library for tiles are made once more for each, right behind its shading. `by in place's` is the processor time of a
frame, divided by what would be left if these two calls took none: at most what a layout in place could save, which
waits for the same memory. The last column is the share of pixels of which a channel is more than 4 away. Below the
table stands which of the aims are missed. --write puts all of it into bench/results/shading.txt.

--probe asks llvmpipe where it takes w when it shades each sample. It needs `make library`, g++, libegl-dev and
libgl-dev. Exit status 2 if a program cannot be built or ends with an error.
"""

from __future__ import annotations

import argparse
import os
import subprocess
import sys
from typing import Iterator, NamedTuple, Sequence

from bench import report
from bench.options import add_scenes
from tools.places import BENCH_OUT, EXAMPLES, INCLUDE, LEVEL, LIB, SHARED_LIBRARY, TOP, is_built, write_text

SCENES = ("ring", "back", "front", "dust")
SOURCES = os.path.join(TOP, "bench")
PARTS = ("setup", "ids", "shading", "plain", "calls", "glass", "resolve")
COLUMNS = (
    "scene", "triangles", "rate", "threads", "frame, ms", "by llvmpipe's", "times one thread", "processor, ms",
    "by llvmpipe's", *PARTS, "by in place's", "pixels more than 4 away",
)
# The aims: of llvmpipe's frame at each rate, of the frame in place, and four threads by one.
MOST, MOST_BY_CALLS, LEAST_BY_FOUR = {"pixel": 0.5, "sample": 0.4}, 1.06, 3.2
RESULTS = os.path.join("bench", "results", "shading.txt")


def built(name: str, level: str) -> str:
    """Compiles a program of this folder over the shared library, which the loader takes for the processor's level.
    Returns its path."""
    os.makedirs(BENCH_OUT, exist_ok=True)
    path = os.path.join(BENCH_OUT, name)
    flags = ["-std=c++17", "-O3", f"-march={level}", "-I", INCLUDE, "-I", os.path.join(EXAMPLES, "cpp")]
    libraries = ["-L", LIB, "-ltrirast", f"-Wl,-rpath,{LIB}", "-lEGL", "-lGL", "-pthread"]
    subprocess.run(["g++", *flags, os.path.join(SOURCES, f"{name}.cpp"), "-o", path, *libraries], check=True)
    return path


def numbers_in(line: str) -> dict[str, str]:
    """The names and numbers of a line."""
    words = line.split()
    return dict(zip(words[::2], words[1::2]))


def rows_of(program: str, scene: str, threads: int, frames: int) -> tuple[str, list[dict[str, str]]]:
    """The renderer, and the times of each rate."""
    command = [program, "--scene", scene, "--threads", str(threads), "--frames", str(frames)]
    output = subprocess.run(command, stdout=subprocess.PIPE, check=True, text=True).stdout
    renderer, *lines = output.splitlines()
    return renderer.partition(" ")[2], list(map(numbers_in, lines))


def least_of(rows: Sequence[dict[str, str]]) -> dict[str, str]:
    """The least of each number in rows of the same frame."""
    return {name: min((row[name] for row in rows), key=float) if name != "rate" else rows[0][name] for name in rows[0]}


class Frame(NamedTuple):
    """A row of the table."""
    scene: str
    threads: int
    row: dict[str, str]
    alone: float  # the frame by one thread, in milliseconds; 0 if there is none

    def number(self, name: str) -> float:
        return float(self.row[name])

    def calls(self) -> float:
        """What the two calls of each tile take."""
        return self.number("twice") - self.number("processor")

    def share(self, name: str) -> float:
        return (self.calls() if name == "calls" else self.number(name)) / self.whole()

    def whole(self) -> float:
        return sum(map(self.number, ("setup", "ids", "shading", "glass", "resolve")))

    def by_llvmpipe(self, name: str = "wall") -> float:
        return self.number(name) / self.number(f"their_{name}")

    def by_in_place(self) -> float:
        return self.number("processor") / (self.number("processor") - self.calls())

    def times_one(self) -> float:
        return self.alone / self.number("wall")

    def cells(self) -> list[str]:
        times_one = f"{self.times_one():.2f}" if self.threads > 1 and self.alone else ""
        wall = [f"{self.number('wall'):.2f}", f"{self.by_llvmpipe():.2f}", times_one]
        processor = [f"{self.number('processor'):.2f}", f"{self.by_llvmpipe('processor'):.2f}"]
        shares = [f"{self.share(name):.2f}" for name in PARTS]
        first = [self.scene, self.row["triangles"], self.row["rate"], str(self.threads)]
        return [*first, *wall, *processor, *shares, f"{self.by_in_place():.2f}", f"{self.number('far'):.2f} %"]

    def missed(self) -> Iterator[str]:
        rate = self.row["rate"]
        name = f"{self.scene} at each {rate} by {self.threads} threads"
        if self.by_llvmpipe() > MOST[rate]:
            yield f"{name}: {self.by_llvmpipe():.2f} of llvmpipe's frame, and not {MOST[rate]}"
        if self.by_in_place() > MOST_BY_CALLS:
            yield f"{name}: {self.by_in_place():.2f} of a frame in place, and not {MOST_BY_CALLS}"
        if self.threads == 4 and self.alone and self.times_one() < LEAST_BY_FOUR:
            yield f"{name}: {self.times_one():.2f} times one thread, and not {LEAST_BY_FOUR}"


def frames_of(options: argparse.Namespace, program: str) -> Iterator[tuple[str, Frame]]:
    """The renderer, and the frames of each scene when all of its rounds are timed."""
    for scene in options.scenes:
        found: dict[int, list[list[dict[str, str]]]] = {threads: [] for threads in options.threads}
        renderer = ""
        for threads in options.rounds * tuple(options.threads):
            renderer, rows = rows_of(program, scene, threads, options.frames)
            found[threads].append(rows)
        least = {threads: list(map(least_of, zip(*rounds))) for threads, rounds in found.items()}
        alone = {row["rate"]: float(row["wall"]) for row in least.get(1, ())}
        for threads, rows in least.items():
            for row in rows:
                yield renderer, Frame(scene, threads, row, alone.get(row["rate"], 0))


def parsed() -> argparse.Namespace:
    parser = argparse.ArgumentParser(description="Times shading on a canvas and by llvmpipe.")
    add_scenes(parser, SCENES)
    parser.add_argument("--threads", type=int, nargs="+", default=(1, 4), help="default 1 4")
    parser.add_argument("--frames", type=int, default=9, help="frames of a process (default 9)")
    parser.add_argument("--rounds", type=int, default=4, help="processes of each number of threads (default 4)")
    parser.add_argument("--level", default=LEVEL, help=f"the level for which headers are compiled (default {LEVEL})")
    parser.add_argument("--write", action="store_true", help=f"put the table into {RESULTS}")
    parser.add_argument("--probe", action="store_true", help="ask llvmpipe for w, and time nothing")
    return parser.parse_args()


def lines_of(options: argparse.Namespace) -> Iterator[str]:
    """The table, and below it the aims that are missed."""
    program, renderer = built("shading", options.level), ""
    yield f"{report.machine()} Headers for {options.level}.\n\n{report.head(COLUMNS)}\n"
    missed: list[str] = []
    for renderer, frame in frames_of(options, program):
        missed += frame.missed()
        yield f"{report.row(frame.cells())}\n"
    yield f"\nRenderer: {renderer}. Load after the run {report.load()}. "
    yield f"Missed: {'; '.join(missed) or 'nothing'}.\n"


def print_table(options: argparse.Namespace) -> None:
    text = ""
    for line in lines_of(options):
        print(line, end="", flush=True)
        text += line
    if options.write:
        write_text(RESULTS, text)


def main() -> int:
    options = parsed()
    if not is_built(SHARED_LIBRARY, made_by="make library"):
        return 2
    try:
        if options.probe:
            subprocess.run([built("shading_probe", options.level)], check=True)
        else:
            print_table(options)
    except subprocess.CalledProcessError as error:
        return report.failed("shading", error)
    return 0


if __name__ == "__main__":
    sys.exit(main())
