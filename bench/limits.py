"""Compares frames with what the processor could do at the most, and prints one table.

    python3 -m bench.limits [--runs 5] [--scenes small mesh smooth flat]

Needs `make frames`, a C and a C++ compiler, and x86-64 with AVX2. One worker draws, by the build for x86-64-v2, whose
vectors have 128 bits.

- groups: two rows of a block at one sample of each pixel, sixteen samples, counted by the model of bench/model, which
  draws the same blocks: those that a triangle meets, and those of which it changes a sample.
- operations: the least number of operations on vectors of 128 bits for these groups by the arithmetic of
  crates/gradients and crates/lanes (`operations`, below), and stores, of which a processor makes one a cycle. Setup,
  coverage, bins and bytes of pixels are not in it.
- memory: the list as it is kept, read once, and the picture's bytes, written once. Samples stay in caches.

bench/machine.c measures operations and cycles in a second, and bytes from and to memory. The limit is the
greatest of the three times.
"""

from __future__ import annotations

import argparse
import json
import os
import re
import shutil
import subprocess
import sys
from typing import Iterable, NamedTuple

from bench import report, scenes
from bench.llvmpipe import frame_seconds
from bench.options import add_any_scenes, add_frames_program, add_runs
from tools.draw_list import DrawList
from tools.places import BENCH_OUT, TOP, bytes_of

SCENES = ("small", "mesh", "smooth", "flat")
MACHINE = os.path.join(BENCH_OUT, "machine")
COUNTING_MODEL = os.path.join(BENCH_OUT, "model_counts")
COLUMNS = (
    "scene", "groups met, drawn, millions", "samples drawn, millions", "operations, millions (ms)",
    "stores, millions (ms)", "memory, MB (ms)", "frame, ms", "frame / limit",
)

# Bytes of a vertex, of an index and of a triangle's rows in a list that was read (docs/architecture.md, Memory).
VERTEX, INDEX, ROWS = 16, 4, 4
# How the model numbers its ways to compute a depth or a colour. Colours have one more, for planes that are sure: no
# fraction is looked at.
UNUSED, DEPTH_PLANE = 0, 2
FLAT, PLANES = 0, 1


class Groups(NamedTuple):
    """The groups of one mode of drawing."""

    depths: int
    colours: int
    over: int
    whole: int
    stores_depth: int
    met: int
    drawn: int
    samples: int

    def of_depth(self) -> int:
        """Operations of a group that is met: sixteen samples are four vectors of 32 bits a lane, and two of 16."""
        mask = 0 if self.whole else 1 + 2 + 2  # broadcast, single out the bits, compare
        if self.depths == UNUSED:
            return mask
        count = mask + (0 if self.whole else 2) + 2 + 2 + 2  # with the mask; minima and comparisons; is one set
        if self.depths == DEPTH_PLANE:
            count += 4 + 4 + 2  # candidates; their integer parts, packed
            count += 4 + 3 + 3  # fractions; the least of them; whether it is too small
        return count + (2 if self.stores_depth else 0)

    def of_colour(self) -> int:
        """Operations of a group of which some sample is drawn: a channel's result is one vector of bytes."""
        count = 0 if self.whole and self.depths == UNUSED else 1 + 3  # the mask in bytes, and a choice for each channel
        channels = 4 if self.over else 3
        if self.colours != FLAT:
            count += channels * (4 + 4 + 2)
            count += channels * 4 + (channels - 1) * 4 + 3 + 3 if self.colours == PLANES else 0
            count += 0 if self.over else 3  # packed to bytes
        if self.over:
            # 255 - alpha; widen, two products, their sum, division by 255, and packed to bytes.
            count += 2 + 3 * (2 + 4 + 2 + 8 + 1)
        return count

    def operations(self) -> int:
        return self.met * self.of_depth() + self.drawn * self.of_colour()

    def stores(self) -> int:
        depths = 2 if self.depths != UNUSED and self.stores_depth else 0
        return self.drawn * (3 + depths)


class Machine(NamedTuple):
    """What one processor does in a nanosecond."""

    cycles: float
    vectors: float
    read: float
    written: float


def build(target: str, source: str, *compilers_and_flags: str) -> None:
    compiler = next((name for name in compilers_and_flags if shutil.which(name)), None)
    if compiler is None:
        raise SystemExit(
            f"limits: there is none of {', '.join(name for name in compilers_and_flags if name[0] != '-')}"
        )
    flags = [flag for flag in compilers_and_flags if flag[0] == "-"]
    subprocess.run([compiler, *flags, "-o", target, os.path.join(TOP, "bench", *source.split("/"))], check=True)


def machine() -> Machine:
    build(MACHINE, "machine.c", "clang", "gcc", "-O2", "-mavx2")
    output = subprocess.run([MACHINE], check=True, stdout=subprocess.PIPE, text=True).stdout
    rates = {name: float(rate) for name, rate in re.findall(r"(\w+) ([\d.]+)", output)}
    return Machine(rates["cycles"], rates["vectors_of_128"], rates["read"], rates["written"])


def groups_of(source: str) -> list[Groups]:
    """The groups of a list's frame, by the model that counts them."""
    with open(source, "rb") as file:
        done = subprocess.run(
            [COUNTING_MODEL], stdin=file, stdout=subprocess.DEVNULL, stderr=subprocess.PIPE, check=True, text=True
        )
    lines = [line for line in done.stderr.splitlines() if line.startswith("depths")]
    return [Groups(*(int(number) for number in re.findall(r"\d+", line))) for line in lines]


def memory_of(scene: DrawList) -> tuple[int, int]:
    """The bytes of a list as it is kept, and of its picture."""
    vertices = sum(len(draw["vertices"]) for draw in scene["draws"])
    triangles = sum(len(draw["triangles"]) for draw in scene["draws"])
    return VERTEX * vertices + (3 * INDEX + ROWS) * triangles, 3 * scene["width"] * scene["height"]


def sums(groups: Iterable[Groups]) -> tuple[int, ...]:
    """Groups met, groups drawn, samples, operations and stores."""
    rows = [(each.met, each.drawn, each.samples, each.operations(), each.stores()) for each in groups]
    return tuple(sum(column) for column in zip(*rows))


def row_of(name: str, program: str, most: Machine, runs: int) -> str:
    source = scenes.path_of(name)
    met, drawn, samples, operations, stores = sums(groups_of(source))
    kept, picture = memory_of(json.loads(bytes_of(source)))
    times = [operations / most.vectors, stores / most.cycles, kept / most.read + picture / most.written]
    frame = 1e9 * min(frame_seconds(program, source, 1) for _ in range(runs))
    by_operations, by_stores, by_memory = (f"({time / 1e6:.1f})" for time in times)
    return report.row((
        name, f"{met / 1e6:.2f}, {drawn / 1e6:.2f}", f"{samples / 1e6:.2f}", f"{operations / 1e6:.0f} {by_operations}",
        f"{stores / 1e6:.1f} {by_stores}", f"{(kept + picture) / 1e6:.1f} {by_memory}", f"{frame / 1e6:.2f}",
        f"{frame / max(times):.1f}",
    ))


def main() -> int:
    parser = argparse.ArgumentParser(description="Compares frames with what the processor could do at the most.")
    add_frames_program(parser, "--frames")
    add_runs(parser, 5, "turns of three frames, of which the least counts")
    add_any_scenes(parser, SCENES)
    options = parser.parse_args()
    scenes.write_all(options.scenes)
    build(
        COUNTING_MODEL, "model/main.cpp", "g++", "clang++", "-std=c++17", "-O2", "-march=x86-64-v2", "-pthread",
        "-DCOUNT_GROUPS",
    )
    most = machine()
    print(f"{report.machine()} One processor does at the most, in a nanosecond: {most.cycles:.2f} cycles,")
    print(
        f"{most.vectors:.2f} operations on vectors of 128 bits, {most.read:.1f} bytes from memory "
        f"and {most.written:.1f} to it.\n"
    )
    report.print_head(COLUMNS)
    for name in options.scenes:
        print(row_of(name, options.frames, most, options.runs), flush=True)
    report.print_end()
    return 0


if __name__ == "__main__":
    sys.exit(main())
