"""Measures what keeps several workers from being as many times as fast, and prints one table.

    python3 -m bench.threads [--runs 3] [--frames 24] [--scenes smooth large_mesh ..] [--before PROGRAM]

Needs `make frames`. All figures of a row are of the same call, in turns: frames with 1, 2 and 4 workers, and four
programs of one worker each side by side, which share nothing. The times are medians of a turn's frames, of which
the least turn counts.

- calling thread: the processor time of a frame with 4 workers that the thread takes which draws no tile: bins, joining,
  output, and starting the workers. The rest are the workers'.
- idle: the share of the 4 processors' time that a frame with 4 workers leaves: 1 less processor time by 4 times
  the time on the wall.
- four programs: how many times the work of one program alone four do side by side. It is what the machine allows four
  threads that never wait; processors may be threads of one core, and share memory and heat.
- of it: how many times as fast 4 workers are, by what four programs do.

With --before each scene has a second row, of another build's program, whose turns are between those of the first.

Linux alone.
"""

from __future__ import annotations

import argparse
import os
import re
import statistics
import subprocess
import sys
from typing import NamedTuple

from bench import report, scenes
from bench.options import add_any_scenes, add_before, add_frames_program, add_runs, builds

SCENES = ("smooth", "mesh", "large_mesh", "flat", "blended", "small")
WORKERS = (1, 2, 4)
COLUMNS = (
    "scene", "1 worker, ms", "2 workers, ms", "4 workers, ms", "times as fast, 2 and 4", "processor, 1 and 4, ms",
    "calling thread, ms", "idle", "four programs", "4 workers / four programs",
)


class Times(NamedTuple):
    """Seconds of a program: of its median frame on the wall, and of all its threads and its first one on processors."""

    frame: float
    processor: float
    calling: float


class Program:
    """A program of crates/frames that draws frames of a list."""

    def __init__(self, program: str, source: str, workers: int, frames: int) -> None:
        command = [program, "--time", "--frames", str(frames), "--workers", str(workers)]
        with open(source, "rb") as file:
            self.child = subprocess.Popen(command, stdin=file, stdout=subprocess.PIPE, text=True)

    def end(self) -> Times:
        """Waits for the program. The kernel still has the time of its first thread until it is waited for."""
        assert self.child.stdout
        output = self.child.stdout.read()
        self.child.stdout.close()
        process = self.child.pid
        os.waitid(os.P_PID, process, os.WEXITED | os.WNOWAIT)
        with open(f"/proc/{process}/task/{process}/schedstat", encoding="ascii") as file:
            calling = int(file.read().split()[0])
        _, status, usage = os.wait4(process, 0)
        self.child.returncode = status
        found = re.search(r"middle (\d+) ns", output)
        if status or not found:
            raise SystemExit(f"threads: {self.child.args!r} ended with wait status {status}")
        return Times(int(found[1]) / 1e9, usage.ru_utime + usage.ru_stime, calling / 1e9)


class Scene:
    """What was measured of a list."""

    def __init__(self, program: str, source: str, frames: int) -> None:
        self.program, self.source, self.frames = program, source, frames
        self.turns: dict[int, list[Times]] = {workers: [] for workers in WORKERS}
        self.beside: list[float] = []

    def times(self, workers: int) -> Times:
        """Of a frame: what reading and the frame of the checksum take is in both runs, and not in their difference."""
        one = Program(self.program, self.source, workers, 1).end()
        many = Program(self.program, self.source, workers, self.frames).end()
        further = self.frames - 1
        return Times(many.frame, (many.processor - one.processor) / further, (many.calling - one.calling) / further)

    def turn(self) -> None:
        for workers in WORKERS:
            self.turns[workers].append(self.times(workers))
        programs = [Program(self.program, self.source, 1, self.frames) for _ in range(max(WORKERS))]
        self.beside.append(statistics.mean(program.end().frame for program in programs))

    def row(self, name: str) -> str:
        one, two, four = (min(turns) for turns in self.turns.values())
        allowed = max(WORKERS) * one.frame / min(self.beside)
        faster = one.frame / four.frame
        idle = 1 - four.processor / (max(WORKERS) * four.frame)
        return report.row((
            name, *(f"{1000 * times.frame:.2f}" for times in (one, two, four)),
            f"{one.frame / two.frame:.2f}, {faster:.2f}", f"{1000 * one.processor:.1f}, {1000 * four.processor:.1f}",
            f"{1000 * four.calling:.2f}", f"{100 * idle:.0f} %", f"{allowed:.2f}", f"{faster / allowed:.2f}",
        ))


def main() -> int:
    parser = argparse.ArgumentParser(
        description="Measures what keeps several workers from being as many times as fast."
    )
    add_frames_program(parser, "--program")
    add_before(parser, "the program")
    add_runs(parser, 3, "turns of each")
    parser.add_argument("--frames", type=int, default=24, help="frames of a turn (default 24)")
    add_any_scenes(parser, SCENES)
    options = parser.parse_args()
    print(f"{report.machine()}\n")
    report.print_head(COLUMNS)
    programs = builds(options.program, options.before)
    for name, source in zip(options.scenes, scenes.write_all(options.scenes)):
        of_each = {
            label: Scene(os.path.abspath(program), source, options.frames) for label, program in programs.items()
        }
        for _ in range(options.runs):
            for scene in of_each.values():
                scene.turn()
        for label, scene in of_each.items():
            print(scene.row(name + label), flush=True)
    report.print_end()
    return 0


if __name__ == "__main__":
    sys.exit(main())
