"""Times the program and llvmpipe, Mesa's software driver: single frames, and whole processes.

    python3 -m bench.llvmpipe [--runs 5] [--workers 1 4] [--scenes smooth mesh ..] [--lists some.json ..]
        [--model PROGRAM] [--before PROGRAM]

A frame of llvmpipe goes from its clear to the pixels read back, warm, with values at each sample as by the program; a
frame of the program goes from a list that was read to its picture's last byte, thrown away (`crates/frames`). The two
take turns, and the median of each one's turns counts, with the processor time of the whole process in brackets; the
spread is from the fastest turn of ours to its slowest one, by the median. `--model` names a third program that takes
`--frames N --workers N`, reads a list and prints `least_ms N` on standard error. A whole process of ours starts, reads
the list, draws it once and ends; llvmpipe has no such number, since it reads no list. If there is a build of
crates/frames for x86-64-v3 (`make frames CPU=x86-64-v3`) and the processor runs it, it takes turns with them, and so
does crates/frames of another build with --before.

llvmpipe's numbers are floating point, so its pictures are near the program's and not equal: the last column is
the share of pixels of which a channel is more than 4 away. Mesa's EGL and OpenGL are called by ctypes, so
nothing is compiled.

Exit status 2 if there is no llvmpipe or no program, or if the model draws other bytes.
"""

from __future__ import annotations

import argparse
import json
import os
import re
import subprocess
import sys
from statistics import median

from bench import report, scenes
from bench.options import add_before, add_frames_program, add_runs, add_scenes
from bench.run import Run
from tools import picture_file
from tools.answers import drawn
from tools.places import BENCH_OUT, EXAMPLES, FRAMES_OF_LEVEL, LEVEL, MODEL_PROGRAM, PROGRAM, TOP, is_built

SCENES = (
    "smooth", "small", "mesh", "slivers", "blended", "flat", "flat_depth", "flat_blended", "large_mesh", "whole_values",
    "thin_slivers", "level_rows", "depths_first", "levels", "levels_four", "levels_depth", "charts", "steps", "sprites",
    "dust", "hidden_quads",
)
WORKERS = (1, 4)
FRAMES_A_TURN = 3
NEAR = 4
COLUMNS = ("list", "workers", "llvmpipe frame (processor), ms", "frame, ms", "spread", "frame / llvmpipe")
BEFORE_COLUMNS = ("frame before, ms", "frame / before")
LEVEL_COLUMNS = (f"frame of {LEVEL}, ms", f"{LEVEL} / frame")
MODEL_COLUMNS = ("model's frame, ms", "frame / model")
LAST_COLUMNS = ("whole process (processor), ms", f"pixels differing by more than {NEAR}")


class NotTimed(Exception):
    """Why a table cannot be made."""


class Llvmpipe:
    """A process that draws one list by llvmpipe, since the driver counts its threads once."""

    def __init__(self, source: str, target: str, workers: int) -> None:
        threads = 0 if workers == 1 else workers  # 0: everything on the caller's thread
        command = [sys.executable, "-m", "bench.llvmpipe_frames", source, target]
        environment = dict(os.environ, LP_NUM_THREADS=str(threads))
        self.child = subprocess.Popen(
            command, cwd=TOP, env=environment, text=True, stdin=subprocess.PIPE, stdout=subprocess.PIPE
        )
        self.name = self.answer()
        if not self.name:
            raise NotTimed("llvmpipe did not begin")

    def answer(self) -> str:
        assert self.child.stdout
        return self.child.stdout.readline().strip()

    def turn(self) -> tuple[float, float]:
        """Wall and processor time of the fastest of a few frames."""
        assert self.child.stdin
        self.child.stdin.write(f"{FRAMES_A_TURN}\n")
        self.child.stdin.flush()
        wall, processor = json.loads(self.answer())
        return wall, processor

    def end(self) -> None:
        assert self.child.stdin
        self.child.stdin.close()
        self.child.wait()


def number_in(pattern: str, text: str) -> float:
    found = re.search(pattern, text)
    if not found:
        raise NotTimed(f"nothing is {pattern} in {text!r}")
    return float(found[1])


def frame_seconds(program: str, source: str, workers: int) -> float:
    """Wall time of the fastest of a few frames of a list that was read once, by crates/frames."""
    command = [program, "--time", "--frames", str(FRAMES_A_TURN), "--workers", str(workers)]
    with open(source, "rb") as file:
        output = subprocess.run(command, stdin=file, stdout=subprocess.PIPE, check=True, text=True).stdout
    return number_in(r"least (\d+) ns", output) / 1e9


def run_model(source: str, command: list[str]) -> subprocess.CompletedProcess[bytes]:
    """Runs the model. Raises `NotTimed` with its line if it refuses the list."""
    with open(source, "rb") as file:
        done = subprocess.run(command, stdin=file, capture_output=True)
    if done.returncode:
        line = done.stderr.decode(errors="replace").strip()
        raise NotTimed(f"the model ended with status {done.returncode} at {source}: {line}")
    return done


def model_seconds(model: str, source: str, workers: int) -> float:
    """Wall time of the model's fastest of a few frames."""
    done = run_model(source, [model, "--frames", str(FRAMES_A_TURN), "--workers", str(workers)])
    return number_in(r"least_ms ([\d.]+)", done.stderr.decode(errors="replace")) / 1000


def bytes_at(path: str) -> bytes:
    with open(path, "rb") as file:
        return file.read()


def check_model(model: str, program: str, source: str) -> None:
    """Raises `NotTimed` if the model's picture has other bytes than the program's."""
    if run_model(source, [model]).stdout != drawn(program, bytes_at(source)).output:
        raise NotTimed(f"the model draws {source} with other bytes than the program")


def whole_process(program: str, source: str, workers: int) -> tuple[float, float]:
    """Wall and processor time of a process of ours, from its start to its end."""
    run = Run([program, "--workers", str(workers)], source, os.devnull)
    if run.status:
        raise NotTimed(f"{program} ended with wait status {run.status}")
    return run.wall, run.processor


def medians(times: list[tuple[float, float]]) -> tuple[float, float]:
    """The medians of wall and of processor times."""
    return median(wall for wall, _processor in times), median(processor for _wall, processor in times)


def far_pixels(program: str, source: str, target: str) -> str:
    """The share of pixels of which a channel is more than NEAR away."""
    picture = picture_file.decode(drawn(program, bytes_at(source)).output)
    if picture.pixel_bytes != 3:
        return "-"
    theirs, count = bytes_at(target), picture.width * picture.height
    channels = [(picture.pixel_data[k::3], theirs[k::4]) for k in range(3)]
    far = sum(any(abs(one[n] - other[n]) > NEAR for one, other in channels) for n in range(count))
    return f"{100 * far / count:.2f} %"


class Table:
    """The rows of lists that all programs draw, for these options."""

    def __init__(self, options: argparse.Namespace, model: str | None, of_level: str | None) -> None:
        self.program, self.frames, self.model, self.of_level = options.program, options.frames, model, of_level
        self.before, self.runs, self.workers = options.before, options.runs, options.workers
        self.renderer = ""

    def cells(self, source: str, workers: int) -> list[str]:
        """The times of one row: the programs in turn, and the median of each one's turns."""
        driver = Llvmpipe(source, os.path.join(BENCH_OUT, "llvmpipe.rgba"), workers)
        self.renderer = driver.name
        theirs: list[tuple[float, float]] = []
        whole: list[tuple[float, float]] = []
        frames, earlier, levels, models = list[float](), list[float](), list[float](), list[float]()
        for _ in range(self.runs):
            theirs.append(driver.turn())
            frames.append(frame_seconds(self.frames, source, workers))
            earlier += [frame_seconds(self.before, source, workers)] if self.before else []
            levels += [frame_seconds(self.of_level, source, workers)] if self.of_level else []
            models += [model_seconds(self.model, source, workers)] if self.model else []
            whole.append(whole_process(self.program, source, workers))
        driver.end()
        (wall, processor), (process, spent) = medians(theirs), medians(whole)
        frame, spread = median(frames), (max(frames) - min(frames)) / median(frames)
        cells = [
            f"{1000 * wall:.2f} ({1000 * processor:.1f})", f"{1000 * frame:.2f}", f"{100 * spread:.0f} %",
            f"{frame / wall:.2f}",
        ]
        for others, by_frame in ((earlier, False), (levels, True), (models, False)):
            if others:
                ratio = median(others) / frame if by_frame else frame / median(others)
                cells += [f"{1000 * median(others):.2f}", f"{ratio:.2f}"]
        return cells + [f"{1000 * process:.1f} ({1000 * spent:.1f})"]

    def row(self, source: str, workers: int) -> None:
        label, target = os.path.splitext(os.path.basename(source))[0], os.path.join(BENCH_OUT, "llvmpipe.rgba")
        cells = self.cells(source, workers)
        far = far_pixels(self.program, source, target) if workers == self.workers[0] else ""
        os.remove(target)
        print(report.row([label, str(workers), *cells, far]), flush=True)

    def print(self, lists: list[str]) -> None:
        others = ((BEFORE_COLUMNS, self.before), (LEVEL_COLUMNS, self.of_level), (MODEL_COLUMNS, self.model))
        report.print_head(
            [*COLUMNS, *(column for columns, program in others if program for column in columns), *LAST_COLUMNS]
        )
        for source in lists:
            if self.model:
                check_model(self.model, self.program, source)
            for workers in self.workers:
                self.row(source, workers)
        print(f"\nRenderer: {self.renderer}. Load after the run {report.load()}, {os.cpu_count()} processors.")


def parsed() -> argparse.Namespace:
    parser = argparse.ArgumentParser(description="Times the program and llvmpipe.")
    parser.add_argument("--program", default=PROGRAM, help="default bin/trirast")
    add_frames_program(parser, "--frames")
    parser.add_argument(
        "--of-level", help=f"the same for {LEVEL} (default: where make frames CPU={LEVEL} leaves it, if it is there)"
    )
    parser.add_argument(
        "--model", help="the program of bench/model (default: where make model builds it, if it is there)"
    )
    add_before(parser, "crates/frames")
    add_runs(parser, 5, "turns of each program, of which the median counts")
    parser.add_argument("--workers", type=int, nargs="+", default=WORKERS, help="default 1 4")
    add_scenes(parser, SCENES)
    parser.add_argument("--lists", nargs="+", metavar="FILE", help="draw lists in place of scenes")
    return parser.parse_args()


def chosen_model(chosen: str | None) -> str | None:
    """The model to time: the one that was asked for, else the one that is built, else `None`."""
    program = chosen or MODEL_PROGRAM
    if os.access(program, os.X_OK):
        return os.path.abspath(program)
    if chosen:
        raise NotTimed(f"no model at {program}; make model builds {os.path.relpath(MODEL_PROGRAM)}")
    print(f"no model at {program}, so its columns are left out; run make model for them", file=sys.stderr)
    return None


def program_of_level(chosen: str | None) -> str | None:
    """The build for the higher level of x86-64 to time, or `None` if it is not there or the processor
    does not run it."""
    program = chosen or FRAMES_OF_LEVEL
    if not os.access(program, os.X_OK):
        print(
            f"no program at {program}, so its columns are left out; run make frames CPU={LEVEL} for them",
            file=sys.stderr,
        )
        return None
    with open(os.path.join(EXAMPLES, "triangle.json"), "rb") as file:
        if subprocess.run([program], stdin=file, stdout=subprocess.DEVNULL).returncode:
            print(f"this processor does not run {program}, so its columns are left out", file=sys.stderr)
            return None
    return os.path.abspath(program)


def main() -> int:
    options = parsed()
    if not is_built(options.program):
        return 2
    lists = options.lists or scenes.write_all(options.scenes)
    try:
        Table(options, chosen_model(options.model), program_of_level(options.of_level)).print(lists)
    except (subprocess.CalledProcessError, NotTimed) as error:
        return report.failed("llvmpipe", error)
    return 0


if __name__ == "__main__":
    sys.exit(main())
