"""Times canvases on the scenes of bench/scenes.py, and prints six tables.

    python3 -m bench.canvas [--runs 5] [--scenes tiny mesh ..] [--tables parts batches samples ..] [--threads 1 4]
        [--small-pages]

Needs `make library` and gcc.

parts: the least time of clearing, of drawing and of resolving each scene on a canvas, by processor time on one thread.
batches: the processor time of a batch of two triangles of 8 pixels, of 10,000.
samples: the instructions of a sample with 2, 8 and 16 samples a pixel by those of one with four, and its time so; clear
and draw. Instructions need valgrind.
blends: the instructions and the time of blend equations on canvases without and with alpha by those of over, four
samples a pixel, one thread, and those with alpha by those without.
frames: the processor time of a frame by examples/cpp/frames.cpp, one batch, beside one by crates/frames. Needs
`make frames` and g++. scattered: the same of scenes of scattered triangles, cut into batches of fewer
triangles, on one thread.

With --small-pages Linux gives no program large pages, for which trirast.hpp asks.
"""

from __future__ import annotations

import argparse
import ctypes
import json
import os
import shutil
import subprocess
import sys
from typing import Callable, Sequence

from bench import llvmpipe, report, run, scenes
from bench.options import add_runs, add_scenes
from tools import places
from tests.library.lists import arrays_of
from tools.places import BENCH_OUT, EXAMPLES, FRAMES_PROGRAM, INCLUDE, STATIC_LIBRARY, TOP, is_built

SCENES = tuple(name for name in run.SCENES if name not in run.REFUSED)
SIDES = (1024, 4096)
PROGRAM = os.path.join(BENCH_OUT, "canvas")
FRAMES_EXAMPLE = os.path.join(BENCH_OUT, "canvas_frames")
TABLES = ("parts", "batches", "samples", "blends", "frames", "scattered")
# The time of a frame is that of further frames by their number, so that reading the list does not count. The least
# number of these, and the seconds that they take at least.
FRAMES = 6
ENOUGH_SECONDS = 0.5
# A frame of fewer seconds is lost in what a process takes.
LEAST = 0.0005
SCATTERED = ("small", "slivers")
# Scenes that are drawn with each number of samples a pixel, and these numbers beside four.
SAMPLED = ("smooth", "mesh", "flat", "small", "dust")
COUNTS = (1, 2, 8, 16)
# Scenes that are drawn by each blend, and the blends, of which bench/canvas.c has the equations.
BLENDED = ("small", "dust", "mesh", "smooth", "blended")
BLENDS = ("over", "none", "premultiplied", "add", "constant", "subtract")
BATCH_SIZES = (1, 16, 64, 256, 1024, 4096)


def built() -> bool:
    """Builds the program in C over the static library."""
    tests = os.path.join(TOP, "tests", "library")
    sources = [os.path.join(TOP, "bench", "canvas.c"), os.path.join(tests, "scenes.c")]
    command = ["gcc", "-std=c11", "-O2", "-I", INCLUDE, "-I", tests, "-o", PROGRAM, *sources, STATIC_LIBRARY]
    return subprocess.run(command).returncode == 0


def built_frames() -> bool:
    """Builds the example in C++ over the static library. Whether it and the program of crates/frames are there."""
    source = os.path.join(EXAMPLES, "cpp", "frames.cpp")
    include = ["-I", INCLUDE, "-I", os.path.join(TOP, "bench")]
    command = ["g++", "-std=c++17", "-O2", *include, "-pthread", "-o", FRAMES_EXAMPLE, source, STATIC_LIBRARY]
    return is_built(FRAMES_PROGRAM, places.PROGRAM, made_by="make frames") and subprocess.run(command).returncode == 0


def timed(*arguments: str) -> list[int]:
    done = subprocess.run([PROGRAM, *arguments], check=True, stdout=subprocess.PIPE, text=True)
    return [int(word) for word in done.stdout.split()]


def arrays_path(name: str) -> str:
    """Writes the arrays of a scene, and returns their path."""
    path = os.path.join(BENCH_OUT, f"{name}.scene")
    with open(path, "wb") as file:
        file.write(arrays_of(json.loads(places.bytes_of(scenes.path_of(name)))))
    return path


def print_scenes(names: list[str], rounds: int) -> None:
    print("| scene | clear | draw | resolve | together |\n|---|---|---|---|---|")
    for name in names:
        times = timed("scene", arrays_path(name), str(rounds))
        cells = [f"{time / 1000:.2f}" for time in (*times, sum(times))]
        print(report.row([name, *cells]), flush=True)


def print_batches(rounds: int) -> None:
    print("\n| canvas | a batch, microseconds | by ids |\n|---|---|---|")
    for side in SIDES:
        cells = [f"{time / 1000:.2f}" for time in timed("batches", str(side), str(rounds))]
        print(report.row([f"{side} by {side}", *cells]), flush=True)


# What is drawn, by the words that bench/canvas.c takes behind the rounds.
Drawn = tuple[str, ...]


def instructions(table: str, path: str, drawn: Drawn) -> int:
    """What clearing and drawing once takes, by callgrind."""
    calls = [f"--toggle-collect=trirast_proved_canvas_{call}" for call in ("clear", "draw")]
    command = [
        "valgrind", "--tool=callgrind", "--callgrind-out-file=/dev/null", *calls, PROGRAM, table, path, "1", *drawn
    ]
    done = subprocess.run(command, check=True, capture_output=True, text=True)
    return int(done.stderr.rsplit("Collected :", 1)[1].split()[0])


def has_instructions() -> bool:
    return shutil.which("valgrind") is not None


def costs(table: str, name: str, each: Sequence[Drawn], rounds: int) -> list[dict[Drawn, float]]:
    """The instructions of each way to draw a scene, if they can be counted, and the least times in
    microseconds, in turns."""
    path = arrays_path(name)
    least = {drawn: float("inf") for drawn in each}
    for _ in range(rounds):
        for drawn in each:
            least[drawn] = min(least[drawn], timed(table, path, "3", *drawn)[0])
    return [
        *([{drawn: float(instructions(table, path, drawn)) for drawn in each}] if has_instructions() else []), least
    ]


def print_samples(rounds: int) -> None:
    what = "instructions, and time" if has_instructions() else "time"
    print(f"\nA sample by a sample of four a pixel: {what}.\n")
    report.print_head(["scene", *(f"{count} samples" for count in COUNTS)])
    for name in SAMPLED:
        found = costs("samples", name, [(str(count),) for count in (4, *COUNTS)], rounds)
        cells = [", ".join(f"{4 * by[str(count),] / (count * by['4',]):.2f}" for by in found) for count in COUNTS]
        print(report.row([name, *cells]), flush=True)


def print_blends(rounds: int) -> None:
    """Blends by over on as many channels, of which the column has the numbers, and with alpha by those without."""
    what = "instructions (millions), and time (milliseconds)" if has_instructions() else "time (milliseconds)"
    print(f"\nClear and draw: {what} of over; other blends by over, and RGBA by RGB.\n")
    report.print_head(["scene", "channels", *BLENDS])
    for name in BLENDED:
        found = costs("blend", name, [(blend, channels) for channels in "34" for blend in BLENDS], rounds)

        def ratio(one: Drawn, other: Drawn) -> str:
            return ", ".join(f"{by[one] / by[other]:.2f}" for by in found)

        for kind, channels in (("RGB", "3"), ("RGBA", "4")):
            over = ", ".join(f"{by['over', channels] / unit:.0f}" for by, unit in zip(found, (1e6, 1e3)[-len(found) :]))
            cells = [ratio((blend, channels), ("over", channels)) for blend in BLENDS if blend != "over"]
            print(report.row([name, kind, over, *cells]), flush=True)
        print(report.row([name, "RGBA by RGB", *(ratio((blend, "4"), (blend, "3")) for blend in BLENDS)]), flush=True)


# ---- Frames beside crates/frames

# The arguments for one frame, and for a number of frames more.
Way = Callable[[int], tuple[list[str], list[str]]]


def way_of_frames(threads: int) -> Way:
    """By crates/frames, which draws one frame for its checksum, and then those that are timed."""
    command = [FRAMES_PROGRAM, "--workers", str(threads)]
    return lambda frames: (command, [*command, "--time", "--frames", str(frames)])


def way_of_canvas(threads: int, *more: str) -> Way:
    command = [FRAMES_EXAMPLE, "--workers", str(threads), *more]
    return lambda frames: (command, [*command, "--frames", str(1 + frames)])


def frames_of(source: str) -> int:
    """The number of further frames of a list: the time of short ones is lost in that of a process, so there
    are more of them."""
    with open(source, "rb") as list_file:
        done = subprocess.run([FRAMES_EXAMPLE, "--frames", "3"], check=True, stdin=list_file, capture_output=True)
    least = float(done.stderr.split()[1]) / 1000
    return max(FRAMES, round(ENOUGH_SECONDS / max(least, LEAST)))


def processor_times(source: str, ways: Sequence[Way], rounds: int) -> list[float]:
    """The processor time of a frame of a list in seconds, each way. They take turns, and the least times count."""
    least = [[float("inf")] * 2 for _ in ways]
    frames = frames_of(source)
    for _ in range(rounds):
        for way, times in zip(ways, least):
            for k, command in enumerate(way(frames)):
                times[k] = min(times[k], run.Run(command, source, os.devnull, is_quiet=True).processor)
    return [(many - one) / frames for one, many in least]


def source_of(name: str) -> str:
    """The list of a scene. Raises `NotTimed` if the example draws other bytes than the program."""
    source = scenes.path_of(name)
    llvmpipe.check_model(FRAMES_EXAMPLE, places.PROGRAM, source)
    return source


def print_frames(names: Sequence[str], rounds: int, threads: Sequence[int]) -> None:
    print("\nProcessor time of a frame, milliseconds.\n")
    print("| scene | threads | crates/frames | canvas | canvas by crates/frames |\n|---|---|---|---|---|")
    for name in names:
        source = source_of(name)
        for count in threads:
            frame, canvas = processor_times(source, (way_of_frames(count), way_of_canvas(count)), rounds)
            cells = (
                [f"{1000 * frame:.2f}", f"{1000 * canvas:.2f}", f"{canvas / frame:.2f}"] if frame > LEAST else ["-"] * 3
            )
            print(report.row([name, str(count), *cells]), flush=True)


def print_scattered(rounds: int) -> None:
    """What batches of a number of triangles take, by the frame of crates/frames."""
    heads = [f"{size:,}" for size in BATCH_SIZES]
    print("\nProcessor time of a frame by that of crates/frames, by the triangles of a batch, one thread.\n")
    report.print_head(["scene", *heads, "one batch"])
    for name in SCATTERED:
        ways = [way_of_frames(1), *(way_of_canvas(1, "--batch", str(size)) for size in BATCH_SIZES), way_of_canvas(1)]
        frame, *times = processor_times(source_of(name), ways, rounds)
        print(report.row([name, *(f"{time / frame:.2f}" for time in times)]), flush=True)


def refuse_large_pages() -> None:
    """Has Linux give no large pages to this process, and to those that it starts (PR_SET_THP_DISABLE of prctl(2))."""
    if ctypes.CDLL(None).prctl(41, 1, 0, 0, 0) != 0:
        raise OSError("prctl(PR_SET_THP_DISABLE)")


def print_tables(options: argparse.Namespace) -> bool:
    """Prints the tables that are asked for. Returns whether their programs could be built."""
    if {"parts", "batches", "samples", "blends"} & set(options.tables):
        if not built():
            return False
        print(f"Least of {options.runs} rounds, one thread, milliseconds of processor time.\n")
        if "parts" in options.tables:
            print_scenes(list(options.scenes), options.runs)
        if "batches" in options.tables:
            print_batches(options.runs)
        if "samples" in options.tables:
            print_samples(options.runs)
        if "blends" in options.tables:
            print_blends(options.runs)
    if "frames" in options.tables or "scattered" in options.tables:
        if not built_frames():
            return False
        if "frames" in options.tables:
            print_frames(options.scenes, options.runs, options.threads)
        if "scattered" in options.tables:
            print_scattered(options.runs)
    return True


def main() -> int:
    parser = argparse.ArgumentParser(description="Times canvases.")
    add_runs(parser, 5, "rounds of which the least counts")
    add_scenes(parser, SCENES)
    parser.add_argument(
        "--tables", nargs="+", choices=TABLES, default=TABLES, metavar="TABLE",
        help=f"{', '.join(TABLES)} (default all)",
    )
    parser.add_argument("--threads", type=int, nargs="+", default=(1, 4), help="of a frame (default 1 4)")
    parser.add_argument("--small-pages", action="store_true", help="without large pages")
    options = parser.parse_args()
    if options.small_pages:
        refuse_large_pages()
    os.makedirs(BENCH_OUT, exist_ok=True)
    if not os.path.isfile(STATIC_LIBRARY):
        print(f"there is no library at {STATIC_LIBRARY}; run make library first", file=sys.stderr)
        return 1
    more = {"scattered": SCATTERED, "samples": SAMPLED, "blends": BLENDED}
    scenes.write_all([*options.scenes, *(name for table in options.tables for name in more.get(table, ()))])
    print(report.machine())
    if not print_tables(options):
        return 1
    report.print_end()
    return 0


if __name__ == "__main__":
    sys.exit(main())
