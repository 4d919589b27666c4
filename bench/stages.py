"""Says where the time of a frame goes, stage by stage: prints one table, and draws it.

    python3 -m bench.stages [--build] [--scenes small mesh smooth flat] [--write docs/stages.svg]

Needs rt, perf and valgrind. One worker draws. The time is the share of perf's samples in 60 frames, reading left out;
the instructions are those that valgrind's callgrind counts of one frame, the same in each run. A stage is the sum of
functions, by the table STAGES.

In the program most stages are inlined into one function. So the program that is measured here is another one: `--build`
copies the crates with their kept proofs to bench/out/split (4 GB), writes `#[inline(never)]` before the functions of
OUT_OF_LINE, and builds crates/frames there (some minutes). It takes 1 to 5 % more instructions. What is inlined there
counts where it stands: the edges of a triangle with its fetch, the classes of squares, the masks and the scissor with
the blocks of a triangle.
"""

from __future__ import annotations

import argparse
import os
import re
import shutil
import subprocess
import sys
from typing import Mapping, NamedTuple, Sequence

from bench import report, scenes
from bench.options import add_any_scenes
from tools.places import BENCH_OUT, EXAMPLES, TOP, is_built

SCENES = ("small", "mesh", "smooth", "flat")
FRAMES = 60
SAMPLES_A_SECOND = 2000
SPLIT = os.path.join(BENCH_OUT, "split")
PROGRAM = os.path.join(SPLIT, "crates", "frames", "out", "frames")
# Where a function begins that is not to be inlined, by its file.
OUT_OF_LINE = {
    "raster/src/rasterize.rt": "fn draw_blocks(",
    "tile/src/tile_pixels.rt": "fn draw_bin(",
    "tile/src/pixels.rt": "pub(crate) fn resolve(",
}


class Stage(NamedTuple):
    """A stage of a frame: the functions that belong to it, by the beginnings of their names."""

    name: str
    colour: str
    functions: tuple[str, ...]


# The first that has a function counts.
STAGES = (
    Stage("bins", "#8c6bb1", ("tile_rows::tile_rows::TileRows::bins", "bins::")),
    Stage("edges of triangles", "#225ea8", ("tile::tile_pixels::draw_bin", "draw_list::", "cover::setup::")),
    Stage(
        "planes of values", "#41b6c4",
        ("lanes::interpolants::", "gradients::whole_values::", "gradients::plane::", "__udivti3"),
    ),
    Stage("coverage of blocks", "#7fbc41", ("raster::rasterize::", "raster::", "cover::")),
    Stage("values and merging", "#fdae61", ("lanes::", "gradients::", "shade::")),
    Stage("clearing", "#bdbdbd", ("tile_rows::tile_rows::TileJobJob::work", "__memset", "memset", "tile::store::")),
    Stage("resolve", "#d7301f", ("tile::pixels::",)),
    Stage("joining and output", "#737373", ("",)),
)
# What is no part of a frame: the start of the program, its arguments, and reading.
BEFORE = re.compile(
    r"fast_reader|checking_reader|json|serde|simdutf8|clap|list::|frames::(main|read|list)|Decode|utf8"
    r"|draw_list::draw_list::DrawList::within"
)

# What each stage takes, by its name.
Costs = Mapping[str, float]


class Bar(NamedTuple):
    """What one frame of a scene takes, measured one way."""

    scene: str
    way: str
    total: str
    costs: Costs

    def share(self, stage: str) -> float:
        return self.costs[stage] / sum(self.costs.values())


def build(rt: str) -> None:
    """Builds the program with the stages out of line, over a copy of the crates and of what was proved of them."""
    shutil.rmtree(SPLIT, ignore_errors=True)
    os.makedirs(SPLIT)
    subprocess.run(
        ["cp", "-a", *(os.path.join(TOP, name) for name in ("crates", "crates.txt", "HANDLES")), SPLIT], check=True
    )
    for name, function in OUT_OF_LINE.items():
        path = os.path.join(SPLIT, "crates", name)
        with open(path, encoding="utf-8") as file:
            source = file.read()
        source, found = re.subn(
            rf"^( *){re.escape(function)}", r"\1#[inline(never)]\n\g<0>", source, flags=re.MULTILINE
        )
        if found != 1:
            raise SystemExit(f"stages: {name} has not one {function}")
        with open(path, "w", encoding="utf-8") as file:
            file.write(source)
    with open(os.path.join(EXAMPLES, "triangle.json"), "rb") as triangle:
        subprocess.run(
            [rt, "run"], cwd=os.path.join(SPLIT, "crates", "frames"), stdin=triangle, stdout=subprocess.DEVNULL,
            check=True,
        )


def stage_of(function: str) -> str:
    return next(stage.name for stage in STAGES if function.startswith(stage.functions))


def summed(functions: Mapping[str, float]) -> Costs:
    """The costs of the stages, from those of functions."""
    costs = {stage.name: 0.0 for stage in STAGES}
    for function, cost in functions.items():
        if not BEFORE.search(function):
            costs[stage_of(function)] += cost
    return costs


def command(program: str, frames: int) -> list[str]:
    return [program, "--workers", "1", "--time", "--frames", str(frames)]


def run(words: Sequence[str], source: str) -> str:
    with open(source, "rb") as file:
        done = subprocess.run(words, stdin=file, stdout=subprocess.PIPE, stderr=subprocess.PIPE, text=True)
    if done.returncode:
        raise SystemExit(f"stages: {words[0]} ended with status {done.returncode}: {done.stderr[-300:]}")
    return done.stdout


def by_time(program: str, scene: str) -> Bar:
    """perf's samples of many frames."""
    data, source = os.path.join(BENCH_OUT, "stages.data"), scenes.path_of(scene)
    options = ["-q", "-e", "cpu-clock", "-F", str(SAMPLES_A_SECOND), "-o", data]
    printed = run(["perf", "record", *options, "--", *command(program, FRAMES)], source)
    middle = re.search(r"middle (\d+) ns", printed)
    report = run(["perf", "report", "-i", data, "--stdio", "-F", "sample,symbol", "-t", "|"], os.devnull)
    os.remove(data)
    # A function of the kernel, as what gives pages to a program, has [k] before its name: it has no stage of its own.
    rows = re.findall(r"^\s*(\d+)\s*\|\[(.)\] (.*?)\s*$", report, re.MULTILINE)
    functions: dict[str, float] = {}
    for samples, place, name in rows:
        key = f"kernel {name}" if place == "k" else name
        functions[key] = functions.get(key, 0) + int(samples)
    return Bar(scene, "time", f"{int(middle[1]) / 1e6:.1f} ms" if middle else "", summed(functions))


def instructions(program: str, source: str, frames: int) -> dict[str, int]:
    """The instructions of each function, by callgrind."""
    out = os.path.join(BENCH_OUT, "stages.callgrind")
    options = ["--tool=callgrind", "--compress-strings=no", "--compress-pos=no", f"--callgrind-out-file={out}"]
    run(["valgrind", *options, *command(program, frames)], source)
    found: dict[str, int] = {}
    function, is_call = "", False
    with open(out, encoding="utf-8", errors="replace") as file:
        for line in file:
            if line.startswith("fn="):
                function = line[3:].strip()
            elif line.startswith("calls="):
                is_call = True  # The next line has what the call took, which its own function has too.
            elif line[0].isdigit():
                if not is_call:
                    found[function] = found.get(function, 0) + int(line.split()[1])
                is_call = False
    os.remove(out)
    return found


def by_instructions(program: str, scene: str) -> Bar:
    """What two frames take more than one."""
    source = scenes.path_of(scene)
    one, two = (instructions(program, source, frames) for frames in (1, 2))
    costs = summed({name: two[name] - one.get(name, 0) for name in two})
    return Bar(scene, "instructions", f"{sum(costs.values()) / 1e6:.0f} million", costs)


# ---- The picture

WIDTH, LEFT, FIRST_BAR, HEIGHT, GAP = 960, 210, 70, 20, 14


def text(x: float, y: float, words: str, more: str = "") -> str:
    return f'<text x="{x:.1f}" y="{y:.1f}"{more}>{words}</text>'


def legend() -> list[str]:
    lines, x, y = [], 12.0, 24.0
    for stage in STAGES:
        if x + 24 + 7.5 * len(stage.name) > WIDTH:
            x, y = 12.0, y + 20
        lines += [
            f'<rect x="{x:.1f}" y="{y - 10:.1f}" width="12" height="12" fill="{stage.colour}"/>',
            text(x + 18, y, stage.name),
        ]
        x += 40 + 7.5 * len(stage.name)
    return lines


def drawn_bar(bar: Bar, y: float) -> list[str]:
    lines, x = [text(12, y + 14, f"{bar.scene}, {bar.way}")], float(LEFT)
    for stage in STAGES:
        share = bar.share(stage.name)
        width = share * (WIDTH - LEFT - 130)
        lines.append(f'<rect x="{x:.1f}" y="{y}" width="{width:.1f}" height="{HEIGHT}" fill="{stage.colour}"/>')
        if share >= 0.05:
            lines.append(text(x + width / 2, y + 14, f"{100 * share:.0f}", ' text-anchor="middle"'))
        x += width
    return [*lines, text(x + 8, y + 14, bar.total)]


def svg(bars: Sequence[Bar]) -> str:
    lines, y, before = legend(), FIRST_BAR, ""
    for bar in bars:
        y += GAP if before and bar.scene != before else 0
        before = bar.scene
        lines += drawn_bar(bar, y)
        y += HEIGHT + 2
    head = (
        f'<svg xmlns="http://www.w3.org/2000/svg" width="{WIDTH}" height="{y + 12}" '
        'font-family="monospace" font-size="12">'
    )
    return "\n".join([head, '<rect width="100%" height="100%" fill="#ffffff"/>', *lines, "</svg>", ""])


def row_of(bar: Bar) -> str:
    shares = (f"{100 * bar.share(stage.name):.1f}" for stage in STAGES)
    return report.row([bar.scene, bar.way, bar.total, *shares])


def main() -> int:
    parser = argparse.ArgumentParser(description="Says where the time of a frame goes, stage by stage.")
    parser.add_argument(
        "--frames", default=PROGRAM,
        help="a program of crates/frames in which the stages are out of line (default: that of --build)",
    )
    parser.add_argument("--build", action="store_true", help="builds that program first")
    parser.add_argument("--rt", default="rt", help="the command rt")
    add_any_scenes(parser, SCENES)
    parser.add_argument("--write", metavar="FILE", help="draws the bars to this file, as SVG")
    options = parser.parse_args()
    missing = [tool for tool in ("perf", "valgrind") if shutil.which(tool) is None]
    if missing:
        print(f"stages: {' and '.join(missing)} needed", file=sys.stderr)
        return 2
    if options.build:
        build(options.rt)
    if not is_built(options.frames, made_by="python3 -m bench.stages --build"):
        return 2
    scenes.write_all(options.scenes)
    print(f"{report.machine()} One worker; percent of a frame.\n")
    columns = ("scene", "by", "a frame", *(stage.name for stage in STAGES))
    report.print_head(columns)
    bars = []
    for scene in options.scenes:
        for measured in (by_time, by_instructions):
            bars.append(measured(options.frames, scene))
            print(row_of(bars[-1]), flush=True)
    if options.write:
        with open(options.write, "w", encoding="utf-8") as file:
            file.write(svg(bars))
    return 0


if __name__ == "__main__":
    sys.exit(main())
