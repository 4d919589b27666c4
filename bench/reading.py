"""Times reading beside parsers that only parse, and prints one table.

    python3 -m bench.reading [--runs 5] [--scenes long_list mesh small] [--layouts plain commas lines]
        [--before PROGRAM]

Needs `make bin/list_bench`. `list::read` checks a list and builds it; `serde_json` builds its tree of values, and
simdjson its tape of values, or goes over all values on demand, and neither knows what a list is. The programs take
turns, each reads the same bytes seven times a turn, and the least time of each counts. simdjson's columns need its
library (Debian: libsimdjson-dev) and a C++ compiler, and are left out without them. A layout puts blanks into a scene's
text: behind each comma, a vertex or a triangle a line with blanks behind commas, or an element a line; a text that is
longer than a list may be is left out. With --before crates/list_bench of another build takes turns with them.
"""

from __future__ import annotations

import argparse
import os
import re
import shutil
import subprocess
import sys

from bench import report, scenes
from bench.options import add_any_scenes, add_before, add_runs
from tools.places import BENCH_OUT, READER_PROGRAM, TOP, is_built

SCENES = ("long_list", "mesh", "small")
PARSER = os.path.join(BENCH_OUT, "simdjson")
LAYOUTS = ("plain", "commas", "lines", "elements")
# A list has at most this many bytes.
MOST_BYTES = 67_108_864
COLUMNS = ("list", "MB", "`list::read`, ms", "GB/s", "serde_json's tree, ms", "ours / tree")
BEFORE_COLUMNS = ("before, ms", "ours / before")
PARSER_COLUMNS = (
    "simdjson's tape, ms", "ours / tape", "parser kept, ms", "ours / kept", "on demand, ms", "ours / on demand"
)


def built_parser() -> bool:
    """Builds the program over simdjson. If it cannot be built, says why on standard error."""
    compiler = shutil.which("g++") or shutil.which("clang++")
    if compiler is None:
        print("there is no C++ compiler, so simdjson's columns are left out", file=sys.stderr)
        return False
    source = os.path.join(TOP, "bench", "simdjson.cpp")
    probe = [compiler, "-std=c++17", "-fsyntax-only", "-include", "simdjson.h", "-x", "c++", os.devnull]
    if subprocess.run(probe, stderr=subprocess.DEVNULL).returncode:
        print("simdjson is not installed (Debian: libsimdjson-dev), so its columns are left out", file=sys.stderr)
        return False
    subprocess.run([compiler, "-O3", "-std=c++17", "-o", PARSER, source, "-lsimdjson"], check=True)
    return True


def times(command: list[str], source: str, count: int) -> list[int]:
    """The first times in nanoseconds that a program prints of the bytes on its standard input."""
    with open(source, "rb") as file:
        output = subprocess.run(command, stdin=file, stdout=subprocess.PIPE, check=True, text=True).stdout
    found = [int(number) for number in re.findall(r"(\d+) ns", output)][:count]
    if len(found) != count:
        raise ValueError(f"not {count} times in {output!r}")
    return found


def laid_out(source: str, layout: str) -> str:
    """The file of a scene in a layout, which is written if there are blanks in it."""
    if layout == "plain":
        return source
    with open(source, encoding="utf-8") as file:
        text = file.read()
    if layout == "elements":
        text = text.replace(",", ",\n" + " " * 10).replace("[", "[\n" + " " * 10).replace("]", "\n" + " " * 8 + "]")
    else:
        text = text.replace("],[", "],\n    [") if layout == "lines" else text
        text = text.replace(",", ", ").replace(", \n", ",\n")
    path = f"{os.path.splitext(source)[0]}_{layout}.json"
    with open(path, "w", encoding="utf-8") as file:
        file.write(text)
    return path


def row_of(source: str, with_parser: bool, runs: int, before: str) -> str:
    """The table's row of a list: the least time of each way."""
    ways = [([READER_PROGRAM, "--time"], 2)]
    ways += [([before, "--time"], 1)] if before else []
    ways += [([PARSER], 3)] if with_parser else []
    turns = [[time for command, count in ways for time in times(command, source, count)] for _ in range(runs)]
    ours, *others = [min(each) for each in zip(*turns)]
    size = os.path.getsize(source)
    name = os.path.splitext(os.path.basename(source))[0]
    cells = [name, f"{size / 1e6:.1f}", f"{ours / 1e6:.1f}", f"{size / ours:.2f}"]
    for other in others:
        cells += [f"{other / 1e6:.1f}", f"{ours / other:.2f}"]
    return report.row(cells)


def main() -> int:
    parser = argparse.ArgumentParser(description="Times reading beside parsers that only parse.")
    add_runs(parser, 5, "turns of seven rounds, of which the least counts")
    add_any_scenes(parser, SCENES)
    parser.add_argument(
        "--layouts", nargs="+", choices=LAYOUTS, default=LAYOUTS[:1], metavar="NAME", help="of " + ", ".join(LAYOUTS)
    )
    add_before(parser, "crates/list_bench")
    options = parser.parse_args()
    if not is_built(READER_PROGRAM, made_by="make bin/list_bench"):
        return 2
    sources = scenes.write_all(options.scenes)
    with_parser = built_parser()
    print(f"{report.machine()} Least of {options.runs} turns of seven rounds.\n")
    report.print_head((*COLUMNS, *(BEFORE_COLUMNS if options.before else ()), *(PARSER_COLUMNS if with_parser else ())))
    for source in sources:
        for layout in options.layouts:
            path = laid_out(source, layout)
            if os.path.getsize(path) > MOST_BYTES:
                print(f"{path} is longer than a list may be, and left out", file=sys.stderr)
                continue
            print(row_of(path, with_parser, options.runs, options.before), flush=True)
    report.print_end()
    return 0


if __name__ == "__main__":
    sys.exit(main())
