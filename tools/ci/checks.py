"""The checks of what was built: one list, of which make, `make help`, `make test` and docs/generated/checks.md are
made.

    python3 -m tools.ci.checks [--write]

Prints the list as `make help` shows it. With --write it writes that page.
"""

from __future__ import annotations

import argparse
import importlib.util
import shlex
import shutil
import sys
from dataclasses import dataclass

from tools.places import write_text

# What make builds for checks, in the order in which it is built, with the goals that build it.
BUILDS = {
    "program": ("bin/trirast",),
    "library": ("library",),
    "platforms": ("platforms",),
    "module": ("lib/wasm64/canvas.wasm",),
    "why": ("bin/trirast_why",),
    "installed": ("lib/stub/trirast", "lib/x86-64-v3/program.so"),
    "readers": ("bin/refused_tiles", "bin/list_bench"),
}
PAGE = "docs/generated/checks.md"
HEAD = """\
# The checks of `make test`

`make test` runs one of these per processor at a time. Each is a goal of make, and `LONG=1` takes its longer form.
`python3 -m tools.ci.checks --write` writes this page from the list in `tools/ci/checks.py`. Seconds are CPU seconds.

"""


@dataclass(frozen=True)
class Check:
    # The goal of make.
    name: str
    # What it checks, as a part of a sentence.
    about: str
    # What it runs: a command of the system, or a module that Python runs, with its words.
    command: str
    # About how many seconds of a processor it takes.
    seconds: int
    # Words for the longer form that `make test-long` runs, and its seconds.
    long: str = ""
    long_seconds: int = 0
    # What it runs of what make builds.
    runs: tuple[str, ...] = ()
    # Commands of the system and modules of Python (as `python:NAME`) without which it is skipped.
    needs: tuple[str, ...] = ()

    def words(self, is_long: bool = False) -> list[str]:
        """The command, in its short or its long form."""
        words = shlex.split(f"{self.command} {self.long}" if is_long else self.command)
        return [sys.executable, "-m", *words] if self.is_module() else words

    def is_module(self) -> bool:
        return self.command.startswith(("tools.", "tests.", "pytest "))

    def missing(self) -> list[str]:
        """What it needs of the system and is not there."""
        needs = (*self.needs, *(("python:pytest",) if self.command.startswith("pytest ") else ()))
        return [name for name in needs if not is_there(name)]


def is_there(need: str) -> bool:
    kind, _colon, module = need.partition(":")
    if module:
        return importlib.util.find_spec(module) is not None
    return shutil.which(kind) is not None


COMPILER = ("cc", "gcc")
EVERYTHING = ("program", "library")
# What make install takes, so that no two checks build it at once.
INSTALLATION = (*EVERYTHING, "why", "installed")
CHECKS = (
    Check(
        name="check-ci",
        about="what `make test` and `.ci/run` count and reject",
        command="pytest tests/gate", seconds=8,
    ),
    Check(
        name="types",
        about="types of the Python sources, with mypy in its strict form",
        command="mypy", seconds=50,
        needs=("mypy",),
    ),
    Check(
        name="reference",
        about="worked values of the reference renderer",
        command="pytest tests/reference/test_renderer.py", seconds=3,
    ),
    Check(
        name="documents",
        about="pages, the statement, must-fail edits and contracts against the sources; what is written from "
        "interface/numbers.toml; the length of lines and sentences",
        command="pytest tests/documents --ignore tests/documents/pages", seconds=12,
    ),
    Check(
        name="site",
        about="all pages as one site with search, which Sphinx builds without a warning, in out/site",
        command="tools.site", seconds=20,
        needs=("python:sphinx", "python:myst_parser", "python:furo", "python:sphinx_copybutton"),
    ),
    Check(
        name="schema",
        about="the JSON Schema, on examples and invalid lists",
        command="tests.list.schema", seconds=20,
        needs=("python:jsonschema",),
    ),
    Check(
        name="acceptance",
        about="the program's images, lines and statuses, for lists, arguments and devices that fail",
        command="pytest tests/program", seconds=8,
        runs=("program", "why", "readers"),
    ),
    Check(
        name="check-compare",
        about="what generated lists cover",
        command="pytest tests/reference/test_compare.py", seconds=15,
    ),
    Check(
        name="compare",
        about="generated lists, every byte against the reference renderer",
        command="tests.reference.compare --lists 600 --refused 300", seconds=60,
        long="--lists 4000 --refused 2000", long_seconds=300,
        runs=("program",),
    ),
    Check(
        name="compare-history",
        about="histories and images of trirast_why against the reference renderer, reason by reason",
        command="tests.reference.compare_history --lists 100 --counted 100", seconds=22,
        long="--lists 500 --counted 500", long_seconds=130,
        runs=("program", "why"),
    ),
    Check(
        name="compare-library-history",
        about="histories of the library against those of trirast_why",
        command="tests.reference.compare_library_history --lists 60 --counted 60", seconds=10,
        long="--lists 500 --counted 500", long_seconds=80,
        runs=("program", "why", "library"), needs=COMPILER,
    ),
    Check(
        name="compare-canvas",
        about="generated lists on canvases, in batches, from Python and C, against the program and the reference "
        "renderer",
        command="tests.reference.compare_canvas --lists 200", seconds=20,
        long="--lists 1000", long_seconds=90,
        runs=EVERYTHING, needs=COMPILER,
    ),
    Check(
        name="compare-polygons",
        about="polygons, triangles and images on canvases in every storage mode, against the rules sample by sample",
        command="tests.reference.compare_polygons --scenes 45", seconds=15,
        long="--scenes 450", long_seconds=110,
        runs=("library",), needs=("python:numpy",),
    ),
    Check(
        name="canvas-mutants",
        about="mutants of the reference renderer's canvases, which the comparison has to find",
        command="pytest tests/reference/canvas_mutants.py", seconds=25,
        runs=EVERYTHING, needs=COMPILER,
    ),
    Check(
        name="polygon-mutants",
        about="mutants of a canvas with storage modes, which the comparison of polygons has to find",
        command="pytest tests/reference/test_compare_polygons.py", seconds=45,
        needs=("python:numpy",),
    ),
    Check(
        name="check-golden",
        about="how images are compared and recorded",
        command="pytest tests/program/test_golden.py", seconds=3,
    ),
    Check(
        name="golden",
        about="images of examples/ and tests/regressions/, by their checksums",
        command="tests.program.golden", seconds=37,
        runs=("program",),
    ),
    Check(
        name="mutants",
        about="mutants of the reference renderer, which the comparison has to find",
        command="pytest tests/reference/mutants.py", seconds=25,
        runs=("program",),
    ),
    Check(
        name="check-conformance",
        about="the comparison with drivers, with mutants and recorded answers",
        command="pytest conformance", seconds=90,
        long="-m 'long or not long'", long_seconds=295,
    ),
    Check(
        name="injection",
        about="mistakes after failed allocations, with mutants",
        command="pytest tests/program/test_injection.py", seconds=20,
        needs=COMPILER,
    ),
    Check(
        name="allocation-failures",
        about="the program, where allocations fail",
        command="pytest tests/program/allocation_failures.py -k 'not Draws and not Tiles'", seconds=22,
        runs=("program",), needs=COMPILER,
    ),
    Check(
        name="allocation-failures-inside",
        about="tiles and readers, where allocations fail, and tiles against the reference crate",
        command="pytest tests/program/allocation_failures.py tests/program/test_tiles.py -k 'Draws or Tiles'",
        seconds=15,
        runs=("readers",), needs=COMPILER,
    ),
    Check(
        name="fuzz-reader",
        about="fuzzed texts, valid, nearly valid and cut, in both readers of draw lists",
        command="tests.list.fuzz_reader --texts 20000", seconds=4,
        long="--texts 1000000", long_seconds=150,
        runs=("readers",),
    ),
    Check(
        name="fault-injection",
        about="readers, writers, devices and threads that fail, and lists at their limits",
        command="pytest tests/program/fault_injection.py", seconds=70,
        runs=("program",), needs=COMPILER,
    ),
    Check(
        name="check-library",
        about="the library, the header, the packages for Python and Rust, and the examples, against the program, also "
        "with Wine and qemu",
        command="pytest tests/library", seconds=515,
        long="-m 'long or not long'", long_seconds=1150,
        runs=(*INSTALLATION, "platforms"), needs=COMPILER,
    ),
    Check(
        name="pages",
        about="each command and example of README and docs/, run as it is printed",
        command="pytest tests/documents/pages", seconds=50,
        runs=INSTALLATION, needs=COMPILER,
    ),
    Check(
        name="package",
        about="the tests of the Python package",
        command="pytest python/tests", seconds=60,
        runs=EVERYTHING, needs=COMPILER,
    ),
    Check(
        name="clip",
        about="clipping in C, C++ and Python: samples covered once, the same bytes by every compiler, mutants",
        command="pytest tests/clip", seconds=80,
        long="-m 'long or not long'", long_seconds=110,
        runs=("library",), needs=(*COMPILER, "g++"),
    ),
    Check(
        name="shade",
        about="shading in C and C++: weights and images against exact ones, the same bytes by every compiler, mutants",
        command="pytest tests/shade", seconds=85,
        long="-m 'long or not long'", long_seconds=600,
        runs=("library",), needs=(*COMPILER, "g++"),
    ),
    Check(
        name="frame",
        about="frames tile by tile, materials and blended layers against one canvas; a walk through a level, with the "
        "same bytes for each number of threads; mutants",
        command="pytest tests/frame", seconds=75,
        long="-m 'long or not long'", long_seconds=460,
        runs=("library", "platforms"), needs=(*COMPILER, "g++"),
    ),
    Check(
        name="texture",
        about="textures: mip maps against exact means, samples within their bounds, the same bytes by every compiler, "
        "mutants",
        command="pytest tests/texture", seconds=45,
        long="-m 'long or not long'", long_seconds=240,
        needs=(*COMPILER, "g++"),
    ),
    Check(
        name="guarded",
        about="random calls on canvases between guard pages, against a simple renderer; clipping and shading under "
        "sanitizers; what TRIRAST_CHECKS reports",
        command="pytest tests/guarded", seconds=80,
        long="-m 'long or not long'", long_seconds=1300,
        runs=("library",), needs=(*COMPILER, "g++"),
    ),
    Check(
        name="fuzz-package",
        about="fuzzed calls of the Python package, each image against a simple renderer",
        command="tests.python.fuzz_package --calls 400", seconds=4,
        long="--calls 10000", long_seconds=200,
        runs=EVERYTHING, needs=COMPILER,
    ),
    Check(
        name="check-packages",
        about="Debian packages, wheels, the npm package, archives, CMake files and recipes, each in a clean folder",
        command="pytest tests/packages", seconds=90,
        runs=(*INSTALLATION, "platforms", "module"), needs=COMPILER,
    ),
    Check(
        name="check-poster",
        about="posters against the program: interrupted, damaged and resumed",
        command="pytest tests/posters", seconds=260,
        long="--long -m 'long or not long'", long_seconds=1400,
        runs=EVERYTHING, needs=(*COMPILER, "python:numpy", "python:PIL"),
    ),
    Check(
        name="check-web",
        about="the page in Chromium, each sample against the program",
        command="pytest tests/web", seconds=46,
        long="-m 'long or not long'", long_seconds=150,
        runs=(*EVERYTHING, "module"), needs=COMPILER,
    ),
)


def by_name(name: str) -> Check:
    return next(check for check in CHECKS if check.name == name)


def page() -> str:
    """The page of the checks."""
    rows = ["| `make ..` | What it checks | Seconds | Long form | Needs |", "|---|---|---|---|---|"]
    for check in CHECKS:
        long = f"{check.long_seconds}, `{check.long}`" if check.long else ""
        needs = ", ".join(f"`{name.rpartition(':')[2]}`" for name in check.needs)
        rows.append(f"| `{check.name}` | {check.about} | {check.seconds} | {long} | {needs} |")
    return HEAD + "\n".join(rows) + "\n"


def main() -> int:
    parser = argparse.ArgumentParser(description="The checks of what was built.")
    parser.add_argument("--write", action="store_true", help=f"write {PAGE}")
    if parser.parse_args().write:
        write_text(PAGE, page())
        return 0
    for check in CHECKS:
        print(f"  make {check.name:24} {check.about}")
    return 0


if __name__ == "__main__":
    sys.exit(main())
