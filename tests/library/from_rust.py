"""The crates in bindings/rust: their declarations against the header, each picture and each error against the
program's, scenes against the package in Python, and clipping against the header in C."""

from __future__ import annotations

import math
import os
import re
import subprocess
import sys
from typing import Iterator

from tools import picture_file, places, png
from tests.cases import MAX_SECONDS, Case, case, must
from tests.library import declarations
from tests.clip import programs, tasks
from tests.library.commands import OUT, PACKAGE_ENVIRONMENT, WARNINGS, need, run
from tools.packaging.common import write
from tools.places import INCLUDE, LIB, STATIC_LIBRARY, TOP

CRATES = os.path.join(TOP, "bindings", "rust")
# cargo builds for the processor of the library, over what stands in the repository alone.
COMMAND = ("test", "--offline", "--locked", "--workspace", "--quiet")
# What the tests read, by the variables that name it.
INPUTS = {
    "TRIRAST_LISTS": os.path.join(OUT, "lists", "all.txt"),
    **{f"TRIRAST_{name}": os.path.join(OUT, name.lower()) for name in ("PYTHON_SCENES", "CLIP_TASKS", "CLIP_ANSWERS")},
}
# The case that writes them.
WRITTEN = "Rust: scenes by Python and clipping in C are written"


def check_version() -> None:
    """The crates have the repository's version."""
    version = places.text_of("VERSION").strip()
    for crate, line in (("", f'version = "{version}"'), ("trirast", f'version = "{version}" }}')):
        must(line in places.text_of(CRATES, crate, "Cargo.toml"), f"bindings/rust/{crate}: no {line}")


def check_declared() -> str:
    """trirast-sys declares the calls, structs and numbers of the header, and no other ones. Returns how
    many calls there are."""
    header = declarations.in_c(places.text_of("include", "trirast.h"))
    crate = declarations.in_rust(places.text_of(CRATES, "trirast-sys", "src", "lib.rs"))
    others = sorted(name for name in header.keys() | crate.keys() if header.get(name) != crate.get(name))
    must(not others, f"header and trirast-sys differ in {', '.join(others)}")
    return f"{len(header)} declarations"


def cargo(folder: str, *arguments: str, kind: str = "static", out: str = OUT) -> bytes:
    """Runs cargo in a folder over the static or the shared library, which leaves its work in `out`. Returns
    its standard output."""
    more = {"TRIRAST_SHARED": "1", "LD_LIBRARY_PATH": LIB} if kind == "shared" else {}
    lists = {"TRIRAST_LIB_DIR": LIB, **INPUTS}
    target = {"CARGO_TARGET_DIR": os.path.join(out, f"rust-{kind}"), "CARGO_HOME": os.path.join(out, "cargo")}
    environment = {key: value for key, value in os.environ.items() if key != "TRIRAST_SHARED"}
    environment = {**environment, **lists, **target, **more}
    command = [need("cargo"), *arguments]
    done = subprocess.run(command, cwd=folder, env=environment, capture_output=True, timeout=MAX_SECONDS)
    output: bytes = done.stdout
    must(done.returncode == 0, (output + done.stderr).decode(errors="replace")[-1200:])
    return output


def write_inputs() -> str:
    """Writes scenes as Python draws them, and clipped triangles as the header in C makes them. Returns how
    many bytes there are."""
    scenes, asked, answered = (INPUTS[f"TRIRAST_{name}"] for name in ("PYTHON_SCENES", "CLIP_TASKS", "CLIP_ANSWERS"))
    run([sys.executable, "-m", "tests.library.python_scenes", scenes], env=PACKAGE_ENVIRONMENT, cwd=TOP)
    question = b"".join(task.encoded() for task in tasks.all_tasks())
    write(asked, question)
    # A program of its own, since the checks of clipping may run at the same time.
    program, source = os.path.join(OUT, "clip_filter"), os.path.join(programs.SOURCES, "filter.c")
    run([need("gcc"), programs.STANDARDS["c"], "-O2", "-I", INCLUDE, "-o", program, source, "-lm"])
    write(answered, run([program], input=question))
    return f"{os.path.getsize(scenes)} and {os.path.getsize(answered)} bytes"


def check_kind(kind: str) -> str:
    """The tests of the crates pass over the static or the shared library. Returns how many there are."""
    output = cargo(CRATES, *COMMAND, kind=kind).decode()
    passed = sum(int(count) for count in re.findall(r"^test result: ok\. (\d+) passed", output, re.MULTILINE))
    must(passed > 0, "no test was run")
    return f"{passed} tests"


def example(name: str) -> picture_file.PictureFile:
    """The picture that an example in Rust writes."""
    return picture_file.decode(cargo(CRATES, "run", "--offline", "--locked", "--quiet", "--example", name))


def check_polygons() -> None:
    """The example of polygons writes the picture of that in C."""
    program = os.path.join(OUT, "polygons")
    run(
        [
            need("gcc"), "-std=c99", *WARNINGS, "-I", INCLUDE, "-o", program,
            os.path.join(TOP, "examples", "c", "polygons.c"), STATIC_LIBRARY,
        ]
    )
    must(picture_file.decode(run([program])) == example("polygons"), "another picture")


def check_floor() -> str:
    """The example of a floor draws docs/floor.png, and shows the squares that the rays of the camera meet, but for some
    at their edges. Returns how many differ."""
    found = example("floor")
    must(
        png.encode(found.width, found.height, 3, found.pixel_data) == places.bytes_of("docs", "floor.png"),
        "another picture than docs/floor.png",
    )
    light, dark, sky = (0xE0, 0xE0, 0xD0), (0x20, 0x28, 0x30), (0x40, 0x80, 0xC0)
    wrong = 0
    for number, pixel in enumerate(found.pixels()):
        row, column = divmod(number, found.width)
        across, up = (2 * column + 1) / found.width - 1, 1 - (2 * row + 1) / found.height
        # The floor is 2 below the eye, and ends 20 beside it and 40 before it.
        ahead = 2 / -up if up < 0 else math.inf
        is_floor = ahead < 40 and abs(across * ahead) < 20
        wanted = (light, dark)[(math.floor(across * ahead) + math.floor(ahead)) % 2] if is_floor else sky
        wrong += tuple(pixel) != wanted
    must(wrong < found.width * found.height // 100, f"{wrong} pixels differ")
    return f"{wrong} pixels differ"


def cases() -> Iterator[Case]:
    yield case("Rust: the crates have the repository's version", check_version)
    yield case("Rust: trirast-sys declares what the header does", check_declared)
    yield case(WRITTEN, write_inputs)
    for kind in ("static", "shared"):
        yield case(f"Rust: cargo test over the {kind} library", check_kind, kind, needs=WRITTEN)
    yield case("examples/rust: polygons", check_polygons)
    yield case("examples/rust: floor", check_floor)
