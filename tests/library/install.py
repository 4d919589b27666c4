"""make install, programs outside of the repository, and make uninstall."""

from __future__ import annotations

import os
import tempfile

from tools import places
from tests.cases import must
from tests.library.commands import LIBRARY_PAGES, OUT, WARNINGS, blocks_of_the_pages, drawn_by_program, make, need, run
from tools.places import EXAMPLES, LEVEL

# What the program of docs/how-to/explain-a-sample.md that asks for a history prints.
HISTORY = b"triangle 0: result 0, reasons 4, edge bc 0\nred 0, depth 65535\n"
INSTALLED = (
    "bin/trirast", "bin/trirast_why", "include/trirast.h", "include/trirast.hpp",
    *(
        f"include/trirast/{part}.hpp"
        for part in ("canvas", "edges", "error", "list", "polygons", "span", "state", "tile_rows", "values")
    ),
    "include/trirast_clip.h", "include/trirast_clip.hpp", "include/trirast_frame.hpp", "include/trirast_lanes.hpp",
    "include/trirast_layer.hpp", "include/trirast_shade.h", "include/trirast_shade.hpp",
    "include/trirast_texture.hpp", "lib/cmake/trirast/trirast-config-version.cmake",
    "lib/cmake/trirast/trirast-config.cmake", f"lib/glibc-hwcaps/{LEVEL}/libtrirast.so.2", "lib/libtrirast.a",
    "lib/libtrirast.so", "lib/libtrirast.so.2",
    "lib/pkgconfig/trirast.pc", f"lib/trirast/glibc-hwcaps/{LEVEL}/program.so", "lib/trirast/program.so",
    "share/man/man1/trirast.1", "share/man/man1/trirast_why.1",
    "share/trirast/draw-list.schema.json", "share/trirast/history.schema.json",
)


def files_below(folder: str) -> tuple[str, ...]:
    found = (os.path.join(path, name) for path, _, names in os.walk(folder) for name in names)
    return tuple(sorted(os.path.relpath(path, folder) for path in found))


def build_outside(text: str, prefix: str, *flags: str) -> bytes:
    """Builds and runs a program in C, outside of the repository and by pkg-config alone. Returns what it writes."""
    environment = {**os.environ, "PKG_CONFIG_PATH": os.path.join(prefix, "lib", "pkgconfig")}
    with tempfile.TemporaryDirectory(prefix="trirast-outside-") as folder:
        found = run([need("pkg-config"), "--cflags", "--libs", "trirast"], env=environment).decode().split()
        with open(os.path.join(folder, "outside.c"), "w", encoding="ascii") as file:
            file.write(text)
        run([need("gcc"), *WARNINGS, "outside.c", "-o", "outside", *flags, *found], cwd=folder)
        loads = {**environment, "LD_LIBRARY_PATH": os.path.join(prefix, "lib")}
        return run([os.path.join(folder, "outside")], env=loads)


def check_install() -> None:
    """The programs of the pages of the library draw the program's picture over an installation, and make uninstall
    removes all of it."""
    prefix = os.path.join(OUT, "prefix")
    make("install", f"PREFIX={prefix}")
    must(files_below(prefix) == INSTALLED, f"{files_below(prefix)} were installed")
    wanted = drawn_by_program(places.bytes_of(EXAMPLES, "triangle.json")).output
    programs = [text for text in blocks_of_the_pages("c") if "int main" in text]
    must(len(programs) == 2, f"{len(programs)} programs in {LIBRARY_PAGES}")
    for text in programs:
        due = HISTORY if "trirast_list_history(" in text else wanted
        for flags in ((), ("-static",)):
            must(build_outside(text, prefix, *flags) == due, f"other bytes with {flags}")
    cube = build_outside(places.text_of(EXAMPLES, "c", "cube.c"), prefix, "-lm")
    must(cube.startswith(b"P6\n400 300\n255\n") and len(set(cube)) > 30, "no cube by trirast_shade.h")
    make("uninstall", f"PREFIX={prefix}")
    must(not files_below(prefix), f"{files_below(prefix)} were left")


def check_staged_install() -> None:
    """With DESTDIR all files lie below it, and the pkg-config file names the prefix alone."""
    stage = os.path.join(OUT, "stage")
    make("install", "PREFIX=/usr", f"DESTDIR={stage}")
    must(files_below(stage) == tuple(f"usr/{name}" for name in INSTALLED), f"{files_below(stage)} were installed")
    lines = places.text_of(stage, "usr", "lib", "pkgconfig", "trirast.pc").splitlines()
    must(lines[0] == "prefix=/usr", "the pkg-config file names another prefix")
    make("uninstall", "PREFIX=/usr", f"DESTDIR={stage}")
    must(not files_below(stage), f"{files_below(stage)} were left")
