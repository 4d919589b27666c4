"""The library and the program for ARM64, run by qemu: the test in C over both libraries, against the
program for x86-64."""

from __future__ import annotations

import os
from typing import Iterator

from tools import answers
from tests.cases import MAX_SECONDS, Case, case, must
from tests.library import in_c
from tests.library.commands import OUT, WARNINGS, make, need, run
from tests.library.lists import read_lists, write_many
from tools.places import INCLUDE, LIB, PROGRAM

COMPILER, NM, QEMU = "aarch64-linux-gnu-gcc", "aarch64-linux-gnu-nm", "qemu-aarch64-static"
LIBRARIES = os.path.join(LIB, "aarch64")
FOR_ARM64 = os.path.join(os.path.dirname(PROGRAM), "aarch64", os.path.basename(PROGRAM))
# Where Debian's cross compiler keeps the loader and the C library that a program for ARM64 needs.
SYSTEM = "/usr/aarch64-linux-gnu"
# The ways of the test, each with its manifest. `stack` is left out, since qemu keeps the stack of its own code there
# too, and `odd`, which draws lists of 64 MiB. A way of another call joins here.
WAYS = (
    ("pictures", "many.txt"), ("rows", "few.txt"), ("buffers", "few.txt"), ("refused", "all.txt"),
    ("messages", "all.txt"), ("canvases", "many.txt"), ("histories", "few.txt"), ("threads", "many.txt"),
)
# Of the generated lists, beside all examples.
LISTS = 200


def build() -> None:
    """Builds the library, and the test over the static and over the shared one."""
    for command in (COMPILER, NM, QEMU):
        need(command)
    make("library", "ARCH=aarch64")
    sources = [os.path.join(in_c.SOURCES, f"{name}.c") for name in in_c.PARTS]
    flags = [COMPILER, "-std=c11", "-O2", *WARNINGS, "-I", INCLUDE, "-pthread", *sources]
    static, shared = (os.path.join(OUT, f"test_arm64_{kind}") for kind in ("static", "shared"))
    run([*flags, "-static", "-o", static, os.path.join(LIBRARIES, "libtrirast.a")])
    run([*flags, "-o", shared, "-L", LIBRARIES, "-ltrirast"])


def check_program() -> str:
    """The program for ARM64 answers as the one for x86-64: by one worker and by four, a refused list, and arguments
    that are refused."""
    make("ARCH=aarch64")
    run_there = ("-L", SYSTEM, FOR_ARM64)
    lists = read_lists("many.txt")
    few = [(text, ("--tile", "8")) for text, _ in lists.refused] + [(lists.drawn[0][0], ("--tile", "9"))]
    for text, arguments in [(text, ("--workers", count)) for text, _ in lists.drawn for count in ("1", "4")] + few:
        wanted = answers.drawn(PROGRAM, text, arguments, MAX_SECONDS)
        found = answers.drawn(QEMU, text, (*run_there, *arguments), MAX_SECONDS)
        must(found == wanted, f"{arguments}: {found}, and on x86-64 {wanted}, or other bytes")
    return f"{len(lists.drawn)} pictures, {len(lists.refused)} refused lists"


def prepare(seed: int) -> None:
    build()
    write_many(seed, LISTS)


def cases(seed: int) -> Iterator[Case]:
    built = "ARM64: the library and the test in C build"
    yield case(built, prepare, seed)
    for kind, flags in (("so", ("-D",)), ("a", ())):
        path = os.path.join(LIBRARIES, f"libtrirast.{kind}")
        yield case(
            f"ARM64: libtrirast.{kind} shows the calls of the header alone", in_c.check_exports, path, *flags, tool=NM,
            needs=built,
        )
        yield case(
            f"ARM64: libtrirast.{kind} needs the heap and moves of memory alone", in_c.check_needs, path, *flags,
            tool=NM, needs=built,
        )
    for way, manifest in WAYS:
        program = [QEMU, os.path.join(OUT, "test_arm64_static")]
        yield case(f"ARM64: {way}", in_c.check_in_c, program, way, manifest, needs=built)
    yield case("ARM64: the program", check_program, needs=built)
    loader = [QEMU, "-L", SYSTEM, "-E", f"LD_LIBRARY_PATH={LIBRARIES}"]
    yield case(
        "ARM64, shared: pictures", in_c.check_in_c, [*loader, os.path.join(OUT, "test_arm64_shared")], "pictures",
        "few.txt", needs=built,
    )
