"""The library for other platforms: the test in C and C++ and the examples by Wine and qemu, and what the libraries show
that nothing here can run."""

from __future__ import annotations

import functools
import os
import re
import sys
from typing import Iterator

from tests.cases import Case, MissingError, case, must
from tests.library import arm64, examples, in_c
from tests.library.commands import OUT, WARNINGS, drawn_by_program, must_be_the_programs, python_with, run
from tests.library.runners import RUNNERS
from tests.documents.pages.examples import SCENE
from tools.draw_list import encode
from tools.packaging.module import kit_folder, llvm
from tools.packaging.platforms import BUILT
from tools.places import EXAMPLES, TOP

# What a library needs of its system. bzero is memset for zeros.
OF_THE_SYSTEM = in_c.OF_THE_C_LIBRARY | {"bzero", "__bzero"}
HEAP = {"malloc", "realloc", "free"}
# Of the ways of the test in C, those that are run on each platform.
WAYS = tuple((way, "all.txt" if manifest == "all.txt" else "few.txt") for way, manifest in arm64.WAYS)
LINKED = (
    "windows-x86_64/trirast.dll", "windows-arm64/trirast.dll", "macos-x86_64/libtrirast.dylib",
    "macos-arm64/libtrirast.dylib", "linux-riscv64/libtrirast.so.2",
)
# The comparisons of canvases, each in its short form and its longer one.
COMPARISONS = (
    ("compare_canvas", ("--lists", "40"), ("--lists", "400")),
    ("compare_polygons", ("--scenes", "6"), ("--scenes", "120")),
)
# On ARM64 and RISC-V gcc would otherwise fuse a product and a sum.
C_FLAGS = ("-std=gnu11", "-O2", "-ffp-contract=off", *WARNINGS)
CPP_FLAGS = ("-std=c++17", "-O1", *WARNINGS)
ELSEWHERE = ("windows-x86_64", "linux-arm64", "linux-riscv64")
# What else a shared library may need.
LOADED = {"windows": ["ucrtbase.dll"], "macos": ["/usr/lib/libSystem.B.dylib"], "linux": ["libc.so.6"]}


def built(name: str) -> str:
    """The path of a file of lib/platforms/. Raises `MissingError` if it was not built."""
    path = os.path.join(BUILT, name)
    if not os.path.exists(path):
        raise MissingError(os.path.relpath(path, TOP))
    return path


def tool(name: str, *words: str) -> str:
    return llvm(kit_folder(os.environ.get("RT", "rt")), name, *words)


# ---- What the shared libraries show


def exports_of(path: str) -> set[str]:
    if path.endswith(".dll"):
        return set(re.findall(r"^  Name: (\w+)$", tool("llvm-readobj", "--coff-exports", path), re.MULTILINE))
    flags = ("-D",) if path.endswith(".2") else ()
    names = tool("llvm-nm", *flags, "--defined-only", "--extern-only", "--just-symbol-name", path).split()
    return {name[1:] if path.endswith(".dylib") else name for name in names}


def needs_of(path: str) -> set[str]:
    if path.endswith(".dll"):
        return set(re.findall(r"^  Symbol: (\w+) ", tool("llvm-readobj", "--coff-imports", path), re.MULTILINE))
    flags = ("-D",) if path.endswith(".2") else ()
    names = tool("llvm-nm", *flags, "--undefined-only", "--just-symbol-name", path).split()
    found = {name[1:] if path.endswith(".dylib") else name.split("@")[0] for name in names}
    return found - {"yld_stub_binder"} - in_c.OF_THE_LINKER


def loaded_by(path: str) -> list[str]:
    """The shared libraries that a library is linked with."""
    if path.endswith(".dll"):
        return re.findall(r"^  Name: (\S+\.dll)$", tool("llvm-readobj", "--coff-imports", path), re.MULTILINE)
    if path.endswith(".dylib"):
        listed = tool("llvm-objdump", "--macho", "--dylibs-used", path)
        return [name for name in re.findall(r"^\t(\S+)", listed, re.MULTILINE) if not name.startswith("@rpath/")]
    return re.findall(r"NEEDED.*\[(\S+)\]", tool("llvm-readelf", "--dynamic", path))


def check_linked(name: str) -> str:
    """A library exports the calls of the header alone, and needs of its system the heap and moves of memory alone."""
    path = built(name)
    calls, needs = exports_of(path), needs_of(path)
    must(calls == in_c.declared(), f"{sorted(calls ^ in_c.declared())} in one of library and header alone")
    must(HEAP <= needs <= OF_THE_SYSTEM, f"it needs {sorted(needs)}")
    must(loaded_by(path) == LOADED[name.partition("-")[0]], f"it is linked with {loaded_by(path)}")
    return f"{len(calls)} calls; {', '.join(sorted(needs))}"


# ---- The test and the examples


def program_of(platform: str, name: str) -> str:
    return os.path.join(OUT, platform, f"{name}.exe")


def build_test(platform: str, kind: str, library: str = "") -> None:
    # The stack is measured by calls of Linux.
    sources = [os.path.join(in_c.SOURCES, f"{name}.c") for name in in_c.PARTS if name != "stack" or "linux" in platform]
    RUNNERS[platform].build(program_of(platform, kind), sources, C_FLAGS, library)


def check_test(platform: str, kind: str, way: str, manifest: str) -> str:
    return in_c.check_in_c(RUNNERS[platform].command(program_of(platform, kind)), way, manifest)


def check_by_dll(way: str, manifest: str) -> str:
    """One way of the test, with the DLL beside the program."""
    folder = os.path.dirname(program_of("windows-x86_64", "by_dll"))
    with open(built("windows-x86_64/trirast.dll"), "rb") as file:
        data = file.read()
    with open(os.path.join(folder, "trirast.dll"), "wb") as file:
        file.write(data)
    return check_test("windows-x86_64", "by_dll", way, manifest)


def check_cpp(platform: str) -> str:
    """The test of trirast.hpp."""
    program = program_of(platform, "test_cpp")
    source = os.path.join(in_c.SOURCES, "canvases.cpp")
    RUNNERS[platform].build(program, [source], CPP_FLAGS)
    return in_c.check_in_c(RUNNERS[platform].command(program), "canvases", "few.txt")


@functools.cache
def ran_example(platform: str, name: str, *words: str) -> bytes:
    """What an example in C writes."""
    program = program_of(platform, name)
    source = os.path.join(EXAMPLES, "c", f"{name}.c")
    RUNNERS[platform].build(program, [source], C_FLAGS)
    return run([*RUNNERS[platform].command(program), *words], cwd=os.path.dirname(program))


def check_examples(platform: str) -> str:
    """The examples in C draw the same bytes as on Linux."""
    must(ran_example(platform, "canvas") == drawn_by_program(encode(SCENE)).output, "canvas.c: another picture")
    must(ran_example(platform, "threads") == examples.glass_file(), "threads.c: another picture")
    # The cube is shaded in floating point. It is not turned, so no sine of another C library counts.
    for name, *words in (("polygons",), ("cube", "0")):
        wanted = ran_example("linux-x86_64", name, *words)
        must(ran_example(platform, name, *words) == wanted, f"{name}.c: another picture")
    os.makedirs(os.path.join(OUT, platform, "frames"), exist_ok=True)
    ran_example(platform, "frames", "--frames", "3", "--threads", "4", "frames")
    for frame in range(3):
        path = os.path.join(OUT, platform, "frames", f"frame-{frame}")
        must_be_the_programs(f"{path}.json", f"{path}.ppm")
    return "canvas, threads, polygons, cube, frames"


def check_canvases(platform: str, comparison: str, *words: str) -> str:
    """What is generated of canvases, by a program in C for the platform, sample by sample against the second
    renderer."""
    RUNNERS[platform].must_be_there()
    python = python_with("numpy") if comparison == "compare_polygons" else sys.executable
    command = [python, "-m", f"tests.reference.{comparison}", *words, "--on", platform]
    return run(command, cwd=TOP).decode().splitlines()[-2]


def cases() -> Iterator[Case]:
    for name in LINKED:
        yield case(f"{name}: its calls, and what it needs", check_linked, name)
    for platform in ("windows-x86_64", "linux-riscv64"):
        in_c_builds = f"{platform}: the test in C builds"
        yield case(in_c_builds, build_test, platform, "static")
        for way, manifest in WAYS:
            yield case(f"{platform}: {way}", check_test, platform, "static", way, manifest, needs=in_c_builds)
    for platform in ELSEWHERE:
        yield case(f"{platform}: trirast.hpp", check_cpp, platform)
        yield case(f"{platform}: examples/c", check_examples, platform)
        for comparison, words, more_words in COMPARISONS:
            name = f"{platform}: {comparison}"
            yield case(name, check_canvases, platform, comparison, *words)
            yield case(f"{name}, longer", check_canvases, platform, comparison, *more_words, is_long=True)
    shared = "windows-x86_64, by the DLL: the test in C builds"
    windows = RUNNERS["windows-x86_64"].folder
    yield case(shared, build_test, "windows-x86_64", "by_dll", os.path.join(windows, "libtrirast.dll.a"))
    for way, manifest in WAYS:
        yield case(f"windows-x86_64, by the DLL: {way}", check_by_dll, way, manifest, needs=shared)
