"""The header, the two libraries, and the test in C over both, also under memcheck and drd."""

from __future__ import annotations

import os
import re
import signal
import subprocess
from typing import Iterator, Sequence

from tools import places
from tests.cases import MAX_SECONDS, Case, MissingError, case, must
from tests.library import sanitized
from tests.library.commands import OUT, SHARED, WARNINGS, must_be_silent, need, run
from tools.interface.header import header
from tools.packaging import sizes
from tools.places import INCLUDE, LEVEL, LIB, SECOND_LEVEL, SHARED_LIBRARY, STATIC_LIBRARY, TOP

SOURCES = os.path.join(TOP, "tests", "library")
# The parts of the test but the way in which allocations fail.
PARTS = (
    "main", "cases", "scenes", "canvases", "samples", "shading", "tile_blends", "polygons", "refused_canvases",
    "large_batch", "histories", "stack",
)
WAYS = (
    "pictures", "rows", "buffers", "refused", "messages", "odd", "canvases", "large", "histories", "threads", "stack",
    "memory",
)
# Not by memcheck: the lists of 64 MiB and the large batch, which take minutes there, and the stack, of which valgrind
# keeps its own account.
MEMCHECKED = ("pictures", "rows", "buffers", "refused", "messages", "canvases", "histories", "threads", "memory")
# By drd: the ways that start threads.
WITH_THREADS = ("canvases", "threads")

# What the second level of x86-64 asks of a processor beyond the first, by the names of /proc/cpuinfo; abm is lzcnt.
OF_THE_LEVEL = {"avx", "avx2", "bmi1", "bmi2", "f16c", "fma", "abm", "movbe", "xsave"}

# What the linker and the start files name, and what the C library serves.
OF_THE_LINKER = {
    "__cxa_finalize", "__gmon_start__", "_ITM_deregisterTMCloneTable", "_ITM_registerTMCloneTable",
    "_GLOBAL_OFFSET_TABLE_",
}
OF_THE_C_LIBRARY = {"malloc", "realloc", "free", "memcpy", "memmove", "memset", "memcmp", "bcmp"}


# What many programs in C++ are compiled by: warnings of their own, and without exceptions.
CPP_WARNINGS = ("-Wold-style-cast", "-Wshadow", "-Wnon-virtual-dtor", "-Woverloaded-virtual")
WITHOUT = ("-fno-exceptions", "-fno-rtti")


# ---- The header and the libraries


def check_header(compiler: str, language: str, standard: str, header: str = "trirast.h", *flags: str) -> None:
    """A header compiles without a warning, also if it is included twice."""
    command = [
        need(compiler), f"-std={standard}", *WARNINGS, "-Wconversion", *flags, "-fsyntax-only", "-I", INCLUDE, "-x",
        language, "-",
    ]
    run(command, input=2 * f"#include <{header}>\n".encode())


# Macros with a cast, which is warned of where they are used.
MACROS = '''
#include <trirast_shade.h>
size_t entries = TRIRAST_TILE_ENTRIES(4u), none = TRIRAST_NONE;
trirast_blend over = TRIRAST_BLEND_OVER;
'''

# Makes what is a template, and then asks for a canvas that there is not.
WITHOUT_EXCEPTIONS = '''
#include <trirast_shade.hpp>
int main() {
    trirast::Canvas canvas({64, 128});
    const trirast_vertex corners[3] = {{0, 0, 0, 0, 0, 0, 0, 0}, {9, 0, 0, 0, 0, 0, 0, 0}, {0, 9, 0, 0, 0, 0, 0, 0}};
    canvas.draw(corners, {}, {}, 2);
    canvas.share(2, [](trirast::TileRows &rows) { rows.clear({255, 255, 255}); });
    trirast::Clipped seen;
    trirast::Clip clip{};
    clip.width = 64, clip.height = 128;
    trirast::clip_triangles(clip, {}, {}, seen);
    const auto shader = [](const trirast::Fragments &, trirast::Colors &out) { out = {1.0f, 2.0f, 3.0f}; };
    trirast::shade(canvas, trirast::ShadeTriangles(seen), trirast::Rate::pixel, {0, 0, 0}, shader);
    return trirast::Canvas({0, 1}).width() == 0;
}
'''


def check_macros(compiler: str) -> None:
    """What the headers in C define is used from C++ without a warning."""
    flags = ["-std=c++11", *WARNINGS, "-Wconversion", *CPP_WARNINGS, "-fsyntax-only"]
    run([need(compiler), *flags, "-I", INCLUDE, "-x", "c++", "-"], input=MACROS.encode())


def check_without_exceptions(compiler: str) -> None:
    """A program without exceptions and types at run time compiles, and a call that would throw prints why and
    aborts."""
    program = os.path.join(OUT, f"without-exceptions-{compiler}")
    flags = ["-std=c++17", *WARNINGS, "-Wconversion", *CPP_WARNINGS, *WITHOUT, "-I", INCLUDE, "-pthread"]
    run([need(compiler), *flags, "-x", "c++", "-", "-o", program, "-x", "none", STATIC_LIBRARY, "-lm"],
        input=WITHOUT_EXCEPTIONS.encode())
    done = subprocess.run([program], stderr=subprocess.PIPE, timeout=MAX_SECONDS)
    must(done.returncode == -signal.SIGABRT, f"status {done.returncode}")
    wanted = b"trirast: no such canvas: expected 1 to 4096 pixels a side and "
    must(done.stderr.startswith(wanted), done.stderr.decode())


def check_sizes() -> None:
    """The page's sizes of the libraries are within a twentieth of what they are."""
    stated, found = sizes.stated(), sizes.measured()
    must(
        len(stated) == len(found) and all(abs(a - b) <= b // 20 for a, b in zip(stated, found)),
        f"{sizes.PAGE} states {stated} bytes, but they are {found}: python3 -m tools.packaging.sizes --write",
    )


def symbols(path: str, *flags: str, tool: str) -> set[str]:
    lines = run([need(tool), *flags, path]).decode().splitlines()
    return {line.split()[-1].split("@")[0] for line in lines if line.strip() and not line.endswith(":")}


def declared() -> set[str]:
    """The calls that the header declares, also those that it defines for C."""
    return set(header().functions)


def check_exports(path: str, *flags: str, tool: str = "nm") -> str:
    """A library exports the calls of the header and nothing else. `tool` is nm for the library's processor."""
    found = symbols(path, *flags, "--defined-only", "--extern-only", tool=tool)
    must(found == declared(), f"{sorted(found ^ declared())} in one of library and header alone")
    return f"{len(found)} calls"


def check_needs(path: str, *flags: str, tool: str = "nm") -> str:
    """A library needs of the system only the heap and the functions that move memory. `tool` is as in
    `check_exports`."""
    found = symbols(path, *flags, "--undefined-only", tool=tool) - OF_THE_LINKER
    must(found <= OF_THE_C_LIBRARY, f"it needs {sorted(found - OF_THE_C_LIBRARY)}")
    return ", ".join(sorted(found))


def check_stack(path: str) -> None:
    """A shared library needs no stack from which code can be run: as of glibc 2.41 no other is loaded into
    a running program."""
    headers = [line.split() for line in run([need("readelf"), "-lW", path]).decode().splitlines()]
    flags = [header[-2] for header in headers if header[:1] == ["GNU_STACK"]]
    must(flags == ["RW"], f"GNU_STACK has the flags {flags}")


def check_release() -> str:
    """The header has the repository's release."""
    release = places.text_of("VERSION").strip()
    found = dict(
        re.findall(
            r"^#define TRIRAST_VERSION_(\w+) \"?([\d.]+)\"?$", places.text_of(INCLUDE, "trirast.h"), re.MULTILINE
        )
    )
    numbers = ".".join(found[part] for part in ("MAJOR", "MINOR", "PATCH"))
    must((numbers, found["STRING"]) == (release, release), f"VERSION has {release}, and the header {found}")
    return release


def library_cases() -> Iterator[Case]:
    yield case("the header has the repository's release", check_release)
    yield case("the page has the sizes of the libraries", check_sizes)
    for compiler in ("gcc", "clang"):
        for standard in ("c99", "c11", "c17"):
            yield case(f"header as {standard} by {compiler}", check_header, compiler, "c", standard)
    for standard in ("c++11", "c++20"):
        yield case(f"header as {standard}", check_header, "g++", "c++", standard)
    for compiler in ("g++", "clang++"):
        for standard in ("c++17", "c++20"):
            yield case(
                f"trirast.hpp as {standard} by {compiler}", check_header, compiler, "c++", standard, "trirast.hpp"
            )
        for path in places.files("include", "**", "*.h*"):
            name = os.path.relpath(path, "include")
            standard = "c++11" if path.endswith(".h") else "c++17"
            for flags in (CPP_WARNINGS, WITHOUT, ("-DTRIRAST_CHECKS", *CPP_WARNINGS)):
                yield case(
                    f"{name} by {compiler}: {' '.join(flags)}", check_header, compiler, "c++", standard, name, *flags,
                    is_long=flags[0].startswith("-D"),
                )
        yield case(f"macros in C++ by {compiler}", check_macros, compiler)
        yield case(f"without exceptions by {compiler}", check_without_exceptions, compiler)
    for path, flags in ((SHARED_LIBRARY, ("-D",)), (STATIC_LIBRARY, ()), (SECOND_LEVEL, ("-D",))):
        name = os.path.relpath(path, LIB)
        yield case(f"{name} shows the calls of the header alone", check_exports, path, *flags)
        yield case(f"{name} needs the heap and moves of memory alone", check_needs, path, *flags)
    for path in (SHARED_LIBRARY, SECOND_LEVEL, os.path.join(LIB, "load.so")):
        yield case(f"{os.path.relpath(path, LIB)} needs no stack from which code can be run", check_stack, path)


# ---- The test in C


def build_test(name: str, sources: tuple[str, ...], *more: str) -> None:
    paths = [os.path.join(SOURCES, f"{source}.c") for source in sources]
    flags = ["-std=c11", "-O2", "-g", *WARNINGS, "-I", INCLUDE, "-pthread"]
    run([need("gcc"), *flags, "-o", os.path.join(OUT, name), *paths, *more])


def build_tests() -> None:
    """Builds the test over the static library, in which allocations can be made to fail, and over the shared one."""
    wraps = [f"-Wl,--wrap={name}" for name in ("malloc", "realloc", "free")]
    build_test("test_static", (*PARTS, "memory"), "-DWRAPPED", STATIC_LIBRARY, *wraps)
    build_test("test_shared", PARTS, *SHARED)


def check_in_c(program: Sequence[str], way: str, manifest: str) -> str:
    """Runs one way of the test in C, each line of which is a check. `program` is the command that runs it."""
    done = subprocess.run([*program, way, f"lists/{manifest}"], cwd=OUT, capture_output=True, timeout=MAX_SECONDS)
    lines = done.stdout.decode().splitlines()
    failed = [line for line in lines if line.startswith("failed ")]
    must(
        not failed and done.returncode == 0,
        "\n".join([*failed, f"status {done.returncode} {done.stderr.decode()[-600:]}"]),
    )
    passed = sum(line.startswith("ok ") for line in lines)
    must(passed > 0, "it checked nothing")
    return f"{passed} checks"


def cpp_cases() -> Iterator[Case]:
    """The test of trirast.hpp, each line of which is a check, and once more under memcheck."""
    program, built = os.path.join(OUT, "test_cpp"), "trirast.hpp: its test builds"
    source = os.path.join(SOURCES, "canvases.cpp")
    flags = ["-std=c++17", "-O2", "-g", *WARNINGS, "-Wconversion", "-I", INCLUDE]

    def build() -> None:
        run([need("g++"), *flags, "-o", program, source, STATIC_LIBRARY])

    yield case(built, build)
    yield case("trirast.hpp: canvases", check_in_c, [program], "canvases", "few.txt", needs=built)
    yield case("memcheck finds nothing in trirast.hpp", check_watched, "memcheck", "canvases", program, needs=built)
    yield case("trirast.hpp by random calls under sanitizers", sanitized.check_fuzz)
    for compiler, language in sanitized.INLINE:
        yield case(
            f"what the header defines itself, by {compiler} under sanitizers", sanitized.check_inline, compiler,
            language,
        )


def check_second_level(program: Sequence[str], way: str) -> str:
    """The second level of x86-64 draws the same bytes, if this machine's processor has it."""
    with open("/proc/cpuinfo", encoding="ascii", errors="replace") as file:
        flags = set(re.findall(r"\w+", next((line for line in file if line.startswith("flags")), "")))
    if not OF_THE_LEVEL <= flags:
        raise MissingError(f"{', '.join(sorted(OF_THE_LEVEL - flags))} in the processor")
    return check_in_c(["env", f"LD_PRELOAD={SECOND_LEVEL}", *program], way, "all.txt")


def check_watched(tool: str, way: str, program: str = os.path.join(OUT, "test_static")) -> None:
    """One way of a test under memcheck, or under drd, has no error, and leaves no block."""
    must_be_silent(tool, [program, way, "lists/few.txt"], leaks="all")


def c_cases() -> Iterator[Case]:
    built = "the test in C builds"
    yield case(built, build_tests)
    static, shared = ([os.path.join(OUT, name)] for name in ("test_static", "test_shared"))
    for way in WAYS:
        yield case(
            f"test_static: {way}", check_in_c, static, way, "few.txt" if way == "memory" else "all.txt", needs=built
        )
    for way in ("pictures", "canvases", "threads"):
        yield case(f"test_shared: {way}", check_in_c, shared, way, "all.txt", needs=built)
    for way in ("pictures", "canvases", "threads"):
        yield case(f"test_shared by {LEVEL}: {way}", check_second_level, shared, way, needs=built)
    for way in MEMCHECKED:
        yield case(f"memcheck finds nothing in {way}", check_watched, "memcheck", way, needs=built)
    for way in WITH_THREADS:
        yield case(f"drd finds nothing in {way}", check_watched, "drd", way, needs=built, is_long=way == "canvases")
