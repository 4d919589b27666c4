"""Frames tile by tile, layers, keys and objects: the bytes of one canvas, drawn by one thread and blended sample by
sample, and mutants of the headers.

    python3 -m pytest tests/frame [-m 'long or not long']

It needs g++. clang++ and what builds and runs programs for Windows, ARM64 and RISC-V are used if they are there. What
it builds is left in out/check-frame/.
"""

from __future__ import annotations

import os
import re
import shutil
import subprocess

import pytest

from tools import places
from tests import cases, mutants
from tests.cases import Case, MissingError, case, must
from tests.frame import bsp_map
from tests.library.arm64 import QEMU
from tests.library.commands import WARNINGS, need, run
from tests.library.runners import RUNNERS
from tests.library.sanitized import SANITIZERS
from tests.mutants import Mutant
from tools.places import EXAMPLES, INCLUDE, STATIC_LIBRARY, TOP

OUT = os.path.join(places.OUT, "check-frame")
SOURCE = os.path.join(TOP, "tests", "frame", "main.cpp")
# The calls on a canvas by plain rules: for sanitizers, which look into it, and where the library is not built.
SHADE = os.path.join(TOP, "tests", "shade")
STAND_IN = os.path.join(SHADE, "stand_in.cpp")
STRICT = ("-std=c++17", *WARNINGS, "-Wconversion", "-Wshadow")
# The stand-in has products of 128 bits.
LENIENT = tuple(flag for flag in STRICT if flag != "-Wpedantic")
V2, V3 = "-march=x86-64-v2", "-march=x86-64-v3"
OFF, SCALAR = "-ffp-contract=off", "-DTRIRAST_SCALAR"
# Compilers and flags that have to write the same bytes, of which the first two are tried in the short form.
COMPILERS = (
    ("g++", V3, OFF, "-O1"), ("clang++", V2, OFF, "-O1"), ("g++", SCALAR, OFF, "-O1"), ("clang++", V3, OFF, "-O2"),
)
SHORT_COMPILERS = 2
THREADS = ("-fsanitize=thread",)
ARM64 = "aarch64-linux-gnu-g++"
# The short form tries one mutant of so many.
SHORT_MUTANTS = 20


def compiled(compiler: str, source: str, warnings: tuple[str, ...], *flags: str, include: str, name: str) -> str:
    path = os.path.join(OUT, f"{name}.o")
    folders = [f"-I{folder}" for folder in (include, os.path.join(EXAMPLES, "cpp"), SHADE)]
    run([need(compiler), *warnings, *flags, *folders, "-c", source, "-o", path])
    return path


def canvas(compiler: str, flags: tuple[str, ...]) -> str:
    """The library, or in its place the stand-in: by another compiler, under sanitizers, or if it is not built."""
    is_foreign = compiler == ARM64 or any(flag.startswith("-fsanitize") for flag in flags)
    if not is_foreign and os.path.exists(STATIC_LIBRARY):
        return STATIC_LIBRARY
    path = os.path.join(OUT, named(compiler, "canvas", *flags) + ".o")
    if not os.path.exists(path):
        compiled(compiler, STAND_IN, LENIENT, *flags, include=INCLUDE, name=named(compiler, "canvas", *flags))
    return path


def named(*words: str) -> str:
    return re.sub(r"[^\w+]+", "_", " ".join(words))


def built(compiler: str, *flags: str, include: str = INCLUDE, name: str = "") -> str:
    """Builds the tests. Returns the program."""
    if V3 in flags:
        with open("/proc/cpuinfo", encoding="ascii", errors="replace") as file:
            if " fma " not in file.read():
                raise MissingError("a processor of the level x86-64-v3")
    path = os.path.join(OUT, name or named(compiler, *flags))
    if not os.path.exists(path):
        main = compiled(compiler, SOURCE, STRICT, *flags, include=include, name=os.path.basename(path))
        run([need(compiler), *flags, main, canvas(compiler, flags), "-o", path, "-pthread"])
    return path


def outcome(*command: str) -> tuple[int, str]:
    done = subprocess.run(command, stdout=subprocess.PIPE, text=True, timeout=cases.MAX_SECONDS)
    return done.returncode, done.stdout


def check_tests(compiler: str, *flags: str) -> None:
    """Frames and layers are as they have to be, and sanitizers among the flags find nothing."""
    status, text = outcome(built(compiler, *flags))
    must(status == 0 and text == "all hold\n", f"status {status}: {text}")


def check_bytes(compiler: str, *flags: str) -> None:
    """Another compiler or processor draws the same frame."""
    must(run([built(compiler, *flags), "--bytes"]) == run([built(*COMPILERS[0]), "--bytes"]), "other bytes")


def check_arm64(*flags: str) -> None:
    """ARM64 draws the frame of x86-64."""
    qemu, program = need(QEMU), built(ARM64, OFF, "-O1", "-static", *flags)
    must(run([qemu, program, "--bytes"]) == run([built(*COMPILERS[0]), "--bytes"]), "other bytes")


def check_elsewhere(platform: str) -> None:
    """Frames and layers are as they have to be over the library of another platform, and have the same bytes."""
    runner, program = RUNNERS[platform], os.path.join(OUT, f"{platform}.exe")
    folders = [f"-I{folder}" for folder in (os.path.join(EXAMPLES, "cpp"), SHADE)]
    runner.build(program, [SOURCE], (*STRICT, OFF, "-O1", *folders))
    command = runner.command(program)
    status, text = outcome(*command)
    must(status == 0 and text == "all hold\n", f"status {status}: {text}")
    must(run([*command, "--bytes"]) == run([built(*COMPILERS[0]), "--bytes"]), "other bytes")


def check_level() -> str:
    """A walk through a level has no crack, and the same bytes for each number of threads. Returns the line."""
    program = os.path.join(OUT, "level")
    flags = (*LENIENT, "-O1", V2, OFF, "-I", INCLUDE)
    run([need("g++"), *flags, os.path.join(EXAMPLES, "cpp", "level.cpp"), canvas("g++", ()), "-o", program, "-pthread"])
    words = ("--frames", "4", "--size", "240", "135", "--check")
    lines = {run([program, *words, "--threads", str(threads)]).decode() for threads in (1, 2, 3, 8)}
    must(len(lines) == 1, f"other bytes by threads: {lines}")
    (line,) = lines
    found = re.fullmatch(r"4 frames, (\d+) triangles, (\d+) layers, 0 samples without a triangle, .*\n", line)
    must(found is not None and int(found[1]) > 3000 and int(found[2]) > 100, line)
    check_map(program)
    return line


def check_map(program: str) -> None:
    """It walks through a BSP map, and says what is wrong with one."""
    path = os.path.join(OUT, "room.bsp")

    def walked(content: bytes) -> tuple[int, str, str]:
        with open(path, "wb") as file:
            file.write(content)
        words = ("--map", path, "--frames", "3", "--size", "64", "48", "--check")
        done = subprocess.run([program, *words], capture_output=True, text=True, timeout=cases.MAX_SECONDS)
        return done.returncode, done.stdout, done.stderr

    status, text, error = walked(bsp_map.room())
    found = re.fullmatch(r"3 frames, (\d+) triangles, 0 layers, 0 samples without a triangle, .*\n", text)
    must(status == 0 and found is not None and int(found[1]) > 40, f"{text}{error}")
    for content, why in (
        (b"IBSP", "expected a BSP map of version 46"), (bsp_map.room()[:-1], "expected whole entries"),
        (bsp_map.room(1), "vertex: expected 0 to before 33, got 33"),
    ):
        status, _text, error = walked(content)
        must(status == 1 and why in error, f"status {status}: {error}")


def check_without_exceptions() -> None:
    """The headers compile without exceptions and without types at run time."""
    source = os.path.join(OUT, "without.cpp")
    places.write_text(source, "#include <trirast_frame.hpp>\n#include <trirast_texture.hpp>\nint main() {}\n")
    run([need("g++"), *STRICT, "-fno-exceptions", "-fno-rtti", "-I", INCLUDE, "-fsyntax-only", source])


def found_by(mutant: Mutant) -> str | None:
    """What finds a mutant of a header: a test, or a signal where it leads out of an array."""
    folder = mutant.copied([INCLUDE], os.path.join(OUT, mutant.name))
    status, text = outcome(built("g++", "-O0", V3, OFF, include=folder, name=f"{mutant.name}-tests"))
    return text or f"status {status}" if status else None


CASES = [
    case("frames and layers", check_tests, *COMPILERS[0]),
    case("frames and layers, by clang", check_tests, *COMPILERS[1]),
    case("frames and layers, as eight plain numbers", check_tests, "g++", SCALAR, "-O1", is_long=True),
    case("sanitizers find nothing", check_tests, "g++", V2, "-O0", *SANITIZERS, is_long=True),
    case("sanitizers find nothing, by clang", check_tests, "clang++", V2, "-O1", *SANITIZERS, is_long=True),
    case("no races", check_tests, "g++", V2, "-O1", *THREADS, is_long=True),
    case("without exceptions", check_without_exceptions),
    case("a walk through a level", check_level),
    *(case(f"the same bytes: {' '.join(each)}", check_bytes, *each, is_long=k >= SHORT_COMPILERS)
      for k, each in enumerate(COMPILERS) if k > 0),
    case("the same bytes: ARM64", check_arm64, is_long=True),
    case("frames and layers, by Wine", check_elsewhere, "windows-x86_64"),
    case("frames and layers, for RISC-V by qemu", check_elsewhere, "linux-riscv64", is_long=True),
    *mutants.cases(mutants.listed("tests", "frame", "mutants.edits"), found_by, SHORT_MUTANTS),
]


@pytest.fixture(scope="module", autouse=True)
def folder() -> None:
    shutil.rmtree(OUT, ignore_errors=True)
    os.makedirs(OUT)


@pytest.mark.parametrize("case", cases.parameters(CASES))
def test_frame(case: Case) -> None:
    cases.run(case)
