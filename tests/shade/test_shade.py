"""Shading: weights and pictures beside exact ones, each pair of a pixel and a triangle once, the same bytes by every
compiler, and mutants of the headers.

    python3 -m pytest tests/shade [-m 'long or not long']

It needs g++. clang++, and for ARM64 aarch64-linux-gnu-gcc and qemu-aarch64-static are used if they are there. What it
builds is left in out/check-shade/.
"""

from __future__ import annotations

import os
import re
import shutil

import pytest

from tests import cases, mutants
from tests.cases import Case, MissingError, case, must
from tests.library.arm64 import COMPILER as ARM64, QEMU
from tests.library.commands import need, run
from tests.library.sanitized import SANITIZERS
from tests.mutants import Mutant
from tests.shade import exact, examples, programs
from tests.shade.programs import (
    IN_C, OUT, PROGRAMS, compiled, failures, filter_by, filter_for_arm64, named, outcome, tests_of,
)
from tools.places import INCLUDE

SEEDS, LONG_SEEDS = 1, 20
V2, V3 = "-march=x86-64-v2", "-march=x86-64-v3"
OFF, FAST, SCALAR = "-ffp-contract=off", "-ffp-contract=fast", "-DTRIRAST_SCALAR"
# Compilers and flags of filters that have to write the same bytes, of which the first are tried in the short form.
FILTERS = (
    ("g++", V2, OFF, "-O1"), ("clang++", V3, OFF, "-O1"), ("g++", IN_C, V3, OFF, "-O2"),
    ("clang++", IN_C, V2, OFF, "-O2"), ("g++", IN_C, OFF, "-O0"), ("clang++", IN_C, V3, OFF, "-O3"),
    ("g++", IN_C, OFF, "-O1", *SANITIZERS), ("g++", SCALAR, OFF, "-O1"),
    ("g++", V3, OFF, "-O2"), ("g++", "-O0"), ("g++", V3, OFF, "-O3"), ("g++", "-mavx", OFF, "-O2"),
    ("clang++", V2, OFF, "-O2"), ("clang++", SCALAR, OFF, "-O2"), ("g++", "-march=native", OFF, "-O2"),
    ("clang++", "-march=native", OFF, "-O2"),
    ("g++", SCALAR, OFF, "-O1", *SANITIZERS), ("clang++", V3, OFF, "-O1", *SANITIZERS),
)
SHORT_FILTERS = 3
# The short form tries one mutant of so many.
SHORT_MUTANTS = 16


def on_this_processor(*flags: str) -> None:
    """Raises `MissingError` if the machine does not run what these flags make."""
    if V3 in flags or "-march=native" in flags:
        with open("/proc/cpuinfo", encoding="ascii", errors="replace") as file:
            if " fma " not in file.read():
                raise MissingError("a processor of the level x86-64-v3")


def check_tests(seeds: int, *flags: str, compiler: str = "g++") -> str:
    """Weights, points and pictures are as they have to be. Returns what was counted."""
    on_this_processor(*flags)
    status, text = outcome(tests_of(named("tests", compiler, *flags), *flags, compiler=compiler), seeds)
    must(status == 0 and not failures(text), text[-1500:])
    words = ("asked", "of the model", "equal", "off by 1", "further")
    counts = [sum(map(int, re.findall(rf"(\d+) {word}", text))) for word in words]
    return "{} pairs, {} samples of the model: {} equal, {} off by 1, {} further".format(*counts)


def check_exact(points: int, *flags: str) -> str:
    """Weights keep their bounds beside exact fractions. Returns how many points lie in their triangle."""
    on_this_processor(*flags)
    status, text = outcome(tests_of(named("points", *flags), "-O1", *flags), points // 8, "--points")
    must(status == 0, text[-1500:])
    inside = sum(map(exact.check_line, text.splitlines()))
    must(inside > points // 2, f"{inside} of {points} points lie in their triangle")
    return f"{inside} points in triangles"


def check_sanitized(*flags: str) -> None:
    """AddressSanitizer and UndefinedBehaviorSanitizer find nothing in the headers, over a canvas that they see too."""
    canvas = programs.stand_in(*SANITIZERS)
    program = tests_of(named("sanitized", *flags), "-O1", V2, OFF, *flags, *SANITIZERS, canvas=canvas)
    status, text = outcome(program, SEEDS)
    must(status == 0, text[-1500:])


def wanted() -> bytes:
    """The bytes of the first filter."""
    path = os.path.join(OUT, "bytes")
    if not os.path.exists(path):
        answer = run([filter_by(*FILTERS[0])])
        with open(path, "wb") as file:
            file.write(answer)
    with open(path, "rb") as file:
        return file.read()


def check_filter(compiler: str, *flags: str) -> str:
    """A filter of another compiler or processor writes the same bytes."""
    on_this_processor(*flags)
    found = run([filter_by(compiler, *flags)])
    must(found == wanted(), "other bytes")
    return f"{len(found)} bytes"


def check_arm64(*flags: str) -> None:
    """A filter for ARM64, run by qemu, writes the bytes of that for x86-64."""
    for command in ("clang++", ARM64, QEMU):
        need(command)
    if not all(map(os.path.isdir, programs.LIBRARY_HEADERS)):
        raise MissingError("the headers of the C++ library of GCC 12")
    must(run([need(QEMU), filter_for_arm64(ARM64, OFF, "-O1", *flags)]) == wanted(), "other bytes")


def check_standards() -> None:
    """The headers compile without a warning by both compilers, in later standards, and as eight plain numbers."""
    for compiler, *flags in (
        ("g++", "-std=c++20", V3), ("clang++", "-std=c++20", V2), ("g++", "-std=c++23", SCALAR), ("clang++", SCALAR),
    ):
        compiled(compiler, "under_test.cpp", "standard", "-fsyntax-only", *flags)
    for compiler, standard in (("gcc", "c11"), ("gcc", "c2x"), ("clang", "c99"), ("clang", "c17")):
        compiled(compiler, "in_c.c", "standard", f"-std={standard}", "-fsyntax-only")


def check_fast_math() -> None:
    """The headers refuse to be compiled where sums may be computed in any order."""
    for compiler, standard, header in (("g++", "c++17", "trirast_shade.hpp"), ("gcc", "c99", "trirast_shade.h")):
        with pytest.raises(cases.CheckError, match="no bound of an error holds"):
            run([need(compiler), f"-std={standard}", "-ffast-math", "-fsyntax-only", os.path.join(INCLUDE, header)])


def found_by(mutant: Mutant) -> str | None:
    """What finds a mutant of a header: a check, or a signal where it leads out of an array."""
    on_this_processor(V3)
    folder = mutant.copied([INCLUDE, PROGRAMS], os.path.join(OUT, mutant.name))
    way = (IN_C,) if mutant.name.startswith("c.") else ()
    status, text = outcome(tests_of(f"{mutant.name}-tests", "-O1", V3, OFF, *way, before=folder), SEEDS)
    if status < 0:
        return f"signal {-status}"
    return failures(text)[0] if status == 1 and failures(text) else None


CASES = [
    case("weights, points and pictures", check_tests, SEEDS, "-O1", V3, OFF),
    case("weights, points and pictures, in C", check_tests, SEEDS, "-O1", V3, OFF, IN_C),
    case("weights beside exact fractions", check_exact, 4000, V3, OFF),
    case("weights beside exact fractions, in C", check_exact, 4000, V3, OFF, IN_C),
    case("weights beside exact fractions, with fused products", check_exact, 40000, V3, FAST, is_long=True),
    case("weights beside exact fractions, with fused products in C", check_exact, 40000, V3, FAST, IN_C, is_long=True),
    case("weights, points and pictures, by all seeds", check_tests, LONG_SEEDS, "-O2", V3, OFF, is_long=True),
    case("weights, points and pictures, with fused products", check_tests, 2, "-O3", V3, FAST, "-DFUSED",
         is_long=True),
    case("weights, points and pictures, by clang", check_tests, 2, "-O2", V2, compiler="clang++", is_long=True),
    case("weights, points and pictures, as eight plain numbers", check_tests, 2, "-O2", SCALAR, OFF, is_long=True),
    case("weights, points and pictures, in C by clang", check_tests, 2, "-O2", V3, FAST, IN_C, compiler="clang++",
         is_long=True),
    case("sanitizers find nothing", check_sanitized, is_long=True),
    case("sanitizers find nothing in C", check_sanitized, IN_C, is_long=True),
    *(case(f"the same bytes: {' '.join(each)}", check_filter, *each) for each in FILTERS[1:SHORT_FILTERS]),
    *(case(f"the same bytes: {' '.join(each)}", check_filter, *each, is_long=True) for each in FILTERS[SHORT_FILTERS:]),
    case("the same bytes: ARM64", check_arm64, is_long=True),
    case("the same bytes: ARM64, in C", check_arm64, IN_C, is_long=True),
    case("the program of the page", examples.check_page),
    case("a cube in C", examples.check_in_c),
    case("the program of the page in Python", examples.check_python, needs="the program of the page"),
    case("the page's picture", examples.check_picture, is_long=True),
    case("textured by threads", examples.check_threads, is_long=True),
    case("textured without races", examples.check_races, is_long=True),
    case("textured in a window", examples.check_window, is_long=True),
    case("a walk through a model", examples.check_walk, 200),
    case("standards", check_standards, is_long=True),
    case("fast-math is refused", check_fast_math),
    *mutants.cases(mutants.listed("tests", "shade", "mutants.edits"), found_by, SHORT_MUTANTS),
]


@pytest.fixture(scope="module", autouse=True)
def folder() -> None:
    shutil.rmtree(OUT, ignore_errors=True)
    os.makedirs(OUT)


@pytest.mark.parametrize("case", cases.parameters(CASES))
def test_shade(case: Case) -> None:
    cases.run(case)
