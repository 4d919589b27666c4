"""Textures: levels equal to exact means, samples within their bounds of exact filters, the same bytes by every
compiler, and mutants of the header.

    python3 -m pytest tests/texture [-m 'long or not long']

It needs g++. clang++, and for ARM64 aarch64-linux-gnu-g++ and qemu-aarch64-static are used if they are there. What it
builds is left in out/check-texture/.
"""

from __future__ import annotations

import os
import re
import shutil
import subprocess

import pytest

from tools import places
from tests import cases, mutants
from tests.cases import Case, MissingError, case, must
from tests.library.arm64 import QEMU
from tests.library.commands import WARNINGS, need, run
from tests.library.sanitized import SANITIZERS
from tests.mutants import Mutant
from tools.places import EXAMPLES, INCLUDE, TOP

OUT = os.path.join(places.OUT, "check-texture")
SOURCES = os.path.join(TOP, "tests", "texture")
PROGRAMS = os.path.join(EXAMPLES, "cpp")
STRICT = ("-std=c++17", *WARNINGS, "-Wconversion", "-Wshadow")
V2, V3 = "-march=x86-64-v2", "-march=x86-64-v3"
OFF, FAST, SCALAR = "-ffp-contract=off", "-ffp-contract=fast", "-DTRIRAST_SCALAR"
# Compilers and flags that have to write the same bytes, of which the first two are tried in the short form.
COMPILERS = (
    ("g++", V3, OFF, "-O1"), ("clang++", V2, OFF, "-O1"), ("g++", SCALAR, OFF, "-O1"), ("g++", V2, OFF, "-O2"),
    ("clang++", V3, OFF, "-O3"), ("clang++", SCALAR, OFF, "-O2"), ("g++", "-mavx", OFF, "-O2"), ("g++", "-O0"),
)
SHORT_COMPILERS = 2
ARM64 = "aarch64-linux-gnu-g++"
# The short form tries one mutant of so many, and one float of so many.
SHORT_MUTANTS, FEW_FLOATS = 7, 4099


def built(compiler: str, *flags: str, include: str = INCLUDE, name: str = "") -> str:
    """Builds the tests. Returns the program."""
    if V3 in flags:
        with open("/proc/cpuinfo", encoding="ascii", errors="replace") as file:
            if " fma " not in file.read():
                raise MissingError("a processor of the level x86-64-v3")
    path = os.path.join(OUT, name or re.sub(r"[^\w+]+", "_", " ".join((compiler, *flags))))
    if not os.path.exists(path):
        folders = [f"-I{folder}" for folder in (include, PROGRAMS, SOURCES)]
        run([need(compiler), *STRICT, *flags, *folders, os.path.join(SOURCES, "main.cpp"), "-o", path])
    return path


def outcome(program: str, floats: int = FEW_FLOATS) -> tuple[int, str]:
    done = subprocess.run([program, "--steps", str(floats)], stdout=subprocess.PIPE, text=True,
                          timeout=cases.MAX_SECONDS)
    return done.returncode, done.stdout


def check_tests(compiler: str, *flags: str, floats: int = FEW_FLOATS) -> None:
    """Levels, samples and encoded values are as they have to be, and sanitizers among the flags find nothing."""
    status, text = outcome(built(compiler, *flags), floats)
    must(status == 0 and text == "all hold\n", text)


def check_bytes(compiler: str, *flags: str) -> str:
    """Another compiler or processor finds the same values, bit by bit."""
    found = run([built(compiler, *flags), "--bytes"])
    must(len(found) > 1000 and found == run([built(*COMPILERS[0]), "--bytes"]), "other bytes")
    return f"{len(found)} bytes"


def check_arm64(*flags: str) -> None:
    """ARM64 finds the values of x86-64."""
    qemu, program = need(QEMU), built(ARM64, OFF, "-O1", "-static", *flags)
    must(run([qemu, program, "--bytes"]) == run([built(*COMPILERS[0]), "--bytes"]), "other bytes")


def found_by(mutant: Mutant) -> str | None:
    """What finds a mutant of the header: a test, or a signal where it leads out of an array."""
    folder = mutant.copied([INCLUDE], os.path.join(OUT, mutant.name))
    flags = (*SANITIZERS,) if mutant.name.startswith("far.") else (OFF,)
    status, text = outcome(built("g++", "-O1", V3, *flags, include=folder, name=f"{mutant.name}-tests"))
    return text or f"status {status}" if status else None


CASES = [
    case("levels and samples", check_tests, *COMPILERS[0]),
    case("levels and samples, by clang", check_tests, *COMPILERS[1]),
    case("levels and samples, with fused products", check_tests, "g++", V3, FAST, "-O2", floats=61, is_long=True),
    case("levels and samples, as eight plain numbers", check_tests, "g++", SCALAR, "-O1", is_long=True),
    case("every float is encoded", check_tests, "g++", V3, OFF, "-O2", floats=1, is_long=True),
    case("sanitizers find nothing", check_tests, "g++", V2, "-O1", *SANITIZERS, is_long=True),
    case("sanitizers find nothing, by clang", check_tests, "clang++", SCALAR, "-O1", *SANITIZERS, is_long=True),
    *(case(f"the same bytes: {' '.join(each)}", check_bytes, *each, is_long=k >= SHORT_COMPILERS)
      for k, each in enumerate(COMPILERS) if k > 0),
    case("the same bytes: ARM64", check_arm64, is_long=True),
    *mutants.cases(mutants.listed("tests", "texture", "mutants.edits"), found_by, SHORT_MUTANTS),
]


@pytest.fixture(scope="module", autouse=True)
def folder() -> None:
    shutil.rmtree(OUT, ignore_errors=True)
    os.makedirs(OUT)


@pytest.mark.parametrize("case", cases.parameters(CASES))
def test_texture(case: Case) -> None:
    cases.run(case)
