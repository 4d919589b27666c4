"""Clipping: no crack and no double sample, the same bytes by every compiler, in C, C++ and Python, and mutants of the
headers.

    python3 -m pytest tests/clip [-m 'long or not long']

It needs gcc and g++. clang, numpy, and for ARM64 aarch64-linux-gnu-gcc and qemu-aarch64-static are used if they are
there. What it builds is left in out/check-clip/.
"""

from __future__ import annotations

import os
import re
import shutil

import pytest

from tools import places
from tests.cases import Case, MissingError, case, must
from tests import cases, mutants
from tests.clip import picture
from tests.clip.programs import OUT, compiled, failures, filter_by, linked
from tests.clip.tasks import all_tasks
from tests.library.arm64 import COMPILER as ARM64, QEMU
from tests.library.commands import PACKAGE_ENVIRONMENT, WARNINGS, need, python_with, run
from tests.library.sanitized import SANITIZERS
from tests.mutants import Mutant
from tools.places import EXAMPLES, INCLUDE, STATIC_LIBRARY, TOP

SEEDS, LONG_SEEDS, MUTANT_SEEDS, SANITIZED_SEEDS = 40, 400, 4, 4
# The processors of the level that the library asks for, and those with a product that is fused with a sum.
V2, V3 = "-march=x86-64-v2", "-march=x86-64-v3"
OFF, FAST = "-ffp-contract=off", "-ffp-contract=fast"
# Compiler, language and flags of filters that have to write the same bytes.
FILTERS = (
    *(
        (compiler, "c", level, fused, "-O2")
        for compiler in ("gcc", "clang")
        for level in (V2, V3)
        for fused in (OFF, FAST)
    ),
    *((compiler, "cpp", V3, fused, "-O2") for compiler in ("g++", "clang++") for fused in (OFF, FAST)),
    ("gcc", "c", "-O0"), ("gcc", "c", "-O3", "-march=native"), ("clang", "c", "-O3", "-march=native"),
    ("gcc", "c", "-O1", *SANITIZERS), ("g++", "cpp", "-O1", *SANITIZERS),
)
# The mutants that are found by the bytes that a filter writes. The tests in C++ find the others.
BY_BYTES = {"between.may_be_fused": "c"}


# ---- No cracks


def tests_of(name: str = "tests", *flags: str, include: str = INCLUDE) -> str:
    """Builds the tests in C++ over the header in C, which flags are for. Returns the program."""
    main = os.path.join(OUT, "main.o")
    if not os.path.exists(main):
        compiled("g++", "main.cpp", "main", "-O2", V2)
    return linked(
        "g++", name, main, compiled("gcc", "under_test.c", f"{name}-parts", "-O2", *flags, include=include), *flags
    )


def check_tests(seeds: int) -> str:
    """Meshes are covered as they have to be. Returns what was counted."""
    status, text = failures([tests_of()], seeds)
    must(status == 0, text[-1500:])
    counts = [
        sum(map(int, re.findall(rf"(\d+) {word}", text)))
        for word in ("cuts", "samples", "cracks", "doubles", "turned over")
    ]
    must(counts[2:4] == [0, 0], text[-1500:])
    return "{} cuts, {} samples, {} cracks, {} doubles, {} turned over".format(*counts)


def check_sanitized() -> None:
    """AddressSanitizer and UndefinedBehaviorSanitizer find nothing in the tests."""
    status, text = failures([tests_of("sanitized", *SANITIZERS)], SANITIZED_SEEDS)
    must(status == 0, text[-1500:])


# ---- The same bytes


def question() -> bytes:
    return b"".join(each.encoded() for each in all_tasks())


def wanted() -> bytes:
    """The answers of the first filter."""
    path = os.path.join(OUT, "answers")
    if not os.path.exists(path):
        answer = run([filter_by(*FILTERS[0])], input=question())
        with open(path, "wb") as file:
            file.write(answer)
    with open(path, "rb") as file:
        return file.read()


def check_filter(compiler: str, language: str, *flags: str) -> None:
    """A filter of another compiler, language or processor writes the same bytes."""
    if V3 in flags or "-march=native" in flags:
        with open("/proc/cpuinfo", encoding="ascii", errors="replace") as file:
            if " fma " not in file.read():
                raise MissingError("a processor of the level x86-64-v3")
    must(run([filter_by(compiler, language, *flags)], input=question()) == wanted(), "other bytes")


def check_arm64(fused: str) -> None:
    """A filter for ARM64, run by qemu, writes the bytes of that for x86-64."""
    program = filter_by(ARM64, "c", fused, "-O2", "-static")
    must(run([need(QEMU), program], input=question()) == wanted(), "other bytes")


def check_standards() -> None:
    """The headers compile without a warning in later standards of C and C++, in one program too."""
    for compiler, language, standards in (("gcc", "c", ("c11", "c17", "c2x")), ("g++", "cpp", ("c++20", "c++23"))):
        for standard in standards:
            compiled(compiler, f"filter.{language}", "standard", f"-std={standard}")


def check_fast_math() -> None:
    """The header refuses to be compiled where sums may be computed in any order."""
    with pytest.raises(cases.CheckError, match="would not fit together"):
        compiled("gcc", "filter.c", "fast-math", "-ffast-math")


# ---- Python


ANSWERS = """
import os, sys
import numpy as np
import trirast
sys.path.insert(0, sys.argv[1])
from tests.clip.tasks import all_tasks
NEAR, SIDES = ("zero", "minus_one"), ("guard_band", "viewport")
for task in all_tasks():
    positions = np.frombuffer(task.positions, np.float32).reshape(-1, 4)
    found = trirast.clip(
        positions, task.indices, task.viewport, near_plane=NEAR[task.near_plane], sides=SIDES[task.sides],
        depths=task.depths,
    )
    counts = np.array([len(found.vertices), len(found.cuts), len(found.triangles), found.folded], np.uint32)
    for each in (counts, found.vertices, found.w, found.cuts, found.weights, found.triangles, found.sources):
        sys.stdout.buffer.write(each.tobytes())
"""


def check_python() -> str:
    """trirast.clip gives the bytes of the header in C, but for the vertices that it says are unspecified."""
    found = run([python_with("numpy"), "-c", ANSWERS, TOP], env=PACKAGE_ENVIRONMENT)
    must(found == wanted(), "other bytes")
    return f"{len(found)} bytes"


# ---- The page and the examples

PAGE = os.path.join("docs", "clipping.md")
COMPILERS = {"c": ("gcc", "-std=c99"), "cpp": ("g++", "-std=c++17")}


def floor_in(language: str) -> bytes:
    """The pixels of the floor that the page's program in Python or the example in C or C++ writes."""
    if language == "python":
        (text,) = re.findall(r"```python\n(.*?)```", places.text_of(PAGE), re.DOTALL)
        return run([python_with("numpy"), "-c", text], env=PACKAGE_ENVIRONMENT)
    program, source = os.path.join(OUT, f"floor-{language}"), os.path.join(EXAMPLES, language, f"floor.{language}")
    compiler, standard = COMPILERS[language]
    run([need(compiler), standard, *WARNINGS, "-I", INCLUDE, source, STATIC_LIBRARY, "-o", program, "-lm"])
    return run([program])


def check_floor(language: str) -> None:
    """The floor in a language is the picture of that in C++: sky above, and a floor without a gap below."""
    pixels = floor_in("cpp")
    must(floor_in(language) == pixels, "another picture")
    row, sky = 3 * 320, bytes((24, 24, 32))
    must(
        pixels[:row] == 320 * sky and all(pixels[k + 1 : k + 3] != sky[1:] for k in range(179 * row, 180 * row, 3)),
        "no floor",
    )


def check_example() -> str:
    """The example draws the page's picture, and cuts as many triangles as the page says. Returns the line."""
    found, line = picture.drawn()
    must(found == places.bytes_of(picture.PICTURE), "another picture than docs/clipping.png")
    page, counts = places.text_of(PAGE), re.findall(r"\d+", line)
    of_page = re.findall(
        r"`examples/cpp/clip.cpp`: ([\d,]+) triangles go in and (\d+) come out, after cutting. Cuts made (\d+)", page
    )
    must([[each.replace(",", "") for each in found] for found in of_page] == [counts], f"{of_page}, and not {line}")
    return line.strip()


# ---- Mutants of the headers


def found_by(mutant: Mutant) -> str | None:
    """What finds a mutant of a header."""
    folder = mutant.copied([INCLUDE], os.path.join(OUT, mutant.name))
    language = "cpp" if mutant.name.startswith(("hpp.", "parts.")) else BY_BYTES.get(mutant.name)
    if language:
        program = filter_by({"c": "gcc", "cpp": "g++"}[language], language, V3, FAST, "-O2", include=folder)
        return "other bytes" if run([program], input=question()) != wanted() else None
    status, text = failures([tests_of(f"{mutant.name}-tests", include=folder)], MUTANT_SEEDS)
    found = re.search(r"^FAILED (.*)$", text, re.MULTILINE)
    return found[1] if status == 1 and found else None


CASES = [
    case("samples are covered once", check_tests, SEEDS),
    case("samples are covered once, by all seeds", check_tests, LONG_SEEDS, is_long=True),
    case("sanitizers find nothing", check_sanitized),
    *(case(" ".join(("the same bytes:", *each)), check_filter, *each) for each in FILTERS[1:]),
    *(case(f"the same bytes: ARM64 {fused}", check_arm64, fused) for fused in (OFF, FAST)),
    case("standards of C and C++", check_standards),
    case("fast-math is refused", check_fast_math),
    case("the same bytes: Python", check_python),
    *(case(f"the floor in {language}", check_floor, language) for language in ("c", "python")),
    case("the example", check_example),
    *mutants.cases(mutants.listed("tests", "clip", "mutants.edits"), found_by),
]


@pytest.fixture(scope="module", autouse=True)
def folder() -> None:
    shutil.rmtree(OUT, ignore_errors=True)
    os.makedirs(OUT)


@pytest.mark.parametrize("case", cases.parameters(CASES))
def test_clip(case: Case) -> None:
    cases.run(case)
