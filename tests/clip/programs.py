"""Programs over the headers for clipping."""

from __future__ import annotations

import os
import subprocess
from typing import Sequence

from tools import places
from tests.cases import MAX_SECONDS
from tests.library.commands import WARNINGS, need, run
from tools.places import EXAMPLES, INCLUDE, TOP

OUT = os.path.join(places.OUT, "check-clip")
SOURCES = os.path.join(TOP, "tests", "clip")
PROGRAMS = os.path.join(EXAMPLES, "cpp")
STANDARDS = {"c": "-std=c99", "cpp": "-std=c++17"}
STRICT = (*WARNINGS, "-Wconversion")


def compiled(compiler: str, source: str, name: str, *flags: str, include: str = INCLUDE) -> str:
    """Compiles a source of this folder with all warnings, which are errors, to an object. Returns its path."""
    path = os.path.join(OUT, f"{name}.o")
    folders = (f"-I{include}", f"-I{PROGRAMS}", f"-I{SOURCES}")
    standard = STANDARDS[source.rpartition(".")[2]]
    run([need(compiler), standard, *STRICT, *flags, *folders, "-c", os.path.join(SOURCES, source), "-o", path])
    return path


def linked(compiler: str, name: str, *objects: str) -> str:
    """Links objects into a program. Returns its path."""
    path = os.path.join(OUT, name)
    run([need(compiler), *objects, "-o", path, "-lm"])
    return path


def filter_by(compiler: str, language: str, *flags: str, include: str = INCLUDE) -> str:
    """Builds the filter, which clips what it reads. Returns its path."""
    name = "-".join(
        ["filter", language, compiler, *(flag.strip("-").replace("=", "-").replace(",", "-") for flag in flags)]
    )
    return linked(compiler, name, compiled(compiler, f"filter.{language}", name, *flags, include=include), *flags)


def failures(program: Sequence[str], seeds: int) -> tuple[int, str]:
    """Runs the tests in C++. Returns their status and what they print."""
    done = subprocess.run([*program, "--seeds", str(seeds)], stdout=subprocess.PIPE, text=True, timeout=MAX_SECONDS)
    return done.returncode, done.stdout
