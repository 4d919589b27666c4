"""Random calls on canvases with every buffer between guard pages, beside a plain renderer in C; random clipping and
shading under sanitizers; and the mistakes that TRIRAST_CHECKS reports.

    python3 -m pytest tests/guarded [-m 'long or not long']

It needs the library (make library), gcc and g++. What it builds is left in out/check-guarded/.
"""

from __future__ import annotations

import os
import re
import signal
import subprocess

import pytest

from tools import places
from tests import cases
from tests.cases import Case, CheckError, case, must
from tests.library.commands import WARNINGS, need, run
from tests.library.sanitized import SANITIZERS
from tools.places import INCLUDE, STATIC_LIBRARY, TOP

OUT = os.path.join(places.OUT, "check-guarded")
SOURCES = os.path.join(TOP, "tests", "guarded")
PARTS = ("numbers", "pages", "plain", "refusals", "scene", "drawing", "reading")
# Seconds that a run takes, in CI and in its longer form, and what it may take longer than it is told to.
SECONDS, LONG_SECONDS, MARGIN = 30, 600, 60
# Seeds of the longer form are others than those of CI.
LONG_SEED = 1_000_000_000


def built(name: str, compiler: str, *flags: str) -> str:
    program = os.path.join(OUT, name)
    run([need(compiler), "-g", *WARNINGS, "-I", INCLUDE, *flags, STATIC_LIBRARY, "-o", program, "-lm"])
    return program


def canvases() -> str:
    return built("canvases", "gcc", "-std=c11", "-O2", *(os.path.join(SOURCES, f"{part}.c") for part in PARTS))


def clip_and_shade() -> str:
    flags = ("-std=c++17", "-O1", "-Wconversion", "-ffp-contract=off", *SANITIZERS)
    return built("clip_and_shade", "g++", *flags, os.path.join(SOURCES, "clip_and_shade.cpp"))


def counted(program: str, seconds: int, seed: int) -> list[int]:
    """Runs a program for some seconds. Returns the counts of its last line, of which the last is what is wrong."""
    command = [program, "--seconds", str(seconds), "--seed", str(seed)]
    try:
        done = subprocess.run(command, capture_output=True, timeout=seconds + MARGIN, text=True)
    except subprocess.TimeoutExpired as error:
        raise CheckError(f"a call does not end: {error}") from error
    must(done.returncode == 0, f"status {done.returncode}: {(done.stdout + done.stderr)[-1500:]}")
    return [int(number) for number in re.findall(r"\d+", done.stdout.splitlines()[-1])]


def check_canvases(seconds: int, seed: int) -> str:
    """Each sample, status and error is that of the plain renderer, and no byte beside a buffer is touched."""
    scenes, calls, refused, samples, wrong = counted(canvases(), seconds, seed)
    must(wrong == 0 and refused > scenes // 2 and samples > scenes, "few scenes, or calls that are not refused")
    return f"{scenes} scenes, {calls} calls, {refused} refused, {samples} samples"


def check_clip_and_shade(seconds: int, seed: int) -> str:
    """The sanitizers find nothing, and what comes out is what the headers promise, the same in C and C++."""
    scenes, refused, triangles, cuts, fragments, wrong = counted(clip_and_shade(), seconds, seed)
    must(wrong == 0 and min(refused, triangles, cuts, fragments) > 0, "nothing was refused, cut or shaded")
    return f"{scenes} scenes, {triangles} triangles, {cuts} cuts, {fragments} fragments"


def check_mistake(word: str, reported: str) -> str:
    """TRIRAST_CHECKS reports a mistake by a line, and aborts; a program without it goes on."""
    flags = ("-std=c11", "-O0", os.path.join(SOURCES, "mistakes.c"))
    done = subprocess.run([built("mistakes", "gcc", *flags), word], capture_output=True, text=True, timeout=MARGIN)
    must(done.returncode == (-signal.SIGABRT if reported else 0), f"status {done.returncode}: {done.stderr}")
    must(reported in done.stderr, done.stderr)
    return done.stderr.strip()


MISTAKES = {
    "none": "", "black": "cleared to 0, 0, 0", "polygons": "cleared to 0, 0, 0",
    "black from one": "lies outside of that triangle", "short": "which none of 1 triangles has",
    "twice": "lies outside of that triangle",
}
CASES = [
    case("canvas calls between guard pages", check_canvases, SECONDS, 1),
    case("canvas calls between guard pages, longer", check_canvases, LONG_SECONDS, LONG_SEED, is_long=True),
    case("clip and shade under sanitizers", check_clip_and_shade, SECONDS, 1),
    case("clip and shade under sanitizers, longer", check_clip_and_shade, LONG_SECONDS, LONG_SEED, is_long=True),
    *(case(f"TRIRAST_CHECKS: {word}", check_mistake, word, reported) for word, reported in MISTAKES.items()),
]


@pytest.fixture(scope="module", autouse=True)
def folder() -> None:
    os.makedirs(OUT, exist_ok=True)


@pytest.mark.parametrize("case", cases.parameters(CASES))
def test_guarded(case: Case) -> None:
    cases.run(case)
