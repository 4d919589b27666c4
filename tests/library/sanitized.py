"""The headers under the sanitizers of compilers: random calls of trirast.hpp, and what trirast.h defines itself."""

from __future__ import annotations

import os
import shutil
import subprocess

from tests.cases import CheckError, must
from tests.library.commands import OUT, WARNINGS, need, run
from tools.places import INCLUDE, STATIC_LIBRARY, TOP

SANITIZERS = ("-fsanitize=address,undefined", "-fno-sanitize-recover=all")
FUZZ = os.path.join(TOP, "tests", "library", "fuzz.cpp")
# Seconds of the check that CI makes, and what a run may take longer than it is told to.
SECONDS, MARGIN = 5, 120
# The test of the functions that trirast.h defines itself, the compilers that build it, and the flags of its language.
# In C these functions are made the program's own, so that the sanitizers see them and not those of the library.
INLINE_TEST = os.path.join(TOP, "tests", "library", "inline.c")
IN_C, IN_CPP = ("-std=c99", "-Dinline=static inline", "-x", "c"), ("-std=c++17", "-x", "c++")
INLINE = (("gcc", IN_C), ("clang", IN_C), ("g++", IN_CPP), ("clang++", IN_CPP))


def check_inline(compiler: str, language: tuple[str, ...]) -> None:
    """The functions that trirast.h defines end as it says, also where a pointer is NULL, and the
    sanitizers find nothing."""
    program = os.path.join(OUT, f"inline-{compiler}")
    flags = ["-g", *WARNINGS, *SANITIZERS, "-I", INCLUDE]
    run([need(compiler), *flags, *language, INLINE_TEST, "-x", "none", STATIC_LIBRARY, "-o", program])
    run([program])


def build_fuzz(compiler: str) -> str:
    """Builds the fuzz by a compiler. Returns its path."""
    os.makedirs(OUT, exist_ok=True)
    program = os.path.join(OUT, f"fuzz-{compiler}")
    flags = ["-std=c++17", "-O1", "-g", *WARNINGS, "-Wconversion", *SANITIZERS, "-I", INCLUDE, "-pthread"]
    run([need(compiler), *flags, "-o", program, FUZZ, STATIC_LIBRARY])
    return program


def check_fuzz(seconds: int = SECONDS, seed: int = 1) -> str:
    """Random calls of trirast.hpp end without a wrong picture, and the sanitizers find nothing. Returns how many
    scenes there were."""
    compiler = "clang++" if shutil.which("clang++") else "g++"
    command = [build_fuzz(compiler), str(seconds), str(seed)]
    try:
        done = subprocess.run(command, capture_output=True, timeout=seconds + MARGIN)
    except subprocess.TimeoutExpired as error:
        raise CheckError(f"a scene does not end: {error}") from error
    must(done.returncode == 0, (done.stdout + done.stderr).decode(errors="replace")[-1500:])
    return f"{done.stdout.decode().strip()} by {compiler}"
