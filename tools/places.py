"""Where things of the repository lie, and how the tools read them."""

from __future__ import annotations

import glob
import os
import sys

TOP = os.path.dirname(os.path.dirname(os.path.abspath(__file__)))
OUT = os.path.join(TOP, "out")
EXAMPLES = os.path.join(TOP, "examples")

# What `make` and `make test` build.
PROGRAM = os.path.join(TOP, "bin", "trirast")
WHY_PROGRAM = os.path.join(TOP, "bin", "trirast_why")
TILES_PROGRAM = os.path.join(TOP, "bin", "refused_tiles")
READER_PROGRAM = os.path.join(TOP, "bin", "list_bench")
# What `make frames` and `make model` build.
FRAMES_PROGRAM = os.path.join(TOP, "bin", "frames")
BENCH_OUT = os.path.join(TOP, "bench", "out")
MODEL_PROGRAM = os.path.join(BENCH_OUT, "model")
# The library that `make library` builds, and its bindings.
LIB = os.path.join(TOP, "lib")
STATIC_LIBRARY = os.path.join(LIB, "libtrirast.a")
SHARED_LIBRARY = os.path.join(LIB, "libtrirast.so")
# The second level of x86-64, the shared library for it, and the program that `make frames` builds for it.
LEVEL = "x86-64-v3"
SECOND_LEVEL = os.path.join(LIB, LEVEL, "libtrirast.so.2")
FRAMES_OF_LEVEL = os.path.join(TOP, "bin", LEVEL, "frames")
INCLUDE = os.path.join(TOP, "include")
PYTHON_SOURCES = os.path.join(TOP, "python", "src")


def text_of(*path: str) -> str:
    """The text of a file, named from the top of the repository."""
    with open(os.path.join(TOP, *path), encoding="utf-8") as file:
        return file.read()


def write_text(path: str, text: str) -> None:
    """Writes a file, named from the top of the repository."""
    with open(os.path.join(TOP, path), "w", encoding="utf-8") as file:
        file.write(text)


def bytes_of(*path: str) -> bytes:
    """The bytes of a file, named from the top of the repository."""
    with open(os.path.join(TOP, *path), "rb") as file:
        return file.read()


def files(*pattern: str) -> list[str]:
    """The files of a pattern, sorted, each named from the top of the repository; `**` stands for any folders."""
    paths = glob.glob(os.path.join(TOP, *pattern), recursive=True)
    return sorted(os.path.relpath(path, TOP) for path in paths)


def is_built(*programs: str, made_by: str = "make") -> bool:
    """Whether these programs are there. If one is not, names it on standard error, with the command that makes it."""
    for program in programs:
        if not os.access(program, os.X_OK):
            print(f"there is no program at {program}; run {made_by} first", file=sys.stderr)
            return False
    return True
