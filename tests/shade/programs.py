"""Programs over the headers for shading."""

from __future__ import annotations

import os
import re
import subprocess
from typing import Sequence

from tools import places
from tests.cases import MAX_SECONDS
from tests.library.commands import WARNINGS, need, run
from tools.places import EXAMPLES, INCLUDE, STATIC_LIBRARY, TOP

OUT = os.path.join(places.OUT, "check-shade")
SOURCES = os.path.join(TOP, "tests", "shade")
PROGRAMS = os.path.join(EXAMPLES, "cpp")
STRICT = ("-std=c++17", *WARNINGS, "-Wconversion")
STRICT_C = ("-std=c99", *WARNINGS, "-Wconversion")
# The tests have products of 128 bits.
LENIENT = tuple(flag for flag in STRICT if flag != "-Wpedantic")
# trirast_shade.h by a compiler for C in place of trirast_shade.hpp.
IN_C = "-DIN_C"
C_COMPILERS = {"g++": "gcc", "clang++": "clang"}
# The C++ library of this machine serves for the headers of another processor, and is not linked there.
LIBRARY_HEADERS = ("/usr/include/c++/12", "/usr/include/x86_64-linux-gnu/c++/12", "/usr/aarch64-linux-gnu/include")


def named(*words: str) -> str:
    """A name for what a compiler makes by flags."""
    return "-".join(re.sub(r"[^\w+]", "_", word.strip("-")) for word in words)


def compiled(compiler: str, source: str, name: str, *flags: str, before: str = "") -> str:
    """Compiles a source of this folder with warnings, which are errors, to an object. Returns its path. Headers in
    `before` come first."""
    path = os.path.join(OUT, f"{name}.o")
    folders = [f"-I{folder}" for folder in (before, INCLUDE, PROGRAMS, SOURCES) if folder]
    warnings = STRICT_C if source.endswith(".c") else STRICT if source == "under_test.cpp" else LENIENT
    run([need(compiler), *warnings, *flags, *folders, "-c", os.path.join(SOURCES, source), "-o", path])
    return path


def linked(compiler: str, name: str, *words: str) -> str:
    """Links objects into a program. Returns its path."""
    path = os.path.join(OUT, name)
    run([need(compiler), *words, "-o", path, "-pthread"])
    return path


def library() -> str:
    """The library, or where it lacks the calls for tiles a stand-in. Returns its path."""
    if os.path.exists(STATIC_LIBRARY) and b"trirast_canvas_tile_store" in run([need("nm"), "-g", STATIC_LIBRARY]):
        return STATIC_LIBRARY
    return stand_in()


def stand_in(*flags: str) -> str:
    """The calls on a canvas by plain rules, so that sanitizers look into them. Returns the path of the object."""
    name = named("stand_in", *flags)
    path = os.path.join(OUT, f"{name}.o")
    return path if os.path.exists(path) else compiled("g++", "stand_in.cpp", name, "-O2", *flags)


def tests_of(name: str, *flags: str, compiler: str = "g++", before: str = "", canvas: str = "") -> str:
    """Builds the tests: the references once, and over the headers by a compiler and its flags. Returns the program.
    Headers in `before` come first: in C only those that are compiled as C. `canvas` is in place of the library."""
    main = os.path.join(OUT, "main.o")
    if not os.path.exists(main):
        compiled("g++", "main.cpp", "main", "-O1")
    # What C alone has is compiled alone.
    own = "" if IN_C in flags else before
    parts = f"{name}-parts" if own else named("parts", compiler, *flags)
    in_cpp = os.path.join(OUT, f"{parts}.o")
    if not os.path.exists(in_cpp):
        compiled(compiler, "under_test.cpp", parts, *flags, before=own)
    objects = main, in_cpp, *in_c(compiler, name, *flags, before=before)
    return linked(compiler, name, *objects, *flags, canvas or library())


def in_c(compiler: str, name: str, *flags: str, before: str = "") -> list[str]:
    """The object of the header in C, compiled as C, if flags ask for it."""
    return [compiled(C_COMPILERS[compiler], "in_c.c", f"{name}-in-c", *flags, before=before)] if IN_C in flags else []


def outcome(program: str, count: int, kind: str = "--seeds") -> tuple[int, str]:
    """Runs the tests, or has points printed. Returns their status and what they print."""
    done = subprocess.run([program, kind, str(count)], stdout=subprocess.PIPE, text=True, timeout=MAX_SECONDS)
    return done.returncode, done.stdout


def failures(text: str) -> list[str]:
    return re.findall(r"^FAILED (.*)$", text, re.MULTILINE)


def filter_by(compiler: str, *flags: str) -> str:
    """Builds the filter. Returns its path."""
    name = named("filter", compiler, *flags)
    return linked(compiler, name, compiled(compiler, "filter.cpp", name, *flags), *in_c(compiler, name, *flags), *flags)


def filter_for_arm64(linker: str, *flags: str) -> str:
    """Builds the filter for ARM64 by clang++ and that processor's linker, without a C++ library. Returns its path."""
    folders = [word for folder in LIBRARY_HEADERS for word in ("-isystem", folder)]
    words = ("--target=aarch64-linux-gnu", "-nostdinc++", *folders, *flags)
    objects = [compiled("clang++", f"{name}.cpp", f"{name}-arm64", *words) for name in ("filter", "without_library")]
    if IN_C in flags:
        objects.append(compiled(linker, "in_c.c", "in-c-arm64", *flags))
    # Of what is not there nothing is called: exceptions.
    return linked(linker, "filter-arm64", "-static", *objects, "-lm", "-Wl,--unresolved-symbols=ignore-all")


def program_of(source: str, *flags: str, more: Sequence[str] = (), name: str = "", canvas: str = "") -> str:
    """Builds a program of examples/cpp, without a window unless `more` has the words for SDL. Returns its path."""
    path, text = os.path.join(OUT, name or source), os.path.join(PROGRAMS, f"{source}.cpp")
    run([need("g++"), *STRICT, *flags, "-I", INCLUDE, text, canvas or library(), *more, "-o", path, "-pthread"])
    return path
