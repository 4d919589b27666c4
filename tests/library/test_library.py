"""Runs the library, its header, the packages in Python and Rust and the examples, and compares every byte with the
program's.

    PYTHONPATH=python/src python3 -m pytest tests/library [-k WORD]

What it builds is left in out/check-library/. It needs gcc. g++, clang++, pkg-config, nm, valgrind, numpy, matplotlib,
cargo, SDL with Xvfb and xdotool for windows, and for ARM64 aarch64-linux-gnu-gcc and qemu-aarch64-static are used if
they are there.
"""

from __future__ import annotations

import os
import shutil
from typing import Iterator

import pytest

from tests.cases import Case, case
from tests import cases
from tests.library import (
    arm64, canvas_examples, elsewhere, examples, from_python, from_rust, in_c, install, microsoft, rust_on_windows
)
from tests.library.commands import OUT
from tests.library.lists import write_lists
from tools.places import PROGRAM, SECOND_LEVEL, SHARED_LIBRARY, STATIC_LIBRARY, is_built

# Of the generated lists.
SEED = 1


def example_cases() -> Iterator[Case]:
    for threads in (1, 4, 7):
        yield case(f"examples/c: frames by {threads} threads", examples.check_frames, threads)
    yield case("examples/c: canvas", examples.check_c_canvas)
    yield case("memcheck finds nothing in examples/c/canvas", examples.check_c_canvas, "memcheck")
    yield case("examples/c: threads", examples.check_c_threads)
    yield case("examples/cpp: draw", examples.check_cpp)
    yield case("examples/cpp: canvas", examples.check_cpp_canvas)
    yield from canvas_examples.cases()
    yield case("examples/python: canvas", examples.check_python_canvas)
    yield case("examples/python: glass", examples.check_glass)
    yield case("examples/python: coverage", examples.check_coverage)
    yield case("examples/python: edges", examples.check_edges)
    yield case("examples/python: viewer", examples.check_viewer)
    yield case("examples/python: what the viewer refuses", examples.check_viewer_refuses)
    yield case("examples/python: gouraud", examples.check_gouraud)
    yield case("examples/python: plots", examples.check_plots)
    yield case("examples/python: textured", examples.check_textured)
    yield case("examples/python: seams", examples.check_seams)
    yield case("examples/python: choropleth", examples.check_choropleth)


CASES = [
    *in_c.library_cases(), *in_c.c_cases(), *in_c.cpp_cases(), *example_cases(), *from_python.cases(),
    *from_rust.cases(), *arm64.cases(SEED), *elsewhere.cases(), *microsoft.cases(), *rust_on_windows.cases(),
    case("make install, pkg-config, a program outside, make uninstall", install.check_install),
    case("make install with DESTDIR", install.check_staged_install),
]


@pytest.fixture(scope="module", autouse=True)
def lists() -> None:
    assert is_built(PROGRAM)
    assert all(map(os.path.isfile, (STATIC_LIBRARY, SHARED_LIBRARY, SECOND_LEVEL))), "run make library first"
    shutil.rmtree(OUT, ignore_errors=True)
    write_lists(SEED)


@pytest.mark.parametrize("case", cases.parameters(CASES))
def test_library(case: Case) -> None:
    cases.run(case)
