"""The examples of canvases: the model that turns in a window, and the frames of draw lists; also under
memcheck and drd."""

from __future__ import annotations

import json
import os
import re
import subprocess
from typing import Iterator

from tools import picture_file, places
from tests.reference import compare_canvas, renderer
from tools.draw_list import draw_list, encode
from tests.library import examples
from tests.library.commands import (
    OUT, WARNINGS, drawn_by_program, must_be_silent, must_be_the_programs, need, run,
)
from tests.cases import MAX_SECONDS, Case, MissingError, case, must
from tests.library.screen import Screen
from tools.places import EXAMPLES, INCLUDE, STATIC_LIBRARY, TOP

RING = os.path.join(EXAMPLES, "python", "ring.obj")
SPIN, FRAMES = os.path.join(OUT, "spin"), os.path.join(OUT, "canvas_frames")
THREADS = 4
# The lists of examples/ whose draws have triangles alone, as frames.cpp reads them.
LISTS = (
    "blending", "four_samples", "gradient", "mesh", "one_sample", "scissor_and_masks", "seam", "top_left", "triangle"
)


# ---- spin.c


def build_spin() -> None:
    """Builds the example if it is not built. Raises `MissingError` if SDL is missing."""
    if os.path.exists(SPIN):
        return
    done = subprocess.run([need("pkg-config"), "--cflags", "--libs", "sdl2"], capture_output=True, text=True)
    if done.returncode:
        raise MissingError("libsdl2-dev")
    source = os.path.join(EXAMPLES, "c", "spin.c")
    flags = ["-std=c99", "-O2", "-g", *WARNINGS, "-I", INCLUDE]
    run([need("gcc"), *flags, "-o", SPIN, source, STATIC_LIBRARY, *done.stdout.split(), "-pthread", "-lm"])


def saved(name: str, *more: str) -> tuple[str, str]:
    """Saves a frame without a window. Returns the paths of its list and of its picture, which is the program's,
    and what is printed."""
    path = os.path.join(OUT, name)
    printed = run([SPIN, "--save", f"{path}.ppm", "--list", f"{path}.json", *more, RING]).decode()
    must_be_the_programs(f"{path}.json", f"{path}.ppm")
    return path, printed


def check_spin() -> None:
    """A frame has the bytes that the program draws of its list, by any number of threads, also with a
    picked triangle."""
    build_spin()
    for threads in ("1", "4", "7"):
        saved(f"spin-{threads}", "--threads", threads, "--turn", "25")
    saved("spin-odd", "--size", "317", "211", "--turn", "-200")
    path, _ = saved("spin", "--threads", "4", "--pick", "320", "300")
    must(len(json.loads(places.text_of(f"{path}.json"))["draws"]) == 5, "no triangle was picked")


def check_picks() -> str:
    """The triangle that is picked at a pixel is the last one that passes there, by the reference."""
    build_spin()
    size = (160, 120)
    path, _ = saved("picks", "--size", *map(str, size))
    scene = json.loads(places.text_of(f"{path}.json"))
    model = renderer.read(encode(draw_list(*size, scene["draws"][3])))
    (wanted,) = compare_canvas.of_reference(renderer, compare_canvas.with_ids(model)).ids
    seen = set()
    for y in range(3, size[1], 13):
        for x in range(5, size[0], 17):
            id_there = wanted[y * size[0] + x]
            line = (
                f"triangle {id_there} at {x}, {y}" if id_there != compare_canvas.CLEARED else f"no triangle at {x}, {y}"
            )
            _, printed = saved("picked", "--size", *map(str, size), "--pick", str(x), str(y))
            must(printed == f"{line}\n", f"{printed.strip()}, where it is {line}")
            seen.add(id_there)
    must(len(seen) > 10, f"only {len(seen)} triangles were picked")
    return f"{len(seen)} triangles"


def picture_of(path: str) -> bytes:
    return picture_file.decode(places.bytes_of(f"{path}.ppm")).pixel_data


def has_rate(screen: Screen) -> bool:
    """Whether the window's title has the frames a second and a triangle."""
    command = [need("xdotool"), "search", "--name", "spin", "getwindowname"]
    title = subprocess.run(command, env=screen.environment, stdout=subprocess.PIPE, text=True).stdout.strip()
    return re.fullmatch(rf"spin: [1-9]\d* frames a second by {THREADS} threads, triangle \d+", title) is not None


def check_window() -> None:
    """The window shows the picture of the frame's list, and a click picks a triangle, which it then shows."""
    build_spin()
    size, turn, pixel = ("320", "240"), ("--turn", "25"), ("160", "150")
    before = picture_of(saved("window", "--size", *size, *turn)[0])
    path, printed = saved("clicked", "--size", *size, *turn, "--pick", *pixel)
    after = picture_of(path)
    with Screen(os.path.join(OUT, "screen"), 320, 240) as screen:
        command = [SPIN, "--size", *size, *turn, "--speed", "0", "--threads", str(THREADS), RING]
        with subprocess.Popen(command, env=screen.environment, stdout=subprocess.PIPE, text=True) as window:
            try:
                screen.wait_for(lambda: screen.pixels() == before, "the picture of the frame on the screen")
                click = [need("xdotool"), "mousemove", *pixel, "click", "1"]
                run(click, env=screen.environment)
                screen.wait_for(lambda: screen.pixels() == after, "the picked triangle on the screen")
                screen.wait_for(lambda: has_rate(screen), "a title with the frames a second")
            finally:
                window.terminate()
            output, _ = window.communicate(timeout=MAX_SECONDS)
    must(output == printed and window.returncode == 0, f"status {window.returncode}: {output}")


# ---- frames.cpp


def build_frames() -> None:
    """Builds the example if it is not built."""
    if os.path.exists(FRAMES):
        return
    source = os.path.join(EXAMPLES, "cpp", "frames.cpp")
    flags = ["-std=c++17", "-O2", "-g", *WARNINGS, "-I", INCLUDE, "-I", os.path.join(TOP, "bench"), "-pthread"]
    run([need("g++"), *flags, "-o", FRAMES, source, STATIC_LIBRARY])


def check_frames() -> str:
    """Frames of lists have the program's bytes, by one thread and by four, as one batch and as many."""
    build_frames()
    for name in LISTS:
        text = places.bytes_of(EXAMPLES, f"{name}.json")
        wanted = drawn_by_program(text).output
        for more in ((), ("--workers", "4"), ("--workers", "3", "--batch", "7", "--frames", "2"), ("--batch", "1")):
            must(run([FRAMES, *more], input=text) == wanted, f"{name} {' '.join(more)}: other bytes")
    return f"{len(LISTS)} lists"


# ---- valgrind


def check_watched(tool: str, example: str) -> None:
    """An example with four threads under memcheck or drd has no error, and draws the same."""
    threads = str(THREADS)
    if example == "c/frames":
        must_be_silent(tool, [examples.build_frames(), "--frames", "2", "--threads", threads])
    elif example == "c/spin":
        build_spin()
        path = os.path.join(OUT, f"spin-{tool}")
        must_be_silent(
            tool,
            [
                SPIN, "--threads", threads, "--pick", "320", "300", "--save", f"{path}.ppm", "--list", f"{path}.json",
                RING,
            ],
        )
        must_be_the_programs(f"{path}.json", f"{path}.ppm")
    elif example == "cpp/canvas":
        must_be_silent(tool, [examples.build_cpp_canvas()])
    else:
        build_frames()
        text = places.bytes_of(EXAMPLES, "seam.json")
        found = must_be_silent(tool, [FRAMES, "--workers", threads, "--frames", "2"], text)
        must(found == drawn_by_program(text).output, "other bytes")


def cases() -> Iterator[Case]:
    yield case("examples/c: spin", check_spin)
    yield case("examples/c: what spin picks", check_picks)
    yield case("examples/c: spin in a window", check_window)
    yield case("examples/cpp: frames", check_frames)
    for example in ("c/frames", "c/spin", "cpp/canvas", "cpp/frames"):
        for tool in ("memcheck", "drd"):
            yield case(f"{tool} finds nothing in examples/{example} with threads", check_watched, tool, example)
