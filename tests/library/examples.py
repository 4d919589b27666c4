"""The examples in C, C++ and Python, each picture against the program's."""

from __future__ import annotations

import json
import os
import re
import subprocess
import sys

from tools import picture_file, places
from tests.reference import renderer
from tools.draw_list import DrawList, encode
from tests.library.commands import (
    OUT, PACKAGE_ENVIRONMENT, SHARED, WARNINGS, drawn_by_program, must_be_silent, must_be_the_programs, need,
    python_with, run,
)
from tests.cases import MAX_SECONDS, MissingError, must
from tests.library.lists import read_lists
from tests.documents.pages.examples import SCENE
from tools.places import EXAMPLES, INCLUDE, STATIC_LIBRARY

C_EXAMPLE = os.path.join(EXAMPLES, "c", "frames.c")
CPP_EXAMPLE = os.path.join(EXAMPLES, "cpp", "draw.cpp")
C_CANVAS_EXAMPLE = os.path.join(EXAMPLES, "c", "canvas.c")
CANVAS_EXAMPLE = os.path.join(EXAMPLES, "cpp", "canvas.cpp")
PYTHON_EXAMPLES = os.path.join(EXAMPLES, "python")
FRAMES = 6
# What coverage.py prints of a triangle: a line of its own, and one for each row of pixels.
COVERAGE_LINES = 9


def build_frames() -> str:
    """Builds the frame loop. Returns its path."""
    program = os.path.join(OUT, "frames")
    flags = ["-std=c99", "-O2", "-g", *WARNINGS, "-I", INCLUDE]
    run([need("gcc"), *flags, "-o", program, C_EXAMPLE, *SHARED, "-pthread", "-lm"])
    return program


def check_frames(threads: int) -> None:
    """Each frame of the frame loop has the bytes that the program writes for its list."""
    folder = os.path.join(OUT, f"frames-{threads}")
    os.makedirs(folder)
    program = build_frames()
    run([program, "--frames", str(FRAMES), "--threads", str(threads), folder])
    for frame in range(FRAMES):
        path = os.path.join(folder, f"frame-{frame}")
        must_be_the_programs(f"{path}.json", f"{path}.ppm")


def check_cpp() -> str:
    """The example in C++ answers each list as the program does: by output, error line and status."""
    program = os.path.join(OUT, "draw")
    flags = ["-std=c++11", "-O2", *WARNINGS, "-I", INCLUDE]
    run([need("g++"), *flags, "-o", program, CPP_EXAMPLE, STATIC_LIBRARY])
    lists = read_lists("all.txt")
    for text, _ in lists.drawn + lists.refused:
        done = subprocess.run([program], input=text, capture_output=True, timeout=MAX_SECONDS)
        wanted = drawn_by_program(text)
        must((done.returncode, done.stdout, done.stderr) == wanted, f"other bytes for {text[:200]!r}")
    return f"{len(lists.drawn)} lists drawn and {len(lists.refused)} refused"


# ---- Canvases


def check_c_canvas(tool: str = "") -> None:
    """canvas.c writes the program's picture of its triangle, if a tool is given under that tool of valgrind,
    which finds nothing."""
    program = os.path.join(OUT, "c_canvas")
    run(
        [
            need("gcc"), "-std=c99", "-O2", "-g", *WARNINGS, "-I", INCLUDE, "-o", program, C_CANVAS_EXAMPLE,
            STATIC_LIBRARY,
        ]
    )
    written = must_be_silent(tool, [program]) if tool else run([program])
    must(written == drawn_by_program(encode(SCENE)).output, "another picture")


def check_python_canvas() -> None:
    """canvas.py saves the program's picture of its triangle."""
    path = os.path.join(OUT, "python_canvas.ppm")
    run([sys.executable, os.path.join(PYTHON_EXAMPLES, "canvas.py"), path], env=PACKAGE_ENVIRONMENT)
    must(places.bytes_of(path) == drawn_by_program(encode(SCENE)).output, "another picture")


# What threads.c and glass.py draw.
BELOW_GLASS = [[50, 10, 0, 255, 0, 0, 255], [95, 190, 0, 0, 255, 0, 255], [5, 190, 0, 0, 0, 255, 255]]
PANE = [[10, 50, 0, 255, 255, 255, 153], [90, 70, 0, 255, 255, 255, 153], [45, 170, 0, 255, 255, 255, 51]]


def in_units(rows: list[list[int]]) -> list[list[int]]:
    """Vertices whose positions are in pixels with positions in 1/256 pixel."""
    return [[256 * row[0], 256 * row[1], *row[2:]] for row in rows]


def glass_file() -> bytes:
    """The PAM file of both triangles on a canvas with alpha and 16 samples, by the reference renderer."""
    draws = [
        {"vertices": in_units(rows), "triangles": [[0, 1, 2]], "blend": blend}
        for rows, blend in ((BELOW_GLASS, "none"), (PANE, "over"))
    ]
    scene = renderer.read(
        encode({"width": 100, "height": 200, "samples": 16, "clear_alpha": 0, "draws": draws}), renderer.CANVAS
    )
    header = b"P7\nWIDTH 100\nHEIGHT 200\nDEPTH 4\nMAXVAL 255\nTUPLTYPE RGB_ALPHA\nENDHDR\n"
    return header + renderer.pixels(renderer.drawn(scene), scene.samples, "rgba_straight")


def check_c_threads() -> None:
    """threads.c writes the picture that the reference renderer makes of both triangles."""
    program = os.path.join(OUT, "threads")
    source = os.path.join(EXAMPLES, "c", "threads.c")
    run([need("gcc"), "-std=c99", *WARNINGS, "-I", INCLUDE, "-pthread", "-o", program, source, STATIC_LIBRARY])
    must(run([program]) == glass_file(), "another picture")


def check_glass() -> None:
    """glass.py saves the same picture, as netpbm reads it."""
    path = os.path.join(OUT, "glass.png")
    run([python_with("numpy"), os.path.join(PYTHON_EXAMPLES, "glass.py"), path], env=PACKAGE_ENVIRONMENT)
    must(run([need("pngtopam"), "-alphapam", path]) == glass_file(), "another picture")


# What canvas.cpp draws.
SOLID = [[160, 10, 1000, 255, 0, 0, 255], [310, 200, 30000, 0, 255, 0, 255], [10, 230, 60000, 0, 0, 255, 255]]
GLASS = [[0, 40, 20000, 255, 255, 255, 200], [320, 100, 20000, 255, 255, 0, 90], [40, 200, 20000, 0, 255, 255, 30]]


def build_cpp_canvas() -> str:
    """Builds the example of a canvas in C++. Returns its path."""
    program = os.path.join(OUT, "canvas")
    flags = ["-std=c++17", "-O2", "-g", *WARNINGS, "-I", INCLUDE, "-pthread"]
    run([need("g++"), *flags, "-o", program, CANVAS_EXAMPLE, STATIC_LIBRARY])
    return program


def check_cpp_canvas() -> None:
    """The example of a canvas in C++ writes the program's picture of its triangles."""
    program = build_cpp_canvas()
    states: list[DrawList] = [{"depth_write": True}, {"blend": "over"}]
    draws = [
        {"vertices": in_units(rows), "triangles": [[0, 1, 2]], "depth_test": "less", **state}
        for rows, state in zip((SOLID, GLASS), states)
    ]
    scene: DrawList = {"width": 320, "height": 240, "samples": 4, "clear": [24, 24, 32], "draws": draws}
    must(run([program]) == drawn_by_program(encode(scene)).output, "other bytes")


# ---- coverage.py


def covered(scene: DrawList) -> list[str]:
    """The masks of covered samples by the reference renderer, as coverage.py prints them."""
    read = renderer.read(encode(scene))
    pixels = picture_file.decode(renderer.render(read)).pixels()
    rows = [pixels[row * read.width : (row + 1) * read.width] for row in range(read.height)]
    return [" ".join(f"{pixel[0]:x}" if pixel[0] else "." for pixel in row) for row in rows]


def check_coverage() -> str:
    """coverage.py prints what the reference computes, and its pictures are the program's."""
    folder = os.path.join(OUT, "coverage")
    command = [sys.executable, os.path.join(PYTHON_EXAMPLES, "coverage.py"), "--keep", folder]
    lines = [line.strip() for line in run(command, env=PACKAGE_ENVIRONMENT).decode().splitlines()]
    count = len(places.files(folder, "*.json"))
    must(count > 3 and len(lines) == COVERAGE_LINES * count, f"{count} triangles and {len(lines)} lines")
    for number in range(count):
        path = os.path.join(folder, f"triangle-{number}")
        must_be_the_programs(f"{path}.json", f"{path}.ppm")
        wanted = covered(json.loads(places.text_of(f"{path}.json")))
        first = COVERAGE_LINES * number
        must(lines[first + 1 : first + COVERAGE_LINES] == wanted, f"triangle {number} is covered otherwise")
    return f"{count} triangles"


# ---- obj_viewer.py


def view(model: str, *more: str) -> subprocess.CompletedProcess[bytes]:
    """Runs the viewer, which leaves model.ppm and model.json in out/check-library."""
    command = [sys.executable, os.path.join(PYTHON_EXAMPLES, "obj_viewer.py"), model, os.path.join(OUT, "model.ppm")]
    command += ["--list", os.path.join(OUT, "model.json"), *more]
    return subprocess.run(command, env=PACKAGE_ENVIRONMENT, capture_output=True, timeout=MAX_SECONDS)


def check_view(model: str, *more: str) -> str:
    """The viewer draws a model, and its picture is the program's. Returns the line that the viewer prints."""
    done = view(model, *more)
    must(done.returncode == 0, done.stderr.decode())
    must_be_the_programs(os.path.join(OUT, "model.json"), os.path.join(OUT, "model.ppm"))
    return done.stdout.decode().strip()


def check_viewer() -> str:
    """ring.obj is what make_ring.py writes, and the viewer draws it."""
    ring = os.path.join(PYTHON_EXAMPLES, "ring.obj")
    written = run([sys.executable, os.path.join(PYTHON_EXAMPLES, "make_ring.py")])
    must(places.bytes_of(ring) == written, "ring.obj is not what make_ring.py writes")
    check_view(ring)
    return check_view(ring, "--turn", "200", "--tilt", "-60", "--size", "317", "211", "--threads", "3")


def check_viewer_refuses() -> None:
    """The viewer refuses models that a list cannot hold, and files that are no models, by a line that says why."""
    points = "v 0 0 0\nv 1 0 0\nv 0 1 0\n"
    apart = "".join(f"v {k} 0 0\nv {k} 1 0\nv {k} 0 1\nf -1 -2 -3\n" for k in range(21846))
    path = os.path.join(OUT, "refused.obj")
    for text, wanted in (
        (points + "f 1 2 3\n" * 65537, "the model has 65537 triangles, and a draw list holds at most 65536"),
        (apart, "the model has 65538 vertices, and a draw holds at most 65536"),
        (points + "f 1 2 4\n", "line 4: there is no point 4"),
        (points, "the model has no faces"),
        ("v 0 0\n", "line 1: a point has three numbers"),
        (points + "f 1 2\n", "line 4: a face has three corners or more"),
    ):
        write(path, text)
        done = view(path)
        message = done.stderr.decode()
        must(done.returncode == 1 and message == f"{path}: {wanted}\n", f"{wanted}: {message}")
    write(path, points + "f 1 2 3\n" * 65536)
    check_view(path)


def check_edges() -> str:
    """edges.py draws two colours on a third with one sample, and with n of them at most n - 1 steps from each colour to
    the third. Above each picture stands a label."""
    path = os.path.join(OUT, "edges.ppm")
    run([sys.executable, os.path.join(PYTHON_EXAMPLES, "edges.py"), path], env=PACKAGE_ENVIRONMENT)
    picture = picture_file.decode(places.bytes_of(path))
    pixels, parts, part, label = list(picture.pixels()), (1, 4, 16), 300, 25
    must((picture.width, picture.height) == (920, label + part), f"{picture.width} by {picture.height} pixels")
    found = []
    for k, samples in enumerate(parts):
        left = k * (part + 10)
        seen = {
            pixels[row * picture.width + column]
            for row in range(label, label + part)
            for column in range(left, left + part)
        }
        must(samples < len(seen) <= 3 + 2 * (samples - 1), f"{len(seen)} colours with {samples} samples")
        found.append(f"{len(seen)} colours with {samples}")
    return ", ".join(found)


# ---- Programs over numpy


def printed_by(python: str, name: str, *arguments: str) -> str:
    """Runs an example in Python, and returns what it prints."""
    return run([python, os.path.join(PYTHON_EXAMPLES, name), *arguments], env=PACKAGE_ENVIRONMENT).decode().strip()


def check_gouraud() -> str:
    """gouraud.py finds no pixel of a seam in the meshes of trirast.matplotlib, and many in Agg's."""
    return seams_of_plots("gouraud", 4, 0.5)


def check_plots() -> str:
    """plots.py does so in filled plots."""
    return seams_of_plots("plots", 8, 0.02)


def seams_of_plots(program: str, count: int, share: float) -> str:
    """A program names this number of plots, without a seam by trirast.matplotlib, and by Agg with more than this
    share of their pixels."""
    path = os.path.join(OUT, f"{program}.png")
    text = printed_by(python_with("numpy", "matplotlib"), f"{program}.py", path)
    found = re.findall(r"^(Agg|trirast): (.*): (\d+) of (\d+) pixels", text, re.MULTILINE)
    must(len(found) == count and os.path.getsize(path) > 0, text)
    for name, plot, seams, pixels in found:
        must(
            int(seams) == 0 if name == "trirast" else int(seams) > share * int(pixels),
            f"{name}, {plot}: {seams} of {pixels} pixels",
        )
    return "; ".join(f"{name}, {plot}: {seams}" for name, plot, seams, _pixels in found)


def check_textured() -> str:
    """The positions that textured.py interpolates lie at their points, and its picture does not depend on the
    number of threads."""
    python, pictures = python_with("numpy"), []
    for threads in ("1", "3"):
        path = os.path.join(OUT, f"textured-{threads}.ppm")
        text = printed_by(python, "textured.py", path, "--size", "150", "130", "--threads", threads)
        pictures.append(places.bytes_of(path))
    (off,) = (float(number) for number in re.findall(r"\d+\.\d+", text))
    # A vertex lies up to 1/512 pixel off in each direction, since positions on the screen are rounded.
    must(off < 1 / 64, text)
    must(
        pictures[0] == pictures[1] and len(pictures[0]) == len(b"P6\n450 130\n255\n") + 450 * 130 * 3, "another picture"
    )
    return text.splitlines()[-1]


COASTLINES = "/usr/share/gmt-gshhg/binned_GSHHS_i.nc"
# Two countries with a crooked border, and the borders of the map.
BORDER = [[3, 40], [5.3, 43], [2.1, 46.7], [4, 50]]
COUNTRIES = [[[-5, 40], *BORDER, [-5, 50]], [[12, 50], [12, 40], *BORDER]]


def check_seams() -> str:
    """seams.py finds no seam with 1, 4 and 16 samples, and cairo's along all coasts."""
    python = python_with("numpy", "cairo", "netCDF4")
    if not os.path.isfile(COASTLINES):
        raise MissingError("gmt-gshhg-low")
    path = os.path.join(OUT, "seams.png")
    text = printed_by(python, "seams.py", path)
    (cairo, *ours) = [int(count.replace(",", "")) for count in re.findall(r": ([\d,]+) of", text)]
    must(ours == [0, 0, 0] and cairo > 1000 and os.path.getsize(path) > 0, text)
    return f"cairo: {cairo}"


def check_choropleth() -> str:
    """choropleth.py finds each sample of a map of two countries in exactly one of them, and draws each
    in its colour."""
    python, path = python_with("numpy"), os.path.join(OUT, "choropleth.ppm")
    features = [
        {"type": "Feature", "properties": {"people": people}, "geometry": {"type": "Polygon", "coordinates": [ring]}}
        for people, ring in zip((1, 9), COUNTRIES)
    ]
    style = {
        "window": [-5, 40, 12, 50], "width": 340, "property": "people", "steps": [[0, "#ff0000"], [5, "#0000ff"]],
        "opacity": 0.5,
    }
    names = [os.path.join(OUT, name) for name in ("countries.geojson", "style.json")]
    for name, value in zip(names, ({"type": "FeatureCollection", "features": features}, style)):
        write(name, json.dumps(value))
    text = printed_by(python, "choropleth.py", path, "--map", names[0], "--style", names[1])
    must(
        "2 polygons have 272,000 samples, and 0 have no polygon: together 272,000 of 272,000" in text
        and "272,000 in one, 0 in several" in text,
        text,
    )
    pixels = picture_file.decode(places.bytes_of(path)).pixels()
    must((pixels[0], pixels[-1]) == (bytes((255, 127, 127)), bytes((127, 127, 255))), text)
    return text.splitlines()[-1]


def write(path: str, text: str) -> None:
    with open(path, "w", encoding="ascii") as file:
        file.write(text)
